/* The fields of the register words, for plain C: document 01's "Registers", and K7. */
#ifndef PLAIN_WORDS_H
#define PLAIN_WORDS_H

#include "registers.h"

enum { LAYERS = 8, FIRST_LAYER = 4, LAYER_WORDS = 6 };

/* The bits that have a meaning, of the registers before the layers' and of a layer's. All others
 * are reserved. */
static const uint32_t FIRST_BITS[FIRST_LAYER] = {5, 0x0FFF0FFF, 0x00FFFFFF, 0xFFFFFFFF};
static const uint32_t LAYER_BITS[LAYER_WORDS] = {0x707,      0x800000FF, 0x0FFF0FFF,
                                                 0x0FFF0FFF, 0xFFFFFFFF, 0x00FFFFFF};

/* The register that a layer's words begin with. */
static inline int layer_at(int n) { return FIRST_LAYER + LAYER_WORDS * n; }

/* A width or an x; a height or a y. */
static inline uint32_t low_half(uint32_t word) { return word & 4095; }
static inline uint32_t high_half(uint32_t word) { return word >> 16 & 4095; }

/* Of a layer's words. */
static inline int is_enabled(const uint32_t *layer) { return layer[0] & 1; }
static inline int is_graphics(const uint32_t *layer) { return layer[0] >> 1 & 1; }
static inline int is_float(const uint32_t *layer) { return (layer[0] & 6) == 4; }
static inline uint32_t depth_of(const uint32_t *layer) { return layer[0] >> 8 & 7; }

/* Bits 1 and 2 together, which no start lets in. */
static inline int is_both(const uint32_t *layer) { return (layer[0] & 6) == 6; }

static inline int is_empty(uint32_t size) { return low_half(size) == 0 || high_half(size) == 0; }

#endif
