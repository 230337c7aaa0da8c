/* Spoonwing for C hosts, in five parts:
 *
 *   tables                     lists, colours, strings and fonts as they are lent, with one bit a
 *                              glyph pixel or with two
 *   a frame without a state    spoonwing_frame: register image in, frame out
 *   mending a register image   spoonwing_mend: an image that is refused in, one that passes out,
 *                              with a list of what was changed
 *   keeping a display          spoonwing_display_...: make it, write registers, load tables, start
 *                              frames, paint, read
 *   storing a state            the 440 bytes that a kept display is
 *
 * Link with libspoonwing.a (`tools/install PREFIX` puts it, this header and a file for pkg-config
 * in place). It is code for the processor that libspoonwing.txt beside it names, and needs nothing
 * else but memcpy and memset of the C library.
 *
 * What holds for every call
 *   Buffers   Each pointer is followed by its length in bytes and must point to that many; but the
 *             length of `floats` counts numbers, each a float of 32 bits, and they are aligned as a
 *             float is. No other buffer has to be aligned. Where a length is 0 nothing is read or
 *             written through its pointer, which may be NULL. Only three have no length; they are
 *             aligned and never NULL: `done` of a run and `count`, a size_t each, and `list`, 156
 *             uint32_t.
 *   Overlap   A buffer that a call may write must not overlap any other of that call. Those that
 *             it only reads (const) may overlap each other.
 *   Threads   Nothing is kept but what the buffers hold. Calls on several threads are safe while
 *             none writes a buffer that another one uses.
 *   Answers   0, or the number of the first refusal; `spoonwing_refusal` has a text for each. */
#ifndef SPOONWING_H
#define SPOONWING_H

#include <stddef.h>
#include <stdint.h>

#ifdef __cplusplus
extern "C" {
#endif

/* The lengths that are fixed, in bytes. */
#define SPOONWING_IMAGE_LENGTH 208u
#define SPOONWING_TABLES_LENGTH 29696u      /* with one bit a glyph pixel */
#define SPOONWING_SOFT_TABLES_LENGTH 41984u /* with two */
#define SPOONWING_STATE_LEN 440u

/* The length of a list of changes, in numbers: three for each of 52 words. */
#define SPOONWING_CHANGES_LENGTH 156u

/* ---- answers
 *
 * Which call answers which, refusals in the order in which they are asked:
 *
 *   spoonwing_frame     16, 7, 8, 9 and 10, 11, 13, 6, 14
 *   spoonwing_mend      16, 8
 *   display_new         23, 17
 *   display_write       23, 1
 *   display_write_run   23, 1
 *   display_select      23, 2
 *   display_toggle      23
 *   display_start       23, and with the update bit set 7, 8, 9 and 10, 11
 *   display_put         23, 6, 3, 4, 5
 *   display_put_run     23, 6, 3, 4, 5
 *   display_fill        23, 12, 13
 *   display_paint       23, 15, 12, 13, 6, 14, 18
 *   display_frame       23, 12, 13, 6, 14, 18
 *   display_line        23, 12, 15, 13, 6, 14, 18
 *
 * 9 and 10 are asked of each enabled layer in turn, from layer 0 to layer 7, before 11. Disabled
 * layers are looked at for 7 only. 15 has two names, one for a band and one for a line. */
enum spoonwing_answer {
    SPOONWING_DONE = 0,                  /* done */
    SPOONWING_NO_REGISTER = 1,           /* the register is above 51 */
    SPOONWING_NO_SELECTION = 2,          /* the selection is above 63 */
    SPOONWING_NOT_SELECTED = 3,          /* nothing is selected */
    SPOONWING_BANK_ACTIVE = 4,           /* the selected bank is an active one */
    SPOONWING_BANK_FULL = 5,             /* the selected table is full */
    SPOONWING_BAD_TABLES_LENGTH = 6,     /* the tables are not 29,696 bytes, for two bits 41,984 */
    SPOONWING_RESERVED_BIT = 7,          /* a reserved bit is set, or bits 1 and 2 of a layer */
    SPOONWING_EMPTY_SCREEN = 8,          /* the output has no width or no height */
    SPOONWING_EMPTY_LAYER = 9,           /* an enabled layer has no width or no height */
    SPOONWING_OFF_SCREEN = 10,           /* an enabled layer does not lie on the screen */
    SPOONWING_SAME_DEPTH = 11,           /* two enabled layers have one depth */
    SPOONWING_NO_SIZE = 12,              /* no start has given the screen a size yet */
    SPOONWING_BAD_OUTPUT_LENGTH = 13,    /* not 4 * width * height bytes, of a line 4 * width */
    SPOONWING_BAD_PICTURES_LENGTH = 14,  /* the pictures have the wrong total length */
    SPOONWING_NO_BAND = 15,              /* the low end is above the high one, or that above 8 */
    SPOONWING_NO_LINE = 15,              /* the line is at or past the height */
    SPOONWING_BAD_IMAGE_LENGTH = 16,     /* the register image is not 208 bytes */
    SPOONWING_BAD_GLYPH_BITS = 17,       /* a glyph pixel has neither 1 nor 2 bits */
    SPOONWING_BAD_FLOATS_LENGTH = 18,    /* the floats have the wrong total length */
    SPOONWING_BAD_STATE_LENGTH = 23      /* the state is not 440 bytes */
};

/* What is wrong and what to do, for an answer; a number that no call answers has a text too. */
static inline const char *spoonwing_refusal(uint32_t answer)
{
    switch (answer) {
    case SPOONWING_DONE: return "done: nothing is wrong";
    case SPOONWING_NO_REGISTER: return "no such register: write to one of 0 to 51";
    case SPOONWING_NO_SELECTION: return "no such table: select one of 0 to 63";
    case SPOONWING_NOT_SELECTED: return "no table is selected: select one before the first put";
    case SPOONWING_BANK_ACTIVE: return "the bank is being shown: load the other one, then start";
    case SPOONWING_BANK_FULL: return "the table is full: put no more, or select it anew";
    case SPOONWING_BAD_TABLES_LENGTH: return "wrong tables: lend 29,696 bytes, for two bits 41,984";
    case SPOONWING_RESERVED_BIT:
        return "a reserved bit is set: clear all bits without a meaning, or mend the image; bit 2 "
               "of a layer has none beside bit 1, and none for spoonwing_frame";
    case SPOONWING_EMPTY_SCREEN: return "the screen is empty: give register 1 a width and a height";
    case SPOONWING_EMPTY_LAYER:
        return "a layer is empty: give it a size, disable it, or mend the image";
    case SPOONWING_OFF_SCREEN:
        return "a layer leaves the screen: move it, shrink it, disable it, or mend the image";
    case SPOONWING_SAME_DEPTH:
        return "two layers have one depth: give each its own, or mend the image";
    case SPOONWING_NO_SIZE: return "the screen has no size yet: start with the update bit set";
    case SPOONWING_BAD_OUTPUT_LENGTH:
        return "wrong output: lend 4 * width * height bytes, for a line 4 * width";
    case SPOONWING_BAD_PICTURES_LENGTH:
        return "wrong pictures: lend all enabled frame layers' but no float layer's";
    case SPOONWING_NO_BAND: /* and SPOONWING_NO_LINE */
        return "no such band or line: paint with low <= high <= 8, or a line below the height";
    case SPOONWING_BAD_IMAGE_LENGTH: return "wrong register image: lend 208 bytes";
    case SPOONWING_BAD_GLYPH_BITS: return "wrong bits a glyph pixel: make the state with 1 or 2";
    case SPOONWING_BAD_FLOATS_LENGTH:
        return "wrong floats: lend all enabled float layers' and count numbers, four a pixel";
    case SPOONWING_BAD_STATE_LENGTH: return "wrong state: lend 440 bytes";
    default: return "unknown: no call answers this number";
    }
}

/* ---- tables
 *
 * A table buffer has a controller for each layer, and a controller has two banks of four
 * tables. How many bits a glyph pixel has, one or two, is chosen for the whole buffer:
 *
 *                       one bit    two bits
 *   the buffer           29,696      41,984   bytes
 *   controller g at     3,712 g     5,248 g
 *   its bank b at      +1,856 b    +2,624 b   and in the bank
 *     instructions at         0           0   48 of 16 bytes
 *     colours at            768         768   16 of 4 bytes: channel 0, 1, 2, alpha
 *     strings at            832         832   8 of 32 bytes
 *     the font at         1,088       1,088   96 glyphs, the first that of character 32
 *       a glyph               8          16   bytes, 8 lines
 *       a line                1           2   bytes, 8 pixels, the leftmost in the first's top bits
 *
 * With one bit a 1 gives the text colour and a 0 leaves the pixel. With two a pixel's value is 0 to
 * 3. 0 leaves the pixel; in text of colour c the values 1, 2 and 3 give the colours c, c + 1 and
 * c + 2, modulo 16, so a palette has three shades of an ink there, the full one last. A line with
 * the values
 *
 *    0  1  3  3  2  0  0  0    is the bits
 *   00 01 11 11 10 00 00 00    and the bytes 1F 80.
 *
 * examples/tables.h has these numbers by name, examples/soft_font.h is a font of two bits, and
 * examples/letters.c shows a caption in it beside the same one in a font of one bit. */

/* ---- a frame without a state */

/* Paints a whole frame: the background, and over it the enabled layers in rising depth.
 *
 * image     208 bytes: 52 register words, each little-endian. It counts as active once it passes
 *           the check of a start, whether its update bit is set or not. With the display bit clear
 *           the frame is background. Float pictures are for kept displays: bit 2 of a layer's first
 *           word is refused with 7 here, in disabled layers too.
 * frame     the frame number that fades go by, used as given.
 * tables    29,696 bytes, or 41,984: the length says how many bits a glyph pixel has.
 * pictures  the pictures of the enabled frame layers in rising layer number, each
 *           4 * width * height bytes in raster order, without gaps.
 * output    4 * width * height bytes, a pixel being channel 0, 1, 2, alpha. What it held does not
 *           count. The alpha bytes become 255.
 *
 * A refusal leaves every byte of the output as it was. Error bits of lists without END are
 * dropped. */
uint32_t spoonwing_frame(const uint8_t *image, size_t image_length,
                         uint32_t frame,
                         const uint8_t *tables, size_t tables_length,
                         const uint8_t *pictures, size_t pictures_length,
                         uint8_t *output, size_t output_length);

/* ---- mending a register image */

/* Makes of an image that is refused one that passes every check of a start (7 to 11), and lists
 * what it changed. An image that passes comes back as it was with nothing listed, and so does a
 * mended one.
 *
 * image     208 bytes: 52 register words, each little-endian. It is mended in place.
 * list      156 numbers. For each word that is not as it came: register, old value, new value, in
 *           register order from the first number on. What stands past 3 * count is unchanged.
 * count     becomes the number of changed words, at most 52; with a refusal it becomes 0.
 *
 * In this order, each step on what the one before it left:
 *
 *   1  reserved bits are cleared, and bit 2 of a layer whose bit 1 is set too;
 *   2  enabled layers of no width or no height are switched off: bit 0 goes, all else is kept;
 *   3  so are enabled frame layers wider or higher than the screen, those with float pictures too,
 *      since a picture is not cut;
 *   4  along each axis an enabled layer larger than the screen is put at 0 and cut to the screen,
 *      and one that sticks out is moved to the left or up, just far enough;
 *   5  in layer order, an enabled layer whose depth a lower-numbered enabled layer holds gets the
 *      smallest depth that no enabled layer had when this step began and that was not given.
 *
 * A screen of no width or no height has no repair: 8. A refusal leaves image and list as they were.
 *
 * What a designer wants to know is in the list:
 *
 *     for (const uint32_t *at = list; at < list + 3 * count; at += 3)
 *         printf("register %u had %08X and has %08X\n", at[0], at[1], at[2]);
 *
 * Each old value put back in its register gives the image as it came. Pictures go by the mended
 * image: that of a layer which was switched off is lent no more. A float layer stays one, which
 * spoonwing_frame goes on to refuse. The first 208 bytes of a state are its pending registers, so
 * they can be mended where they stand when a start has refused them. */
uint32_t spoonwing_mend(uint8_t *image, size_t image_length, uint32_t *list, size_t *count);

/* ---- keeping a display
 *
 * A display is a state of 440 bytes that the host owns and lends to each call, beside its tables. A
 * state is made for one bit a glyph pixel or for two, and takes tables of that length alone.
 * examples/caption.c is a host that keeps one display, examples/letters.c keeps two,
 * examples/hall.c has no buffer for the frame and paints it line by line, and examples/flow.c lends
 * a river of floats, another one for each frame.
 *
 * Registers are written at any time and wait as pending ones; a start whose pending update bit is
 * set makes them the active ones, all at once, and painting goes by those. Tables have two banks of
 * each kind. Painting reads the active ones and puts go to the others; register 3 says which are
 * active, so a start also turns banks over.
 *
 * The picture of a frame layer, which is a layer without a list, comes as bytes or, as a shader
 * leaves it, as floats. Each call that paints layers is lent two buffers:
 *
 *   pictures  those of the enabled frame layers without bit 2 in their first word, each
 *             4 * width * height bytes in raster order.
 *   floats    those of the enabled float layers, the frame layers with bit 2, each
 *             4 * width * height numbers in raster order: of a pixel red, green, blue and alpha,
 *             which are channel 0, 1, 2 and alpha.
 *
 * In either buffer they stand in rising layer number, without gaps, and all of them, whatever their
 * alphas and also while the display is off. A number is painted as the byte that it becomes:
 *
 *   not a number, or at most 0    0
 *   at least 1                    255
 *   any other                     the whole number nearest to 255 times its exact value, halves
 *                                 upward: 0.5 becomes 128
 *
 * A state of another length than 440 answers 23, and everything is unchanged. Other refusals leave
 * every buffer and every part of the state as it was, but for these: a refused start has stepped
 * the frame number, a put to a full table has set an error bit, and a state that is made with a
 * wrong number of bits is a fresh one of one bit.
 *
 * A run is the single call made with each item in order. It stops after the first refusal, with
 * that one's effects; what the items before it did stays. `done` becomes how many those are: the
 * place of the refused item, or the number of all where none is refused; with 23 it becomes 0. An
 * empty run answers 0 and changes nothing, even with tables of a wrong length. */

/* Makes the state a fresh one, whatever it held: all registers and numbers 0, nothing selected.
 *
 * bits    how many bits a glyph pixel has, 1 or 2, for as long as the state is kept. Any other
 *         number is refused with 17, and the state is a fresh one of one bit.
 *
 * 440 zero bytes are a fresh state of one bit too. */
uint32_t spoonwing_display_new(uint8_t *state, size_t state_length, uint32_t bits);

/* Writes a pending register, all 32 bits. What is wrong in a value is told by the start.
 *
 *   0       bit 0 display on, bit 2 update enable, which stays until it is written
 *   1       output width 11:0, height 27:16
 *   2       background: channel 0 7:0, channel 1 15:8, channel 2 23:16
 *   3       active banks, a bit for each controller: instructions 7:0, colours 15:8, strings 23:16,
 *           font 31:24
 *   4 + 6n  layer n: bit 0 enabled, bit 1 graphics, bit 2 float picture, depth 10:8; bits 1 and 2
 *           together are refused with 7, in disabled layers too
 *   5 + 6n  bit 31 global alpha, its value 7:0
 *   6 + 6n  x 11:0, y 27:16
 *   7 + 6n  width 11:0, height 27:16
 *   8 + 6n  the frame at which the fade starts
 *   9 + 6n  fade length 15:0, fade target 23:16 */
uint32_t spoonwing_display_write(uint8_t *state, size_t state_length,
                                 uint32_t register_number, uint32_t value);

/* Writes a run of registers. An item is five bytes, the register and then the value, its lowest
 * byte first: 01 80 02 68 01 writes 640 by 360 to register 1. Fewer than five left at the end are
 * no item and are never looked at. */
uint32_t spoonwing_display_write_run(uint8_t *state, size_t state_length,
                                     const uint8_t *run, size_t run_length, size_t *done);

/* Selects the table for the next puts, and its first byte as their place: bits 5:3 controller,
 * which is the layer's number, bits 2:1 kind (0 instructions, 1 colours, 2 strings, 3 font), bit 0
 * bank. */
uint32_t spoonwing_display_select(uint8_t *state, size_t state_length, uint32_t selection);

/* Stores one byte at the place in the selected table, and moves the place by one. Refused with 4
 * while the active register 3 names the selected bank. With 5, at the table's end, error bit
 * 4 * controller + 1 is set and the place stays; all other refusals leave all unchanged. */
uint32_t spoonwing_display_put(uint8_t *state, size_t state_length,
                               uint8_t *tables, size_t tables_length, uint8_t byte);

/* Puts a run of bytes, each an item, from the place on: 768 are a font of one bit, 1,536 are one of
 * two. With 5 those before the table's end are stored, and the error bit is set. */
uint32_t spoonwing_display_put_run(uint8_t *state, size_t state_length,
                                   uint8_t *tables, size_t tables_length,
                                   const uint8_t *run, size_t run_length, size_t *done);

/* Starts a frame: the frame number goes up by one, past 2^32 - 1 to 0. If the pending update bit is
 * set, the pending registers are checked, and become the active ones if they pass. Where they do
 * not, the active ones stay and painting goes on by them. */
uint32_t spoonwing_display_start(uint8_t *state, size_t state_length);

/* Writes the background to every pixel, and 255 to its alpha; whether the display is on or not. */
uint32_t spoonwing_display_fill(uint8_t *state, size_t state_length,
                                uint8_t *output, size_t output_length);

/* Blends the enabled layers whose depth is at least `low` and below `high`, in rising depth, over
 * what the output holds; its alpha bytes stay. Tables are of the length that the state's bits ask
 * for. Pictures and floats are those of all enabled layers, whatever the band. A graphics layer n
 * of the band whose list has no END sets error bit 4n. With the display off a band changes
 * nothing. */
uint32_t spoonwing_display_paint(uint8_t *state, size_t state_length,
                                 uint32_t low, uint32_t high,
                                 const uint8_t *tables, size_t tables_length,
                                 const uint8_t *pictures, size_t pictures_length,
                                 const float *floats, size_t floats_length,
                                 uint8_t *output, size_t output_length);

/* A fill and the band from 0 to 8, or nothing of either where it is refused. */
uint32_t spoonwing_display_frame(uint8_t *state, size_t state_length,
                                 const uint8_t *tables, size_t tables_length,
                                 const uint8_t *pictures, size_t pictures_length,
                                 const float *floats, size_t floats_length,
                                 uint8_t *output, size_t output_length);

/* Paints one line of the whole frame, for a host that has no room for all of it.
 *
 * y         the line, 0 being the uppermost. At or past the height it is refused with 15.
 * tables    and likewise pictures and floats: those of the whole frame, whichever line it is.
 * output    4 * width bytes, the line alone. What it held does not count. The alpha bytes become
 *           255.
 *
 * The bytes are those that the frame has there, and the error bits are those that the frame sets,
 * also of layers that the line does not meet. So all lines, in any order and each at least once,
 * with no other call between, are the frame and leave the state that it leaves. With the display
 * off a line is background and sets no bit. No memory is taken but stack, less than 32 KiB. */
uint32_t spoonwing_display_line(uint8_t *state, size_t state_length, uint32_t y,
                                const uint8_t *tables, size_t tables_length,
                                const uint8_t *pictures, size_t pictures_length,
                                const float *floats, size_t floats_length,
                                uint8_t *output, size_t output_length);

/* Turns the error word's bits over where `bits` has a 1: a set one is cleared and a clear one is
 * set, so the word itself as `bits` clears it. */
uint32_t spoonwing_display_toggle(uint8_t *state, size_t state_length, uint32_t bits);

/* Reads. In the error word bit 4n says that a frame, a line or a band was painted with a list of
 * layer n without END, and bit 4g + 1 that a table of controller g was full at a put; bits stay
 * until they are toggled. The size is that of the active registers, and 0 before the first start
 * that passes. Of a state that is not 440 bytes each read gives 0. */
uint32_t spoonwing_display_error_word(const uint8_t *state, size_t state_length);
uint32_t spoonwing_display_frame_number(const uint8_t *state, size_t state_length);
uint32_t spoonwing_display_output_width(const uint8_t *state, size_t state_length);
uint32_t spoonwing_display_output_height(const uint8_t *state, size_t state_length);

/* ---- storing a state
 *
 * The bytes are all that a state is: they may be copied, compared, kept in a file and lent again on
 * another machine. They are 110 little-endian words of 32 bits:
 *
 *     0   pending registers 0 to 51
 *   208   active registers 0 to 51
 *   416   frame number
 *   420   error word
 *   424   0 where nothing is selected; else something is
 *   428   selection
 *   432   place
 *   436   bit 0 set: two bits a glyph pixel, clear: one
 *         bit 1 set: float layers are not let in, a start answers 7 for them, clear: they are;
 *         spoonwing_display_new clears it. The other bits count for nothing
 *
 * Any 440 bytes stand for some state, and every call is safe on them, also where no call would have
 * made them: a layer is painted where it lies on the screen, of layers of one depth the one of
 * greater number lies on top, and a layer with bits 1 and 2 is a graphics layer and has no picture
 * in either buffer. A call writes 0 or 1 at 424 and 0 to 3 at 436, also when it is refused or its
 * run is empty. */

#ifdef __cplusplus
}
#endif

#endif
