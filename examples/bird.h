/* The spoonbill and the reeds as curves, in the order in which they are drawn. */
#ifndef BIRD_H
#define BIRD_H

#include "pictures.h"

/* A curve from the first point to the last, drawn towards the middle one, as thick as the three
 * radii say. All numbers are quarters of a pixel, from the picture's upper left corner. */
struct stroke {
    int x[3], y[3], radius[3], ink;
};

/* The row of pixels where the legs enter the water, and the column where the reeds begin. */
enum { FEET = 222, REEDS = 192 };

enum { NONE, WHITE, SHADE, BREAST, DARK, TIP, EYE, FAR, RING, LEAF, STALK, HEAD, INKS };

static const uint8_t INK[INKS][PIXEL] = {
    [WHITE] = {250, 246, 236, 255}, [SHADE] = {190, 202, 212, 255}, [BREAST] = {250, 236, 208, 255},
    [DARK] = {34, 38, 48, 255},     [TIP] = {240, 180, 72, 255},    [EYE] = {150, 30, 36, 255},
    [FAR] = {40, 44, 62, 200},      [RING] = {190, 228, 222, 120},  [LEAF] = {10, 42, 48, 255},
    [STALK] = {22, 66, 62, 255},    [HEAD] = {92, 56, 42, 255},
};

static const struct stroke STROKES[] = {
    /* birds far away, a stroke a wing */
    {{700, 724, 744}, {92, 76, 104}, {2, 5, 2}, FAR},
    {{744, 756, 788}, {104, 80, 88}, {2, 5, 2}, FAR},
    {{800, 822, 838}, {54, 36, 62}, {2, 5, 2}, FAR},
    {{838, 852, 880}, {62, 40, 52}, {2, 5, 2}, FAR},
    {{868, 884, 898}, {122, 108, 130}, {2, 4, 2}, FAR},
    {{898, 910, 934}, {130, 112, 120}, {2, 4, 2}, FAR},
    /* two rings on the water around the legs, a stroke a quarter */
    {{332, 332, 432}, {890, 866, 866}, {2, 2, 2}, RING},
    {{332, 332, 432}, {890, 914, 914}, {2, 3, 4}, RING},
    {{532, 532, 432}, {890, 866, 866}, {2, 2, 2}, RING},
    {{532, 532, 432}, {890, 914, 914}, {2, 3, 4}, RING},
    {{224, 224, 432}, {892, 842, 842}, {2, 2, 1}, RING},
    {{224, 224, 432}, {892, 942, 942}, {2, 3, 4}, RING},
    {{640, 640, 432}, {892, 842, 842}, {2, 2, 1}, RING},
    {{640, 640, 432}, {892, 942, 942}, {2, 3, 4}, RING},
    /* legs, the far one first, each to the knee and on */
    {{456, 462, 478}, {560, 640, 712}, {9, 6, 7}, DARK},
    {{478, 458, 462}, {712, 800, 892}, {7, 5, 5}, DARK},
    {{400, 398, 420}, {560, 640, 716}, {10, 7, 8}, DARK},
    {{420, 400, 404}, {716, 800, 892}, {8, 6, 6}, DARK},
    /* tail, and the body over its own shade */
    {{520, 600, 656}, {500, 540, 596}, {40, 24, 5}, SHADE},
    {{310, 420, 610}, {462, 462, 584}, {70, 148, 12}, SHADE},
    {{306, 420, 606}, {446, 446, 570}, {70, 148, 12}, WHITE},
    /* the folded wing's lower edge, and a feather's */
    {{330, 420, 636}, {508, 588, 584}, {3, 8, 3}, SHADE},
    {{400, 500, 630}, {512, 552, 570}, {2, 5, 2}, SHADE},
    /* neck, with the shade at its back, and breast */
    {{318, 198, 262}, {462, 400, 280}, {60, 40, 26}, SHADE},
    {{310, 186, 252}, {458, 400, 280}, {64, 40, 26}, WHITE},
    {{252, 296, 226}, {284, 206, 174}, {26, 18, 30}, WHITE},
    {{232, 210, 232}, {438, 400, 350}, {10, 24, 8}, BREAST},
    /* crest and head */
    {{228, 296, 322}, {158, 158, 240}, {22, 14, 2}, WHITE},
    {{232, 288, 296}, {176, 190, 262}, {12, 10, 2}, SHADE},
    {{228, 276, 290}, {164, 162, 224}, {26, 16, 3}, WHITE},
    {{224, 212, 204}, {170, 168, 174}, {32, 30, 22}, WHITE},
    /* bill, its spoon and the spoon's tip */
    {{194, 146, 74}, {176, 216, 322}, {17, 8, 12}, DARK},
    {{78, 52, 36}, {316, 350, 378}, {10, 38, 18}, DARK},
    {{42, 38, 32}, {376, 382, 390}, {13, 15, 10}, TIP},
    {{208, 208, 208}, {166, 166, 166}, {6, 6, 6}, EYE},
    /* leaves of reed, and stalks with their heads */
    {{890, 856, 796}, {1280, 900, 560}, {14, 10, 2}, LEAF},
    {{960, 960, 920}, {1280, 800, 380}, {14, 10, 2}, LEAF},
    {{1000, 1044, 1066}, {1280, 860, 480}, {14, 10, 2}, STALK},
    {{930, 900, 890}, {1280, 900, 420}, {9, 7, 5}, STALK},
    {{890, 889, 888}, {400, 440, 480}, {15, 19, 15}, HEAD},
    {{1034, 1012, 1010}, {1280, 800, 300}, {9, 7, 5}, STALK},
    {{1010, 1010, 1010}, {280, 330, 380}, {15, 19, 15}, HEAD},
    {{870, 920, 1000}, {1280, 1060, 900}, {12, 9, 2}, LEAF},
};

#endif
