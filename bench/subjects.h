/* What is painted by whom at which sizes, and how fast it is wanted. */
#ifndef SUBJECTS_H
#define SUBJECTS_H

#include "painter.h"

enum { SIZES = 2, SUBJECTS = 8, PAINTERS = 6 };

struct size {
    uint32_t width, height;
};

struct subject {
    const char *name;
    struct scene *(*make)(uint32_t width, uint32_t height);
    /* The most that spoonwing_frame's time may be at each size, as a part of each painter's; 0 where
     * nothing is asked, here and below. */
    double wanted[SIZES][PAINTERS];
    /* At the larger size: the most that a frame by lines may take, as a multiple of the whole frame,
     * and the most milliseconds of spoonwing_frame. */
    double lines_wanted, ms_wanted;
};

extern const struct size SIZE[SIZES];
extern const struct subject SUBJECT[SUBJECTS];

/* Does something with every subject at every size, the larger size first. */
typedef void subject_work(const struct subject *subject, const struct size *size);
void each_subject(subject_work *work);

/* spoonwing_frame first, then those that it is compared with, the floor last. */
extern const struct painter *const PAINTER[PAINTERS];

#endif
