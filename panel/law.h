/* law.h: the law of a section's concrete, as fw_draw draws it at whole strains. */
#ifndef LAW_H
#define LAW_H

#include "section.h"

/* The drawn range, at whose ends the strains of a section are limited too. */
enum { MOST_TENSION = 10000, MOST_COMPRESSION = 3500 };

/* Strains above 0. In tension the law goes straight to e1, the first crack, to e2, from where the fibres alone bear, and to e3; in
 * compression it is flat from the plateau on. */
typedef struct {
    int32_t e1, e2, e3, plateau;
} bends;

bends bends_of(const section *s);

/* Of an accepted section at a strain of the drawn range, kPa, compression positive. */
double stress_at(const section *s, int32_t strain);

/* The size of the stress at a strain that pulls, both zero or above. */
double tension_at(const section *s, int32_t strain);

/* The largest size of a stress that pulls, at some of these strains, compression positive; zero where none does. */
double largest_tension(const section *s, const int32_t *strains, int count);

#endif
