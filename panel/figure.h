/* figure.h: numbers as the sheet shows them. */
#ifndef FIGURE_H
#define FIGURE_H

#include <stdint.h>

typedef struct {
    char text[40];
} figure;

/* A number in parts, of which ten to the power make one of the unit, with so many decimals. It is rounded down, below zero too: a resistance
 * is never shown above what it is. */
figure rounded_down(int64_t parts, int power, int decimals);

/* The same with up to three decimals, but no more than make four digits: for resistances. */
figure four_digits(int64_t parts, int power);

/* The same with as many decimals as it takes to lose nothing: for all else. */
figure exact(int64_t parts, int power);

/* A listed moment, in kNm. A mN half-mm is five of ten to the 10 parts of a kNm. */
figure kilonewton_metres(int64_t moment);

#endif
