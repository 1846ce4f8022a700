/* plain.h: the list of depths and its first in plain C, to hold the unit's times against, and what its bounds are counted
 * with. */
#ifndef PLAIN_H
#define PLAIN_H

#include "../tests/c/record.h"

enum { E3 = 10000, HIGHEST = 1000 };

/* A turn of plain C takes as long as this many stresses do: one call is too short to time, of a low section or where it
 * soon stops. The unit's has MORE times as many calls, since it is over in so much less time. */
enum { STRESSES = 2000000, MORE = 10, WORDS = 3 * HIGHEST };

/* A section, how many times as fast as plain C the unit should be, or 0 where that is only reported, and what it has. */
typedef struct {
    section s;
    int to_reach;
    const char *has;
} timed_section;

typedef struct {
    int64_t d, fcd, fyd, s1, s2, s3, e1, e2;
} law;

/* The strain at depth y is num (2x - 2y) / den. */
typedef struct {
    int64_t x, num, den;
} axis;

law law_of(const section *s);

/* The feq2 with which the law bears as much in tension as in compression up to 3500, where feq3 is 0: twice the areas
 * under its pieces are equal, and the stress has no jump at e3. It is in range for fck 20 and 25. */
uint16_t level_feq2(const section *s);

axis axis_at(const section *s, int64_t x);

/* Of layer j. */
int64_t bar_force(const section *s, const law *l, axis a, int j);

int64_t imbalance(const section *s, const law *l, int64_t x);

/* Writes the listed depths of an accepted section to a row that holds them, three words each: x, kind, moment. Returns their number. */
uint32_t plain_depths(const section *s, int64_t *row);

/* The first of them alone, looking no further than the depth that decides; or 0 where there is none. */
int plain_first(const section *s, int64_t *words);

#endif
