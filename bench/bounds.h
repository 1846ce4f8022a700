/* bounds.h: bounds of the imbalance at a depth, as the unit has them: a quotient for each piece of the law and no strip
 * visited, since rounding takes less than 1 kPa off a strip. */
#ifndef BOUNDS_H
#define BOUNDS_H

#include "plain.h"

typedef struct {
    int64_t low, high;
} bounds;

/* Strips on one side of the axis, by their places from it, the first of which is 0; twice the distance of place j is
 * its reach, 2j + 1. */
typedef struct {
    int64_t from, to;
} run;

/* Up to which place those of a run have a strain of at most e. */
static inline int64_t places_to(axis a, int64_t e, run r)
{
    int64_t places = (e * a.den / a.num + 1) / 2;
    return places < r.from ? r.from : places < r.to ? places : r.to;
}

/* The stresses of the parabola between two places, added up and then rounded. The reaches up to a place add up to its
 * square, three times their squares to 4 place^3 - place. The strain is taken in 500 millionths, or this would leave 64
 * bits. */
static inline int64_t parabola(const law *l, axis a, int64_t from, int64_t to)
{
    int64_t unit = a.num / 500, reaches = to * to - from * from;
    int64_t squares = 4 * (to * to * to - from * from * from) - (to - from);
    return l->fcd * unit * (24 * a.den * reaches - unit * squares) / (48 * a.den * a.den);
}

/* The same of the line from (ea, sa) to (eb, sb). */
static inline int64_t ramp(axis a, int64_t ea, int64_t sa, int64_t eb, int64_t sb, int64_t from, int64_t to)
{
    int64_t p = a.num * (to * to - from * from), q = a.den * (to - from);
    return (sa * (eb * q - p) + sb * (p - ea * q)) / ((eb - ea) * a.den);
}

static inline int64_t at_least_0(int64_t n)
{
    return n > 0 ? n : 0;
}

/* Of the strips from one number up to another, a mm of their width. Those beyond 2000 bear fcd and those beyond e3
 * nothing: neither are rounded, nor add to what lies between the bounds. */
static inline bounds strip_bounds(const law *l, axis a, int64_t from, int64_t to)
{
    run above = {at_least_0(a.x - to), at_least_0(a.x - from)}, below = {at_least_0(from - a.x), at_least_0(to - a.x)};
    int64_t bent = places_to(a, 2000, above);
    int64_t to1 = places_to(a, l->e1, below), to2 = places_to(a, l->e2, below), to3 = places_to(a, E3, below);
    int64_t pushed = parabola(l, a, above.from, bent) + l->fcd * (above.to - bent);
    int64_t pulled = ramp(a, 0, 0, l->e1, l->s1, below.from, to1) + ramp(a, l->e1, l->s1, l->e2, l->s2, to1, to2) +
                     ramp(a, l->e2, l->s2, E3, l->s3, to2, to3);
    return (bounds){pushed - (bent - above.from) - pulled, pushed - pulled + to3 - below.from};
}

/* Of the imbalance: flange and web each by its own width, and what is not rounded. */
static inline bounds bounds_at(const section *s, const law *l, int64_t x)
{
    axis a = axis_at(s, x);
    bounds flange = strip_bounds(l, a, 0, s->hf), web = strip_bounds(l, a, s->hf, s->h);
    int64_t rest = -1000 * (int64_t)s->load;
    for (int j = 0; j < s->m; j++)
        rest += bar_force(s, l, a, j);
    return (bounds){rest + s->bf * flange.low + s->b * web.low, rest + s->bf * flange.high + s->b * web.high};
}

#endif
