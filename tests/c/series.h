/* series.h: series of beam results for the C tests, and whether they are answered as they should be. */
#ifndef SERIES_H
#define SERIES_H

#include "fordwhistle.h"

/* More results than are ever accepted. */
enum { MOST = 20 };

typedef struct {
    size_t n;
    uint32_t results[MOST];
} series;

/* Whether Table 2 has a column for so many results. */
static inline int is_column(size_t n)
{
    return (n >= 3 && n <= 6) || n == 8 || n == 10 || n == 12 || n == 15;
}

/* So many results that are one and the other in turn. */
static inline series of_two(size_t n, uint32_t one, uint32_t other)
{
    series s = {.n = n};
    for (size_t i = 0; i < n; i++)
        s.results[i] = i % 2 == 0 ? one : other;
    return s;
}

static inline int is_strength(fw_strength_answer answer, uint32_t refusal, uint32_t mean, uint32_t deviation, uint32_t value)
{
    return answer.refusal == refusal && answer.mean == mean && answer.deviation == deviation && answer.value == value;
}

#endif
