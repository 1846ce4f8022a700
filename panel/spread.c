/* Labels beside what they name, where they have room. */
#include "drawing.h"

static void push_down(double *tops, const double *heights, size_t n, double from)
{
    for (size_t i = 0; i < n; i++) {
        if (tops[i] < from)
            tops[i] = from;
        from = tops[i] + heights[i];
    }
}

static void push_up(double *tops, const double *heights, size_t n, double to)
{
    for (size_t i = n; i-- > 0;) {
        if (tops[i] + heights[i] > to)
            tops[i] = to - heights[i];
        to = tops[i];
    }
}

void spread(double *tops, const double *heights, size_t n, double from, double to)
{
    push_down(tops, heights, n, from);
    push_up(tops, heights, n, to);
}
