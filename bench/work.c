/* How the work that a call reports relates to its time, for who plans by it: what fw_first and fw_depths take for a
 * unit of it, once the call's fixed part is taken off. That is what fw_draw takes of the same record, to read and
 * accept it and to make its law, and what fw_moment takes, for each depth that is handed back. Sections of five
 * heights, with and without layers and flange, and with a level law, under loads that put zero between the bounds of a
 * depth, shallow or deep, so that the unit has to visit the strips, and under one that lists none. They are timed in
 * three rounds, so that what else the machine does spoils none of them. A line for each height has the fixed part with
 * one moment, and the least and the most for a unit of work. */
#include "timing.h"

#include "fordwhistle.h"

#include <stdio.h>

#include "plain.h"

enum { LEVEL = 4, FORMS, AIMS = 8, CASES = FORMS * AIMS, PULLS_ALL = -10000000, ROUNDS = 3, TURN_NS = 200000 };

static const int heights[] = {50, 100, 300, 600, 1000};

enum { HEIGHTS = sizeof heights / sizeof *heights };

static int64_t row[WORDS];

/* The calls that are timed, and how many of them report work. */
typedef enum { FIRST, LIST, WORKS, DRAW = WORKS, MOMENT, CALLS } call;

/* A section's record, what the first two of them report, how many moments they take, and where the first depth is. */
typedef struct {
    record r;
    uint32_t work[WORKS], moments[WORKS], x;
    double taken[CALLS];
} timed_calls;

/* Those of one height after those of another. */
static timed_calls timed[HEIGHTS * CASES];

/* The imbalance hardly moves over an eighth of its depths (bench/near.c, level_section). */
static section level_form(int h)
{
    section s = {.b = 1000, .h = (uint16_t)h, .fck = 25, .fyk = 500, .m = 1, .layers = {{(uint16_t)(h / 2 + 1), 1000}}};
    s.feq2 = level_feq2(&s);
    return s;
}

/* 8 layers have a ninth of the height between them; a flange has a sixth of it. Widths and areas are thousands, so that
 * each imbalance is a whole number of N, and a load makes it zero: that depth is then open. */
static section form_of(int form, int h)
{
    section s = {.b = 1000, .h = (uint16_t)h, .fck = 30, .fyk = 500, .feq2 = 3700, .feq3 = 4500};
    if (form == LEVEL)
        return level_form(h);
    for (int j = 0; form % 2 == 1 && j < 8; j++) {
        s.layers[j].depth = (uint16_t)((j + 1) * h / 9);
        s.layers[j].area = 1000;
        s.m++;
    }
    if (form >= 2) {
        s.hf = (uint16_t)(h / 6);
        s.bf = 2000;
    }
    return s;
}

/* The load that leaves nothing at a depth, or one that pulls harder than any of these can bear: no depth is listed. */
static int32_t load_at(const section *s, int aim)
{
    const int depths[AIMS - 1] = {1, 2, 5, s->h / 10, s->h / 5, s->h / 4, s->h / 2};
    section without = *s;
    law l = law_of(s);
    without.load = 0;
    return aim == AIMS - 1 ? PULLS_ALL : (int32_t)(imbalance(&without, &l, depths[aim]) / 1000);
}

/* Whether the work is that of a depth at least for the first, and of every depth for the list. */
static int ask(timed_calls *to, section s)
{
    record r = record_of(s);
    fw_first_depth first = fw_first(r.bytes, r.len);
    fw_listed listed = fw_depths(r.bytes, r.len, row, WORDS);
    uint32_t each = (uint32_t)(s.h + s.m);
    *to = (timed_calls){.r = r, .work = {first.work, listed.work}, .moments = {listed.count > 0, listed.count}};
    to->x = first.depth;
    for (int which = 0; which < CALLS; which++)
        to->taken[which] = 1e9;
    return first.work >= each && listed.work == s.h * each;
}

static double turn(call which, const timed_calls *of, int calls)
{
    double start = nanoseconds();
    for (int i = 0; i < calls; i++)
        if (which == FIRST)
            fw_first(of->r.bytes, of->r.len);
        else if (which == LIST)
            fw_depths(of->r.bytes, of->r.len, row, WORDS);
        else if (which == DRAW)
            fw_draw(of->r.bytes, of->r.len, 0);
        else
            fw_moment(of->r.bytes, of->r.len, of->x);
    return (nanoseconds() - start) / calls;
}

/* Each of the calls takes its turns between the others', and the best of its turns counts, in this round or another. */
static void take_turns(timed_calls *of)
{
    int calls[CALLS];
    for (int which = 0; which < CALLS; which++)
        calls[which] = 1 + (int)(TURN_NS / turn((call)which, of, 10));
    for (int i = 0; i < TURNS * CALLS; i++)
        of->taken[i % CALLS] = least(of->taken[i % CALLS], turn((call)(i % CALLS), of, calls[i % CALLS]));
}

/* The sections of a height: each form under each load. */
static int ask_height(timed_calls *to, int h)
{
    for (int i = 0; i < CASES; i++) {
        section s = form_of(i / AIMS, h);
        s.load = load_at(&s, i % AIMS);
        if (!ask(to + i, s)) {
            printf("the work of form %d at h %d under load %d is wrong\n", i / AIMS, h, s.load);
            return 0;
        }
    }
    return 1;
}

static double greatest(double a, double b)
{
    return a < b ? b : a;
}

/* What a unit takes, the least and the most of the sections of a height. */
static void range(const timed_calls *of, call which, double *low, double *high)
{
    for (int i = 0; i < CASES; i++) {
        double fixed = of[i].taken[DRAW] + of[i].moments[which] * of[i].taken[MOMENT];
        double a_unit = (of[i].taken[which] - fixed) / of[i].work[which];
        *low = least(*low, a_unit);
        *high = greatest(*high, a_unit);
    }
}

static void print_height(const timed_calls *of, int h)
{
    double fixed = 0, low[WORKS] = {1e9, 1e9}, high[WORKS] = {0};
    for (int i = 0; i < CASES; i++)
        fixed = greatest(fixed, of[i].taken[DRAW] + of[i].moments[FIRST] * of[i].taken[MOMENT]);
    for (int which = 0; which < WORKS; which++)
        range(of, (call)which, &low[which], &high[which]);
    printf("work at h %d: fixed %.2f us; a unit takes %.3f to %.2f ns of a first depth, %.3f to %.2f of a list\n", h,
           fixed / 1000, low[FIRST], high[FIRST], low[LIST], high[LIST]);
}

int main(void)
{
    for (int i = 0; i < HEIGHTS; i++)
        if (!ask_height(timed + i * CASES, heights[i]))
            return 1;
    for (int i = 0; i < ROUNDS * HEIGHTS * CASES; i++)
        take_turns(timed + i % (HEIGHTS * CASES));
    for (int i = 0; i < HEIGHTS; i++)
        print_height(timed + i * CASES, heights[i]);
    return 0;
}
