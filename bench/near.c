/* Counts the depths at which the unit has to visit the strips. It bounds their forces in closed form: where zero does
 * not lie between the bounds, the sign of the imbalance is known. The bounds are written once more, in plain C, and at
 * every depth the plain imbalance first has to lie within them. Then a line for each way to load the sections: at how
 * many of their depths zero lies between the bounds, and in which section at most. */
#include <stdio.h>
#include <stdlib.h>

#include "bounds.h"

/* Random sections are also counted under 4 x 3 loads that are aimed. */
enum { RANDOM = 2000, LEVEL = 200, RIBS = 1000, AIMS = 3, LOAD_MOST = 10000000 };

/* A section, and by its depths the imbalance without load and its bounds. */
typedef struct {
    section s;
    int64_t imbalances[HIGHEST + 1];
    bounds at[HIGHEST + 1];
} base;

/* Of the sections in one way of loading: how many, their depths, those with zero between the bounds, and the section
 * with the most of these. */
typedef struct {
    long sections, depths, near;
    int most;
    section worst;
} count;

/* splitmix64: the same numbers in every run. */
static uint64_t number(void)
{
    static uint64_t state = 14;
    uint64_t z = state += 0x9e3779b97f4a7c15;
    z = (z ^ z >> 30) * 0xbf58476d1ce4e5b9;
    z = (z ^ z >> 27) * 0x94d049bb133111eb;
    return z ^ z >> 31;
}

static int within(int low, int high)
{
    return low + (int)(number() % (uint64_t)(high - low + 1));
}

/* One time in four an end of the range, as in the tests. */
static uint16_t some(int low, int high)
{
    switch (number() % 8) {
    case 0: return (uint16_t)low;
    case 1: return (uint16_t)high;
    }
    return (uint16_t)within(low, high);
}

/* Up to 8 layers, the deepest below mid-height. */
static void add_layers(section *s)
{
    char taken[HIGHEST + 1] = {0};
    int layers = within(0, 8), deepest = some(s->h / 2 + 1, s->h - 1);
    taken[deepest] = 1;
    for (int left = layers - 1; left > 0;) {
        int depth = some(1, deepest);
        left -= !taken[depth];
        taken[depth] = 1;
    }
    for (int depth = 1; depth <= deepest && s->m < layers; depth++) {
        if (!taken[depth])
            continue;
        s->layers[s->m].depth = (uint16_t)depth;
        s->layers[s->m].area = some(1, UINT16_MAX);
        s->m++;
    }
}

static section random_section(void)
{
    section s = {.b = some(50, 2000)};
    s.h = some(50, HIGHEST);
    s.fck = (uint16_t)(5 * within(4, 10));
    s.fyk = some(400, 600);
    s.feq2 = some(0, 20000);
    s.feq3 = some(0, 20000);
    add_layers(&s);
    return s;
}

/* A section whose law bears as much in tension as in compression up to 3500, with bars just below mid-height, which
 * yield: while the axis is at 7/27 of a depth between theirs and h, what both bear grows alike, and the imbalance
 * hardly moves. No section is known with zero between the bounds of more of its depths. */
static section level_section(void)
{
    section s = random_section();
    s.fck = (uint16_t)(5 * within(4, 5));
    s.m = 1;
    s.layers[0].depth = (uint16_t)(s.h / 2 + 1);
    s.layers[0].area = some(1, 2000);
    s.feq2 = level_feq2(&s);
    s.feq3 = 0;
    return s;
}

static section rib_section(void)
{
    section s = random_section();
    s.hf = some(1, s.h - 1);
    s.bf = some(s.b, 2000);
    return s;
}

/* What is known of a section's depths. Where a bound does not hold, that is said and the program ends. */
static void look_at(base *to, section s)
{
    law l = law_of(&s);
    to->s = s;
    for (int x = 1; x <= s.h; x++) {
        to->at[x] = bounds_at(&s, &l, x);
        to->imbalances[x] = imbalance(&s, &l, x);
        if (to->imbalances[x] < to->at[x].low || to->at[x].high < to->imbalances[x]) {
            printf("b %d h %d hf %d: an imbalance is not within its bounds\n", s.b, s.h, s.hf);
            exit(1);
        }
    }
}

/* At how many depths zero lies between the bounds under a load, each N of which takes 1000 mN off. */
static int near_under(const base *of, int64_t load)
{
    int near = 0;
    for (int x = 1; x <= of->s.h; x++)
        near += of->at[x].low <= 1000 * load && 1000 * load <= of->at[x].high;
    return near;
}

static void count_under(count *c, const base *of, int64_t load)
{
    if (load < -LOAD_MOST || load > LOAD_MOST)
        return;
    int near = near_under(of, load);
    c->sections++;
    c->depths += of->s.h;
    c->near += near;
    if (near > c->most) {
        c->most = near;
        c->worst = of->s;
        c->worst.load = (int32_t)load;
    }
}

/* The load that leaves about nothing at a depth, in whole N. */
static int64_t load_at(const base *of, int x)
{
    return of->imbalances[x] / 1000;
}

static int balanced(const base *of, int x)
{
    return -LOAD_MOST < load_at(of, x) && load_at(of, x) < LOAD_MOST;
}

/* Under that load, 1 N less and 1 N more. */
static void count_aimed(count *c, const base *of, int x)
{
    for (int more = -1; x != 0 && more <= 1; more++)
        count_under(c, of, load_at(of, x) + more);
}

/* Any depth that a load balances, or 0 where there is none. */
static int any_balanced(const base *of)
{
    int h = of->s.h, start = within(1, h);
    for (int i = 0; i < h; i++) {
        int x = (start + i - 1) % h + 1;
        if (balanced(of, x))
            return x;
    }
    return 0;
}

static int64_t climb(const base *of, int x)
{
    int64_t by = of->imbalances[x + 1] - of->imbalances[x];
    return by < 0 ? -by : by;
}

/* Of these, the one whose next differs least. */
static int flattest(const base *of)
{
    int best = 0;
    for (int x = 1; x < of->s.h; x++)
        if (balanced(of, x) && (best == 0 || climb(of, x) < climb(of, best)))
            best = x;
    return best;
}

/* Under the load that is worst: as it falls, depths come to have zero between their bounds, each at its own load, and
 * the last of them to come leaves the most there are. */
static void count_worst(count *c, const base *of)
{
    int most = -1;
    int64_t worst = 0;
    for (int x = 1; x <= of->s.h; x++) {
        int64_t high = of->at[x].high, load = (high - (high < 0 ? 999 : 0)) / 1000;
        if (load < -LOAD_MOST || load > LOAD_MOST || near_under(of, load) <= most)
            continue;
        worst = load;
        most = near_under(of, load);
    }
    count_under(c, of, worst);
}

static void print(const char *loaded, const count *c)
{
    const section *w = &c->worst;
    printf("%s: %ld of %ld depths of %ld sections (%.4f %%), at most %d of %d (b %d, m %d, load %d", loaded, c->near,
           c->depths, c->sections, 100 * (double)c->near / (double)c->depths, c->most, w->h, w->b, w->m, (int)w->load);
    if (w->hf > 0)
        printf(", hf %d, bf %d", w->hf, w->bf);
    puts(")");
}

int main(void)
{
    static base of;
    count random = {0}, aimed = {0}, flat = {0}, worst = {0}, level = {0}, flat_ribs = {0}, worst_ribs = {0};
    for (int i = 0; i < RANDOM; i++) {
        look_at(&of, random_section());
        count_under(&random, &of, within(-LOAD_MOST, LOAD_MOST));
        for (int aim = 0; aim < AIMS; aim++)
            count_aimed(&aimed, &of, any_balanced(&of));
        count_aimed(&flat, &of, flattest(&of));
        count_worst(&worst, &of);
    }
    for (int i = 0; i < LEVEL; i++) {
        look_at(&of, level_section());
        count_worst(&level, &of);
    }
    for (int i = 0; i < RIBS; i++) {
        look_at(&of, rib_section());
        count_aimed(&flat_ribs, &of, flattest(&of));
        count_worst(&worst_ribs, &of);
    }
    puts("depths that need their strips:");
    print("random loads", &random);
    print("balanced at a depth, and 1 N beside", &aimed);
    print("where the imbalance is flattest", &flat);
    print("worst load of each", &worst);
    print("level law, worst load of each", &level);
    print("ribs, where the imbalance is flattest", &flat_ribs);
    print("ribs, worst load of each", &worst_ribs);
    return 0;
}
