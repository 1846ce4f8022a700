/* Times the full list of depths of some sections through the C face against plain C, in one run: both give the same
 * list first, then each takes its turns between the other's, and the best of its turns counts. A line for each section;
 * the last line says which are as many times as fast as they should be. */
#include "timing.h"

#include "fordwhistle.h"

#include <stdio.h>
#include <string.h>

#include "plain.h"

static const timed_section timed[] = {
    {{.b = 1000, .h = 1000, .fck = 30, .fyk = 500, .feq2 = 3700, .feq3 = 4500}, 80, "no layers"},
    {{.b = 400, .h = 600, .fck = 30, .fyk = 500, .feq2 = 2000, .feq3 = 2000, .m = 1, .layers = {{540, 3216}}},
     40,
     "one layer"},
    {{.b = 1000, .h = 100, .fck = 30, .fyk = 500, .feq2 = 3700, .feq3 = 4500}, 8, "no layers"},
    {{.b = 1000, .h = 50, .fck = 30, .fyk = 500, .feq2 = 3700, .feq3 = 4500}, 4, "no layers"},
    {{.b = 300, .h = 1000, .fck = 30, .fyk = 500, .feq2 = 3700, .feq3 = 4500, .hf = 150, .bf = 1000},
     50,
     "no layers and a flange"},
    {{.b = 300, .h = 1000, .fck = 30, .fyk = 500, .feq2 = 3700, .feq3 = 4500, .m = 1, .layers = {{940, 3216}},
      .hf = 150, .bf = 1000},
     0,
     "one layer and a flange"},
    {{.b = 400,
      .h = 600,
      .fck = 30,
      .fyk = 500,
      .feq2 = 2000,
      .feq3 = 2000,
      .m = 8,
      .layers = {{60, 402}, {120, 226}, {200, 226}, {280, 226}, {360, 226}, {440, 226}, {500, 804}, {540, 1608}}},
     0,
     "8 layers"},
    {{.b = 150, .h = 400, .fck = 30, .fyk = 500, .feq2 = 2000, .feq3 = 2000, .m = 1, .layers = {{360, 804}}},
     0,
     "a rib's width"},
    /* Zero lies between the bounds of as many depths as in any section that is known: bench/near.c, level_section. */
    {{.b = 1000, .h = 1000, .fck = 25, .fyk = 500, .feq2 = 17878, .load = -434365, .m = 1, .layers = {{501, 1000}}},
     0,
     "132 depths by their strips"},
};

enum { SECTIONS = sizeof timed / sizeof *timed };

static int64_t unit_row[WORDS], plain_row[WORDS];

static int same_list(const section *s, record r)
{
    fw_listed listed = fw_depths(r.bytes, r.len, unit_row, WORDS);
    uint32_t count = plain_depths(s, plain_row);
    size_t size = 3 * count * sizeof *unit_row;
    return listed.refusal == 0 && listed.count == count && memcmp(unit_row, plain_row, size) == 0;
}

static double unit_turn(record r, int lists)
{
    double start = nanoseconds();
    for (int i = 0; i < lists; i++)
        fw_depths(r.bytes, r.len, unit_row, WORDS);
    return nanoseconds() - start;
}

static double plain_turn(const section *s, int lists)
{
    double start = nanoseconds();
    for (int i = 0; i < lists; i++)
        plain_depths(s, plain_row);
    return nanoseconds() - start;
}

/* How many times as fast the unit is. A list takes the stress of each strip and layer at each depth; the few of its
 * moments don't count. */
static double ratio(const section *s, record r)
{
    int stresses = s->h * (s->h + s->m), lists = (STRESSES + stresses - 1) / stresses;
    double unit = unit_turn(r, MORE * lists), plain = plain_turn(s, lists);
    for (int turn = 1; turn < TURNS; turn++) {
        unit = least(unit, unit_turn(r, MORE * lists));
        plain = least(plain, plain_turn(s, lists));
    }
    unit /= MORE * lists;
    plain /= lists;
    printf("unit %.3f ns a stress, %.1f ns a depth, plain C %.2f ns a stress, %.2f times as fast", unit / stresses,
           unit / s->h, plain / stresses, plain / unit);
    return plain / unit;
}

int main(void)
{
    double ratios[SECTIONS];
    for (int i = 0; i < SECTIONS; i++) {
        const section *s = &timed[i].s;
        record r = record_of(*s);
        printf("b %d h %d, %s: ", s->b, s->h, timed[i].has);
        if (!same_list(s, r)) {
            puts("the lists differ");
            return 1;
        }
        ratios[i] = ratio(s, r);
        if (timed[i].to_reach == 0)
            puts(" (reported)");
        else
            printf(" (%d to reach)\n", timed[i].to_reach);
    }
    for (int i = 0; i < SECTIONS; i++) {
        const char *verdict = ratios[i] < timed[i].to_reach ? "missed" : "reached";
        const char *shape = timed[i].s.hf > 0 ? " with a flange" : "";
        if (timed[i].to_reach != 0)
            printf("%s%s at h %d%s", i == 0 ? "" : ", ", verdict, timed[i].s.h, shape);
    }
    puts("");
    return 0;
}
