/* Times the first depth of some sections through the C face against plain C that stops at the first crossing, and
 * against the unit's own full list, in one run: all first have to give the same depth, then each takes its turns between
 * the others', and the best of its turns counts. A line for each section says whether it is as many times as fast as
 * plain C as it should be. */
#include "timing.h"

#include "fordwhistle.h"

#include <stdio.h>
#include <string.h>

#include "plain.h"

/* Where the first depth lies at 1, as in the one that is pulled, both sides do little but take the moment, each a
 * division a strip. */
static const timed_section timed[] = {
    {{.b = 1000, .h = 1000, .fck = 30, .fyk = 500, .feq2 = 3700, .feq3 = 4500}, 15, "no layers"},
    {{.b = 1000, .h = 1000, .fck = 30, .fyk = 500, .feq2 = 2000, .feq3 = 2000, .m = 1, .layers = {{940, 3216}}},
     15,
     "one layer"},
    {{.b = 300, .h = 1000, .fck = 30, .fyk = 500, .feq2 = 3700, .feq3 = 4500, .hf = 150, .bf = 1000},
     15,
     "no layers and a flange"},
    {{.b = 500, .h = 1000, .fck = 30, .fyk = 500, .feq2 = 3700, .feq3 = 4500, .load = 10000000},
     15,
     "refused 14 after every depth"},
    {{.b = 1000, .h = 1000, .fck = 30, .fyk = 500, .feq2 = 3700, .feq3 = 4500, .load = -1660000}, 0, "pulled"},
    {{.b = 400, .h = 600, .fck = 30, .fyk = 500, .feq2 = 2000, .feq3 = 2000, .m = 1, .layers = {{540, 3216}}},
     0,
     "one layer"},
    {{.b = 1000, .h = 100, .fck = 30, .fyk = 500, .feq2 = 3700, .feq3 = 4500}, 0, "no layers"},
    {{.b = 1000, .h = 50, .fck = 30, .fyk = 500, .feq2 = 3700, .feq3 = 4500}, 0, "no layers"},
};

enum { SECTIONS = sizeof timed / sizeof *timed };

static int64_t row[WORDS], plain_words[3];

/* Whether the list, the first depth and plain C's agree, refused or not. */
static int same_first(const section *s, record r, fw_first_depth first)
{
    fw_listed listed = fw_depths(r.bytes, r.len, row, WORDS);
    int64_t words[] = {first.depth, first.kind, first.moment};
    if (first.refusal != listed.refusal)
        return 0;
    if (first.refusal != 0)
        return first.refusal == 14 && !plain_first(s, plain_words);
    return plain_first(s, plain_words) && memcmp(words, plain_words, sizeof words) == 0 &&
           memcmp(words, row, sizeof words) == 0;
}

/* One turn of each side, the time of one call. */
static double first_turn(const section *s, record r, int calls)
{
    double start = nanoseconds();
    (void)s;
    for (int i = 0; i < calls; i++)
        fw_first(r.bytes, r.len);
    return (nanoseconds() - start) / calls;
}

static double list_turn(const section *s, record r, int calls)
{
    double start = nanoseconds();
    (void)s;
    for (int i = 0; i < calls; i++)
        fw_depths(r.bytes, r.len, row, WORDS);
    return (nanoseconds() - start) / calls;
}

static double plain_turn(const section *s, record r, int calls)
{
    double start = nanoseconds();
    (void)r;
    for (int i = 0; i < calls; i++)
        plain_first(s, plain_words);
    return (nanoseconds() - start) / calls;
}

static void time_one(const section *s, record r, fw_first_depth first, int to_reach)
{
    static double (*const turns[])(const section *, record, int) = {first_turn, list_turn, plain_turn};
    int stresses = (int)first.work, looked = stresses / (s->h + s->m);
    int calls = (STRESSES + stresses - 1) / stresses;
    double best[3];
    for (int turn = 0; turn < TURNS; turn++)
        for (int side = 0; side < 3; side++) {
            double taken = turns[side](s, r, side < 2 ? MORE * calls : calls);
            best[side] = turn == 0 ? taken : least(best[side], taken);
        }
    printf("%d depths looked at, unit %.2f us, plain C that stops %.1f us, the full list %.2f us; ", looked,
           best[0] / 1000, best[2] / 1000, best[1] / 1000);
    printf("%.2f times as fast as plain C", best[2] / best[0]);
    if (to_reach != 0)
        printf(" (%d to reach: %s)", to_reach, best[2] < to_reach * best[0] ? "missed" : "reached");
    printf(", %.2f times as fast as the list\n", best[1] / best[0]);
}

int main(void)
{
    for (int i = 0; i < SECTIONS; i++) {
        const section *s = &timed[i].s;
        record r = record_of(*s);
        fw_first_depth first = fw_first(r.bytes, r.len);
        printf("first depth of b %d h %d, %s: ", s->b, s->h, timed[i].has);
        if (!same_first(s, r, first)) {
            puts("the first depths differ");
            return 1;
        }
        time_one(s, r, first, timed[i].to_reach);
    }
    return 0;
}
