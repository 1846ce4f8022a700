/* Times the shear of some sections through the C face while a user turns the spacing knob, against the same in plain C
 * with its roots found by counting and with floating ones: at every spacing, and of refused records, all three give the
 * same answer first, then each takes its turns between the others', and the best of its turns counts. A line for each
 * section says whether it is as many times as fast as counting, and takes as many times fewer rounds for its roots, as
 * it should. */
#include "timing.h"

#include "fordwhistle.h"

#include <stdio.h>

#include "../tests/c/sections.h"
#include "shear.h"

/* A turn asks at every spacing; one of counting, which takes so much longer, at spacings that are this far apart. */
enum { SPACINGS = 65535, APART = 16 };

/* In how many times fewer rounds than counting the unit should find both roots. */
enum { FEWER = 20 };

/* The unit's rounds for both roots, of any section: one for each binary digit that it looks for, 10 of k's root and 13
 * of c's. They are read off crates/shear/src/lib.rt. */
enum { UNIT_ROUNDS = 10 + 13 };

/* A section, how many times as fast as counting its shear should be, or 0 where that is only reported, and what it
 * has. */
static const struct {
    section s;
    int to_reach;
    const char *has;
} timed[] = {
    {{.b = 400, .h = 600, .fck = 30, .fyk = 500, .feq2 = 2000, .feq3 = 2000, .asw = 157, .m = 1,
      .layers = {{540, 3216}}},
     10,
     "one layer"},
    {{.b = 400, .h = 600, .fck = 30, .fyk = 500, .feq2 = 2000, .feq3 = 2000, .load = -120001, .asw = 157, .m = 8,
      .layers = {{60, 402}, {120, 226}, {200, 226}, {280, 226}, {360, 226}, {440, 226}, {500, 804}, {540, 1608}}},
     10,
     "8 layers, pulled"},
    {{.b = 200, .h = 400, .fck = 30, .fyk = 500, .feq2 = 2000, .feq3 = 2000, .load = 100000, .asw = 157, .m = 1,
      .layers = {{360, 1000}}, .hf = 80, .bf = 800},
     10,
     "one layer and a flange"},
    /* The greatest b and d, the least steel and the weakest concrete: neither root is less in any accepted section. */
    {{.b = 2000, .h = 1000, .fck = 20, .fyk = 500, .feq2 = 2000, .feq3 = 2000, .asw = 157, .m = 1,
      .layers = {{999, 1}}},
     0,
     "the fewest rounds"},
    /* The least d, the strongest concrete, and so much steel that c goes by the concrete alone: neither is greater. */
    {{.b = 50, .h = 50, .fck = 50, .fyk = 500, .feq2 = 2000, .feq3 = 2000, .asw = 157, .m = 1,
      .layers = {{26, 100}}},
     10,
     "the most rounds"},
};

enum { SECTIONS = sizeof timed / sizeof *timed };

/* ns a call. */
typedef struct {
    double unit, counting, floating;
} times;

static int equal(fw_amount a, fw_amount b)
{
    return a.refusal == b.refusal && a.amount == b.amount;
}

/* Whether all three answer a record with this refusal, and with the same amount. */
static int same_answer(record r, uint32_t refusal)
{
    fw_amount unit = fw_shear(r.bytes, r.len);
    return unit.refusal == refusal && equal(unit, plain_shear(r.bytes, r.len, COUNTING)) &&
           equal(unit, plain_shear(r.bytes, r.len, FLOATING));
}

/* At each length that is not the record's. */
static int same_lengths(record r)
{
    int same = 1;
    size_t right = r.len;
    for (r.len = 0; r.len <= sizeof r.bytes; r.len++)
        same = same && (r.len == right || same_answer(r, 6));
    return same;
}

/* Each line of the table that concerns the call: no bars, a layer too many, the lines one by one, and a length that is
 * not the record's. */
static int same_refusals(void)
{
    section nine = girder;
    nine.m = 9;
    int same = same_answer(record_of(plate), 16) && same_answer(record_of(nine), 6);
    for (int i = 0; i < LINES; i++)
        same = same && same_answer(record_of(wrong_from(lines[i])), lines[i]);
    return same && same_lengths(record_of(girder)) && same_lengths(record_of(rib));
}

static void turn_to(record *r, uint32_t spacing)
{
    put(r->bytes + 18, 2, spacing);
}

static int same_answers(record r)
{
    for (uint32_t spacing = 1; spacing <= SPACINGS; spacing++) {
        turn_to(&r, spacing);
        if (!same_answer(r, 0))
            return 0;
    }
    return 1;
}

static double unit_turn(record r)
{
    double start = nanoseconds();
    for (uint32_t spacing = 1; spacing <= SPACINGS; spacing++) {
        turn_to(&r, spacing);
        fw_shear(r.bytes, r.len);
    }
    return (nanoseconds() - start) / SPACINGS;
}

static double plain_turn(record r, roots how, uint32_t apart)
{
    double start = nanoseconds(), calls = 0;
    for (uint32_t spacing = 1; spacing <= SPACINGS; spacing += apart, calls++) {
        turn_to(&r, spacing);
        plain_shear(r.bytes, r.len, how);
    }
    return (nanoseconds() - start) / calls;
}

static times turn(record r)
{
    return (times){unit_turn(r), plain_turn(r, COUNTING, APART), plain_turn(r, FLOATING, 1)};
}

static times best_of_turns(record r)
{
    times best = turn(r);
    for (int i = 1; i < TURNS; i++) {
        times t = turn(r);
        best = (times){least(best.unit, t.unit), least(best.counting, t.counting), least(best.floating, t.floating)};
    }
    return best;
}

/* What is to be reached, and whether it is. */
static void print_target(double ratio, int to_reach)
{
    if (to_reach == 0)
        printf(" (reported)");
    else
        printf(" (%d to reach: %s)", to_reach, ratio < to_reach ? "missed" : "reached");
}

static void print_times(times t, int to_reach)
{
    printf("unit %.1f ns a call, counting %.1f ns, floating %.1f ns", t.unit, t.counting, t.floating);
    printf("; %.2f times as fast as counting", t.counting / t.unit);
    print_target(t.counting / t.unit, to_reach);
    printf(", %.2f times as fast as floating", t.floating / t.unit);
}

static void print_rounds(int rounds)
{
    double fewer = (double)rounds / UNIT_ROUNDS;
    printf("; %d rounds by counting, %d by the unit, %.1f times fewer", rounds, UNIT_ROUNDS, fewer);
    print_target(fewer, FEWER);
    puts("");
}

int main(void)
{
    if (!same_refusals()) {
        puts("the refusals of the shear differ");
        return 1;
    }
    for (int i = 0; i < SECTIONS; i++) {
        const section *s = &timed[i].s;
        record r = record_of(*s);
        printf("shear of b %d h %d, %s: ", s->b, s->h, timed[i].has);
        if (!same_answers(r)) {
            puts("the answers differ");
            return 1;
        }
        print_times(best_of_turns(r), timed[i].to_reach);
        print_rounds((int)counted_rounds(s));
    }
    return 0;
}
