/* fw_imbalance, fw_moment, fw_depths and fw_first as the panel's program calls them: the documents' figures, several depths, two layers
 * below mid-height, a flange, a zero at the first depth and at the last, rows too short, just long enough and longer, each refusal, and the
 * work of each list and first depth. */
#include "fordwhistle.h"

#include "check.h"
#include "sections.h"

enum { ROOM = 32 };

/* Without load. From x = 22 on the concrete below the bars, torn until then, comes back into tension about as fast as compression grows;
 * the last depth has half as much moment again as the first. */
static const section softening = {.b = 600, .h = 140, .fck = 40, .fyk = 500, .feq2 = 13500, .feq3 = 18500, .m = 2,
                                  .layers = {{5, 390}, {84, 390}}};
static const int64_t five[] = {
    21, 2, 46797731640, 22, 2, 48727901040, 24, 2, 52937492640, 29, 2, 64844811240, 31, 2, 70385160240,
};

/* A plate that is pulled just so hard that its forces balance at depth 1: no depth comes before it. */
static const section pulled = {.b = 1000, .h = 58, .fck = 50, .fyk = 400, .load = -3378};

/* What a word holds before the call: no word of a list, and another at each place. */
static int64_t unwritten(size_t at)
{
    return INT64_MIN + (int64_t)at;
}

/* The stresses of so many depths: strips plus layers at each. */
static uint32_t work_of(section s, uint32_t depths)
{
    return depths * ((uint32_t)s.h + s.m);
}

/* Whether a row of so many words is answered with this, then begins with the list, and all else up to ROOM is as it was. Only a section
 * that is refused itself takes no work, any other that of every depth. */
static int answers(section s, size_t words, uint32_t refusal, uint32_t count, const int64_t *list, size_t listed)
{
    record r = record_of(s);
    int64_t row[ROOM];
    fw_listed answer;
    for (size_t i = 0; i < ROOM; i++)
        row[i] = unwritten(i);
    answer = fw_depths(r.bytes, r.len, row, words);
    for (size_t i = 0; i < ROOM; i++)
        if (row[i] != (i < listed ? list[i] : unwritten(i)))
            return 0;
    return answer.refusal == refusal && answer.count == count &&
           answer.work == (refusal == 0 || refusal == 14 || refusal == 15 ? work_of(s, s.h) : 0);
}

/* Whether the first depth is answered with this; the words are null where it is refused. It looks at no depth past its own, but for kind 2
 * at the next one. */
static int is_first(section s, uint32_t refusal, const int64_t *words)
{
    static const int64_t none[3] = {0};
    record r = record_of(s);
    fw_first_depth first = fw_first(r.bytes, r.len);
    uint32_t looked = refusal == 14 ? s.h : words == NULL ? 0 : (uint32_t)(words[0] + words[1] - 1);
    if (words == NULL)
        words = none;
    return first.refusal == refusal && first.depth == words[0] && first.kind == words[1] && first.moment == words[2] &&
           first.work == work_of(s, looked);
}

/* Whether it is the first three words of the list too. */
static int lists(section s, size_t words, const int64_t *list, uint32_t count)
{
    return answers(s, words, 0, count, list, 3 * (size_t)count) && is_first(s, 0, list);
}

/* Whether the first depth is refused by the same number too, which is not 15. */
static int refuses_list(section s, uint32_t refusal)
{
    return answers(s, 0, refusal, 0, NULL, 0) && answers(s, ROOM, refusal, 0, NULL, 0) && is_first(s, refusal, NULL);
}

/* Whether a row is too short for the list, and the first depth is answered all the same. */
static int lacks_room(section s, size_t words, const int64_t *list, uint32_t count)
{
    return answers(s, words, 15, count, NULL, 0) && is_first(s, 0, list);
}

static int is(fw_amount answer, uint32_t refusal, int64_t amount)
{
    return answer.refusal == refusal && answer.amount == amount;
}

static int gives(section s, uint32_t x, int64_t imbalance, int64_t moment)
{
    record r = record_of(s);
    return is(fw_imbalance(r.bytes, r.len, x), 0, imbalance) && is(fw_moment(r.bytes, r.len, x), 0, moment);
}

static int refuses_depth(section s, uint32_t x, uint32_t refusal)
{
    record r = record_of(s);
    return is(fw_imbalance(r.bytes, r.len, x), refusal, 0) && is(fw_moment(r.bytes, r.len, x), refusal, 0);
}

static void the_figures(void)
{
    static const int64_t list[] = {14, 2, 14476473000};
    CHECK(gives(plate, 14, -4957000, 14476473000));
    CHECK(lists(plate, ROOM, list, 1));
    CHECK(refuses_list(beam, 14));
}

static void the_figures_of_work(void)
{
    record zero = record_of(plate), one = record_of(beam), third = record_of(pulled);
    CHECK(fw_first(zero.bytes, zero.len).work == 1500);
    CHECK(fw_depths(zero.bytes, zero.len, NULL, 0).work == 10000);
    CHECK(fw_first(one.bytes, one.len).work == 360600);
    CHECK(fw_depths(one.bytes, one.len, NULL, 0).work == 360600);
    CHECK(fw_first(third.bytes, third.len).work == 58);
}

static void every_depth_is_listed(void)
{
    static const section s = {.b = 1000, .h = 120, .fck = 40, .fyk = 500, .feq2 = 20000, .feq3 = 11000, .load = -439304, .m = 1,
                              .layers = {{61, 1000}}};
    static const int64_t zero_among_seven[] = {
        15, 2, 15321686000, 16, 2, 18134375000, 17, 2, 20388985000, 22, 1, 33718716000,
        24, 2, 40095920000, 27, 2, 50386020000, 31, 2, 66501547000,
    };
    CHECK(lists(softening, ROOM, five, 5));
    CHECK(gives(s, 22, 0, 33718716000));
    CHECK(lists(s, ROOM, zero_among_seven, 7));
}

/* At 119 the deepest layer still limits the strain: 7 x 460 is just more than 27 x 119. At 148 it does not, and the centroid alone counts,
 * in s1. */
static void the_strain_takes_the_deepest_layer_and_s1_the_centroid(void)
{
    static const int64_t list[] = {148, 2, 554830765200};
    CHECK(gives(girder, 119, -117709800, 514890252600));
    CHECK(lists(girder, ROOM, list, 1));
}

/* One of the five depths lies within the flange, one just at its underside. A flange that is no wider than the web is none. */
static void the_flange_has_its_own_width(void)
{
    static const section low = {.b = 310, .h = 100, .fck = 20, .fyk = 500, .feq2 = 14500, .feq3 = 19000, .m = 2,
                                .layers = {{5, 840}, {52, 820}}, .hf = 23, .bf = 610};
    static const int64_t list[] = {63, 2, 342369284200}, about_its_underside[] = {
        21, 2, 44268101360, 23, 2, 46559886710, 24, 2, 47701188040, 25, 2, 48671039050, 26, 2, 49862655670,
    };
    CHECK(gives(rib, 40, -347694800, 230065267200));
    CHECK(gives(rib, 81, 266061000, 424275915000));
    CHECK(lists(rib, ROOM, list, 1));
    CHECK(lists(low, ROOM, about_its_underside, 5));
    CHECK(gives(with_flange(rib, 1, 800), 40, -513373400, 166419090600));
    CHECK(gives(with_flange(rib, 399, 800), 40, -483966800, 234392781600));
    CHECK(lists(with_flange(softening, 139, 600), ROOM, five, 5));
}

static void the_first_depth_is_listed_as_a_zero(void)
{
    static const int64_t list[] = {1, 1, -175816000};
    CHECK(lists(pulled, ROOM, list, 1));
}

/* The last depth has no next one: it is listed where its imbalance is zero, and not where that is 1 N less. */
static void the_last_depth_is_listed_as_a_zero_only(void)
{
    static const int64_t last[] = {100, 1, 23126626000}, before[] = {99, 2, 24084835000};
    section s = plate;
    s.load = 1376184;
    CHECK(lists(s, ROOM, last, 1));
    s.load = 1376183;
    CHECK(lists(s, ROOM, before, 1));
    s.load = 1376185;
    CHECK(gives(s, 100, -1000, 23126626000));
    CHECK(refuses_list(s, 14));
}

static void a_row_has_its_length(void)
{
    CHECK(lacks_room(softening, 0, five, 5));
    CHECK(lacks_room(softening, 14, five, 5));
    CHECK(lists(softening, 15, five, 5));
    CHECK(lists(softening, 16, five, 5));
}

static void depths_have_their_limits(void)
{
    CHECK(gives(plate, 1, -167293000, -64897000));
    CHECK(gives(plate, 100, 1376184000, 23126626000));
    CHECK(refuses_depth(plate, 0, 18));
    CHECK(refuses_depth(plate, 101, 18));
    CHECK(refuses_depth(plate, 65536 + 14, 18));
    CHECK(refuses_depth(plate, UINT32_MAX, 18));
}

/* Each line comes before a depth off the grid, before 14 (such a load leaves no depth to list) and so before a row too short. */
static void the_first_line_that_holds_refuses(void)
{
    for (int i = 0; i < LINES; i++) {
        CHECK(refuses_depth(wrong_from(lines[i]), 0, lines[i]));
        CHECK(refuses_list(wrong_from(lines[i]), lines[i]));
    }
    CHECK(refuses_depth(wrong_from(18), 0, 18));
    CHECK(refuses_list(wrong_from(14), 14));
}

int main(void)
{
    the_figures();
    the_figures_of_work();
    every_depth_is_listed();
    the_strain_takes_the_deepest_layer_and_s1_the_centroid();
    the_flange_has_its_own_width();
    the_first_depth_is_listed_as_a_zero();
    the_last_depth_is_listed_as_a_zero_only();
    a_row_has_its_length();
    depths_have_their_limits();
    the_first_line_that_holds_refuses();
    return verdict();
}
