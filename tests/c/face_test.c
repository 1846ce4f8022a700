/* Every function of the header that takes a record, results or no memory, on buffers of just the size that it is told, of all short sizes,
 * and on null where that is 0; with what they hold after the call (lender.h). */
#define _DEFAULT_SOURCE /* for edge.h */

#include "lender.h"

#include "bits.h"
#include "sections.h"
#include "series.h"

enum { WORDS = 4 };

/* What a row holds before the call. */
static const int64_t unwritten[WORDS] = {INT64_MIN, -1, INT64_MAX, 7};

static int is_drawn(fw_drawn drawn, uint32_t refusal, double strain, double stress)
{
    return drawn.refusal == refusal && bits_of(drawn.point.strain) == bits_of(strain) && bits_of(drawn.point.stress) == bits_of(stress);
}

static int is_amount(fw_amount answer, uint32_t refusal, int64_t amount)
{
    return answer.refusal == refusal && answer.amount == amount;
}

static int is_listed(fw_listed listed, uint32_t refusal, uint32_t count, uint32_t work)
{
    return listed.refusal == refusal && listed.count == count && listed.work == work;
}

static int is_first(fw_first_depth first, uint32_t refusal, uint32_t depth, uint32_t kind, uint32_t work, int64_t moment)
{
    return first.refusal == refusal && first.depth == depth && first.kind == kind && first.work == work && first.moment == moment;
}

/* Whether a record to which a layer is added, lent, is refused so in this room, or becomes the longer one where the number is 0. The layer's
 * area is the number of its depth. */
static int adds(const uint8_t *bytes, size_t len, uint16_t depth, size_t room, uint32_t refusal, const record *longer)
{
    uint32_t size = refusal == 0 ? (uint32_t)longer->len : 0;
    uint8_t *copy = lent(edge, bytes, len), *out = lent(row_edge, blank, room);
    int answered = is_written(fw_add_layer(copy, len, depth, depth, out, room), refusal, size);
    int held = holds(out, room, longer->bytes, size);
    return kept(copy, bytes, len) && held && answered;
}

/* Each function that answers of a record's section refuses this one so, whatever else it is told, and writes nothing. */
static int refuses(const uint8_t *bytes, size_t len, uint32_t refusal, size_t words)
{
    int64_t *row = lent(row_edge, unwritten, words * sizeof *row);
    int zeros = is_drawn(fw_draw(bytes, len, 0), refusal, 0.0, 0.0) && is_drawn(fw_draw(bytes, len, INT32_MIN), refusal, 0.0, 0.0) &&
                is_amount(fw_imbalance(bytes, len, 1), refusal, 0) && is_amount(fw_imbalance(bytes, len, 0), refusal, 0) &&
                is_amount(fw_moment(bytes, len, 1), refusal, 0) && is_amount(fw_moment(bytes, len, 0), refusal, 0) &&
                is_amount(fw_shear(bytes, len), refusal, 0) && is_first(fw_first(bytes, len), refusal, 0, 0, 0, 0) &&
                is_listed(fw_depths(bytes, len, row, words), refusal, 0, 0);
    return kept(row, unwritten, words * sizeof *row) && zeros;
}

static int refuses_lent(const uint8_t *bytes, size_t len, uint32_t refusal, size_t words)
{
    uint8_t *copy = lent(edge, bytes, len);
    int refused = refuses(copy, len, refusal, words);
    return kept(copy, bytes, len) && refused;
}

static void a_null_pointer_is_an_empty_record(void)
{
    for (size_t words = 0; words <= WORDS; words++) {
        CHECK(refuses(NULL, 0, 6, words));
        CHECK(refuses_lent(sample, 0, 6, words));
    }
    CHECK(is_listed(fw_depths(NULL, 0, NULL, 0), 6, 0, 0));
}

/* A row of no words, null and not. */
static int lists_nothing(section s, uint32_t refusal, uint32_t count, uint32_t work)
{
    record r = record_of(s);
    uint8_t *copy = lent(edge, r.bytes, r.len);
    int64_t *row = lent(row_edge, unwritten, 0);
    int same = is_listed(fw_depths(copy, r.len, NULL, 0), refusal, count, work) &&
               is_listed(fw_depths(copy, r.len, row, 0), refusal, count, work);
    return kept(row, unwritten, 0) && kept(copy, r.bytes, r.len) && same;
}

static void a_null_row_has_no_words(void)
{
    for (int i = 0; i < LINES; i++)
        CHECK(lists_nothing(wrong_from(lines[i]), lines[i], 0, 0));
    CHECK(lists_nothing(beam, 14, 0, 360600));
    CHECK(lists_nothing(plate, 15, 1, 10000));
}

/* The beam with so many layers, each of a depth and an area of 400 and its number, and with a flange so high. */
static record record_with(uint16_t m, uint16_t hf)
{
    section s = with_flange(beam, hf, 400);
    s.m = m;
    for (uint16_t j = 0; j < LAYERS; j++)
        s.layers[j].depth = s.layers[j].area = 400 + j;
    return record_of(s);
}

/* A record of 0 to 9 layers, without a flange and with one, at every length that one may have and a few more. */
static void a_record_has_its_length(uint16_t hf)
{
    for (uint16_t m = 0; m <= 9; m++) {
        record r = record_with(m, hf);
        for (size_t len = 0; len <= 64; len++) {
            uint8_t *copy = lent(edge, r.bytes, len);
            CHECK(fw_draw(copy, len, 0).refusal == (len == r.len && m <= 8 ? 0 : 6));
            CHECK(kept(copy, r.bytes, len));
            if (len != r.len || m > 8)
                CHECK(refuses_lent(r.bytes, len, 6, WORDS));
        }
    }
}

/* The same, into every room up to that of the longest record and a few more. */
static void a_layer_is_added_within_its_room(uint16_t hf)
{
    for (uint16_t m = 0; m <= 9; m++) {
        record r = record_with(m, hf), longer = record_with(m + 1, hf);
        for (size_t len = 0; len <= 64; len++)
            for (size_t room = 0; room <= 64; room++) {
                uint32_t refusal = len != r.len || m > 8 ? 6 : m == 8 ? 12 : room < longer.len ? 19 : 0;
                CHECK(adds(r.bytes, len, 400 + m, room, refusal, &longer));
            }
    }
}

static void a_refused_section_gives_zeros(void)
{
    for (int i = 0; i < LINES; i++) {
        record r = record_of(wrong_from(lines[i]));
        for (size_t words = 0; words <= WORDS; words++)
            CHECK(refuses_lent(r.bytes, r.len, lines[i], words));
    }
}

/* What is refused 14, 16 and 18 beside what is not, of the two records of the sample. */
static void the_answers_of_a_record(void)
{
    record first = record_of(plate), second = record_of(beam);
    uint8_t *copy = lent(edge, first.bytes, first.len);
    CHECK(is_drawn(fw_draw(copy, first.len, 2000), 0, 2000.0, 17000.0));
    CHECK(is_drawn(fw_draw(copy, first.len, -10001), 18, 0.0, 0.0));
    CHECK(is_drawn(fw_draw(copy, first.len, 3501), 18, 0.0, 0.0));
    CHECK(is_amount(fw_imbalance(copy, first.len, 14), 0, -4957000));
    CHECK(is_amount(fw_imbalance(copy, first.len, 0), 18, 0));
    CHECK(is_amount(fw_imbalance(copy, first.len, 101), 18, 0));
    CHECK(is_amount(fw_moment(copy, first.len, 14), 0, 14476473000));
    CHECK(is_amount(fw_moment(copy, first.len, 0), 18, 0));
    CHECK(is_amount(fw_moment(copy, first.len, 101), 18, 0));
    CHECK(is_first(fw_first(copy, first.len), 0, 14, 2, 1500, 14476473000));
    CHECK(is_amount(fw_shear(copy, first.len), 16, 0));
    CHECK(kept(copy, first.bytes, first.len));
    copy = lent(edge, second.bytes, second.len);
    CHECK(is_first(fw_first(copy, second.len), 14, 0, 0, 360600, 0));
    CHECK(is_amount(fw_shear(copy, second.len), 0, 1069200000));
    CHECK(kept(copy, second.bytes, second.len));
}

static void a_row_has_its_length(void)
{
    static const int64_t list[WORDS] = {14, 2, 14476473000, 7};
    record first = record_of(plate), second = record_of(beam);
    for (size_t words = 0; words <= WORDS; words++) {
        uint8_t *copy = lent(edge, first.bytes, first.len);
        int64_t *row = lent(row_edge, unwritten, words * sizeof *row);
        CHECK(is_listed(fw_depths(copy, first.len, row, words), words < 3 ? 15 : 0, 1, 10000));
        CHECK(kept(row, words < 3 ? unwritten : list, words * sizeof *row));
        CHECK(kept(copy, first.bytes, first.len));
        copy = lent(edge, second.bytes, second.len);
        row = lent(row_edge, unwritten, words * sizeof *row);
        CHECK(is_listed(fw_depths(copy, second.len, row, words), 14, 0, 360600));
        CHECK(kept(row, unwritten, words * sizeof *row));
        CHECK(kept(copy, second.bytes, second.len));
    }
}

/* Where nothing is lent to be read, nothing to be written, or neither. */
static void a_null_pointer_is_no_room(void)
{
    uint8_t out[28];
    CHECK(is_written(fw_add_layer(NULL, 0, 60, 1, out, sizeof out), 6, 0));
    CHECK(is_written(fw_add_layer(NULL, 0, 60, 1, NULL, 0), 6, 0));
    CHECK(is_written(fw_add_layer(sample, 24, 60, 1, NULL, 0), 19, 0));
    CHECK(is_written(fw_add_layer(sample, 24, 60, 0, NULL, 0), 12, 0));
}

/* Whether a series, lent, is answered so: by 0, with its mean as its value, or by a refusal. */
static int strength_is(series s, uint32_t refusal, uint32_t mean)
{
    uint32_t *copy = lent(edge, s.results, s.n * sizeof *copy);
    int answered = is_strength(fw_strength(copy, s.n), refusal, mean, 0, mean);
    return kept(copy, s.results, s.n * sizeof *copy) && answered;
}

/* Any number of results that are equal, that are out of range and whose value would be below 0. */
static void a_series_has_its_length(void)
{
    for (size_t n = 0; n <= MOST; n++) {
        CHECK(strength_is(of_two(n, 4000, 4000), is_column(n) ? 0 : 21, is_column(n) ? 4000 : 0));
        CHECK(strength_is(of_two(n, 4000, 0), is_column(n) ? 22 : 21, 0));
        CHECK(strength_is(of_two(n, 1, 20000), is_column(n) ? 23 : 21, 0));
    }
}

static void a_null_pointer_is_no_results(void)
{
    CHECK(is_strength(fw_strength(NULL, 0), 21, 0, 0, 0));
}

static void a_class_is_of_numbers(void)
{
    fw_class_answer given = fw_class(7100, 8700), refused = fw_class(4000, 1999);
    CHECK(given.refusal == 0 && given.step == 7000 && given.letter == 'd');
    CHECK(refused.refusal == 17 && refused.step == 0 && refused.letter == 0);
}

int main(void)
{
    make_room();
    for (lender = 0; lender < LENDERS; lender++) {
        a_null_pointer_is_an_empty_record();
        a_null_row_has_no_words();
        for (uint16_t hf = 0; hf <= 1; hf++) {
            a_record_has_its_length(hf);
            a_layer_is_added_within_its_room(hf);
        }
        a_refused_section_gives_zeros();
        the_answers_of_a_record();
        a_row_has_its_length();
        a_series_has_its_length();
    }
    a_null_pointer_is_no_room();
    a_null_pointer_is_no_results();
    a_class_is_of_numbers();
    return verdict();
}
