/* fw_book and fw_record as the panel's program calls them: document 01's book, the shortest and the longest, and each refusal with its
 * limits. */
#include "fordwhistle.h"

#include "book.h"
#include "check.h"
#include "sections.h"

static const section nine = {.b = 50, .h = 250, .fck = 30, .fyk = 500, .m = 9,
                             .layers = {{10, 1}, {20, 1}, {30, 1}, {40, 1}, {50, 1}, {60, 1}, {70, 1}, {80, 1}, {200, 1}}};

static int counts(const uint8_t *bytes, size_t len, uint32_t refusal, uint32_t count)
{
    fw_book_answer answer = fw_book(bytes, len);
    return answer.refusal == refusal && answer.count == count;
}

static int finds(const uint8_t *bytes, size_t len, uint32_t number, uint32_t refusal, uint32_t at, uint32_t part)
{
    fw_record_answer answer = fw_record(bytes, len, number);
    return answer.refusal == refusal && answer.at == at && answer.len == part;
}

/* Refused by both functions, whether there is such a record or not. */
static int refuses(const uint8_t *bytes, size_t len, uint32_t refusal)
{
    return counts(bytes, len, refusal, 0) && finds(bytes, len, 0, refusal, 0, 0) && finds(bytes, len, UINT32_MAX, refusal, 0, 0);
}

/* The sample with another number in it, or with two. */
static int refuses_with_both(size_t at, uint32_t number, size_t then_at, uint32_t then_number, uint32_t refusal)
{
    uint8_t bytes[sizeof sample];
    memcpy(bytes, sample, sizeof sample);
    put(bytes + at, 4, number);
    put(bytes + then_at, 4, then_number);
    return refuses(bytes, sizeof bytes, refusal);
}

static int refuses_with(size_t at, uint32_t number, uint32_t refusal)
{
    return refuses_with_both(at, number, at, number, refusal);
}

static void the_sample(void)
{
    record first = record_of(plate), second = record_of(beam);
    CHECK(counts(sample, sizeof sample, 0, 2));
    CHECK(finds(sample, sizeof sample, 0, 0, 0, 24));
    CHECK(finds(sample, sizeof sample, 1, 0, 24, 28));
    CHECK(memcmp(sample, first.bytes, first.len) == 0);
    CHECK(memcmp(sample + 24, second.bytes, second.len) == 0);
}

static void a_number_has_its_limit(void)
{
    CHECK(finds(sample, sizeof sample, 2, 5, 0, 0));
    CHECK(finds(sample, sizeof sample, 3, 5, 0, 0));
    CHECK(finds(sample, sizeof sample, 65536, 5, 0, 0));
    CHECK(finds(sample, sizeof sample, 0x40000000, 5, 0, 0));
    CHECK(finds(sample, sizeof sample, 0x80000001, 5, 0, 0));
    CHECK(finds(sample, sizeof sample, UINT32_MAX, 5, 0, 0));
}

/* 16 bytes with the index at 0. */
static void a_book_may_have_no_records(void)
{
    book b = {0};
    add_end(&b, 0, 0);
    CHECK(b.len == 16 && counts(b.bytes, b.len, 0, 0));
    CHECK(finds(b.bytes, b.len, 0, 5, 0, 0));
    CHECK(finds(b.bytes, b.len, UINT32_MAX, 5, 0, 0));
}

/* A part of the sample states the length of the whole, or what is no length. Without its first byte the smallest book has 15, and states
 * that. */
static void a_book_has_a_least_length(void)
{
    static const uint8_t fifteen[15] = {0, 0, 0, 0, 0, 0, 0, 15, 0, 0, 0, 'B', 'O', 'O', 'K'};
    for (size_t len = 0; len < sizeof sample; len++) {
        CHECK(refuses(sample, len, 1));
        CHECK(refuses(sample + sizeof sample - len, len, 1));
    }
    CHECK(refuses(fifteen, 15, 1));
}

/* 2340 records of 24 bytes, or 1092 of 56, are the longest book. A longer one is refused where nothing else is wrong with it, and by a
 * byte too. */
static void a_book_has_a_greatest_length(void)
{
    section eight = nine;
    book *b;
    eight.m = 8;
    CHECK(book_of(plate, 2340)->len == LONGEST);
    CHECK(counts(book_of(plate, 2340)->bytes, LONGEST, 0, 2340));
    CHECK(finds(book_of(plate, 2340)->bytes, LONGEST, 2339, 0, 56136, 24));
    CHECK(finds(book_of(plate, 2340)->bytes, LONGEST, 2340, 5, 0, 0));
    CHECK(counts(book_of(eight, 1092)->bytes, LONGEST, 0, 1092));
    CHECK(finds(book_of(eight, 1092)->bytes, LONGEST, 1091, 0, 61096, 56));
    CHECK(refuses(book_of(plate, 2341)->bytes, LONGEST + 28, 1));
    b = book_of(plate, 2340);
    b->len = LONGEST + 1 - 16;
    add_end(b, LONGEST + 1 - 16, 0);
    CHECK(b->len == LONGEST + 1 && refuses(b->bytes, b->len, 1));
}

static void a_length_is_stated(void)
{
    CHECK(refuses_with(68, 75, 1));
    CHECK(refuses_with(68, 77, 1));
    CHECK(refuses_with(68, 0, 1));
    CHECK(refuses_with(68, 65536 + 76, 1));
    CHECK(refuses_with(68, 0x8000004c, 1));
    CHECK(refuses_with(68, UINT32_MAX, 1));
}

/* With each bit of them changed, and from the last to the first. */
static void four_letters_end_a_book(void)
{
    for (uint32_t bit = 0; bit < 32; bit++)
        CHECK(refuses_with(72, 0x4b4f4f42 ^ (uint32_t)1 << bit, 2));
    CHECK(refuses_with(72, 0x424f4f4b, 2));
}

/* Three of these sums are the length in 32 bits. */
static void an_index_ends_where_the_last_16_bytes_start(void)
{
    CHECK(refuses_with(60, 51, 3));
    CHECK(refuses_with(60, 53, 3));
    CHECK(refuses_with(60, 56, 3));
    CHECK(refuses_with(60, 65536 + 52, 3));
    CHECK(refuses_with(60, UINT32_MAX, 3));
    CHECK(refuses_with(64, 0, 3));
    CHECK(refuses_with(64, 1, 3));
    CHECK(refuses_with(64, 3, 3));
    CHECK(refuses_with(64, 65536 + 2, 3));
    CHECK(refuses_with(64, UINT32_MAX, 3));
    CHECK(refuses_with(64, 0x40000002, 3));
    CHECK(refuses_with_both(60, 0xfffffffc, 64, 16, 3));
    CHECK(refuses_with_both(60, 64, 64, UINT32_MAX, 3));
}

/* In the sample with another index and n that make up its length, and in a book of the plate and of bytes that are in no record. */
static void the_index_starts_where_the_last_record_ends(void)
{
    CHECK(refuses_with_both(60, 60, 64, 0, 4));
    CHECK(refuses_with_both(60, 56, 64, 1, 4));
    CHECK(refuses_with_both(60, 48, 64, 3, 4));
    CHECK(refuses_with_both(60, 0, 64, 15, 4));
    for (uint32_t more = 1; more <= 28; more++) {
        book b = {0};
        add_record(&b, plate);
        b.len += more;
        add_number(&b, 0);
        add_end(&b, 24 + more, 1);
        CHECK(refuses(b.bytes, b.len, 4));
    }
}

/* The sample's places are at 52 and 56. */
static void a_record_is_at_its_place(void)
{
    static const uint32_t first[] = {1, 4, 24, 52, 65536, 0x80000000, UINT32_MAX};
    static const uint32_t second[] = {0, 20, 23, 25, 28, 52, 65536 + 24, 0x80000018, UINT32_MAX - 23, UINT32_MAX};
    for (size_t i = 0; i < sizeof first / sizeof *first; i++)
        CHECK(refuses_with(52, first[i], 4));
    for (size_t i = 0; i < sizeof second / sizeof *second; i++)
        CHECK(refuses_with(56, second[i], 4));
    CHECK(refuses_with_both(52, 24, 56, 0, 4));
    CHECK(refuses_with_both(52, 24, 56, 24, 4));
}

/* The beam stops short of the index, or runs past it. 257 has a layer count of 1 in its first byte, 16385 is one where four times as much
 * is cut to 16 bits. A flange height is in the upper 16 bits: 7, and 256, which has a first byte of 0. */
static void a_record_ends_where_the_next_starts(void)
{
    static const uint32_t layers[] = {0, 2, 8, 9, 257, 16385, 65535}, flanges[] = {7u << 16, 256u << 16};
    for (size_t i = 0; i < sizeof layers / sizeof *layers; i++)
        CHECK(refuses_with(44, layers[i], 4));
    CHECK(refuses_with(20, 1, 4));
    CHECK(refuses_with(20, 7, 4));
    for (size_t i = 0; i < sizeof flanges / sizeof *flanges; i++) {
        CHECK(refuses_with(20, flanges[i], 4));
        CHECK(refuses_with(44, flanges[i] + 1, 4));
    }
}

/* What it is, and its zero, are not looked at. */
static void a_flange_takes_four_bytes(void)
{
    book b = {0};
    section s = with_flange(rib, UINT16_MAX, 0);
    s.zero = UINT16_MAX;
    add_record(&b, rib);
    add_record(&b, plate);
    add_record(&b, with_flange(plate, 256, 1000));
    add_record(&b, s);
    add_index(&b);
    CHECK(counts(b.bytes, b.len, 0, 4));
    CHECK(finds(b.bytes, b.len, 0, 0, 0, 32));
    CHECK(finds(b.bytes, b.len, 1, 0, 32, 24));
    CHECK(finds(b.bytes, b.len, 2, 0, 56, 28));
    CHECK(finds(b.bytes, b.len, 3, 0, 84, 32));
}

/* The index starts within its first 24 bytes. */
static void a_record_that_is_cut_runs_past_the_index(void)
{
    for (uint32_t index = 0; index < 24; index++) {
        book b = {0};
        b.len = index;
        add_number(&b, 0);
        add_end(&b, index, 1);
        CHECK(refuses(b.bytes, b.len, 4));
    }
}

/* All else is right. */
static void nine_layers_are_refused(void)
{
    book b = {0};
    CHECK(refuses(book_of(nine, 1)->bytes, book_of(nine, 1)->len, 4));
    add_record(&b, plate);
    add_record(&b, beam);
    add_record(&b, nine);
    add_index(&b);
    CHECK(refuses(b.bytes, b.len, 4));
}

/* Whichever record is asked for, all are looked at. */
static void each_record_of_many_is_looked_at(void)
{
    for (uint32_t k = 0; k < 2340; k += 9) {
        book *b = book_of(plate, 2340);
        b->bytes[24 * k + 20] = 9;
        CHECK(refuses(b->bytes, LONGEST, 4));
        b->bytes[24 * k + 20] = 0;
        put(b->bytes + 56160 + 4 * k, 4, 24 * k + 4);
        CHECK(refuses(b->bytes, LONGEST, 4));
    }
}

/* The longest book, wrong in this line of the table of refusals, 1 to 4, and in each after it. */
static book *wrong_book_from(uint32_t line)
{
    book *b = book_of(plate, 2340);
    uint8_t *end = b->bytes + LONGEST;
    if (line <= 4)
        b->bytes[20] = 9;
    if (line <= 3)
        put(end - 12, 4, 2339);
    if (line <= 2)
        end[-1] = 'C';
    if (line <= 1)
        put(end - 8, 4, LONGEST - 1);
    return b;
}

static void the_first_line_that_holds_refuses(void)
{
    for (uint32_t line = 1; line <= 4; line++)
        CHECK(refuses(wrong_book_from(line)->bytes, LONGEST, line));
    CHECK(counts(wrong_book_from(5)->bytes, LONGEST, 0, 2340));
    CHECK(finds(wrong_book_from(5)->bytes, LONGEST, 2340, 5, 0, 0));
    CHECK(refuses(wrong_book_from(2)->bytes, LONGEST + 1, 1));
}

int main(void)
{
    the_sample();
    a_number_has_its_limit();
    a_book_may_have_no_records();
    a_book_has_a_least_length();
    a_book_has_a_greatest_length();
    a_length_is_stated();
    four_letters_end_a_book();
    an_index_ends_where_the_last_16_bytes_start();
    the_index_starts_where_the_last_record_ends();
    a_record_is_at_its_place();
    a_record_ends_where_the_next_starts();
    a_flange_takes_four_bytes();
    a_record_that_is_cut_runs_past_the_index();
    nine_layers_are_refused();
    each_record_of_many_is_looked_at();
    the_first_line_that_holds_refuses();
    return verdict();
}
