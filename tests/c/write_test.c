/* fw_write_book as the panel's program calls it: document 01's book, the shortest and the longest, what is written otherwise than it came,
 * and each refusal with its limits. */
#include "fordwhistle.h"

#include "book.h"
#include "check.h"
#include "sections.h"

/* What each lent byte holds before the call. */
enum { UNWRITTEN = 0xa5 };

/* Records one after another, as many as three times the longest book and a few bytes; and what is lent for their book. */
static uint8_t records[3 * LONGEST + 64], lent[LONGEST + 64];

static const section eight = {.b = 1999, .h = 999, .fck = 45, .fyk = 599, .feq2 = 19871, .feq3 = 10886, .load = -1602589, .asw = 1570,
                              .s = 300, .m = 8, .layers = {{40, 402}, {110, 226}, {180, 300}, {250, 301}, {330, 302}, {410, 303},
                              {500, 628}, {550, 65535}}};

static int stays(size_t from)
{
    for (size_t i = from; i < sizeof lent; i++)
        if (lent[i] != UNWRITTEN)
            return 0;
    return 1;
}

/* Whether these records give in so much room just this refusal, or this book, and no other byte is written. */
static int gives(size_t room, const uint8_t *bytes, size_t len, uint32_t refusal, const uint8_t *expected, size_t written)
{
    fw_written answer;
    memset(lent, UNWRITTEN, sizeof lent);
    answer = fw_write_book(bytes, len, lent, room);
    return answer.refusal == refusal && answer.len == written && memcmp(lent, expected, written) == 0 && stays(written);
}

/* In a room that is just its own and in one that is larger; a byte less is too little. */
static int writes(const uint8_t *bytes, size_t len, const uint8_t *expected, size_t written)
{
    return gives(written, bytes, len, 0, expected, written) && gives(sizeof lent, bytes, len, 0, expected, written) &&
           gives(written - 1, bytes, len, 19, expected, 0);
}

/* Refused whether the room is ample or none. */
static int refuses(const uint8_t *bytes, size_t len, uint32_t refusal)
{
    return gives(sizeof lent, bytes, len, refusal, bytes, 0) && gives(0, bytes, len, refusal, bytes, 0);
}

/* The length of so many records of one section, written to `records`. */
static size_t repeat(section s, size_t n)
{
    record r = record_of(s);
    for (size_t k = 0; k < n; k++)
        memcpy(records + k * r.len, r.bytes, r.len);
    return n * r.len;
}

/* Takes the bar strength from a record of `records`, all of them of 24 bytes. */
static void weaken(size_t number)
{
    put(records + 24 * number + 6, 2, 0);
}

static void the_sample(void)
{
    CHECK(writes(sample, 52, sample, sizeof sample));
}

static void no_section_is_a_book(void)
{
    static const uint8_t none[16] = {0, 0, 0, 0, 0, 0, 0, 0, 0x10, 0, 0, 0, 'B', 'O', 'O', 'K'};
    CHECK(writes(sample, 0, none, sizeof none));
}

/* Of 0 to 8 layers, without a flange and with one, and each of another height. The records are the head of their book. */
static void sections_are_written_in_order(void)
{
    book b = {0};
    size_t len;
    for (uint16_t k = 0; k < 18; k++) {
        section s = eight;
        s.m = k % 9;
        s.h = 50 + k;
        if (k >= 9)
            s = with_flange(s, k, 2000);
        for (uint16_t j = 0; j < s.m; j++)
            s.layers[j].depth = (uint16_t)(41 + k + j);
        add_record(&b, s);
    }
    len = b.len;
    add_index(&b);
    CHECK(writes(b.bytes, len, b.bytes, b.len));
}

/* 2340 records of 24 bytes, or 1092 of 56, are the longest book. A longer one is refused though there is room for it. */
static void a_book_has_a_greatest_length(void)
{
    CHECK(writes(records, repeat(plate, 2340), book_of(plate, 2340)->bytes, LONGEST));
    CHECK(refuses(records, repeat(plate, 2341), 19));
    CHECK(writes(records, repeat(eight, 1092), book_of(eight, 1092)->bytes, LONGEST));
    CHECK(refuses(records, repeat(eight, 1093), 19));
}

static int writes_as(section s, section expected)
{
    record r = record_of(s);
    book *b = book_of(expected, 1);
    return writes(r.bytes, r.len, b->bytes, b->len);
}

/* An area of 256 has a first byte of 0. */
static void without_stirrups_there_is_no_spacing(void)
{
    CHECK(writes_as(with_stirrups(plate, 0, 7), plate));
    CHECK(writes_as(with_stirrups(beam, 0, UINT16_MAX), beam));
    CHECK(writes_as(with_stirrups(rib, 0, 7), rib));
    CHECK(writes_as(with_stirrups(plate, 256, 7), with_stirrups(plate, 256, 7)));
    CHECK(writes_as(with_stirrups(plate, 1, 256), with_stirrups(plate, 1, 256)));
}

/* Where the book would be too long as well. */
static void a_bad_section_comes_before_the_room(void)
{
    size_t len = repeat(plate, 3000);
    CHECK(refuses(records, len, 19));
    weaken(2);
    CHECK(refuses(records, len, 9));
}

/* Behind good ones and before worse, the last of which may be cut. */
static void the_first_bad_section_refuses(void)
{
    for (int i = 0; i < LINES; i++) {
        uint32_t line = lines[i];
        book b = {0};
        add_record(&b, plate);
        add_record(&b, wrong_from(0));
        add_record(&b, wrong_from(line));
        CHECK(refuses(b.bytes, b.len, line));
        add_record(&b, wrong_from(line == 6 ? 13 : 6));
        add_record(&b, wrong_from(7));
        CHECK(refuses(b.bytes, b.len, line));
        CHECK(refuses(b.bytes, b.len - 1, line));
    }
}

/* Where its four bytes are left out, those of the next record are taken for them, and the zero is not zero. */
static void a_flange_takes_four_bytes(void)
{
    size_t len = repeat(plate, 2);
    put(records + 22, 2, 7);
    CHECK(refuses(records, len, 6));
}

/* 256 is a layer count of 0 in its first byte, 16384 is one where four times as much is cut to 16 bits. There are bytes enough after the
 * record for its layers. */
static void a_layer_count_has_its_limit(void)
{
    static const uint16_t counts[] = {9, 10, 256, 16384};
    for (size_t i = 0; i < sizeof counts / sizeof *counts; i++) {
        size_t len = repeat(plate, 9);
        put(records + 24 + 20, 2, counts[i]);
        CHECK(refuses(records, len, 6));
    }
}

/* By a length that is cut to 0 in 16 bits, and more. */
static void the_records_may_be_longer_than_a_book(void)
{
    size_t len = repeat(plate, 3 * LONGEST / 24);
    CHECK(len == 3 * LONGEST && refuses(records, len, 19));
    for (size_t more = 1; more < 24; more++)
        CHECK(refuses(records, len + more, 6));
    weaken(3 * LONGEST / 24 - 1);
    CHECK(refuses(records, len, 9));
    CHECK(refuses(records, len + 1, 9));
}

int main(void)
{
    the_sample();
    no_section_is_a_book();
    sections_are_written_in_order();
    a_book_has_a_greatest_length();
    without_stirrups_there_is_no_spacing();
    a_bad_section_comes_before_the_room();
    the_first_bad_section_refuses();
    a_flange_takes_four_bytes();
    a_layer_count_has_its_limit();
    the_records_may_be_longer_than_a_book();
    return verdict();
}
