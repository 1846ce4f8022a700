/* The functions of the header that take a book or write one, on buffers of just the size that they are told, of all short sizes and the
 * longest, and on null where that is 0; with what they hold after the call (lender.h). */
#define _DEFAULT_SOURCE /* for edge.h */

#include "lender.h"

#include "sections.h"

/* Two records, one after the other: where they start, and where the second ends. */
typedef struct {
    uint32_t places[3];
    uint8_t bytes[64];
} pair;

static pair pair_of(section first, section second)
{
    record r = record_of(first), then = record_of(second);
    pair p = {.places = {0, (uint32_t)r.len, (uint32_t)(r.len + then.len)}};
    memcpy(p.bytes, r.bytes, r.len);
    memcpy(p.bytes + r.len, then.bytes, then.len);
    return p;
}

static int is_counted(fw_book_answer answer, uint32_t refusal, uint32_t count)
{
    return answer.refusal == refusal && answer.count == count;
}

static int is_found(fw_record_answer answer, uint32_t refusal, uint32_t at, uint32_t len)
{
    return answer.refusal == refusal && answer.at == at && answer.len == len;
}

/* Whether these records, lent, are refused so in this room, or become this book where the number is 0. */
static int writes(const uint8_t *records, size_t len, size_t room, uint32_t refusal, const book *b)
{
    uint32_t size = refusal == 0 ? (uint32_t)b->len : 0;
    uint8_t *copy = lent(edge, records, len), *out = lent(row_edge, blank, room);
    int answered = is_written(fw_write_book(copy, len, out, room), refusal, size);
    int held = holds(out, room, b->bytes, size);
    return kept(copy, records, len) && held && answered;
}

/* Both functions that take a book refuse this one so, whichever record is asked for. */
static int refuses_book(const uint8_t *bytes, size_t len, uint32_t refusal)
{
    return is_counted(fw_book(bytes, len), refusal, 0) && is_found(fw_record(bytes, len, 0), refusal, 0, 0) &&
           is_found(fw_record(bytes, len, UINT32_MAX), refusal, 0, 0);
}

static int refuses_lent_book(const uint8_t *bytes, size_t len, uint32_t refusal)
{
    uint8_t *copy = lent(edge, bytes, len);
    int refused = refuses_book(copy, len, refusal);
    return kept(copy, bytes, len) && refused;
}

static void a_null_pointer_is_an_empty_book(void)
{
    CHECK(refuses_book(NULL, 0, 1));
    CHECK(refuses_lent_book(sample, 0, 1));
}

static void a_refused_section_is_not_written(void)
{
    for (int i = 0; i < LINES; i++) {
        record r = record_of(wrong_from(lines[i]));
        for (size_t room = 0; room <= 80; room++)
            CHECK(writes(r.bytes, r.len, room, lines[i], book_of(plate, 0)));
    }
}

/* The sample cut, and with zeros after it. */
static void a_book_has_its_length(void)
{
    uint8_t bytes[80] = {0};
    memcpy(bytes, sample, sizeof sample);
    for (size_t len = 0; len <= sizeof bytes; len++)
        if (len != sizeof sample)
            CHECK(refuses_lent_book(bytes, len, 1));
}

static int is_good(const book *b, const uint32_t *places, uint32_t n)
{
    uint8_t *copy = lent(edge, b->bytes, b->len);
    int good = is_counted(fw_book(copy, b->len), 0, n) && is_found(fw_record(copy, b->len, n), 5, 0, 0);
    for (uint32_t k = 0; k < n; k++)
        good = good && is_found(fw_record(copy, b->len, k), 0, places[k], places[k + 1] - places[k]);
    return kept(copy, b->bytes, b->len) && good;
}

/* As much of two records as comes before an index of n, and right last 16 bytes. */
static void a_book_is_read_within_its_length(pair p)
{
    for (uint32_t len = 16; len <= 88; len++)
        for (uint32_t n = 0; 16 + 4 * n <= len; n++) {
            uint32_t index = len - 16 - 4 * n;
            book b = {0};
            memcpy(b.bytes, p.bytes, sizeof p.bytes);
            b.len = index;
            for (uint32_t k = 0; k < n; k++)
                add_number(&b, p.places[k < 2 ? k : 2]);
            add_end(&b, index, n);
            if (n <= 2 && index == p.places[n])
                CHECK(is_good(&b, p.places, n));
            else
                CHECK(refuses_lent_book(b.bytes, b.len, 4));
        }
}

/* Two records cut, and with bytes after them, into every room up to that of their book and a few more. */
static void a_book_is_written_within_its_room(pair p)
{
    for (size_t len = 0; len <= sizeof p.bytes; len++) {
        int whole = len == 0 || len == p.places[1] || len == p.places[2];
        book b = {0};
        if (whole) {
            memcpy(b.bytes, p.bytes, len);
            b.len = len;
            add_index(&b);
        }
        for (size_t room = 0; room <= 88; room++)
            CHECK(writes(p.bytes, len, room, !whole ? 6 : room < b.len ? 19 : 0, &b));
    }
}

/* Where nothing is lent to be read, nothing to be written, or neither. */
static void a_null_pointer_is_no_room(void)
{
    uint8_t out[16];
    CHECK(is_written(fw_write_book(NULL, 0, out, sizeof out), 0, 16));
    CHECK(is_written(fw_write_book(NULL, 0, NULL, 0), 19, 0));
    CHECK(is_written(fw_write_book(sample, 52, NULL, 0), 19, 0));
    CHECK(is_written(fw_write_book(sample, 51, NULL, 0), 6, 0));
}

/* The sample, wrong in one line each. */
static void a_refused_book_gives_zeros(void)
{
    static const struct {
        uint32_t refusal;
        size_t at;
        uint8_t byte;
    } wrong[] = {{1, 68, 77}, {2, 75, 'C'}, {3, 64, 3}, {4, 20, 1}};
    for (size_t i = 0; i < sizeof wrong / sizeof *wrong; i++) {
        uint8_t bytes[sizeof sample];
        memcpy(bytes, sample, sizeof sample);
        bytes[wrong[i].at] = wrong[i].byte;
        CHECK(refuses_lent_book(bytes, sizeof bytes, wrong[i].refusal));
    }
}

static void the_longest_book(void)
{
    const book *b = book_of(plate, 2340);
    uint8_t *copy = lent(edge, b->bytes, LONGEST);
    CHECK(is_counted(fw_book(copy, LONGEST), 0, 2340) && is_found(fw_record(copy, LONGEST, 2339), 0, 56136, 24));
    CHECK(kept(copy, b->bytes, LONGEST));
    CHECK(writes(b->bytes, 56160, LONGEST, 0, b));
}

int main(void)
{
    const pair rectangles = pair_of(plate, beam), ribs = pair_of(with_flange(plate, 7, 1000), rib);
    make_room();
    for (lender = 0; lender < LENDERS; lender++) {
        a_null_pointer_is_an_empty_book();
        a_refused_section_is_not_written();
        a_book_has_its_length();
        a_book_is_read_within_its_length(rectangles);
        a_book_is_read_within_its_length(ribs);
        a_book_is_written_within_its_room(rectangles);
        a_book_is_written_within_its_room(ribs);
        a_refused_book_gives_zeros();
        the_longest_book();
    }
    a_null_pointer_is_no_room();
    return verdict();
}
