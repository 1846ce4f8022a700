/* Holds the C face to answers that another program worked out: reads cases from standard input, a function's byte, its arguments and the
 * answer that it should give, calls the function and compares. A line for each of the first answers that differ; then
 * 'N held, M not', and exit status 0 only where M is 0. A case that is cut short, or of no known function, ends the reading and is not held.
 *
 *   'c'  fw_class: fR1, fR3, 16 bits each; refusal, step, letter, 32 bits each
 *   'k'  fw_strength: n, 16 bits; n results, 32 bits each; refusal, mean, deviation, value, 32 bits each
 *   'd'  fw_draw: len, 16 bits; a record of len bytes; strain, 32 bits signed; refusal, 32 bits; the bits of strain and stress, 64 each
 *   'i'  fw_imbalance: len and a record likewise; x, 32 bits; refusal, 32 bits; amount, 64 bits signed
 *   'e'  fw_imbalance at every depth from 1 to x: the same, with a refusal and an amount for each
 *   'm'  fw_moment: as 'i'
 *   'f'  fw_first: len and a record likewise; refusal, depth, kind, work, 32 bits each; moment, 64 bits signed
 *   's'  fw_shear: as 'i' without x
 *   'l'  fw_depths: len and a record likewise; words, 16 bits; the row before the call and the row after it, 64 bits a word; refusal,
 *        count and work, 32 bits each
 *   'b'  fw_book: len, 32 bits; a book of len bytes; refusal, count, 32 bits each
 *   'r'  fw_record, of the book of the last 'b' with no 'w' since: number; refusal, at, len, 32 bits each
 *   'w'  fw_write_book: len, 32 bits; records of len bytes in all; room, 32 bits; room bytes before the call and room bytes after it;
 *        refusal and len, 32 bits each
 *   'a'  fw_add_layer: len, 16 bits; a record of len bytes; depth, area, room, 16 bits each; the bytes and the answer as in 'w'
 *
 * Numbers are little-endian, also in a row and as results. Nor is a case held where the record, the book, the records or the results are no
 * longer as they were lent. */
#define _DEFAULT_SOURCE /* for edge.h */

#include "fordwhistle.h"

#include <inttypes.h>

#include "bits.h"
#include "cases.h"
#include "series.h"

static unsigned long held, not_held;

static int class_held(void)
{
    uint16_t fr1 = (uint16_t)number(2), fr3 = (uint16_t)number(2);
    uint32_t refusal = (uint32_t)number(4), step = (uint32_t)number(4), letter = (uint32_t)number(4);
    fw_class_answer answer = fw_class(fr1, fr3);
    if (answer.refusal == refusal && answer.step == step && answer.letter == letter)
        return 1;
    if (told())
        printf("fw_class(%u, %u) gives %u, %u, %u and not %u, %u, %u\n", fr1, fr3, answer.refusal, answer.step, answer.letter, refusal,
               step, letter);
    return 0;
}

/* The results are lent in a record's room, whose edge is that of a page, so that they are aligned. */
static int strength_held(void)
{
    size_t n = (size_t)number(2);
    const uint32_t *results = (const void *)lend(&record_lent, n * sizeof *results);
    uint32_t refusal = (uint32_t)number(4), mean = (uint32_t)number(4), deviation = (uint32_t)number(4), value = (uint32_t)number(4);
    fw_strength_answer answer = fw_strength(results, n);
    if (is_strength(answer, refusal, mean, deviation, value))
        return 1;
    if (told()) {
        printf("fw_strength(");
        print_start(record_lent.as_lent, record_lent.len);
        printf(", %zu) gives %u, %u, %u, %u and not %u, %u, %u, %u\n", n, answer.refusal, answer.mean, answer.deviation, answer.value,
               refusal, mean, deviation, value);
    }
    return 0;
}

static int draw_held(void)
{
    size_t len = (size_t)number(2);
    const uint8_t *record = lend(&record_lent, len);
    int32_t strain = (int32_t)number(4);
    uint32_t refusal = (uint32_t)number(4);
    uint64_t at = number(8), stress = number(8);
    fw_drawn drawn = fw_draw(record, len, strain);
    if (drawn.refusal == refusal && bits_of(drawn.point.strain) == at && bits_of(drawn.point.stress) == stress)
        return 1;
    if (told()) {
        printf("fw_draw(");
        print_start(record, len);
        printf(", %zu, %" PRId32 ") gives %u, %016" PRIx64 ", %016" PRIx64 " and not %u, %016" PRIx64 ", %016" PRIx64 "\n", len, strain,
               drawn.refusal, bits_of(drawn.point.strain), bits_of(drawn.point.stress), refusal, at, stress);
    }
    return 0;
}

/* Whether the answer that comes next is this one. x is null where the function takes no depth. */
static int amount_held(fw_amount answer, const char *name, const uint8_t *record, size_t len, const uint32_t *x)
{
    uint32_t refusal = (uint32_t)number(4);
    int64_t amount = (int64_t)number(8);
    if (answer.refusal == refusal && answer.amount == amount)
        return 1;
    if (told()) {
        printf("%s(", name);
        print_start(record, len);
        printf(", %zu", len);
        if (x != NULL)
            printf(", %u", *x);
        printf(") gives %u, %" PRId64 " and not %u, %" PRId64 "\n", answer.refusal, answer.amount, refusal, amount);
    }
    return 0;
}

/* At the depth that comes next, or at every one from 1 to it. */
static int amount_at_held(const char *name, fw_amount (*function)(const uint8_t *, size_t, uint32_t), int every)
{
    size_t len = (size_t)number(2);
    const uint8_t *record = lend(&record_lent, len);
    uint32_t last = (uint32_t)number(4), x = every ? 1 : last;
    int all = 1;
    do
        all &= amount_held(function(record, len, x), name, record, len, &x);
    while (x++ < last && !broken);
    return all;
}

static int first_held(void)
{
    size_t len = (size_t)number(2);
    const uint8_t *record = lend(&record_lent, len);
    uint32_t refusal = (uint32_t)number(4), depth = (uint32_t)number(4), kind = (uint32_t)number(4), work = (uint32_t)number(4);
    int64_t moment = (int64_t)number(8);
    fw_first_depth first = fw_first(record, len);
    if (first.refusal == refusal && first.depth == depth && first.kind == kind && first.work == work && first.moment == moment)
        return 1;
    if (told()) {
        printf("fw_first(");
        print_start(record, len);
        printf(", %zu) gives %u, %u, %u, %u, %" PRId64 " and not %u, %u, %u, %u, %" PRId64 "\n", len, first.refusal, first.depth,
               first.kind, first.work, first.moment, refusal, depth, kind, work, moment);
    }
    return 0;
}

static int shear_held(void)
{
    size_t len = (size_t)number(2);
    const uint8_t *record = lend(&record_lent, len);
    return amount_held(fw_shear(record, len), "fw_shear", record, len, NULL);
}

/* Whether the two numbers that come next are these, and each byte of what was lent to be written is what it should be. layer is null where
 * the function takes none. */
static int written_held(uint32_t refusal, uint32_t len, const char *name, const uint16_t *layer)
{
    uint32_t right_refusal = (uint32_t)number(4), right_len = (uint32_t)number(4);
    size_t at = wrong_byte(), end = BEFORE + to_write.len;
    if (refusal == right_refusal && len == right_len && at == end)
        return 1;
    if (told()) {
        printf("%s(", name);
        print_start(in_hand->as_lent, in_hand->len);
        printf(", %zu", in_hand->len);
        if (layer != NULL)
            printf(", %u, %u", layer[0], layer[1]);
        printf(", and %zu bytes to write) gives %u, %u and not %u, %u", to_write.len, refusal, len, right_refusal, right_len);
        if (at < end)
            printf(", and byte %td is %u and not %u", (ptrdiff_t)at - BEFORE, (to_write.edge - end)[at], to_write.after[at]);
        puts("");
    }
    return 0;
}

static int depths_held(void)
{
    size_t len = (size_t)number(2);
    const uint8_t *record = lend(&record_lent, len);
    size_t words = (size_t)number(2);
    int64_t *row = lend_to_write(words * sizeof *row);
    fw_listed answer = fw_depths(record, len, row, words);
    int same = written_held(answer.refusal, answer.count, "fw_depths", NULL);
    uint32_t work = (uint32_t)number(4);
    if (answer.work == work)
        return same;
    if (told()) {
        printf("fw_depths(");
        print_start(record, len);
        printf(", %zu, and %zu words to write) reports work %u and not %u\n", len, words, answer.work, work);
    }
    return 0;
}

static int write_book_held(void)
{
    size_t len = length();
    const uint8_t *records = lend(&book_lent, len);
    size_t room = length();
    uint8_t *book = lend_to_write(room);
    fw_written answer = fw_write_book(records, len, book, room);
    return written_held(answer.refusal, answer.len, "fw_write_book", NULL);
}

static int add_layer_held(void)
{
    size_t len = (size_t)number(2);
    const uint8_t *record = lend(&record_lent, len);
    uint16_t depth = (uint16_t)number(2), area = (uint16_t)number(2), layer[] = {depth, area};
    size_t room = (size_t)number(2);
    uint8_t *out = lend_to_write(room);
    fw_written answer = fw_add_layer(record, len, depth, area, out, room);
    return written_held(answer.refusal, answer.len, "fw_add_layer", layer);
}

static int book_held(void)
{
    size_t len = length();
    const uint8_t *book = lend(&book_lent, len);
    uint32_t refusal = (uint32_t)number(4), count = (uint32_t)number(4);
    fw_book_answer answer = fw_book(book, len);
    if (answer.refusal == refusal && answer.count == count)
        return 1;
    if (told()) {
        printf("fw_book(");
        print_start(book, len);
        printf(", %zu) gives %u, %u and not %u, %u\n", len, answer.refusal, answer.count, refusal, count);
    }
    return 0;
}

static int record_held(void)
{
    const uint8_t *book = take(&book_lent);
    uint32_t asked = (uint32_t)number(4);
    uint32_t refusal = (uint32_t)number(4), at = (uint32_t)number(4), len = (uint32_t)number(4);
    fw_record_answer answer = fw_record(book, book_lent.len, asked);
    if (answer.refusal == refusal && answer.at == at && answer.len == len)
        return 1;
    if (told()) {
        printf("fw_record(");
        print_start(book, book_lent.len);
        printf(", %zu, %u) gives %u, %u, %u and not %u, %u, %u\n", book_lent.len, asked, answer.refusal, answer.at, answer.len, refusal,
               at, len);
    }
    return 0;
}

static int case_held(int function)
{
    switch (function) {
    case 'c': return class_held();
    case 'k': return strength_held();
    case 'd': return draw_held();
    case 'i': return amount_at_held("fw_imbalance", fw_imbalance, 0);
    case 'e': return amount_at_held("fw_imbalance", fw_imbalance, 1);
    case 'm': return amount_at_held("fw_moment", fw_moment, 0);
    case 'f': return first_held();
    case 's': return shear_held();
    case 'l': return depths_held();
    case 'b': return book_held();
    case 'r': return record_held();
    case 'w': return write_book_held();
    case 'a': return add_layer_held();
    }
    printf("no function is '%c'\n", function);
    broken = 1;
    return 0;
}

/* Whether nothing was written into what is in hand. */
static int unchanged(int function)
{
    if (in_hand == NULL || memcmp(in_hand->edge - in_hand->len, in_hand->as_lent, in_hand->len) == 0)
        return 1;
    if (told())
        printf("the function of '%c' has written into what it was lent\n", function);
    return 0;
}

int main(void)
{
    record_lent.edge = edge_of(ROOM);
    book_lent.edge = edge_of(ROOM);
    to_write.edge = edge_of(ROOM + PAGES);
    if (record_lent.edge == NULL || book_lent.edge == NULL || to_write.edge == NULL) {
        puts("no room for a record, a book and a row");
        return 1;
    }
    for (int function; !broken && (function = getchar()) != EOF;) {
        in_hand = NULL;
        if (case_held(function) && unchanged(function) && !broken)
            held++;
        else
            not_held++;
    }
    if (broken)
        puts("the last case can't be read");
    printf("%lu held, %lu not\n", held, not_held);
    return not_held != 0;
}
