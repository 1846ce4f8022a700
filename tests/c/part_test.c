/* Records that fw_record finds in a book, handed on as they are to the functions that take a record. */
#include "fordwhistle.h"

#include "bits.h"
#include "book.h"
#include "check.h"
#include "sections.h"

/* Words of a row, more than any list here has. */
enum { WORDS = 32 };

/* Whether a part of a book is answered as its section's record is that stands alone. */
static int answers_alike(const uint8_t *part, size_t len, section s)
{
    record r = record_of(s);
    int64_t row[WORDS] = {0}, alone_row[WORDS] = {0};
    fw_drawn drawn = fw_draw(part, len, -141), alone_drawn = fw_draw(r.bytes, r.len, -141);
    fw_listed listed = fw_depths(part, len, row, WORDS), alone_listed = fw_depths(r.bytes, r.len, alone_row, WORDS);
    fw_first_depth first = fw_first(part, len), alone_first = fw_first(r.bytes, r.len);
    fw_amount shear = fw_shear(part, len), alone_shear = fw_shear(r.bytes, r.len);
    return drawn.refusal == alone_drawn.refusal && bits_of(drawn.point.strain) == bits_of(alone_drawn.point.strain) &&
           bits_of(drawn.point.stress) == bits_of(alone_drawn.point.stress) && listed.refusal == alone_listed.refusal &&
           listed.count == alone_listed.count && listed.work == alone_listed.work && memcmp(row, alone_row, sizeof row) == 0 &&
           first.refusal == alone_first.refusal && first.depth == alone_first.depth && first.kind == alone_first.kind &&
           first.work == alone_first.work && first.moment == alone_first.moment &&
           shear.refusal == alone_shear.refusal && shear.amount == alone_shear.amount;
}

/* A record is at a place that 4 divides, so at any address where the book is. */
static void a_part_goes_on_as_it_is(void)
{
    for (size_t from = 0; from < 4; from++) {
        uint8_t room[4 + sizeof sample], *bytes = room + from;
        fw_record_answer first, second;
        memcpy(bytes, sample, sizeof sample);
        first = fw_record(bytes, sizeof sample, 0);
        second = fw_record(bytes, sizeof sample, 1);
        CHECK(answers_alike(bytes + first.at, first.len, plate));
        CHECK(answers_alike(bytes + second.at, second.len, beam));
        CHECK(fw_shear(bytes + second.at, second.len).amount == 1069200000);
    }
}

/* A book of sections that are refused by each line and of one that is accepted is good. */
static void what_else_a_record_holds_is_refused_later(void)
{
    book b = {0};
    for (uint32_t k = 0; k < LINES; k++)
        add_record(&b, wrong_from(lines[k]));
    add_record(&b, wrong_from(0));
    add_index(&b);
    CHECK(fw_book(b.bytes, b.len).count == LINES + 1);
    for (uint32_t k = 0; k <= LINES; k++) {
        uint32_t line = k < LINES ? lines[k] : 0;
        fw_record_answer part = fw_record(b.bytes, b.len, k);
        CHECK(part.refusal == 0 && part.at == 32 * k && part.len == 32);
        CHECK(answers_alike(b.bytes + part.at, part.len, wrong_from(line)));
        CHECK(fw_shear(b.bytes + part.at, part.len).refusal == line);
    }
}

int main(void)
{
    a_part_goes_on_as_it_is();
    what_else_a_record_holds_is_refused_later();
    return verdict();
}
