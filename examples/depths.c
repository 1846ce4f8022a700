/* depths BOOK-FILE: prints of each record of a section book every depth at which its section balances, with the moment there, and its shear
 * resistance; or what is refused of it. Ends with 0 where the book is good, 1 where the file can't be read and 2 where the book is refused.
 * A program for a device can start from it: it is C99, and its own memory is static. */
#include "fordwhistle.h"

#include <inttypes.h>
#include <stdio.h>

/* A byte more than a book may have, so that a longer file is refused and not cut. 3000 words hold the list of any section. */
enum { ROOM = 65536 + 1, WORDS = 3000 };

static uint8_t book[ROOM];
static int64_t row[WORDS];

/* The header's table of refusals in a word or two, by number. */
static const char *const refusals[] = {
    "none", "length of the book", "no BOOK at its end", "place of the index", "places of the records", "no such record",
    "form of the record", "concrete", "width or height", "bar strength", "fibre strength", "axial load", "bars",
    "stirrups without spacing", "no depth to list", "row too short", "no bars", "class", "strain or depth", "no room to write", "flange",
};

static void print_refusal(uint32_t refusal)
{
    printf("refused %" PRIu32 ", %s\n", refusal, refusals[refusal]);
}

/* A number in parts of which a power of ten, with so many zeros, makes one of the unit: no digit is lost. */
static void print_exactly(int64_t parts, int64_t power, int zeros, const char *unit)
{
    printf("%s%" PRIdMAX ".%0*" PRIdMAX " %s\n", parts < 0 ? "-" : "", imaxabs(parts / power), zeros, imaxabs(parts % power), unit);
}

/* Three words a depth: x, kind and moment. Of kind 1 the forces balance at x, of kind 2 between x and x + 1; the moment is the one at x.
 * A mN half-mm is five ten-millionths of a N m. */
static void print_depths(uint32_t count)
{
    printf("%" PRIu32 " %s\n", count, count == 1 ? "depth" : "depths");
    for (const int64_t *depth = row; depth < row + 3 * count; depth += 3) {
        printf("  x %" PRId64 " mm, kind %" PRId64 ", moment ", depth[0], depth[1]);
        print_exactly(5 * depth[2], 10000000, 7, "N m");
    }
}

static void print_record(const uint8_t *record, size_t len)
{
    fw_listed listed = fw_depths(record, len, row, WORDS);
    fw_amount shear = fw_shear(record, len);
    if (listed.refusal == 0)
        print_depths(listed.count);
    else
        print_refusal(listed.refusal);
    printf("  shear ");
    if (shear.refusal == 0)
        print_exactly(shear.amount, 1000, 3, "N");
    else
        print_refusal(shear.refusal);
}

/* What of the file has room in the book; whether it could be read. */
static int read_book(const char *name, size_t *len)
{
    FILE *file = fopen(name, "rb");
    int failed;
    if (file == NULL)
        return 0;
    *len = fread(book, 1, ROOM, file);
    failed = ferror(file);
    fclose(file);
    return !failed;
}

int main(int count, char **words)
{
    size_t len;
    fw_book_answer answer;
    if (count != 2) {
        fprintf(stderr, "usage: depths BOOK-FILE\n");
        return 1;
    }
    if (!read_book(words[1], &len)) {
        fprintf(stderr, "depths: can't read %s\n", words[1]);
        return 1;
    }
    answer = fw_book(book, len);
    if (answer.refusal != 0) {
        printf("book ");
        print_refusal(answer.refusal);
        return 2;
    }
    for (uint32_t number = 0; number < answer.count; number++) {
        fw_record_answer part = fw_record(book, len, number);
        printf("record %" PRIu32 ": ", number);
        print_record(book + part.at, part.len);
    }
    return 0;
}
