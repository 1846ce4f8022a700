/* book TEXT-FILE BOOK-FILE: writes the section book of a text, which is standard input where TEXT-FILE is -. A line is a section: the
 * whole numbers b h fck fyk feq2 feq3 load Asw s, then depth and area of each bar layer, the layers in any order, blanks between them; a
 * section with a flange ends with the word flange, its height hf and its width bf. A line that is blank or begins with # is passed over.
 * Ends with 0 where the book is written; with 1 where lines are bad, and each is named on standard error, or where they are too many for
 * one book; with 2 where a file can't be read or written. But for 0, BOOK-FILE stays as it was, and where there was none, none is left. */
#include "fordwhistle.h"

#include <stdio.h>
#include <stdlib.h>
#include <string.h>

enum { LONGEST_RECORD = 60, LONGEST_BOOK = 65536 };

/* The numbers of a line before its layers, and which of them is the load; where a record has hf. */
enum { NUMBERS = 9, LOAD = 6, HF = 22 };

static const char flange_word[] = "flange";

typedef struct {
    size_t len;
    uint8_t bytes[LONGEST_RECORD];
} record;

/* A record more than a book has room for, so that too many are refused and not cut. */
static uint8_t records[LONGEST_BOOK + LONGEST_RECORD], book[LONGEST_BOOK];
static size_t records_len;

/* What fw_write_book refuses, in words and in the order of the header's table; what is not refused comes last. */
static const struct {
    uint32_t number;
    const char *words;
} refusals[] = {
    {6, "refused 6, form of the record"},
    {7, "refused 7, concrete: fck is none of 20, 25, 30, 35, 40, 45, 50"},
    {8, "refused 8, width or height: b outside 50 to 2000 or h outside 50 to 1000"},
    {20, "refused 20, flange: hf not below h, bf below b, or bf over 2000"},
    {9, "refused 9, bar strength: fyk outside 400 to 600"},
    {10, "refused 10, fibre strength: feq2 or feq3 over 20000"},
    {11, "refused 11, axial load outside -10000000 to 10000000"},
    {12, "refused 12, bars: a depth outside 1 to h-1 or taken, an area of 0, over 8 layers, or the deepest not below mid-height"},
    {13, "refused 13, stirrups without spacing: Asw is not 0 and s is"},
    {19, "refused 19, more sections than a book of 65536 bytes holds"},
    {0, NULL},
};

/* The words of that one of two numbers which comes first. */
static const char *first_words(uint32_t one, uint32_t other)
{
    size_t i = 0;
    while (refusals[i].number != one && refusals[i].number != other)
        i++;
    return refusals[i].words;
}

static int is_blank(int c)
{
    return c == ' ' || c == '\t' || c == '\r';
}

/* The next character that is not blank; it stays to be read. */
static int next(FILE *text)
{
    int c;
    do
        c = getc(text);
    while (is_blank(c));
    return ungetc(c, text);
}

static int ends_line(int c)
{
    return c == '\n' || c == EOF;
}

static int ends_word(int c)
{
    return is_blank(c) || ends_line(c);
}

static const char no_number[] = "a word that is no whole number";

/* Reads the line's next number; what is wrong with it, or null. */
static const char *read_number(FILE *text, int is_load, int32_t *number)
{
    int64_t size = 0;
    int c = next(text), minus = c == '-', digits = 0;
    if (ends_line(c))
        return "too few numbers for b h fck fyk feq2 feq3 load Asw s, pairs of depth and area, and hf bf after the word flange";
    if (minus)
        getc(text);
    for (c = getc(text); c >= '0' && c <= '9'; c = getc(text), digits = 1)
        if (size <= INT32_MAX)
            size = 10 * size + c - '0';
    ungetc(c, text);
    if (digits == 0 || !ends_word(c))
        return no_number;
    if (minus)
        size = -size;
    if (is_load ? size < INT32_MIN || size > INT32_MAX : size < 0 || size > UINT16_MAX)
        return is_load ? "a load outside 32 bits" : "a number outside 0 to 65535";
    *number = (int32_t)size;
    return NULL;
}

/* Reads a word in a number's place, which has to be this one; what is wrong with it, or null. */
static const char *read_word(FILE *text, const char *word)
{
    int c = getc(text);
    for (; *word != '\0' && c == *word; word++)
        c = getc(text);
    ungetc(c, text);
    return *word == '\0' && ends_word(c) ? NULL : no_number;
}

static void put(record *r, size_t at, size_t bytes, int32_t number)
{
    for (size_t i = 0; i < bytes; i++)
        r->bytes[at + i] = (uint8_t)((uint32_t)number >> (8 * i));
}

static void append(record *r, size_t bytes, int32_t number)
{
    put(r, r->len, bytes, number);
    r->len += bytes;
}

static uint32_t add_layer(record *r, int32_t depth, int32_t area)
{
    record longer = {0};
    fw_written added = fw_add_layer(r->bytes, r->len, (uint16_t)depth, (uint16_t)area, longer.bytes, sizeof longer.bytes);
    longer.len = added.len;
    if (added.refusal == 0)
        *r = longer;
    return added.refusal;
}

/* Reads the line's numbers before its layers; what is wrong with one, or null. */
static const char *read_numbers(FILE *text, record *r)
{
    const char *wrong;
    int32_t number;
    for (int i = 0; i < NUMBERS; i++) {
        if ((wrong = read_number(text, i == LOAD, &number)) != NULL)
            return wrong;
        append(r, i == LOAD ? 4 : 2, number);
    }
    append(r, 4, 0);
    return NULL;
}

/* Reads the line's layers and adds each, up to one that is refused: its number is then in `added`. What is wrong with a word, or null. */
static const char *read_layers(FILE *text, record *r, uint32_t *added)
{
    const char *wrong;
    int32_t depth, area;
    for (int c = next(text); !ends_line(c) && c != *flange_word; c = next(text)) {
        if ((wrong = read_number(text, 0, &depth)) != NULL || (wrong = read_number(text, 0, &area)) != NULL)
            return wrong;
        if (*added == 0)
            *added = add_layer(r, depth, area);
    }
    return NULL;
}

/* Reads the flange, where the line has one, and files it behind the layers; what is wrong with it, or null. */
static const char *read_flange(FILE *text, record *r)
{
    const char *wrong;
    int32_t hf, bf;
    if (ends_line(next(text)))
        return NULL;
    if ((wrong = read_word(text, flange_word)) != NULL || (wrong = read_number(text, 0, &hf)) != NULL ||
        (wrong = read_number(text, 0, &bf)) != NULL)
        return wrong;
    if (!ends_line(next(text)))
        return "a word after the flange's hf and bf";
    put(r, HF, 2, hf);
    if (hf != 0) {
        append(r, 2, bf);
        append(r, 2, 0);
    }
    return NULL;
}

/* Reads a line's record; what is wrong with it, or null. Of refusals that is the first of the table: where h is wrong, not the depth that
 * can't be added for it. */
static const char *read_record(FILE *text, record *r)
{
    const char *wrong;
    uint32_t added = 0;
    if ((wrong = read_numbers(text, r)) != NULL || (wrong = read_layers(text, r, &added)) != NULL || (wrong = read_flange(text, r)) != NULL)
        return wrong;
    return first_words(added, fw_write_book(r->bytes, r->len, book, sizeof book).refusal);
}

/* Reads every line; whether none is bad. */
static int read_text(FILE *text)
{
    int c, good = 1;
    for (unsigned long line = 1; (c = next(text)) != EOF; line++) {
        record r = {0};
        const char *wrong = c == '#' || c == '\n' ? NULL : read_record(text, &r);
        if (wrong != NULL) {
            fprintf(stderr, "book: line %lu: %s\n", line, wrong);
            good = 0;
        } else if (records_len < LONGEST_BOOK) {
            memcpy(records + records_len, r.bytes, r.len);
            records_len += r.len;
        }
        while (!ends_line(getc(text)))
            ;
    }
    return good;
}

static int write_bytes(const char *name, size_t len)
{
    FILE *file = fopen(name, "wb");
    size_t written;
    if (file == NULL)
        return 0;
    written = fwrite(book, 1, len, file);
    return fclose(file) == 0 && written == len;
}

/* Whether the book could be written whole. It takes the name's place only then, so that a card without room keeps what it has. */
static int write_file(const char *name, size_t len)
{
    static const char ending[] = ".part";
    char *part = malloc(strlen(name) + sizeof ending);
    int whole;
    if (part == NULL)
        return 0;
    strcat(strcpy(part, name), ending);
    whole = write_bytes(part, len) && rename(part, name) == 0;
    if (!whole)
        remove(part);
    free(part);
    return whole;
}

static int fails(const char *what, const char *name)
{
    fprintf(stderr, "book: can't %s %s\n", what, name);
    return 2;
}

int main(int count, char **words)
{
    FILE *text;
    fw_written written;
    int good;
    if (count != 3) {
        fprintf(stderr, "usage: book TEXT-FILE BOOK-FILE\n");
        return 2;
    }
    text = strcmp(words[1], "-") == 0 ? stdin : fopen(words[1], "r");
    if (text == NULL)
        return fails("read", words[1]);
    good = read_text(text);
    if (ferror(text))
        return fails("read", words[1]);
    fclose(text);
    if (!good)
        return 1;
    written = fw_write_book(records, records_len, book, sizeof book);
    if (written.refusal != 0) {
        fprintf(stderr, "book: %s\n", first_words(written.refusal, written.refusal));
        return 1;
    }
    return write_file(words[2], written.len) ? 0 : fails("write", words[2]);
}
