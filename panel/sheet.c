/* sheet [--fr1 KPA --fr3 KPA] BOOK [RECORD]: draws a record of a section book, the first if none is named, as an SVG on standard output, for a
 * screen of 800 x 480. Ends with 0; with 1 where the book, the record or the section is refused, and the sheet says so; with 2 and a line on
 * standard error where the arguments are wrong, the file can't be read or the sheet can't be written.
 * It is C99 over fordwhistle.h and libpanel.a alone, and its memory is static. */
#include <stdio.h>
#include <string.h>

#include "drawing.h"
#include "svg.h"

enum { ANSWERED, REFUSED, FAILED };

enum { NO_DEPTH = 14 };

/* A byte more than a book may have, so that a longer file is refused and not cut. */
static uint8_t book[65536 + 1];

static int fail(const char *what, const char *name)
{
    fprintf(stderr, "sheet: %s%s\n", what, name);
    return FAILED;
}

/* A whole number in digits alone, at most so much; whether it is one. */
static int number_of(const char *word, uint32_t most, uint32_t *number)
{
    uint64_t n = 0;
    size_t digits = strspn(word, "0123456789");
    for (size_t i = 0; i < digits && n <= most; i++)
        n = 10 * n + (uint64_t)(word[i] - '0');
    *number = (uint32_t)n;
    return digits > 0 && word[digits] == '\0' && n <= most;
}

static int option_of(char **word, const char *name, uint16_t *kpa)
{
    uint32_t number;
    if (strcmp(word[0], name) != 0 || word[1] == NULL || !number_of(word[1], UINT16_MAX, &number))
        return 0;
    *kpa = (uint16_t)number;
    return 1;
}

/* What the words ask for; whether they are right. Both options or none, each once. */
static int read_words(char **word, asked *a)
{
    int first = 0, third = 0;
    for (; word[0] != NULL && strncmp(word[0], "--", 2) == 0; word += 2) {
        if (!first && option_of(word, "--fr1", &a->fr1))
            first = 1;
        else if (!third && option_of(word, "--fr3", &a->fr3))
            third = 1;
        else
            return 0;
    }
    a->class_asked = first;
    a->name = word[0];
    return first == third && word[0] != NULL && (word[1] == NULL || (number_of(word[1], UINT32_MAX, &a->number) && word[2] == NULL));
}

/* What of the file has room in the book; whether it could be read. */
static int read_book(asked *a)
{
    FILE *file = fopen(a->name, "rb");
    int read = file != NULL;
    if (read) {
        a->bytes = fread(book, 1, sizeof book, file);
        read = !ferror(file);
        fclose(file);
    }
    return read;
}

static int draw_refusal(uint32_t refusal, const section *s, const asked *a)
{
    start_sheet(SCREEN_HEIGHT);
    draw_refused_head(refusal);
    draw_refused(refusal, s);
    draw_foot(NULL, a);
    end_sheet();
    return REFUSED;
}

static int draw_answers(const section *s, const list *l, const asked *a)
{
    frame f = frame_of(s);
    bends b = bends_of(s);
    start_sheet(sheet_height(l));
    draw_head(l);
    draw_section(s, &f);
    draw_depths(l, &f);
    draw_layers(s, &f);
    line(DIVIDE, HEAD, DIVIDE, FOOT, 1);
    draw_law(s, &b);
    if (l->refusal == 0)
        draw_stress(s, &b, l);
    draw_foot(s, a);
    end_sheet();
    return ANSWERED;
}

/* A section without a depth to list, 14, is accepted: all else that is asked of it has its answer. */
static int draw(const asked *a)
{
    fw_record_answer part = fw_record(book, a->bytes, a->number);
    section s;
    const list *l;
    if (part.refusal != 0)
        return draw_refusal(part.refusal, NULL, a);
    s = section_of(book + part.at, part.len);
    l = list_of(&s);
    return l->refusal == 0 || l->refusal == NO_DEPTH ? draw_answers(&s, l, a) : draw_refusal(l->refusal, &s, a);
}

int main(int count, char **word)
{
    asked a = {0};
    int status;
    if (count < 1 || !read_words(word + 1, &a))
        return fail("usage: sheet [--fr1 KPA --fr3 KPA] BOOK [RECORD]; KPA is 0 to 65535, RECORD 0 or more", "");
    if (!read_book(&a))
        return fail("can't read ", a.name);
    a.book = fw_book(book, a.bytes);
    status = draw(&a);
    if (fflush(stdout) != 0 || ferror(stdout))
        return fail("can't write the sheet", "");
    return status;
}
