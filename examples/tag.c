/* tag FILE: the tag that goes to the yard with a fibre concrete, of the beams that the lab has tested. FILE, or standard input for -, has two
 * lines, of fR1 and of fR3, each with that name and then the result of each beam in whole kPa, blanks between them, as examples/beams.txt
 * has. The tag has of both the results, their mean and deviation and the characteristic strength, and then the class, its step in N/mm2.
 * Ends with 0 where there is a class; with 1 where something is refused, and the tag says so in its place; with 2 and a line on standard
 * error, without a tag, where the text is wrong or can't be read. */
#include "fordwhistle.h"

#include <inttypes.h>
#include <stdio.h>
#include <string.h>

/* Far more results than are ever accepted, so that the library and not this program says how many may be. */
enum { MOST = 100 };

typedef struct {
    const char *name;
    size_t n;
    uint32_t results[MOST];
} series;

/* The character of the text that comes next. */
static int next;

static int is_digit(void)
{
    return next >= '0' && next <= '9';
}

/* Passes over blanks; whether a word comes before the line ends. */
static int word_comes(void)
{
    while (next == ' ' || next == '\t' || next == '\r')
        next = getchar();
    return next != '\n' && next != EOF;
}

/* Reads a result up to what is no digit, which begins another word if it is no blank; what is wrong with it, or null. */
static const char *read_result(uint32_t *result)
{
    uint64_t number = 0;
    if (!is_digit())
        return "a word that is no whole number";
    for (; is_digit() && number <= UINT32_MAX; next = getchar())
        number = 10 * number + (uint64_t)(next - '0');
    *result = (uint32_t)number;
    return number <= UINT32_MAX ? NULL : "a number of more than 32 bits";
}

/* Reads a line; what is wrong with it, or null. */
static const char *read_series(series *s)
{
    const char *letter = s->name, *wrong = NULL;
    for (next = getchar(); *letter != '\0' && next == *letter; letter++)
        next = getchar();
    if (*letter != '\0' || is_digit())
        return "the line does not begin with that name";
    while (wrong == NULL && word_comes())
        wrong = s->n == MOST ? "more than 100 results" : read_result(&s->results[s->n++]);
    return wrong;
}

/* Reads both lines, after which there is nothing; whether they are good. */
static int read_text(series *both)
{
    const char *wrong = NULL;
    int line = 0;
    while (line < 2 && wrong == NULL)
        wrong = read_series(&both[line++]);
    if (wrong == NULL && next == '\n' && getchar() != EOF)
        wrong = "more text after that line";
    if (ferror(stdin))
        wrong = "it can't be read";
    if (wrong != NULL)
        fprintf(stderr, "tag: line %d, %s: %s\n", line, both[line - 1].name, wrong);
    return wrong == NULL;
}

static void print_refusal(const char *what, uint32_t refusal)
{
    static const char *const why[] = {
        [17] = "fR1k is below 1000 kPa, or fR3k is below half the step",
        [21] = "the number of beams is none of 3, 4, 5, 6, 8, 10, 12, 15",
        [22] = "a result is outside 1 to 20000 kPa",
        [23] = "the results lie so far apart that it would be below 0",
    };
    printf("%s refused %" PRIu32 ", %s\n", what, refusal, why[refusal]);
}

static fw_strength_answer print_strength(const series *s)
{
    fw_strength_answer strength = fw_strength(s->results, s->n);
    printf("%s of %zu %s, kPa:", s->name, s->n, s->n == 1 ? "beam" : "beams");
    for (size_t i = 0; i < s->n; i++)
        printf(" %" PRIu32, s->results[i]);
    if (strength.refusal == 0)
        printf("\n  mean %" PRIu32 " kPa, deviation %" PRIu32 " kPa", strength.mean, strength.deviation);
    printf("\n  characteristic %sk", s->name);
    if (strength.refusal == 0)
        printf(" %" PRIu32 " kPa\n", strength.value);
    else
        print_refusal("", strength.refusal);
    return strength;
}

/* Whether there is a class: a strength that is refused is 0, which has none. It is at most 20000, so that 16 bits hold it. */
static int print_class(fw_strength_answer fr1, fw_strength_answer fr3)
{
    fw_class_answer answer = fw_class((uint16_t)fr1.value, (uint16_t)fr3.value);
    if (fr1.refusal != 0 || fr3.refusal != 0)
        puts("class none, as a strength is refused");
    else if (answer.refusal != 0)
        print_refusal("class", answer.refusal);
    else
        printf("class %" PRIu32 ".%" PRIu32 " %c\n", answer.step / 1000, answer.step % 1000 / 100, (int)answer.letter);
    return answer.refusal == 0;
}

int main(int count, char **words)
{
    static series both[] = {{.name = "fR1"}, {.name = "fR3"}};
    fw_strength_answer fr1, fr3;
    if (count != 2) {
        fprintf(stderr, "usage: tag FILE\n");
        return 2;
    }
    if (strcmp(words[1], "-") != 0 && freopen(words[1], "r", stdin) == NULL) {
        fprintf(stderr, "tag: can't read %s\n", words[1]);
        return 2;
    }
    if (!read_text(both))
        return 2;
    fr1 = print_strength(&both[0]);
    fr3 = print_strength(&both[1]);
    return print_class(fr1, fr3) ? 0 : 1;
}
