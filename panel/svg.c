#include "svg.h"

#include <stdarg.h>
#include <stdio.h>
#include <string.h>

void start_sheet(int height)
{
    printf("<svg xmlns=\"http://www.w3.org/2000/svg\" viewBox=\"0 0 %d %d\" width=\"%d\" height=\"%d\""
           " font-family=\"Arial, Helvetica, 'Liberation Sans', 'DejaVu Sans', sans-serif\" stroke=\"none\" fill=\"black\">\n",
           SCREEN_WIDTH, height, SCREEN_WIDTH, height);
    box(0, 0, SCREEN_WIDTH, height, "white");
}

void end_sheet(void)
{
    puts("</svg>");
}

static void start_text(double x, double y, int size, int how)
{
    printf("<text x=\"%.1f\" y=\"%.1f\" font-size=\"%d\"", x, y, size);
    if (how & BOLD)
        printf(" font-weight=\"bold\"");
    if (how & WHITE)
        printf(" fill=\"white\"");
    if (how & (END | MIDDLE))
        printf(" text-anchor=\"%s\"", how & END ? "end" : "middle");
    printf(">");
}

void text(double x, double y, int size, int how, const char *format, ...)
{
    va_list figures;
    start_text(x, y, size, how);
    va_start(figures, format);
    vprintf(format, figures);
    va_end(figures);
    puts("</text>");
}

/* A letter is one byte or several; all but its first begin with the bits 10. */
static int letters_of(const char *words, size_t bytes)
{
    int letters = 0;
    for (size_t i = 0; i < bytes; i++)
        letters += ((unsigned char)words[i] & 0xc0) != 0x80;
    return letters;
}

/* How many bytes of the words stand on a line of at most so many letters: whole words, at least one. */
static size_t fitting(const char *words, int letters)
{
    size_t end = strcspn(words, " ");
    while (words[end] != '\0') {
        size_t next = end + 1 + strcspn(words + end + 1, " ");
        if (letters_of(words, next) > letters)
            break;
        end = next;
    }
    return end;
}

double paragraph(double x, double y, int size, int how, int letters, const char *words)
{
    while (*words != '\0') {
        size_t len = fitting(words, letters);
        text(x, y, size, how, "%.*s", (int)len, words);
        words += len + (words[len] == ' ');
        y += 1.3 * size;
    }
    return y;
}

static void draw_line(double x1, double y1, double x2, double y2, double width, const char *dashes)
{
    printf("<line x1=\"%.1f\" y1=\"%.1f\" x2=\"%.1f\" y2=\"%.1f\" stroke=\"black\" stroke-width=\"%.1f\"%s/>\n", x1, y1, x2, y2, width, dashes);
}

void line(double x1, double y1, double x2, double y2, double width)
{
    draw_line(x1, y1, x2, y2, width, "");
}

void dashed_line(double x1, double y1, double x2, double y2, double width)
{
    draw_line(x1, y1, x2, y2, width, " stroke-dasharray=\"7 4\"");
}

/* With a white rim, so that dots that lie over each other are told apart. */
void dot(double x, double y, double radius)
{
    printf("<circle cx=\"%.1f\" cy=\"%.1f\" r=\"%.1f\" stroke=\"white\" stroke-width=\"1.0\"/>\n", x, y, radius);
}

void box(double x, double y, double width, double height, const char *fill)
{
    printf("<rect x=\"%.1f\" y=\"%.1f\" width=\"%.1f\" height=\"%.1f\" fill=\"%s\"/>\n", x, y, width, height, fill);
}

void outline(double x, double y, double width, double height, double broad, const char *stroke)
{
    printf("<rect x=\"%.1f\" y=\"%.1f\" width=\"%.1f\" height=\"%.1f\" rx=\"%.1f\" fill=\"none\" stroke=\"%s\" stroke-width=\"%.1f\"/>\n",
           x, y, width, height, broad, stroke, broad);
}

void start_line(double width, const char *fill)
{
    printf("<polyline stroke=\"black\" stroke-width=\"%.1f\" fill=\"%s\" points=\"", width, fill);
}

void point(double x, double y)
{
    printf(" %.1f,%.1f", x, y);
}

void end_line(void)
{
    puts("\"/>");
}
