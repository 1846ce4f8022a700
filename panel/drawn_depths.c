/* The listed depths: lines across the section, and their words beside it or below the screen. */
#include "drawing.h"

#include <inttypes.h>
#include <stdio.h>

#include "figure.h"
#include "svg.h"

/* Where the words of a depth stand beside the section. */
enum { ROWS = 302, ROWS_END = 522 };

/* How many depths have room there, and how many with large words; how high these are, and how much higher those of the one to read. */
enum { MOST_ROWS = 7, FEW_ROWS = 3, ROW = 41, LARGE_ROW = 76, MARK = 22 };

/* Below the screen. */
enum { BELOW = SCREEN_HEIGHT + 44, BELOW_ROW = 30 };

typedef struct {
    char x[32], kind[64], moment[48];
} depth_words;

static depth_words depth_words_of(const depth *d)
{
    depth_words w = {.kind = "exact"};
    figure moment = kilonewton_metres(d->moment);
    snprintf(w.x, sizeof w.x, "x %" PRId64 " mm", d->x);
    snprintf(w.moment, sizeof w.moment, "%s kNm", moment.text);
    if (d->kind == 2)
        snprintf(w.kind, sizeof w.kind, "between %" PRId64 " and %" PRId64 " mm", d->x, d->x + 1);
    return w;
}

static int fits(const list *l)
{
    return l->count <= MOST_ROWS;
}

int sheet_height(const list *l)
{
    return fits(l) ? SCREEN_HEIGHT : BELOW + BELOW_ROW * (int)l->count;
}

/* Lines may lie 2 dots apart, so that the one to read can't be much thicker. It is told by what it leads to. */
static void draw_across(const list *l, uint32_t i, const frame *f)
{
    double x = (double)l->depths[i].x, y = place_of(f, x);
    line(left_at(f, x), y, f->left + f->width + 7, y, i == l->least ? 2.5 : 1);
}

static void draw_row(const depth_words *w, double top, int how)
{
    text(ROWS, top + 18, 17, how | BOLD, "%s", w->x);
    text(ROWS_END, top + 18, 17, how | BOLD | END, "%s", w->moment);
    text(ROWS, top + 35, 15, how, "%s", w->kind);
}

static void draw_large_row(const depth_words *w, double top, int how)
{
    text(ROWS, top + 27, 28, how | BOLD, "%s", w->moment);
    text(ROWS, top + 51, 20, how | BOLD, "%s", w->x);
    text(ROWS, top + 70, 16, how, "%s", w->kind);
}

static double row_height(const list *l, uint32_t i)
{
    return (l->count <= FEW_ROWS ? LARGE_ROW : ROW) + (i == l->least ? MARK : 0);
}

/* The one to read is white on black, with words that say so, and a thick line leads to it. */
static void draw_beside(const list *l, uint32_t i, const frame *f, double top)
{
    depth_words w = depth_words_of(&l->depths[i]);
    int read = i == l->least, how = read ? WHITE : PLAIN;
    double height = row_height(l, i);
    line(f->left + f->width + 7, place_of(f, (double)l->depths[i].x), ROWS - 4, top + 20, read ? 4 : 1);
    if (read) {
        box(ROWS - 4, top, ROWS_END + 4 - (ROWS - 4), height - 2, "black");
        text(ROWS, top + height - 10, 16, how | BOLD, "the moment to read");
    }
    if (l->count <= FEW_ROWS)
        draw_large_row(&w, top, how);
    else
        draw_row(&w, top, how);
}

static void draw_rows(const list *l, const frame *f)
{
    double tops[MOST_ROWS], heights[MOST_ROWS];
    for (uint32_t i = 0; i < l->count; i++) {
        tops[i] = place_of(f, (double)l->depths[i].x) - 20;
        heights[i] = row_height(l, i);
    }
    spread(tops, heights, l->count, HEAD + 6, FOOT - 4);
    for (uint32_t i = 0; i < l->count; i++)
        draw_beside(l, i, f, tops[i]);
}

static void draw_below(const list *l, uint32_t i)
{
    depth_words w = depth_words_of(&l->depths[i]);
    int read = i == l->least, how = read ? WHITE : PLAIN;
    double y = BELOW + BELOW_ROW * (double)i;
    if (read) {
        box(0, y, SCREEN_WIDTH, BELOW_ROW, "black");
        text(550, y + 21, 18, how | BOLD, "the moment to read");
    }
    text(12, y + 21, 18, how | BOLD, "%s", w.x);
    text(130, y + 21, 18, how, "%s", w.kind);
    text(530, y + 21, 18, how | BOLD | END, "%s", w.moment);
}

static void draw_more(const list *l, const frame *f)
{
    draw_beside(l, l->least, f, HEAD + 6);
    paragraph(ROWS, HEAD + 100, 18, PLAIN, 21, "The depths are more than this screen has room for. All of them stand below it: scroll down.");
    text(12, BELOW - 14, 18, BOLD, "All %" PRIu32 " depths where the forces balance", l->count);
    for (uint32_t i = 0; i < l->count; i++)
        draw_below(l, i);
}

static void draw_none(uint32_t refusal)
{
    refusal_words w = words_of(refusal);
    double y;
    text(ROWS, HEAD + 40, 24, BOLD, "refused: %" PRIu32, refusal);
    y = paragraph(ROWS, HEAD + 72, 20, BOLD, 19, w.meaning);
    paragraph(ROWS, y + 12, 18, PLAIN, 22, w.remedy);
}

void draw_depths(const list *l, const frame *f)
{
    for (uint32_t i = 0; i < l->count; i++)
        draw_across(l, i, f);
    if (l->refusal != 0)
        draw_none(l->refusal);
    else if (fits(l))
        draw_rows(l, f);
    else
        draw_more(l, f);
}
