/* The head: one figure, as large as the screen lets it be, and what it is. */
#include "drawing.h"

#include <inttypes.h>

#include "figure.h"
#include "svg.h"

enum { WORDS = 268, SIZE = 18 };

static void draw_figure(const char *words, const char *unit)
{
    box(0, 0, SCREEN_WIDTH, HEAD, "black");
    text(12, 42, 34, BOLD | WHITE, "%s%s", words, unit);
}

void draw_head(const list *l)
{
    const depth *read = &l->depths[l->least];
    figure moment = kilonewton_metres(read->moment);
    if (l->refusal != 0) {
        draw_figure("no moment", "");
        text(WORDS, 37, SIZE, WHITE, "The forces balance at no depth.");
        return;
    }
    draw_figure(moment.text, " kNm");
    text(WORDS, 25, SIZE, WHITE, "is the moment to read, at x %" PRId64 " mm%s.", read->x, read->moment < 0 ? ": below zero" : "");
    if (l->count == 1)
        text(WORDS, 49, SIZE, WHITE, "The forces balance at one depth only.");
    else
        text(WORDS, 49, SIZE, WHITE, "The forces balance at %" PRIu32 " depths: read the least moment.", l->count);
}

static const char *refused_words(uint32_t refusal)
{
    if (refusal <= 4)
        return "The book can't be read.";
    if (refusal <= 6)
        return refusal == 5 ? "There is no such record." : "The record can't be read.";
    return "The section is outside the rules.";
}

void draw_refused_head(uint32_t refusal)
{
    figure number = exact(refusal, 0);
    draw_figure("refused: ", number.text);
    text(WORDS, 37, SIZE, WHITE, "%s", refused_words(refusal));
}
