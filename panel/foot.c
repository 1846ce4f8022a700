/* The foot: load, shear resistance, class, and whose sheet it is. */
#include "drawing.h"

#include <inttypes.h>

#include "figure.h"
#include "svg.h"

/* Where each stands, from left to right. */
enum { LOAD = 12, SHEAR = 214, CLASS = 392, RECORD = 626 };

/* A name over a figure; under it is room for a few words. */
static void draw_figure(double x, const char *name, const char *words, const char *unit)
{
    text(x, FOOT + 19, 16, PLAIN, "%s", name);
    text(x, FOOT + 46, 22, BOLD, "%s%s", words, unit);
}

static void draw_load(int32_t load)
{
    figure kn = exact(load, 3);
    draw_figure(LOAD, "Axial load", kn.text, " kN");
    text(LOAD, FOOT + 69, 16, PLAIN, "%s", load > 0 ? "compression" : load < 0 ? "tension" : "none");
}

static void draw_shear(const section *s)
{
    fw_amount shear = fw_shear(s->record, s->len);
    figure kn = four_digits(shear.amount, 6);
    if (shear.refusal == 0) {
        draw_figure(SHEAR, "Shear resistance", kn.text, " kN");
        text(SHEAR, FOOT + 69, 16, PLAIN, "with d %u mm", effective_depth(s));
        return;
    }
    draw_figure(SHEAR, "Shear resistance", "none", "");
    text(SHEAR, FOOT + 69, 16, PLAIN, "%" PRIu32 ": there are no bars", shear.refusal);
}

/* 17 has two reasons; the face gives one number for both. */
static void draw_class(uint16_t fr1, uint16_t fr3)
{
    fw_class_answer class = fw_class(fr1, fr3);
    figure step = rounded_down(class.step, 3, 1), first = exact(fr1, 3), third = exact(fr3, 3);
    text(CLASS, FOOT + 19, 15, PLAIN, "fR1 %s, fR3 %s N/mm²", first.text, third.text);
    if (class.refusal == 0) {
        text(CLASS, FOOT + 46, 22, BOLD, "class %s %c", step.text, (char)class.letter);
        return;
    }
    text(CLASS, FOOT + 46, 22, BOLD, "no class");
    text(CLASS, FOOT + 69, 16, PLAIN, "%" PRIu32 ": %s", class.refusal, fr1 < 1000 ? "fR1 below 1 N/mm²" : "fR3 below half the step");
}

static void draw_record(const asked *a)
{
    figure number = exact(a->number, 0);
    draw_figure(RECORD, "Record", number.text, "");
    text(RECORD, FOOT + 69, 16, PLAIN, "book of %" PRIu32 " %s", a->book.count, a->book.count == 1 ? "record" : "records");
}

/* Of a refused book nothing else is known. */
static void draw_bytes(size_t bytes)
{
    figure read = exact((int64_t)bytes, 0);
    if (bytes > 65536)
        draw_figure(LOAD, "Book", "over 65536", " bytes");
    else
        draw_figure(LOAD, "Book", read.text, " bytes");
}

void draw_foot(const section *s, const asked *a)
{
    line(0, FOOT, SCREEN_WIDTH, FOOT, 2);
    if (s != NULL) {
        draw_load(s->load);
        draw_shear(s);
    }
    if (a->class_asked)
        draw_class(a->fr1, a->fr3);
    if (a->book.refusal == 0)
        draw_record(a);
    else
        draw_bytes(a->bytes);
}
