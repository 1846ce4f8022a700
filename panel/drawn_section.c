/* The section to scale: concrete, stirrups, layers. A rib's flange stands over its web, both in the middle. */
#include "drawing.h"

#include "svg.h"

/* The room for the section, and what of its width a flange that is cut keeps beside the web; the room for the two lines of a layer beside
 * the section, and for rows of words below it. */
enum { LEFT = 108, TOP = 88, WIDTH = 154, HEIGHT = 248, BESIDE = 40, LABEL = 34, LABELS_END = 92, WORDS = 12, ROW = 18 };

/* The radius of a layer's dot, in tenths of the screen's: the largest one's, and the least that is still seen. */
enum { LARGEST = 110, SMALLEST = 30 };

static const char grey[] = "#808080";

static double least(double a, double b)
{
    return a < b ? a : b;
}

/* The largest scale at which the height has room and a width has so many dots at most. */
static double scale_for(const section *s, double dots, double width)
{
    return least((double)HEIGHT / s->h, dots / width);
}

/* Whether the section would be lower than that part of the room. */
static int is_low(const section *s, double scale, int part)
{
    return part * scale * s->h < HEIGHT;
}

/* Whole where it is at least half as high as the room then; a rib, whose flange is to be seen to scale, a quarter. Else a rib with its
 * flange cut, where that makes it half as high; else as high as the room, and only a piece of its width is drawn. */
frame frame_of(const section *s)
{
    double widest = s->hf > 0 ? s->bf : s->b, whole = scale_for(s, WIDTH, widest), with_cut = scale_for(s, WIDTH - BESIDE, s->b);
    frame f = {.drawn = CUT, .scale = (double)HEIGHT / s->h};
    if (!is_low(s, whole, s->hf > 0 ? 4 : 2)) {
        f.drawn = WHOLE;
        f.scale = whole;
    } else if (s->hf > 0 && !is_low(s, with_cut, 2)) {
        f.drawn = FLANGE_CUT;
        f.scale = with_cut;
    }
    f.width = least(f.scale * widest, WIDTH);
    f.height = f.scale * s->h;
    f.left = LEFT + (WIDTH - f.width) / 2;
    f.top = TOP + (HEIGHT - f.height) / 2;
    f.web_width = least(f.scale * s->b, WIDTH);
    f.web_left = LEFT + (WIDTH - f.web_width) / 2;
    f.flange = f.drawn == CUT ? 0 : f.scale * s->hf;
    return f;
}

double place_of(const frame *f, double mm)
{
    return f->top + f->scale * mm;
}

double left_at(const frame *f, double mm)
{
    return f->scale * mm < f->flange ? f->left : f->web_left;
}

/* A side from one end to the other. Where the concrete goes on beyond it, it has a break in its middle, a smaller one where it is short. */
static void side(double x, double from, double to, int cut)
{
    double middle = (from + to) / 2, down = to > from ? 1 : -1, size = down * least(1, (to - from) * down / 32);
    point(x, from);
    if (cut) {
        point(x, middle - 16 * size);
        point(x - 7 * size, middle - 6 * size);
        point(x + 7 * size, middle + 6 * size);
        point(x, middle + 16 * size);
    }
    point(x, to);
}

static void draw_concrete(const frame *f)
{
    double underside = f->top + f->flange, bottom = f->top + f->height;
    start_line(2, "#e4e4e4");
    if (f->flange > 0)
        side(f->left + f->width, f->top, underside, f->drawn == FLANGE_CUT);
    side(f->web_left + f->web_width, underside, bottom, f->drawn == CUT);
    side(f->web_left, bottom, underside, f->drawn == CUT);
    if (f->flange > 0)
        side(f->left, underside, f->top, f->drawn == FLANGE_CUT);
    point(f->left + f->width, f->top);
    end_line();
    text(LEFT + WIDTH / 2, f->top - 14, 15, MIDDLE, "compressed face");
}

/* Where a row of words stands; the first is 0. */
static double row(int number)
{
    return TOP + HEIGHT + 23 + ROW * number;
}

static void draw_sizes(const section *s, const frame *f)
{
    static const char *const flange_drawn[] = {[WHOLE] = "", [FLANGE_CUT] = " (a piece is drawn)", [CUT] = " (not drawn)"};
    text(WORDS, row(0), 16, BOLD, "b %u mm, h %u mm", s->b, s->h);
    if (s->hf > 0)
        text(WORDS, row(1), 15, PLAIN, "flange %u × %u mm%s", s->bf, s->hf, flange_drawn[f->drawn]);
    else if (f->drawn == CUT)
        text(WORDS, row(s->asw > 0 ? 2 : 1), 15, PLAIN, "(a piece of the width is drawn)");
}

/* In the web. Grey and broad, so that they are not taken for depths; in a piece of the width their upper and lower legs alone. */
static void draw_stirrups(const section *s, const frame *f)
{
    double inset = least(9, f->web_width / 4), broad = inset / 2.5;
    if (s->asw == 0)
        return;
    if (f->drawn == CUT) {
        box(f->left, f->top + inset - broad / 2, f->width, broad, grey);
        box(f->left, f->top + f->height - inset - broad / 2, f->width, broad, grey);
    } else {
        outline(f->web_left + inset, f->top + inset, f->web_width - 2 * inset, f->height - 2 * inset, broad, grey);
    }
    text(WORDS, row(s->hf > 0 ? 2 : 1), 15, PLAIN, "stirrups %u mm² every %u mm", s->asw, s->s);
}

void draw_section(const section *s, const frame *f)
{
    draw_concrete(f);
    draw_sizes(s, f);
    draw_stirrups(s, f);
}

static unsigned largest_area(const section *s)
{
    unsigned area = 1;
    for (unsigned j = 0; j < s->m; j++)
        if (s->layers[j].area > area)
            area = s->layers[j].area;
    return area;
}

/* A dot's area is to the largest dot's as its layer's to the largest layer's, down to the least that is seen. */
static double radius_of(const section *s, double largest, unsigned j)
{
    double tenths = SMALLEST;
    while (tenths * tenths * largest_area(s) < largest * largest * s->layers[j].area)
        tenths++;
    return tenths / 10;
}

/* Whether a layer's dot would lie over the next one's if all stood in the middle. */
static int crowded(const section *s, const frame *f, double largest)
{
    int found = 0;
    for (unsigned j = 1; j < s->m; j++) {
        double gap = f->scale * (s->layers[j].depth - s->layers[j - 1].depth);
        found |= gap < radius_of(s, largest, j) + radius_of(s, largest, j - 1);
    }
    return found;
}

/* In the middle; or, where they are crowded, side by side and so large that they don't touch, if the web has room. */
static void draw_dots(const section *s, const frame *f)
{
    double largest = least(least(LARGEST, f->height), 4 * f->web_width);
    int apart = crowded(s, f, largest);
    if (apart)
        largest = least(largest, 3.5 * f->web_width / (s->m - 1));
    for (unsigned j = 0; j < s->m; j++) {
        double part = apart ? 0.15 + 0.7 * j / (s->m - 1) : 0.5;
        dot(f->web_left + part * f->web_width, place_of(f, s->layers[j].depth), radius_of(s, largest, j));
    }
}

void draw_layers(const section *s, const frame *f)
{
    double tops[MOST_LAYERS], heights[MOST_LAYERS];
    for (unsigned j = 0; j < s->m; j++) {
        tops[j] = place_of(f, s->layers[j].depth) - LABEL / 2;
        heights[j] = LABEL;
    }
    spread(tops, heights, s->m, HEAD + 4, TOP + HEIGHT + 2);
    for (unsigned j = 0; j < s->m; j++) {
        text(LABELS_END, tops[j] + 14, 15, END, "%u mm²", s->layers[j].area);
        text(LABELS_END, tops[j] + 29, 15, END, "at %u mm", s->layers[j].depth);
        line(LABELS_END + 3, tops[j] + LABEL / 2, left_at(f, s->layers[j].depth), place_of(f, s->layers[j].depth), 1);
    }
    if (s->m == 0)
        text(LABELS_END, f->top + f->height / 2, 15, END, "no bars");
    draw_dots(s, f);
}
