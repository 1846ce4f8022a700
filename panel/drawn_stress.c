/* The stress of the concrete over the height, at the depth to read. */
#include "drawing.h"

#include <inttypes.h>

#include "figure.h"
#include "svg.h"

/* The room for it, and where its words stand beside it. */
enum { LEFT = 546, WIDTH = 100, TOP = 304, HEIGHT = 90, WORDS = 668 };

/* Strains that a line through the stresses needs: in compression every hundredth, in tension the bends, and those of both faces, rounded
 * towards zero, which moves the line by less than a dot. */
enum { STEP = 100, MOST_STRAINS = MOST_COMPRESSION / STEP + 6 };

/* The law laid out over the height. As the header has it, the strain at depth y is num (x - y) / den, so each strain has its depth. The
 * strains that are drawn go from the compressed face down, positive in compression. */
typedef struct {
    int64_t x, num, den;
    int32_t strains[MOST_STRAINS];
    int count;
} layout;

static layout axis_at(const section *s, int64_t x)
{
    int64_t limit = limit_depth(s);
    if (7 * limit > 27 * x)
        return (layout){.x = x, .num = MOST_TENSION, .den = limit - x};
    return (layout){.x = x, .num = MOST_COMPRESSION, .den = x};
}

static void add(layout *l, int64_t strain)
{
    l->strains[l->count++] = (int32_t)strain;
}

static layout layout_of(const section *s, const bends *b, int64_t x)
{
    layout l = axis_at(s, x);
    int64_t top = l.num * x / l.den, bottom = l.num * (s->h - x) / l.den;
    const int32_t tension[] = {b->e1, b->e2, b->e3};
    add(&l, top);
    for (int64_t strain = (top - 1) / STEP * STEP; strain >= 0; strain -= STEP)
        add(&l, strain);
    for (int i = 0; i < 3 && tension[i] < bottom; i++)
        add(&l, -tension[i]);
    if (bottom <= b->e3)
        add(&l, -bottom);
    return l;
}

static double place_at(const section *s, const layout *l, int32_t strain)
{
    double y = (double)l->x - (double)(strain * l->den) / (double)l->num;
    return TOP + HEIGHT * y / s->h;
}

/* The stress of concrete torn beyond the law's last strain is zero: the line goes back from there. */
static void draw_stresses(const section *s, const layout *l, double zero, double scale)
{
    start_line(2, "#c8c8c8");
    point(zero, TOP);
    for (int i = 0; i < l->count; i++)
        point(zero + scale * stress_at(s, l->strains[i]), place_at(s, l, l->strains[i]));
    point(zero, place_at(s, l, l->strains[l->count - 1]));
    end_line();
}

/* Which strain limits the section, and where. */
static void draw_words(const section *s, const layout *l)
{
    const char *tension_limit = s->m > 0 ? "deepest layer" : "tension face";
    figure limit = exact(l->num, 3);
    text(WORDS, TOP + 8, 15, BOLD, "at x %" PRId64 " mm", l->x);
    text(WORDS, TOP + 28, 15, PLAIN, "← tension");
    text(WORDS, TOP + 46, 15, PLAIN, "→ compression");
    text(WORDS, TOP + 68, 15, PLAIN, "%s ‰ at the", limit.text);
    text(WORDS, TOP + 86, 15, PLAIN, "%s", l->num == MOST_TENSION ? tension_limit : "compressed face");
}

void draw_stress(const section *s, const bends *b, const list *listed)
{
    int64_t x = listed->depths[listed->least].x;
    layout l = layout_of(s, b, x);
    double fcd = stress_at(s, MOST_COMPRESSION), most = largest_tension(s, l.strains, l.count), scale = WIDTH / (fcd + most);
    double zero = LEFT + scale * most, y = place_at(s, &l, 0);
    text(DIVIDE + 12, TOP - 20, 16, BOLD, "Stress over the height");
    draw_stresses(s, &l, zero, scale);
    line(zero, TOP, zero, TOP + HEIGHT, 2);
    dashed_line(LEFT - 6, y, LEFT + WIDTH + 6, y, 1);
    dashed_line(LEFT + WIDTH, TOP, LEFT + WIDTH, TOP + HEIGHT, 1);
    text(LEFT + WIDTH, TOP - 4, 15, MIDDLE, "fcd");
    draw_words(s, &l);
}
