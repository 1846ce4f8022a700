/* The law of the concrete: tension and compression apart, since one scale would not show both. */
#include "drawing.h"

#include "figure.h"
#include "svg.h"

/* Where the two stand; their axis of strain, and how far above it the greatest stress is. */
enum { TENSION = 546, TENSION_WIDTH = 118, COMPRESSION = 698, COMPRESSION_WIDTH = 86, AXIS = 168, TALL = 60 };

/* The strain in tension has two scales, one up to e2: what happens there would else be as wide as the axis' own line. */
static double tension_place(const bends *b, int32_t strain)
{
    double knee = 0.6 * TENSION_WIDTH;
    if (strain <= b->e2)
        return TENSION + knee * strain / b->e2;
    return TENSION + knee + (TENSION_WIDTH - knee) * (strain - b->e2) / (b->e3 - b->e2);
}

static void draw_axes(double left, double width, const char *name)
{
    line(left, AXIS - TALL - 6, left, AXIS, 2);
    line(left, AXIS, left + width, AXIS, 2);
    text(left, AXIS + 17, 15, PLAIN, "%s", name);
}

/* In tension: the ends of its lines on the sheet, from the origin on. */
enum { ENDS = 4 };

typedef struct {
    double x[ENDS], y[ENDS];
} tension_line;

static tension_line tension_line_of(const section *s, const bends *b)
{
    const int32_t strains[ENDS] = {0, -b->e1, -b->e2, -b->e3};
    tension_line t = {{0}, {0}};
    double scale = TALL / largest_tension(s, strains, ENDS);
    for (int i = 0; i < ENDS; i++) {
        t.x[i] = tension_place(b, -strains[i]);
        t.y[i] = AXIS + scale * stress_at(s, strains[i]);
    }
    return t;
}

/* A name stands where its two lines leave room: over a peak, under a valley or, where the axis is near, well above it, else on the side that
 * they turn away from. */
static void name_end(const tension_line *t, int i)
{
    int rises = t->y[i] <= t->y[i - 1], rises_on = i + 1 < ENDS && t->y[i + 1] < t->y[i];
    if (i + 1 == ENDS)
        text(t->x[i] + 5, t->y[i] + 5, 15, BOLD, "s%d", i);
    else if (rises && rises_on)
        text(t->x[i] - 5, t->y[i] - 3, 15, BOLD | END, "s%d", i);
    else if (rises)
        text(t->x[i], t->y[i] - 6, 15, BOLD | MIDDLE, "s%d", i);
    else if (rises_on)
        text(t->x[i], t->y[i] + (t->y[i] > AXIS - 20 ? -20 : 17), 15, BOLD | MIDDLE, "s%d", i);
    else
        text(t->x[i] + 4, t->y[i] - 6, 15, BOLD, "s%d", i);
}

/* Where the axis of strain goes on to another scale it is cut. */
static void draw_knee(double x)
{
    box(x - 2, AXIS - 5, 5, 10, "white");
    line(x - 4, AXIS + 5, x, AXIS - 5, 2);
    line(x + 1, AXIS + 5, x + 5, AXIS - 5, 2);
}

static void draw_tension(const section *s, const bends *b)
{
    tension_line t = tension_line_of(s, b);
    draw_axes(TENSION, TENSION_WIDTH, "tension");
    draw_knee(t.x[2]);
    start_line(3, "none");
    for (int i = 0; i < ENDS; i++)
        point(t.x[i], t.y[i]);
    end_line();
    for (int i = 1; i < ENDS; i++)
        name_end(&t, i);
}

static void draw_compression(const section *s)
{
    double across = (double)COMPRESSION_WIDTH / MOST_COMPRESSION, fcd = stress_at(s, MOST_COMPRESSION);
    draw_axes(COMPRESSION, COMPRESSION_WIDTH, "compression");
    start_line(3, "none");
    for (int32_t strain = 0; strain <= MOST_COMPRESSION; strain += 100)
        point(COMPRESSION + across * strain, AXIS - TALL * stress_at(s, strain) / fcd);
    end_line();
    text(COMPRESSION + COMPRESSION_WIDTH, AXIS - TALL - 6, 15, BOLD | END, "fcd");
}

/* These stresses and strains are whole numbers of kPa and of millionths, so that nothing is rounded. */
static void tell(int place, const char *name, double stress, const char *where, int32_t strain)
{
    figure n_per_mm2 = exact((int64_t)stress, 3), per_mille = exact(strain, 3);
    text(DIVIDE + 12, AXIS + 38 + 18 * place, 16, PLAIN, "%s %s N/mm² %s %s ‰", name, n_per_mm2.text, where, per_mille.text);
}

void draw_law(const section *s, const bends *b)
{
    text(DIVIDE + 12, HEAD + 21, 16, BOLD, "Concrete, fck %u N/mm²", s->fck);
    draw_tension(s, b);
    draw_compression(s);
    tell(0, "s1", tension_at(s, b->e1), "at", b->e1);
    tell(1, "s2", tension_at(s, b->e2), "at", b->e2);
    tell(2, "s3", tension_at(s, b->e3), "at", b->e3);
    tell(3, "fcd", stress_at(s, b->plateau), "from", b->plateau);
}
