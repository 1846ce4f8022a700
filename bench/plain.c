/* Document 01's formulas in C as they stand there: 64-bit integers, the law's numbers once for a section, a division for each strip. */
#include "plain.h"

/* d, as request [2] of document 02 has it: the centroid of the layers below mid-height, rounded; h without bars. */
static int64_t effective_depth(const section *s)
{
    int64_t areas = 0, moments = 0;
    for (int j = 0; j < s->m; j++) {
        int64_t depth = s->layers[j].depth, area = s->layers[j].area;
        if (2 * depth > s->h) {
            areas += area;
            moments += area * depth;
        }
    }
    return s->m > 0 ? moments / areas : s->h;
}

/* Where the strain of 10 per mille is reached: the depth of the deepest layer, or h without bars. */
static int64_t limit_depth(const section *s)
{
    return s->m > 0 ? s->layers[s->m - 1].depth : s->h;
}

law law_of(const section *s)
{
    static const int64_t flexural[] = {3700, 4300, 4800, 5300, 5800, 6300, 6800};
    static const int64_t modulus[] = {29000, 30500, 32000, 33500, 35000, 36000, 37000};
    int concrete = (s->fck - 20) / 5;
    law l;
    l.d = effective_depth(s);
    l.fcd = s->fck * 1000 * 17 / 30;
    l.fyd = s->fyk * 1000 * 100 / 115;
    l.s1 = 7 * flexural[concrete] * (1600 - l.d) / 10000;
    l.e1 = 1000 * l.s1 / modulus[concrete];
    l.e2 = l.e1 + 100;
    l.s2 = 45 * s->feq2 / 100;
    l.s3 = 37 * s->feq3 / 100;
    return l;
}

uint16_t level_feq2(const section *s)
{
    law l = law_of(s);
    int64_t s2 = (l.fcd * 17000 / 3 - l.s1 * l.e1 - 100 * l.s1) / (E3 - l.e1);
    return (uint16_t)((100 * s2 + 44) / 45);
}

axis axis_at(const section *s, int64_t x)
{
    int64_t limit = limit_depth(s);
    if (7 * limit > 27 * x)
        return (axis){x, 10000, 2 * (limit - x)};
    return (axis){x, 3500, 2 * x};
}

/* The stress at p / q on the line from (ea, sa) to (eb, sb), rounded. */
static int64_t line(int64_t ea, int64_t sa, int64_t eb, int64_t sb, int64_t p, int64_t q)
{
    return (sa * (eb * q - p) + sb * (p - ea * q)) / ((eb - ea) * q);
}

/* The concrete's stress at a strain of p / q, its size rounded towards zero. */
static int64_t concrete_stress(const law *l, int64_t p, int64_t q)
{
    if (p > 2000 * q)
        return l->fcd;
    if (p >= 0)
        return l->fcd * p * (4000 * q - p) / (4000000 * q * q);
    p = -p;
    if (p <= l->e1 * q)
        return -(l->s1 * p / (l->e1 * q));
    if (p <= l->e2 * q)
        return -line(l->e1, l->s1, l->e2, l->s2, p, q);
    if (p <= E3 * q)
        return -line(l->e2, l->s2, E3, l->s3, p, q);
    return 0;
}

static int64_t bar_stress(const law *l, int64_t p, int64_t q)
{
    if (p < 0)
        return -bar_stress(l, -p, q);
    if (200 * p > l->fyd * q)
        return l->fyd;
    return 200 * p / q;
}

/* Of strip i, as request [4] of document 02 has it. */
static int64_t width_at(const section *s, int i)
{
    return i < s->hf ? s->bf : s->b;
}

static int64_t strip_force(const section *s, const law *l, axis a, int i)
{
    return width_at(s, i) * concrete_stress(l, a.num * (2 * a.x - (2 * i + 1)), a.den);
}

int64_t bar_force(const section *s, const law *l, axis a, int j)
{
    return s->layers[j].area * bar_stress(l, a.num * (2 * a.x - 2 * s->layers[j].depth), a.den);
}

int64_t imbalance(const section *s, const law *l, int64_t x)
{
    axis a = axis_at(s, x);
    int64_t sum = -1000 * (int64_t)s->load;
    for (int i = 0; i < s->h; i++)
        sum += strip_force(s, l, a, i);
    for (int j = 0; j < s->m; j++)
        sum += bar_force(s, l, a, j);
    return sum;
}

static int64_t moment(const section *s, const law *l, int64_t x)
{
    axis a = axis_at(s, x);
    int64_t sum = 0;
    for (int i = 0; i < s->h; i++)
        sum += strip_force(s, l, a, i) * (s->h - (2 * i + 1));
    for (int j = 0; j < s->m; j++)
        sum += bar_force(s, l, a, j) * (s->h - 2 * s->layers[j].depth);
    return sum;
}

static int64_t kind(const int64_t *imbalances, int x, int h)
{
    if (imbalances[x] == 0)
        return 1;
    if (x < h && ((imbalances[x] < 0 && imbalances[x + 1] > 0) || (imbalances[x] > 0 && imbalances[x + 1] < 0)))
        return 2;
    return 0;
}

uint32_t plain_depths(const section *s, int64_t *row)
{
    int64_t imbalances[HIGHEST + 1];
    law l = law_of(s);
    uint32_t count = 0;
    for (int x = 1; x <= s->h; x++)
        imbalances[x] = imbalance(s, &l, x);
    for (int x = 1; x <= s->h; x++) {
        int64_t k = kind(imbalances, x, s->h);
        if (k == 0)
            continue;
        *row++ = x;
        *row++ = k;
        *row++ = moment(s, &l, x);
        count++;
    }
    return count;
}

int plain_first(const section *s, int64_t *words)
{
    law l = law_of(s);
    int64_t before = 0;
    for (int x = 1; x <= s->h; x++) {
        int64_t here = imbalance(s, &l, x);
        int crossed = (before < 0 && here > 0) || (before > 0 && here < 0);
        if (here == 0 || crossed) {
            words[0] = crossed ? x - 1 : x;
            words[1] = crossed ? 2 : 1;
            words[2] = moment(s, &l, words[0]);
            return 1;
        }
        before = here;
    }
    return 0;
}
