/* Document 01's shear in C as it stands there, of a record's bytes: what is refused, then the formulas, in 64-bit
 * integers. */
#include "shear.h"

#include <math.h>

#include "plain.h"

static uint16_t word(const uint8_t *at)
{
    return (uint16_t)(at[0] | at[1] << 8);
}

/* Line 6 of the table of refusals. */
static int whole(const uint8_t *bytes, size_t len)
{
    if (len < 24)
        return 0;
    size_t m = word(bytes + 20), flange = word(bytes + 22) != 0 ? 4 : 0;
    return m <= 8 && len == 24 + 4 * m + flange && (flange == 0 || word(bytes + len - 2) == 0);
}

static section section_of(const uint8_t *bytes)
{
    section s = {.b = word(bytes), .h = word(bytes + 2), .fck = word(bytes + 4), .fyk = word(bytes + 6)};
    s.feq2 = word(bytes + 8);
    s.feq3 = word(bytes + 10);
    s.load = (int32_t)(word(bytes + 12) | (uint32_t)word(bytes + 14) << 16);
    s.asw = word(bytes + 16);
    s.s = word(bytes + 18);
    s.m = word(bytes + 20);
    s.hf = word(bytes + 22);
    for (int j = 0; j < s.m; j++) {
        s.layers[j].depth = word(bytes + 24 + 4 * j);
        s.layers[j].area = word(bytes + 26 + 4 * j);
    }
    if (s.hf != 0)
        s.bf = word(bytes + 24 + 4 * s.m);
    return s;
}

/* The depths rise from 1 on and end below mid-height. */
static int bars_right(const section *s)
{
    int above = 0;
    for (int j = 0; j < s->m; j++) {
        int depth = s->layers[j].depth;
        if (depth <= above || depth >= s->h || s->layers[j].area == 0)
            return 0;
        above = depth;
    }
    return s->m == 0 || 2 * above > s->h;
}

/* Lines 7 to 13, with 20 after 8, then 16. */
static uint32_t refusal_of(const section *s)
{
    if (s->fck < 20 || s->fck > 50 || s->fck % 5 != 0)
        return 7;
    if (s->b < 50 || s->b > 2000 || s->h < 50 || s->h > HIGHEST)
        return 8;
    if (s->hf != 0 && (s->hf >= s->h || s->bf < s->b || s->bf > 2000))
        return 20;
    if (s->fyk < 400 || s->fyk > 600)
        return 9;
    if (s->feq2 > 20000 || s->feq3 > 20000)
        return 10;
    if (s->load < -10000000 || s->load > 10000000)
        return 11;
    if (!bars_right(s))
        return 12;
    if (s->asw != 0 && s->s == 0)
        return 13;
    return s->m == 0 ? 16 : 0;
}

static int64_t lesser(int64_t a, int64_t b)
{
    return a < b ? a : b;
}

static int64_t greater(int64_t a, int64_t b)
{
    return a > b ? a : b;
}

/* n squared or cubed, times a number. */
static inline int64_t raised(int power, int64_t n, int64_t by)
{
    return power == 2 ? n * n * by : n * n * n * by;
}

/* The largest n with n squared or cubed, times a number, at most `bound`. */
static inline int64_t root(roots how, int power, int64_t by, int64_t bound)
{
    int64_t n = 0;
    if (how == FLOATING) {
        double quotient = (double)bound / (double)by;
        n = (int64_t)(power == 2 ? sqrt(quotient) : cbrt(quotient));
        while (raised(power, n, by) > bound)
            n--;
    }
    while (raised(power, n + 1, by) <= bound)
        n++;
    return n;
}

static int64_t r_of(roots how, int64_t d)
{
    return root(how, 2, d, 200000000);
}

/* As: the area of the layers below mid-height. */
static int64_t steel_area(const section *s)
{
    int64_t areas = 0;
    for (int j = 0; j < s->m; j++)
        areas += 2 * s->layers[j].depth > s->h ? s->layers[j].area : 0;
    return areas;
}

static int64_t c_of(roots how, const section *s, int64_t d)
{
    int64_t bd = s->b * d, steel = steel_area(s);
    if (50 * steel > bd)
        return root(how, 3, 1, 2000000000 * (int64_t)s->fck);
    return root(how, 3, bd, 100000000000 * steel * s->fck);
}

/* 15 N / (100 A) with N in mN, rounded towards minus infinity; A is the area of flange and web. */
static int64_t axial_share(const section *s)
{
    int64_t n = 15 * 1000 * (int64_t)s->load, by = 100 * (s->bf * s->hf + s->b * (s->h - s->hf));
    return n / by - (n % by < 0);
}

static int64_t concrete_share(roots how, const section *s, int64_t d)
{
    int64_t k = lesser(1000 + r_of(how, d), 2000);
    return greater(12 * k * c_of(how, s, d) / 100000 + axial_share(s), 0);
}

static int64_t kf_of(const section *s, int64_t d)
{
    if (s->hf == 0)
        return 1000;
    int64_t q = lesser(s->bf - s->b, lesser(3 * s->hf, 3 * s->b));
    return lesser(1000 + 1000 * q * s->hf / (s->b * d), 1500);
}

static int64_t fibre_share(const section *s, int64_t d)
{
    return 12 * s->feq3 / 100 * greater(1000, 1600 - d) * kf_of(s, d) / 1000000;
}

static int64_t stirrups(const section *s, const law *l)
{
    return s->asw == 0 ? 0 : 9 * s->asw * l->d * l->fyd / (10 * s->s);
}

static int64_t struts(const section *s, int64_t d)
{
    return greater(500, 700 - 5 * s->fck) * (2000 * s->fck / 3) * (9 * s->b * d) / 20000;
}

fw_amount plain_shear(const uint8_t *bytes, size_t len, roots how)
{
    if (!whole(bytes, len))
        return (fw_amount){6, 0};
    section s = section_of(bytes);
    uint32_t refusal = refusal_of(&s);
    if (refusal != 0)
        return (fw_amount){refusal, 0};
    law l = law_of(&s);
    int64_t shares = concrete_share(how, &s, l.d) + fibre_share(&s, l.d);
    return (fw_amount){0, lesser(shares * s.b * l.d + stirrups(&s, &l), struts(&s, l.d))};
}

int64_t counted_rounds(const section *s)
{
    int64_t d = law_of(s).d;
    return r_of(COUNTING, d) + 1 + c_of(COUNTING, s, d) + 1;
}
