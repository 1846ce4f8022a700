/* What of the sheet's own sums no golden sheet shows: figures at the edges of their rounding, labels that have to give way on both sides, a
 * layer just at mid-height. The sheet's files stand here themselves. */
#include <string.h>

#include "check.h"

#include "../../panel/figure.c"
#include "../../panel/section.c"
#include "../../panel/spread.c"

static int is(figure f, const char *text)
{
    return strcmp(f.text, text) == 0;
}

static void figures_are_rounded_down(void)
{
    CHECK(is(rounded_down(1999, 3, 2), "1.99"));
    CHECK(is(rounded_down(-1991, 3, 2), "−2.00"));
    CHECK(is(rounded_down(-1990, 3, 2), "−1.99"));
    CHECK(is(rounded_down(-1, 3, 0), "−1"));
    CHECK(is(rounded_down(-999, 3, 3), "−0.999"));
    CHECK(is(rounded_down(0, 3, 3), "0.000"));
}

static void resistances_have_four_digits(void)
{
    CHECK(is(four_digits(9999999, 6), "9.999"));
    CHECK(is(four_digits(10000000, 6), "10.00"));
    CHECK(is(four_digits(99999999, 6), "99.99"));
    CHECK(is(four_digits(100000000, 6), "100.0"));
    CHECK(is(four_digits(999999999, 6), "999.9"));
    CHECK(is(four_digits(1000000000, 6), "1000"));
    CHECK(is(four_digits(123456999999, 6), "123456"));
    CHECK(is(four_digits(-9999000, 6), "−9.999"));
    CHECK(is(four_digits(-9999001, 6), "−10.00"));
    CHECK(is(kilonewton_metres(14476473000), "7.238"));
    CHECK(is(kilonewton_metres(-1), "−0.001"));
}

static void what_is_exact_loses_nothing(void)
{
    CHECK(is(exact(17000, 3), "17"));
    CHECK(is(exact(4536, 3), "4.536"));
    CHECK(is(exact(4530, 3), "4.53"));
    CHECK(is(exact(-10000001, 3), "−10000.001"));
    CHECK(is(exact(40, 3), "0.04"));
    CHECK(is(exact(0, 3), "0"));
}

static int stand(double *tops, const double *expected)
{
    static const double heights[] = {10, 20, 10};
    spread(tops, heights, 3, 0, 100);
    return memcmp(tops, expected, 3 * sizeof *tops) == 0;
}

static void labels_give_way(void)
{
    double free[] = {10, 40, 80}, high[] = {-5, -5, -5}, low[] = {95, 95, 95}, middle[] = {50, 51, 52};
    CHECK(stand(free, (const double[]){10, 40, 80}));
    CHECK(stand(high, (const double[]){0, 10, 30}));
    CHECK(stand(low, (const double[]){60, 70, 90}));
    CHECK(stand(middle, (const double[]){50, 60, 80}));
}

static void the_effective_depth_is_a_centroid(void)
{
    section s = {.h = 101, .m = 2, .layers = {{51, 3}, {52, 1}}};
    CHECK(effective_depth(&s) == 51);
    s.h = 102;
    CHECK(effective_depth(&s) == 52);
    s.m = 0;
    CHECK(effective_depth(&s) == 102);
}

int main(void)
{
    figures_are_rounded_down();
    resistances_have_four_digits();
    what_is_exact_loses_nothing();
    labels_give_way();
    the_effective_depth_is_a_centroid();
    return verdict();
}
