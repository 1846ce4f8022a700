/* fw_strength as the panel's program calls it: document 02's figures, each number of results, each rounding where it is exact and beside
 * that, and the limits of 21, 22 and 23. */
#include "fordwhistle.h"

#include "check.h"
#include "series.h"

static int gives(series s, uint32_t mean, uint32_t deviation, uint32_t value)
{
    return is_strength(fw_strength(s.results, s.n), 0, mean, deviation, value);
}

static int refuses(series s, uint32_t refusal)
{
    return is_strength(fw_strength(s.results, s.n), refusal, 0, 0, 0);
}

static series with_result(series s, size_t place, uint32_t result)
{
    s.results[place] = result;
    return s;
}

static void the_figures(void)
{
    CHECK(gives((series){3, {4000, 4200, 4400}}, 4200, 200, 3634));
    CHECK(gives((series){4, {3000, 4000, 5000, 6000}}, 4500, 1290, 821));
    CHECK(gives((series){3, {1718, 2734, 3256}}, 2569, 782, 0));
    CHECK(refuses((series){3, {2698, 4495, 5098}}, 23));
    CHECK(gives((series){3, {1, 1, 2}}, 1, 0, 1));
    CHECK(refuses(of_two(7, 0, 0), 21));
    CHECK(refuses((series){3, {0, 1, 2}}, 22));
}

/* Results so far apart that the t10 of any other column of Table 2 would give another value. */
static void every_column_has_its_t10(void)
{
    CHECK(gives(of_two(3, 4000, 5500), 4500, 866, 1831));
    CHECK(gives(of_two(4, 4000, 5500), 4750, 866, 2401));
    CHECK(gives(of_two(5, 4000, 5500), 4600, 821, 2522));
    CHECK(gives(of_two(6, 4000, 5500), 4750, 821, 2761));
    CHECK(gives(of_two(8, 4000, 5500), 4750, 801, 2917));
    CHECK(gives(of_two(10, 4000, 5500), 4750, 790, 3011));
    CHECK(gives(of_two(12, 4000, 5500), 4750, 783, 3070));
    CHECK(gives(of_two(15, 4000, 5500), 4700, 774, 3086));
}

/* Equal results have no deviation, and their value is their mean. */
static void every_number_of_results(void)
{
    for (size_t n = 0; n <= MOST; n++) {
        series least = of_two(n, 1, 1), most = of_two(n, 20000, 20000);
        CHECK(is_column(n) ? gives(least, 1, 0, 1) : refuses(least, 21));
        CHECK(is_column(n) ? gives(most, 20000, 0, 20000) : refuses(most, 21));
    }
}

/* Without one of its bits n would be 3. No result is read, so three are enough. */
static void no_bit_of_n_is_lost(void)
{
    static const uint32_t results[3] = {4000, 4200, 4400};
    for (size_t bit = 32; bit != 0; bit *= 2)
        CHECK(is_strength(fw_strength(results, bit + 3), 21, 0, 0, 0));
    CHECK(is_strength(fw_strength(results, SIZE_MAX), 21, 0, 0, 0));
}

/* One bad result at each place, just outside the range or in it if only some bits of it counted. */
static void every_result_is_tested(void)
{
    static const uint32_t bad[] = {0, 20001, 65536 + 4000, UINT32_C(0x80000000) + 4000, UINT32_MAX};
    for (size_t n = 0; n <= MOST; n++)
        for (size_t place = 0; place < n; place++)
            for (size_t i = 0; i < sizeof bad / sizeof *bad; i++)
                CHECK(refuses(with_result(of_two(n, 4000, 4000), place, bad[i]), is_column(n) ? 22 : 21));
}

/* It would be 23 too if 0 counted as a result. */
static void a_result_out_of_range_comes_before_the_value(void)
{
    CHECK(refuses((series){3, {1, 20000, 20000}}, 23));
    CHECK(refuses((series){3, {0, 20000, 20000}}, 22));
    CHECK(refuses((series){3, {1, 20001, 20000}}, 22));
}

/* The sum of squares is 2 from 4000 and 2/3 from the mean itself. */
static void distances_are_from_the_rounded_mean(void)
{
    CHECK(gives((series){3, {4000, 4001, 4001}}, 4000, 1, 3996));
    CHECK(refuses((series){3, {1, 2, 2}}, 23));
}

/* s is just 200, then 199 as 79601 is less than 2 x 200 x 200. */
static void the_deviation_is_rounded_down(void)
{
    CHECK(gives((series){3, {3800, 4000, 4200}}, 4000, 200, 3433));
    CHECK(gives((series){3, {3801, 4000, 4200}}, 4000, 199, 3436));
}

/* a is just 41 and 82, with g 84 and 168; in between it is 43 for 42.64. */
static void a_is_rounded_up(void)
{
    CHECK(gives((series){4, {3975, 3975, 3975, 4075}}, 4000, 50, 3875));
    CHECK(gives((series){4, {3974, 3974, 3974, 4078}}, 4000, 52, 3870));
    CHECK(gives((series){4, {3950, 3950, 3950, 4150}}, 4000, 100, 3750));
}

/* g is just 329 and 282, s being 160 and a 175; in between it is 329 for 328.9. */
static void g_is_rounded_up(void)
{
    CHECK(gives((series){3, {540, 700, 860}}, 700, 160, 196));
    CHECK(gives((series){3, {541, 701, 861}}, 701, 160, 197));
    CHECK(gives((series){3, {2290, 2450, 2610}}, 2450, 160, 1993));
}

/* Of all series the highest a that is answered and the highest deviation that is, each beside what is refused; and the highest deviation
 * of any. */
static void the_highest_deviations(void)
{
    series highest = with_result(with_result(of_two(15, 20000, 20000), 3, 1), 11, 1);
    CHECK(gives((series){3, {11027, 20000, 20000}}, 17009, 5180, 2));
    CHECK(refuses((series){3, {11026, 20000, 20000}}, 23));
    CHECK(gives(with_result(highest, 14, 8179), 16545, 7370, 2));
    CHECK(refuses(with_result(highest, 14, 8178), 23));
    CHECK(refuses((series){3, {1, 1, 20000}}, 23));
}

static void order_changes_nothing(void)
{
    CHECK(gives((series){3, {1718, 3256, 2734}}, 2569, 782, 0));
    CHECK(gives((series){3, {2734, 1718, 3256}}, 2569, 782, 0));
    CHECK(gives((series){3, {2734, 3256, 1718}}, 2569, 782, 0));
    CHECK(gives((series){3, {3256, 1718, 2734}}, 2569, 782, 0));
    CHECK(gives((series){3, {3256, 2734, 1718}}, 2569, 782, 0));
}

int main(void)
{
    the_figures();
    every_column_has_its_t10();
    every_number_of_results();
    no_bit_of_n_is_lost();
    every_result_is_tested();
    a_result_out_of_range_comes_before_the_value();
    distances_are_from_the_rounded_mean();
    the_deviation_is_rounded_down();
    a_is_rounded_up();
    g_is_rounded_up();
    the_highest_deviations();
    order_changes_nothing();
    return verdict();
}
