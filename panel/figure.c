#include "figure.h"

#include <inttypes.h>
#include <stdio.h>

static int64_t ten_to(int power)
{
    int64_t ten = 1;
    while (power-- > 0)
        ten *= 10;
    return ten;
}

/* Writes the digits of a number, at least so many, up to an end; returns their start. */
static char *digits_before(char *end, int64_t number, int digits)
{
    for (; digits > 0 || number > 0; digits--, number /= 10)
        *--end = (char)('0' + number % 10);
    return end;
}

/* How many of the last decimal's units a number has, rounded down: the only place where a figure is. */
static int64_t steps_of(int64_t parts, int power, int decimals)
{
    int64_t step = ten_to(power - decimals);
    return parts / step - (parts % step < 0);
}

figure rounded_down(int64_t parts, int power, int decimals)
{
    int64_t unit = ten_to(decimals), steps = steps_of(parts, power, decimals), size = imaxabs(steps);
    char digits[32] = "", *start = digits + sizeof digits - 1;
    figure f;
    if (decimals > 0) {
        start = digits_before(start, size % unit, decimals);
        *--start = '.';
    }
    start = digits_before(start, size / unit, 1);
    snprintf(f.text, sizeof f.text, "%s%s", steps < 0 ? "−" : "", start);
    return f;
}

figure four_digits(int64_t parts, int power)
{
    int decimals = 3;
    while (decimals > 0 && imaxabs(steps_of(parts, power, decimals)) >= ten_to(4))
        decimals--;
    return rounded_down(parts, power, decimals);
}

figure exact(int64_t parts, int power)
{
    int decimals = power;
    while (decimals > 0 && parts % ten_to(power - decimals + 1) == 0)
        decimals--;
    return rounded_down(parts, power, decimals);
}

figure kilonewton_metres(int64_t moment)
{
    return four_digits(5 * moment, 10);
}
