/* fw_draw as the panel's program calls it: document 01's figures, each piece of the law, the sign of a zero, and each refusal. */
#include "fordwhistle.h"

#include "bits.h"
#include "check.h"
#include "sections.h"

/* Document 01's figures: d is h, since there are no bars. */
static const section figures = {.b = 1000, .h = 250, .fck = 30, .fyk = 500, .feq2 = 3000, .feq3 = 2500};

static int answers(record r, int32_t strain, uint32_t refusal, double drawn_strain, double stress)
{
    fw_drawn drawn = fw_draw(r.bytes, r.len, strain);
    return drawn.refusal == refusal && bits_of(drawn.point.strain) == bits_of(drawn_strain) &&
           bits_of(drawn.point.stress) == bits_of(stress);
}

static int gives(section s, int32_t strain, double stress)
{
    return answers(record_of(s), strain, 0, strain, stress);
}

static int refuses(section s, int32_t strain, uint32_t refusal)
{
    return answers(record_of(s), strain, refusal, 0.0, 0.0);
}

static void the_figures(void)
{
    CHECK(gives(figures, 1000, 12750));
    CHECK(gives(figures, 2000, 17000));
    CHECK(gives(figures, -141, -4536));
    CHECK(gives(figures, -241, -1350));
    CHECK(gives(figures, -10000, -925));
}

/* A literal is the double nearest to what it says. */
static void every_piece(void)
{
    CHECK(gives(figures, 3500, 17000));
    CHECK(gives(figures, 2001, 17000));
    CHECK(gives(figures, 1999, 16999.99575));
    CHECK(gives(figures, 1, 16.99575));
    CHECK(gives(figures, 0, 0.0));
    CHECK(gives(figures, -1, -32.170212765957446808510638));
    CHECK(gives(figures, -47, -1512));
    CHECK(gives(figures, -142, -4504.14));
    CHECK(gives(figures, -242, -1349.956450455989343170406804));
    CHECK(gives(figures, -9999, -925.043549544010656829593196));
}

/* Of no layers, of one below mid-height, and of two, with the centroid at 422.5 and at 51.25. */
static void the_effective_depth_is_a_centroid(void)
{
    section s = figures;
    s.h = 400;
    CHECK(gives(s, -126, -4032));
    CHECK(gives(with_layers(s, 50, 100, 250, 3216), -141, -4536));
    CHECK(gives(girder, -123, -3958));
    s.h = 101;
    CHECK(gives(with_layers(s, 51, 3, 52, 1), -162, -5204));
}

static void no_fibre_help_is_plus_zero(void)
{
    section s = figures;
    s.feq2 = s.feq3 = 0;
    CHECK(gives(s, -240, -45.36));
    CHECK(gives(s, -241, 0.0));
    CHECK(gives(s, -242, 0.0));
    CHECK(gives(s, -10000, 0.0));
}

static void the_first_line_that_holds_refuses(void)
{
    for (int i = 0; i < LINES; i++)
        CHECK(refuses(wrong_from(lines[i]), 3501, lines[i]));
    CHECK(refuses(wrong_from(18), 3501, 18));
    CHECK(gives(wrong_from(18), 3500, 17000));
}

static void a_negative_load_has_its_limit(void)
{
    section s = figures;
    s.load = -10000000;
    CHECK(gives(s, 2000, 17000));
    s.load = -10000001;
    CHECK(refuses(s, 2000, 11));
    s.load = INT32_MIN;
    CHECK(refuses(s, 2000, 11));
}

static void bars_have_their_limits(void)
{
    CHECK(gives(with_layers(figures, 1, 1, 249, UINT16_MAX), 2000, 17000));
    CHECK(refuses(with_layers(figures, 0, 1, 249, 1), 2000, 12));
    CHECK(refuses(with_layers(figures, 1, 1, 250, 1), 2000, 12));
    CHECK(refuses(with_layers(figures, 1, 0, 249, 1), 2000, 12));
    CHECK(refuses(with_layers(figures, 1, 1, 249, 0), 2000, 12));
    CHECK(refuses(with_layers(figures, 200, 1, 200, 1), 2000, 12));
    CHECK(refuses(with_layers(figures, 201, 1, 200, 1), 2000, 12));
    CHECK(refuses(with_layers(figures, 1, 1, 125, 1), 2000, 12));
}

/* 256 is a height of 0 in its first byte. */
static void a_flange_has_its_limits(void)
{
    CHECK(gives(with_flange(figures, 1, 1000), 2000, 17000));
    CHECK(gives(with_flange(figures, 249, 2000), 2000, 17000));
    CHECK(refuses(with_flange(figures, 250, 2000), 2000, 20));
    CHECK(refuses(with_flange(figures, 256, 2000), 2000, 20));
    CHECK(refuses(with_flange(figures, UINT16_MAX, 2000), 2000, 20));
    CHECK(refuses(with_flange(figures, 249, 999), 2000, 20));
    CHECK(refuses(with_flange(figures, 249, 0), 2000, 20));
    CHECK(refuses(with_flange(figures, 249, 2001), 2000, 20));
    CHECK(refuses(with_flange(figures, 249, UINT16_MAX), 2000, 20));
}

static void strains_have_their_limits(void)
{
    CHECK(refuses(figures, -10001, 18));
    CHECK(refuses(figures, 3501, 18));
    CHECK(refuses(figures, INT32_MIN, 18));
    CHECK(refuses(figures, INT32_MAX, 18));
}

static int refused_at_length(section s, size_t len)
{
    record r = record_of(s);
    r.len = len;
    return answers(r, 0, 6, 0.0, 0.0);
}

static void a_record_has_its_length(void)
{
    section eight = figures, nine = figures;
    eight.m = 8;
    nine.m = 9;
    for (uint16_t j = 0; j < LAYERS; j++) {
        eight.layers[j].depth = nine.layers[j].depth = 200 + j;
        eight.layers[j].area = nine.layers[j].area = 1;
    }
    CHECK(refused_at_length(figures, 0));
    CHECK(refused_at_length(figures, 23));
    CHECK(refused_at_length(figures, 25));
    CHECK(gives(eight, 2000, 17000));
    CHECK(refused_at_length(eight, 55));
    CHECK(refused_at_length(eight, 57));
    CHECK(refuses(nine, 2000, 6));
}

static void a_zero_has_two_bytes(void)
{
    section s = with_flange(figures, 7, 1000);
    s.zero = 256;
    CHECK(refuses(s, 2000, 6));
}

int main(void)
{
    the_figures();
    every_piece();
    the_effective_depth_is_a_centroid();
    no_fibre_help_is_plus_zero();
    the_first_line_that_holds_refuses();
    a_negative_load_has_its_limit();
    bars_have_their_limits();
    a_flange_has_its_limits();
    strains_have_their_limits();
    a_record_has_its_length();
    a_zero_has_two_bytes();
    return verdict();
}
