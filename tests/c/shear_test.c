/* fw_shear as the panel's program calls it: document 01's records, each share with its limits and its rounding, and each refusal. */
#include "fordwhistle.h"

#include "check.h"
#include "sections.h"

/* Its concrete bears 628 kPa on a b d of 135000 mm2, and nothing else does. A load of 1000 N makes that 1 kPa more. */
static const section joist = {.b = 300, .h = 500, .fck = 35, .fyk = 500, .m = 1, .layers = {{450, 1200}}};

static int answers(const uint8_t *bytes, size_t len, uint32_t refusal, int64_t amount)
{
    fw_amount answer = fw_shear(bytes, len);
    return answer.refusal == refusal && answer.amount == amount;
}

static int gives(section s, int64_t amount)
{
    record r = record_of(s);
    return answers(r.bytes, r.len, 0, amount);
}

static int refuses(section s, uint32_t refusal)
{
    record r = record_of(s);
    return answers(r.bytes, r.len, refusal, 0);
}

static section with_load(section s, int32_t load)
{
    s.load = load;
    return s;
}

static section with_area(section s, uint16_t area)
{
    s.layers[0].area = area;
    return s;
}

static void the_figures(void)
{
    CHECK(refuses(plate, 16));
    CHECK(gives(beam, 1069200000));
    CHECK(gives(rib, 87696000));
}

/* The bytes of the beam, with none after them. */
static void a_record_has_its_length(void)
{
    static const uint8_t bytes[28] = {
        0x90, 0x01, 0x58, 0x02, 0x1e, 0x00, 0xf4, 0x01, 0xd0, 0x07, 0xd0, 0x07, 0x80, 0x96,
        0x98, 0x00, 0x00, 0x00, 0x00, 0x00, 0x01, 0x00, 0x00, 0x00, 0x1c, 0x02, 0x90, 0x0c,
    };
    CHECK(answers(bytes, 28, 0, 1069200000));
    CHECK(answers(bytes, 27, 6, 0));
    CHECK(answers(bytes, 24, 6, 0));
    CHECK(answers(bytes, 0, 6, 0));
}

/* From fck 40 on their factor stays at 500. */
static void the_struts_are_the_most(void)
{
    section s = with_stirrups(joist, 157, 1);
    CHECK(gives(s, 744176868));
    s.fck = 20;
    CHECK(gives(s, 485987850));
    s.fck = 50;
    CHECK(gives(s, 1012489875));
}

static void bars_count_up_to_2_percent(void)
{
    CHECK(gives(with_area(joist, 2600), 109755000));
    CHECK(gives(with_area(joist, 2700), 111105000));
    CHECK(gives(with_area(joist, 2701), 111105000));
    CHECK(gives(with_area(joist, UINT16_MAX), 111105000));
}

static void layers_count_below_mid_height(void)
{
    CHECK(gives(joist, 84780000));
    CHECK(gives(with_layers(joist, 50, 900, 450, 1200), 84780000));
    CHECK(gives(with_layers(joist, 250, 900, 450, 1200), 84780000));
    CHECK(gives(with_layers(joist, 251, 900, 450, 1200), 92710800));
}

/* The heavier bars are over 2 % of b d, and would not be at the deepest layer's depth. With a spacing of 1 the struts decide. */
static void every_share_takes_the_centroid(void)
{
    section heavy = girder;
    heavy.layers[1].area = 1600;
    heavy.layers[2].area = 960;
    CHECK(gives(girder, 121789200));
    CHECK(gives(heavy, 135968400));
    CHECK(gives(with_stirrups(girder, 157, 200), 251416409));
    CHECK(gives(with_stirrups(girder, 157, 1), 626670000));
}

/* At 180 mm r is 1054, and k has its limit. In the other r is 500 and c 3000, and neither is rounded. */
static void roots_have_a_limit_and_may_be_exact(void)
{
    static const section low = {.b = 300, .h = 220, .fck = 35, .fyk = 500, .m = 1, .layers = {{180, 1200}}};
    static const section exact = {.b = 2000, .h = 1000, .fck = 20, .fyk = 500, .m = 1, .layers = {{800, 21600}}};
    CHECK(gives(low, 53406000));
    CHECK(gives(exact, 864000000));
}

static section with_bars(uint16_t b, uint16_t h, uint16_t depth, uint16_t area, uint16_t fck)
{
    return (section){.b = b, .h = h, .fck = fck, .fyk = 500, .m = 1, .layers = {{depth, area}}};
}

/* Document 02's figures: k 1447 and c 1882; 2000 and 4641; 2000 and 1154; 1707 and 3914 on either side of 2 %. */
static void roots_give_the_figures(void)
{
    CHECK(gives(with_bars(300, 1000, 999, 1000, 20), 97702200));
    CHECK(gives(with_bars(2000, 50, 26, UINT16_MAX, 50), 57876000));
    CHECK(gives(with_bars(50, 50, 26, 1, 20), 358800));
    CHECK(gives(with_bars(300, 500, 400, 2400, 30), 96120000));
    CHECK(gives(with_bars(300, 500, 400, 2401, 30), 96120000));
}

static void a_tensile_share_goes_towards_minus_infinity(void)
{
    CHECK(gives(with_load(joist, 1000), 84915000));
    CHECK(gives(with_load(joist, 999), 84780000));
    CHECK(gives(with_load(joist, -1), 84645000));
    CHECK(gives(with_load(joist, -1000), 84645000));
    CHECK(gives(with_load(joist, -1001), 84510000));
}

static void tension_leaves_the_fibres(void)
{
    section s = with_load(joist, -627000);
    CHECK(gives(s, 135000));
    s.load = -628000;
    CHECK(gives(s, 0));
    s.load = -1000000;
    CHECK(gives(s, 0));
    s.feq3 = 1999;
    CHECK(gives(s, 36990000));
}

/* Its area is 180000 mm2, so that it takes 1200 N to make 1 kPa. */
static void a_load_is_spread_over_the_flange_too(void)
{
    section s = with_flange(joist, 100, 600);
    CHECK(gives(s, 84780000));
    CHECK(gives(with_load(s, 1200), 84915000));
    CHECK(gives(with_load(s, 1199), 84780000));
    CHECK(gives(with_load(s, -1200), 84645000));
    CHECK(gives(with_load(s, -1201), 84510000));
}

/* t is 239.88 before it is rounded. From a d of 600 on the fibres bear just t. */
static void fibres_are_rounded_twice(void)
{
    static const section deep = {.b = 300, .h = 1000, .fck = 35, .fyk = 500, .feq3 = 1999, .m = 1, .layers = {{900, 1200}}};
    section s = joist;
    s.feq3 = 1999;
    CHECK(gives(s, 121770000));
    CHECK(gives(deep, 183330000));
    CHECK(gives(with_stirrups(with_load(s, -123456), 157, 200), 243258067));
}

/* kf is 1222, by bf - b and by 3 hf alike, then 1148 by bf - b, 1222 by 3 hf and 1315 by 3 b; 1498, 1500 and, where it would be more, 1500;
 * and 1000. The first three are 1 kPa more than if the share were rounded before kf too. */
static void a_flange_helps_the_fibres(void)
{
    static const section slender = {.b = 50, .h = 1000, .fck = 30, .fyk = 500, .feq3 = 1999, .m = 1, .layers = {{950, 500}}};
    section s = joist;
    s.feq3 = 1999;
    CHECK(gives(with_flange(s, 100, 600), 130005000));
    CHECK(gives(with_flange(s, 100, 500), 127305000));
    CHECK(gives(with_flange(s, 100, 2000), 130005000));
    CHECK(gives(with_flange(slender, 100, 400), 41135000));
    CHECK(gives(with_flange(s, 150, 749), 140265000));
    CHECK(gives(with_flange(s, 150, 750), 140400000));
    CHECK(gives(with_flange(s, 250, 2000), 140400000));
    CHECK(gives(with_flange(s, 499, 300), 121770000));
}

/* The stirrups, the struts and 2 % are the web's. */
static void a_flange_helps_nothing_else(void)
{
    section s = with_flange(joist, 100, 600);
    CHECK(gives(with_stirrups(s, 157, 200), 223008067));
    CHECK(gives(with_stirrups(s, 157, 1), 744176868));
    CHECK(gives(with_area(s, 5400), 111105000));
}

static void stirrups_have_a_spacing(void)
{
    CHECK(gives(with_stirrups(joist, 157, 200), 223008067));
    CHECK(gives(with_stirrups(joist, UINT16_MAX, UINT16_MAX), 260866710));
    CHECK(gives(with_stirrups(joist, 0, 200), 84780000));
}

/* 16 comes last. */
static void the_first_line_that_holds_refuses(void)
{
    section s = wrong_from(13);
    for (int i = 0; i < LINES; i++)
        CHECK(refuses(wrong_from(lines[i]), lines[i]));
    CHECK(gives(wrong_from(14), 31185000));
    s.m = 0;
    CHECK(refuses(s, 13));
    s.s = 1;
    CHECK(refuses(s, 16));
}

int main(void)
{
    the_figures();
    a_record_has_its_length();
    the_struts_are_the_most();
    bars_count_up_to_2_percent();
    layers_count_below_mid_height();
    every_share_takes_the_centroid();
    roots_have_a_limit_and_may_be_exact();
    roots_give_the_figures();
    a_tensile_share_goes_towards_minus_infinity();
    a_load_is_spread_over_the_flange_too();
    tension_leaves_the_fibres();
    fibres_are_rounded_twice();
    a_flange_helps_the_fibres();
    a_flange_helps_nothing_else();
    stirrups_have_a_spacing();
    the_first_line_that_holds_refuses();
    return verdict();
}
