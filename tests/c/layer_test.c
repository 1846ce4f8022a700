/* fw_add_layer as the panel's program calls it: layers in any order, without a flange and with one, each way to 12, the tests that it
 * leaves to others, and its room. */
#include "fordwhistle.h"

#include <string.h>

#include "check.h"
#include "sections.h"

/* 60 bytes hold every record; a few more stay. */
enum { LONGEST_RECORD = 60, ROOM = 64, UNWRITTEN = 0xa5 };

/* It has as many layers as a section may. */
static const section full = {.b = 50, .h = 250, .fck = 30, .fyk = 500, .m = 8,
                             .layers = {{1, 9}, {3, 7}, {40, 65535}, {100, 5}, {101, 4}, {125, 3}, {248, 256}, {249, 1}}};

/* Whether a layer is added to the record so that it becomes the second, or refused with nothing written where that is null; what of the
 * room is not the record stays. */
static int adds(const record *r, uint16_t depth, uint16_t area, size_t room, uint32_t refusal, const record *longer)
{
    uint8_t out[ROOM], expected[ROOM];
    size_t len = longer == NULL ? 0 : longer->len;
    fw_written answer;
    memset(out, UNWRITTEN, ROOM);
    memset(expected, UNWRITTEN, ROOM);
    if (longer != NULL)
        memcpy(expected, longer->bytes, len);
    answer = fw_add_layer(r->bytes, r->len, depth, area, out, room);
    return answer.refusal == refusal && answer.len == len && memcmp(out, expected, ROOM) == 0;
}

static int refuses(section s, uint16_t depth, uint16_t area, uint32_t refusal)
{
    record r = record_of(s);
    return adds(&r, depth, area, ROOM, refusal, NULL);
}

static int becomes(section s, uint16_t depth, uint16_t area, section longer)
{
    record r = record_of(s), expected = record_of(longer);
    return adds(&r, depth, area, ROOM, 0, &expected);
}

static section with_height(section s, uint16_t h)
{
    s.h = h;
    return s;
}

/* A section of one layer. */
static section with_layer(section s, uint16_t depth, uint16_t area)
{
    s.m = 1;
    s.layers[0].depth = depth;
    s.layers[0].area = area;
    return s;
}

static section without_layers(section s)
{
    s.m = 0;
    return s;
}

/* From each of the eight on, in steps of 1, 3, 5 and 7 round: rising, falling and mixed. What was written is handed on as it is. */
static void come_in_any_order(section s)
{
    record whole = record_of(s);
    for (size_t from = 0; from < 8; from++)
        for (size_t step = 1; step < 8; step += 2) {
            record r = record_of(without_layers(s));
            for (size_t k = 0, j = from; k < 8; k++, j = (j + step) % 8) {
                record longer = {0};
                fw_written added = fw_add_layer(r.bytes, r.len, s.layers[j].depth, s.layers[j].area, longer.bytes, LONGEST_RECORD);
                longer.len = added.len;
                CHECK(added.refusal == 0 && added.len == r.len + 4);
                r = longer;
            }
            CHECK(r.len == whole.len && memcmp(r.bytes, whole.bytes, whole.len) == 0);
        }
}

static void layers_come_in_any_order(void)
{
    section s = with_flange(full, 256, 0x0107);
    CHECK(record_of(s).len == LONGEST_RECORD);
    come_in_any_order(full);
    come_in_any_order(s);
}

/* The beam without its bars, and with them again: it is the record of the sample. */
static void the_record_is_answered(void)
{
    record r = record_of(without_layers(beam));
    uint8_t out[28];
    CHECK(fw_shear(r.bytes, r.len).refusal == 16);
    CHECK(fw_add_layer(r.bytes, r.len, 540, 3216, out, sizeof out).len == sizeof out);
    CHECK(fw_shear(out, sizeof out).amount == 1069200000);
}

/* A height that no section has leaves no depth, or all but two. */
static void a_layer_has_its_range(void)
{
    static const uint16_t low[] = {0, 1};
    CHECK(refuses(plate, 0, 1, 12));
    CHECK(becomes(plate, 1, 1, with_layer(plate, 1, 1)));
    CHECK(becomes(plate, 99, UINT16_MAX, with_layer(plate, 99, UINT16_MAX)));
    CHECK(refuses(plate, 100, 1, 12));
    CHECK(refuses(plate, UINT16_MAX, 1, 12));
    CHECK(refuses(plate, 50, 0, 12));
    for (size_t i = 0; i < sizeof low / sizeof *low; i++) {
        CHECK(refuses(with_height(plate, low[i]), 0, 1, 12));
        CHECK(refuses(with_height(plate, low[i]), 1, 1, 12));
        CHECK(refuses(with_height(plate, low[i]), UINT16_MAX, 1, 12));
    }
    CHECK(becomes(with_height(plate, 2), 1, 1, with_layer(with_height(plate, 2), 1, 1)));
    CHECK(becomes(with_height(plate, UINT16_MAX), 65534, 1, with_layer(with_height(plate, UINT16_MAX), 65534, 1)));
    CHECK(refuses(with_height(plate, UINT16_MAX), UINT16_MAX, 1, 12));
}

/* Each depth of seven layers, and one between them, where there are eight already. */
static void a_depth_is_free_and_there_is_a_place(void)
{
    section seven = full;
    seven.m = 7;
    for (int j = 0; j < seven.m; j++)
        CHECK(refuses(seven, seven.layers[j].depth, 1, 12));
    CHECK(becomes(seven, 249, 1, full));
    CHECK(refuses(full, 50, 1, 12));
}

/* Wherever the new layer would come. */
static int refuses_anywhere(section s)
{
    return refuses(s, 10, 1, 12) && refuses(s, 50, 1, 12) && refuses(s, 90, 1, 12);
}

static void the_layers_there_are_right(void)
{
    CHECK(refuses_anywhere(with_layers(plate, 0, 1, 60, 1)));
    CHECK(refuses_anywhere(with_layers(plate, 40, 1, 100, 1)));
    CHECK(refuses_anywhere(with_layers(plate, UINT16_MAX, 1, 60, 1)));
    CHECK(refuses_anywhere(with_layers(plate, 40, 0, 60, 1)));
    CHECK(refuses_anywhere(with_layers(plate, 40, 1, 60, 0)));
    CHECK(refuses_anywhere(with_layers(plate, 40, 1, 40, 2)));
    CHECK(refuses_anywhere(with_layers(plate, 60, 1, 40, 1)));
}

/* Of a section that is wrong in each line after 6, in 12 by mid-height alone, and stays so. */
static void no_other_test_is_made(void)
{
    section s = wrong_from(7);
    record r = record_of(s);
    CHECK(fw_shear(r.bytes, r.len).refusal == 7);
    CHECK(becomes(s, 50, 7, with_layers(s, 50, 7, 125, 1)));
}

static void the_spacing_stays_as_filed(void)
{
    section s = with_stirrups(plate, 0, 0x0107);
    CHECK(becomes(s, 60, 1, with_layer(s, 60, 1)));
}

static void a_record_needs_its_room(void)
{
    record r = record_of(beam), longer = record_of(with_layers(beam, 60, 1, 540, 3216));
    CHECK(adds(&r, 60, 1, 31, 19, NULL));
    CHECK(adds(&r, 60, 1, 32, 0, &longer));
}

/* With no room; one that is refused 6 is wrong in 12 too. */
static void the_first_line_that_holds_refuses(void)
{
    section s = with_flange(with_layers(plate, 40, 1, 40, 1), 7, 1000);
    record r = record_of(s), good = record_of(beam);
    CHECK(adds(&r, 60, 1, 0, 12, NULL));
    s.zero = 1;
    r = record_of(s);
    CHECK(adds(&r, 60, 1, 0, 6, NULL));
    CHECK(adds(&good, 540, 1, 0, 12, NULL));
    CHECK(adds(&good, 60, 1, 0, 19, NULL));
}

int main(void)
{
    layers_come_in_any_order();
    the_record_is_answered();
    a_layer_has_its_range();
    a_depth_is_free_and_there_is_a_place();
    the_layers_there_are_right();
    no_other_test_is_made();
    the_spacing_stays_as_filed();
    a_record_needs_its_room();
    the_first_line_that_holds_refuses();
    return verdict();
}
