/* sections.h: the sections that more than one C test asks of. */
#ifndef SECTIONS_H
#define SECTIONS_H

#include "record.h"

/* The two records of document 01's book. */
static const section plate = {.b = 1000, .h = 100, .fck = 30, .fyk = 500, .feq2 = 3700, .feq3 = 4500};
static const section beam = {.b = 400, .h = 600, .fck = 30, .fyk = 500, .feq2 = 2000, .feq3 = 2000, .load = 10000000, .m = 1,
                             .layers = {{540, 3216}}};

/* Two of its layers lie below mid-height: its effective depth is 422, its limit depth 460. */
static const section girder = {.b = 300, .h = 500, .fck = 30, .fyk = 500, .feq2 = 2000, .feq3 = 2000, .m = 3,
                               .layers = {{40, 400}, {400, 1000}, {460, 600}}};

/* A rib of a floor: its area is 128000, its kf 1266. */
static const section rib = {.b = 200, .h = 400, .fck = 30, .fyk = 500, .feq2 = 2000, .feq3 = 2000, .load = 100000, .m = 1,
                            .layers = {{360, 1000}}, .hf = 80, .bf = 800};

static inline section with_layers(section s, uint16_t depth0, uint16_t area0, uint16_t depth1, uint16_t area1)
{
    s.m = 2;
    s.layers[0].depth = depth0;
    s.layers[0].area = area0;
    s.layers[1].depth = depth1;
    s.layers[1].area = area1;
    return s;
}

static inline section with_stirrups(section s, uint16_t asw, uint16_t spacing)
{
    s.asw = asw;
    s.s = spacing;
    return s;
}

static inline section with_flange(section s, uint16_t hf, uint16_t bf)
{
    s.hf = hf;
    s.bf = bf;
    return s;
}

/* The lines of the table of refusals that are of a record, in the table's order. */
static const uint32_t lines[] = {6, 7, 8, 20, 9, 10, 11, 12, 13};

enum { LINES = sizeof lines / sizeof *lines };

/* Where one of these lines stands; any other comes after them. */
static inline size_t place_of(uint32_t line)
{
    size_t place = 0;
    while (place < LINES && lines[place] != line)
        place++;
    return place;
}

/* Wrong in this line and in each of these after it, and at the limit of each before it; accepted where it is none of them. A call that
 * tests the lines in another order gives another number. */
static inline section wrong_from(uint32_t line)
{
    size_t from = place_of(line);
    return (section){
        .zero = from <= place_of(6) ? 1 : 0,
        .fck = from <= place_of(7) ? 29 : 30,
        .b = from <= place_of(8) ? 49 : 50,
        .h = 250,
        .hf = from <= place_of(20) ? 250 : 249,
        .bf = 50,
        .fyk = from <= place_of(9) ? 399 : 400,
        .feq2 = from <= place_of(10) ? 20001 : 20000,
        .load = from <= place_of(11) ? 10000001 : 10000000,
        .m = 1,
        .layers = {{from <= place_of(12) ? 125 : 126, 1}},
        .asw = 1,
        .s = from <= place_of(13) ? 0 : 1,
    };
}

#endif
