/* section.h: what the sheet reads of a record, and what the unit answers of it. */
#ifndef SECTION_H
#define SECTION_H

#include <stddef.h>
#include <stdint.h>

enum { MOST_LAYERS = 8, MOST_BYTES = 60, MOST_DEPTHS = 1000 };

typedef struct {
    unsigned depth, area;
} layer;

/* A record and its fields, by the header's table; bf and the zero are 0 where it has none. */
typedef struct {
    const uint8_t *record;
    size_t len;
    unsigned b, h, fck, fyk, feq2, feq3;
    int32_t load;
    unsigned asw, s, m, hf;
    layer layers[MOST_LAYERS];
    unsigned bf, zero;
} section;

typedef struct {
    int64_t x, kind, moment;
} depth;

/* The listed depths, and which of them has the least moment: the first, where several have it. */
typedef struct {
    uint32_t refusal, count, least;
    depth depths[MOST_DEPTHS];
} list;

/* The section of a record that a good book has, so that m is at most 8 and its length is the one that m and hf say. */
section section_of(const uint8_t *record, size_t len);

const list *list_of(const section *s);

/* Where the strain of 10 per mille is reached: the depth of the deepest layer, or h without bars. */
unsigned limit_depth(const section *s);

/* d, with which shear is computed: the centroid of the layers below mid-height, rounded down, or h without bars. */
unsigned effective_depth(const section *s);

#endif
