/* record.h: a section by its fields and the bytes of its record, for the C tests and the bench of what is asked of a record. */
#ifndef RECORD_H
#define RECORD_H

#include <stddef.h>
#include <stdint.h>

/* One layer more than a record may have, so that a test can have it. */
enum { LAYERS = 9 };

/* bf and the zero stand in a record only where hf is not 0. */
typedef struct {
    uint16_t b, h, fck, fyk, feq2, feq3;
    int32_t load;
    uint16_t asw, s, m, hf;
    struct {
        uint16_t depth, area;
    } layers[LAYERS];
    uint16_t bf, zero;
} section;

/* Past `len` there are zeros and room for a byte more, so that a test can also lengthen it. */
typedef struct {
    size_t len;
    uint8_t bytes[24 + 4 * LAYERS + 4 + 1];
} record;

static inline void put(uint8_t *at, size_t bytes, uint32_t number)
{
    for (size_t i = 0; i < bytes; i++)
        at[i] = (uint8_t)(number >> (8 * i));
}

static inline void append(record *r, size_t bytes, uint32_t number)
{
    put(r->bytes + r->len, bytes, number);
    r->len += bytes;
}

static inline record record_of(section s)
{
    record r = {0};
    const uint16_t first[] = {s.b, s.h, s.fck, s.fyk, s.feq2, s.feq3}, then[] = {s.asw, s.s, s.m, s.hf};
    for (size_t i = 0; i < sizeof first / sizeof *first; i++)
        append(&r, 2, first[i]);
    append(&r, 4, (uint32_t)s.load);
    for (size_t i = 0; i < sizeof then / sizeof *then; i++)
        append(&r, 2, then[i]);
    for (int j = 0; j < s.m && j < LAYERS; j++) {
        append(&r, 2, s.layers[j].depth);
        append(&r, 2, s.layers[j].area);
    }
    if (s.hf != 0) {
        append(&r, 2, s.bf);
        append(&r, 2, s.zero);
    }
    return r;
}

#endif
