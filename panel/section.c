#include "section.h"

#include "fordwhistle.h"

static unsigned field(const uint8_t *record, size_t at)
{
    return record[at] + 256u * record[at + 1];
}

/* Two's complement, without a conversion that the compiler may choose. */
static int32_t load_of(const uint8_t *record)
{
    int64_t bits = field(record, 12) + 65536 * (int64_t)field(record, 14);
    return (int32_t)(bits < INT64_C(1) << 31 ? bits : bits - (INT64_C(1) << 32));
}

section section_of(const uint8_t *record, size_t len)
{
    section s = {
        .record = record,
        .len = len,
        .b = field(record, 0),
        .h = field(record, 2),
        .fck = field(record, 4),
        .fyk = field(record, 6),
        .feq2 = field(record, 8),
        .feq3 = field(record, 10),
        .load = load_of(record),
        .asw = field(record, 16),
        .s = field(record, 18),
        .m = field(record, 20),
        .hf = field(record, 22),
    };
    for (unsigned j = 0; j < s.m; j++)
        s.layers[j] = (layer){field(record, 24 + 4 * j), field(record, 26 + 4 * j)};
    if (s.hf > 0) {
        s.bf = field(record, 24 + 4 * s.m);
        s.zero = field(record, 26 + 4 * s.m);
    }
    return s;
}

const list *list_of(const section *s)
{
    static int64_t row[3 * MOST_DEPTHS];
    static list l;
    fw_listed listed = fw_depths(s->record, s->len, row, sizeof row / sizeof *row);
    l.refusal = listed.refusal;
    l.count = listed.count;
    l.least = 0;
    for (uint32_t i = 0; i < l.count; i++) {
        l.depths[i] = (depth){row[3 * i], row[3 * i + 1], row[3 * i + 2]};
        if (l.depths[i].moment < l.depths[l.least].moment)
            l.least = i;
    }
    return &l;
}

unsigned limit_depth(const section *s)
{
    return s->m > 0 ? s->layers[s->m - 1].depth : s->h;
}

unsigned effective_depth(const section *s)
{
    unsigned areas = 0, moments = 0;
    for (unsigned j = 0; j < s->m; j++)
        if (2 * s->layers[j].depth > s->h) {
            areas += s->layers[j].area;
            moments += s->layers[j].area * s->layers[j].depth;
        }
    return areas > 0 ? moments / areas : s->h;
}
