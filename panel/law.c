#include "law.h"

#include <string.h>

#include "fordwhistle.h"

double stress_at(const section *s, int32_t strain)
{
    return fw_draw(s->record, s->len, strain).point.stress;
}

double tension_at(const section *s, int32_t strain)
{
    return 0 - stress_at(s, -strain);
}

double largest_tension(const section *s, const int32_t *strains, int count)
{
    double least = 0;
    for (int i = 0; i < count; i++)
        if (stress_at(s, strains[i]) < least)
            least = stress_at(s, strains[i]);
    return 0 - least;
}

/* The section without fibre help. */
static section without_fibres(const section *s, uint8_t *record)
{
    section bare = *s;
    memcpy(record, s->record, s->len);
    memset(record + 8, 0, 4);
    bare.record = record;
    return bare;
}

/* The first strain with all the stress that there is. */
static int32_t plateau_of(const section *s)
{
    int32_t below = 0, plateau = MOST_COMPRESSION;
    while (plateau - below > 1) {
        int32_t middle = (below + plateau) / 2;
        if (stress_at(s, middle) < stress_at(s, MOST_COMPRESSION))
            below = middle;
        else
            plateau = middle;
    }
    return plateau;
}

/* Where fibres help the law may go straight on at a bend. Without them it bends at the same strains, with a peak at the first and nothing
 * from the second on. */
bends bends_of(const section *s)
{
    uint8_t record[MOST_BYTES];
    section bare = without_fibres(s, record);
    bends b = {.e1 = 1, .e3 = MOST_TENSION, .plateau = plateau_of(s)};
    while (tension_at(&bare, b.e1 + 1) > tension_at(&bare, b.e1))
        b.e1++;
    for (b.e2 = b.e1; tension_at(&bare, b.e2) > 0;)
        b.e2++;
    return b;
}
