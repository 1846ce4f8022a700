/* A list of depths in place of the unit's, for a sheet that is built with -Dfw_depths=lent_list: as many as the record's spacing s says, 10 mm
 * apart, both kinds in turn, with moments that fall to the last but one and stay. No section was found whose least moment is not the first. */
#include "fordwhistle.h"

fw_listed fw_depths(const uint8_t *record, size_t len, int64_t *row, size_t words)
{
    uint32_t count = record[18];
    (void)len, (void)words;
    for (uint32_t i = 0; i < count; i++) {
        row[3 * i] = 10 * (i + 1);
        row[3 * i + 1] = 1 + i % 2;
        row[3 * i + 2] = (i + 1 < count ? count - i : 2) * INT64_C(12345678900);
    }
    return (fw_listed){.count = count};
}
