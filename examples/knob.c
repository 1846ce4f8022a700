/* knob: what a screen shows while a knob is turned: at one axial load after another the first depth at which a section balances, with the
 * moment there, or what is refused. fw_first looks no further than that depth, so that the screen can follow the knob; when the knob
 * rests, fw_depths lists the deeper ones too. The section is record 0 of the sample book. */
#include "fordwhistle.h"

#include <inttypes.h>
#include <stdio.h>

/* b 1000, h 100, fck 30, fyk 500, feq2 3700, feq3 4500 and zeros, little-endian. */
static uint8_t record[24] = {0xe8, 0x03, 100, 0, 30, 0, 0xf4, 0x01, 0x74, 0x0e, 0x94, 0x11};

/* The load stands in bytes 12 to 15. */
static void turn_load(int32_t load)
{
    for (int i = 0; i < 4; i++)
        record[12 + i] = (uint8_t)((uint32_t)load >> 8 * i);
}

static void show(void)
{
    fw_first_depth first = fw_first(record, sizeof record);
    if (first.refusal == 0)
        printf("x %" PRIu32 " mm, kind %" PRIu32 ", moment %" PRId64 " mN half-mm\n", first.depth, first.kind, first.moment);
    else
        printf("refused %" PRIu32 "\n", first.refusal);
}

int main(void)
{
    for (int32_t load = -200000; load <= 1400000; load += 200000) {
        printf("load %" PRId32 " N: ", load);
        turn_load(load);
        show();
    }
    return 0;
}
