/* shear.h: the shear resistance of a record in plain C, to hold the unit's time against. */
#ifndef SHEAR_H
#define SHEAR_H

#include "fordwhistle.h"

#include "../tests/c/record.h"

/* How the two roots are found: counting up from nothing, or from the floating root of the C library, which is then
 * corrected to the exact one. */
typedef enum { COUNTING, FLOATING } roots;

/* The same answer as fw_shear. */
fw_amount plain_shear(const uint8_t *bytes, size_t len, roots how);

/* How many numbers counting tries for both roots of an accepted section with bars: each up to the root, which fits, and
 * the next, which does not. */
int64_t counted_rounds(const section *s);

#endif
