/* fw_class as the panel's program calls it: document 01's figures, and the ends of its range. */
#include "fordwhistle.h"

#include "check.h"

static int gives(uint16_t fr1, uint16_t fr3, uint32_t refusal, uint32_t step, uint32_t letter)
{
    fw_class_answer answer = fw_class(fr1, fr3);
    return answer.refusal == refusal && answer.step == step && answer.letter == letter;
}

int main(void)
{
    CHECK(gives(7100, 8700, 0, 7000, 'd'));
    CHECK(gives(1220, 1060, 0, 1000, 'c'));
    CHECK(gives(3999, 3500, 0, 3500, 'c'));
    CHECK(gives(4000, 2000, 0, 4000, 'a'));
    CHECK(gives(4000, 1999, 17, 0, 0));
    CHECK(gives(999, 5000, 17, 0, 0));
    CHECK(gives(0, 0, 17, 0, 0));
    CHECK(gives(0, UINT16_MAX, 17, 0, 0));
    CHECK(gives(UINT16_MAX, 0, 17, 0, 0));
    CHECK(gives(UINT16_MAX, UINT16_MAX, 0, 8000, 'e'));
    return verdict();
}
