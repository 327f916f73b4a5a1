/* A ledger host's packed fields in C: read as a sheet, which is compiled and run, and written back; and a field that is refused, told by its payslip and its
 * column and not by what it holds. Ends with status 1 if anything comes out otherwise than expected. */
#include "spoutbasket.h"

#include <inttypes.h>
#include <stdio.h>
#include <string.h>

enum { P = 2, Q = 2, FIELDS = P * Q, BYTES = FIELDS * SPOUTBASKET_FIELD_BYTES };

/* The amounts 3 and 2, then 0 and 7; the second field is unsigned. */
static const uint8_t sent[BYTES] = {0x00, 0x00, 0x00, 0x00, 0x3C, 0x00, 0x00, 0x00, 0x00, 0x2F,
                                    0x00, 0x00, 0x00, 0x00, 0x0C, 0x00, 0x00, 0x00, 0x00, 0x7C};

static uint32_t steps[2 * SPOUTBASKET_MOST_STEPS], values[SPOUTBASKET_MOST_VALUES];

/* The control figures of a sheet for the bases 3 and 5 and the modulus 1,000. Returns 0, or a refusal's number. */
static uint32_t run(const uint32_t amounts[FIELDS], uint32_t figures[Q])
{
    static const uint32_t bases[P] = {3, 5};
    uint32_t outputs[Q];
    uint64_t answer[8];
    uint32_t number = spoutbasket_compile(P, Q, amounts, FIELDS, SPOUTBASKET_STRAUS, 1, steps, 2 * SPOUTBASKET_MOST_STEPS, outputs, Q, answer);
    if (number != SPOUTBASKET_DONE)
        return number;
    return spoutbasket_run(P, steps, 2 * (size_t)answer[0], outputs, Q, 1000, bases, P, values, SPOUTBASKET_MOST_VALUES, figures, Q, answer);
}

int main(void)
{
    uint8_t back[BYTES], expected[BYTES];
    uint32_t amounts[FIELDS], figures[Q], number;
    uint64_t answer[8], field;
    if (spoutbasket_unpack(P, Q, sent, BYTES, amounts, FIELDS, answer) != SPOUTBASKET_DONE || run(amounts, figures) != SPOUTBASKET_DONE)
        return 1;
    printf("%" PRIu64 " fields, figures %" PRIu32 " and %" PRIu32 "\n", answer[0], figures[0], figures[1]);
    if (answer[0] != FIELDS || figures[0] != 675 || figures[1] != 125)
        return 1;

    /* back to the host: F has become C */
    memcpy(expected, sent, BYTES);
    expected[9] = 0x2C;
    if (spoutbasket_pack(P, Q, amounts, FIELDS, back, BYTES, answer) != SPOUTBASKET_DONE || memcmp(back, expected, BYTES) != 0)
        return 1;

    /* a zero with a minus */
    back[14] = 0x0D;
    number = spoutbasket_unpack(P, Q, back, BYTES, amounts, FIELDS, answer);
    field = answer[0];
    if (number != SPOUTBASKET_REFUSED_PACKED_MINUS || field != 3)
        return 1;
    printf("refused %" PRIu32 " at payslip %" PRIu64 ", column %" PRIu64 "\n", number, (field - 1) / P + 1, (field - 1) % P + 1);
    return 0;
}
