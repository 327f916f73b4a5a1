/* A sheet from a table of text in C: what each payslip sums to; and for a table that cannot be read the line, the column and the library's words. Ends with
 * status 1 if a table is judged otherwise than expected. */
#include "spoutbasket.h"

#include <inttypes.h>
#include <stdio.h>
#include <string.h>

enum { MOST_AMOUNTS = SPOUTBASKET_MOST_COLUMNS * SPOUTBASKET_MOST_PAYSLIPS };

static uint32_t amounts[MOST_AMOUNTS];

/* A fault, as `line 2, column 7: decimal point or grouping mark`, and what was found and wanted. */
static void print_fault(uint32_t number, const uint64_t place[8])
{
    uint8_t words[SPOUTBASKET_LONGEST_PHRASE];
    uint64_t answer[8];
    spoutbasket_phrase(number, words, sizeof words, answer);
    printf("line %" PRIu64 ", column %" PRIu64 ": %.*s", place[0], place[1], (int)answer[0], (const char *)words);
    switch (number) {
    case SPOUTBASKET_FAULT_BYTE:
    case SPOUTBASKET_FAULT_MARK:
    case SPOUTBASKET_FAULT_SIGN:
        printf(" (byte %" PRIu64 ")", place[2]);
        break;
    case SPOUTBASKET_REFUSED_SIZES:
    case SPOUTBASKET_REFUSED_ROOM:
    case SPOUTBASKET_FAULT_FIELDS:
        printf(" (%" PRIu64 " found, %" PRIu64 " wanted)", place[2], place[3]);
        break;
    }
    printf("\n");
}

/* Prints each payslip's sum, or the fault. Returns the fault's number, or 0. */
static uint32_t print_sums(const void *text, size_t length)
{
    uint64_t answer[8];
    size_t p, q, payslip, column;
    uint32_t number = spoutbasket_table((const uint8_t *)text, length, amounts, MOST_AMOUNTS, answer);
    if (number != SPOUTBASKET_DONE) {
        print_fault(number, answer);
        return number;
    }
    p = (size_t)answer[0];
    q = (size_t)answer[1];
    for (payslip = 0; payslip < q; payslip++) {
        uint64_t sum = 0;
        for (column = 0; column < p; column++)
            sum += amounts[payslip * p + column];
        printf("payslip %zu: %zu amounts, %" PRIu64 " in all\n", payslip + 1, p, sum);
    }
    return number;
}

int main(void)
{
    static const char good[] = "basic;overtime\r\n168233;18750\r\n0;0\r\n";
    static const char bad[] = "basic;overtime\n168233;187.50\n";
    if (print_sums(good, strlen(good)) != SPOUTBASKET_DONE)
        return 1;
    return print_sums(bad, strlen(bad)) == SPOUTBASKET_FAULT_MARK ? 0 : 1;
}
