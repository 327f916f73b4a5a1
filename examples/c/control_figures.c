/* The control figures of a small sheet from C: compile, write, read, check and run, then the same by the one call for the whole path, the choice between
 * two files, the ceiling by which a tariff bills, and how many of a chain's steps are squarings. The figures are compared with a plain loop. Ends with
 * status 1 if anything is refused or differs. */
#include "spoutbasket.h"

#include <inttypes.h>
#include <stdio.h>
#include <string.h>

enum { P = 3, Q = 4 };

/* Four payslips of three amounts each, and a receiver's modulus and bases. */
static const uint32_t amounts[P * Q] = {3, 0, 2, 1, 2, 0, 0, 0, 2, 3, 2, 1};
static const uint32_t modulus = 10000;
static const uint32_t bases[P] = {3, 5, 7};

/* A chain with room for every sheet, and its file. */
struct chain {
    uint32_t steps[2 * SPOUTBASKET_MOST_STEPS];
    uint32_t outputs[SPOUTBASKET_MOST_PAYSLIPS];
    uint8_t bytes[SPOUTBASKET_LONGEST_FILE];
    size_t p, q, n, length;
};

static struct chain sent, other, received;
static uint32_t scratch[SPOUTBASKET_MOST_VALUES];
static uint32_t values[SPOUTBASKET_MOST_VALUES];

/* Whether a call was refused, and if so which and where. */
static int refused(const char *call, uint32_t number, const uint64_t answer[8])
{
    if (number != SPOUTBASKET_DONE)
        fprintf(stderr, "%s refused %" PRIu32 ", place %" PRIu64 "\n", call, number, answer[0]);
    return number != SPOUTBASKET_DONE;
}

/* The sheet compiled by a method, and the chain's file: 0, or 1 if refused. */
static int make(size_t method, size_t parameter, struct chain *c)
{
    uint64_t answer[8];
    uint32_t number = spoutbasket_compile(P, Q, amounts, P * Q, method, parameter,
                                          c->steps, 2 * SPOUTBASKET_MOST_STEPS, c->outputs, SPOUTBASKET_MOST_PAYSLIPS, answer);
    if (refused("compile", number, answer))
        return 1;
    c->p = P;
    c->q = Q;
    c->n = (size_t)answer[0];
    number = spoutbasket_write(c->p, c->steps, 2 * c->n, c->outputs, c->q, c->bytes, spoutbasket_file_length(c->p, c->q, c->n), answer);
    c->length = (size_t)answer[0];
    return refused("write", number, answer);
}

/* Whether a chain has as many steps as its method takes for the sheet, and no more than the ceiling. */
static int keeps_to_ceiling(size_t method, size_t parameter, const struct chain *c)
{
    uint64_t answer[8];
    uint32_t number = spoutbasket_ceiling(P, Q, amounts, P * Q, method, parameter, answer);
    if (refused("ceiling", number, answer))
        return 0;
    printf("%zu steps, billed as %" PRIu64 "\n", c->n, answer[1]);
    return answer[0] == c->n && answer[0] <= answer[1];
}

/* A receiver's side: the file read, the chain checked against the sheet and run. 0, or 1 if refused. */
static int receive(const struct chain *from, struct chain *c, uint32_t figures[Q])
{
    uint64_t answer[8];
    uint32_t number = spoutbasket_read(from->bytes, from->length,
                                       c->steps, 2 * SPOUTBASKET_MOST_STEPS, c->outputs, SPOUTBASKET_MOST_PAYSLIPS, answer);
    if (refused("read", number, answer))
        return 1;
    c->p = (size_t)answer[0];
    c->q = (size_t)answer[1];
    c->n = (size_t)answer[2];
    /* the check sees how many amounts there are and not how they lie */
    if (c->p != P || c->q != Q) {
        fprintf(stderr, "the chain is for %zu columns and %zu payslips\n", c->p, c->q);
        return 1;
    }
    number = spoutbasket_verify(c->p, c->steps, 2 * c->n, c->outputs, c->q, amounts, P * Q, scratch, SPOUTBASKET_VALUES(c->p, c->n), answer);
    if (refused("check", number, answer))
        return 1;
    printf("%" PRIu64 " steps passed: %" PRIu64 " squarings and %" PRIu64 " products\n", answer[0], answer[1], answer[2]);
    number = spoutbasket_run(c->p, c->steps, 2 * c->n, c->outputs, c->q, modulus, bases, P,
                             values, SPOUTBASKET_VALUES(c->p, c->n), figures, Q, answer);
    if (refused("run", number, answer))
        return 1;
    printf("%" PRIu64 " multiplications modulo %" PRIu32 "\n", answer[0], modulus);
    return 0;
}

/* The same figures by the one call for the whole path. */
static int whole_path(size_t method, size_t parameter, uint32_t figures[Q])
{
    uint64_t answer[8];
    uint32_t number = spoutbasket_path(P, Q, amounts, P * Q, method, parameter, modulus, bases, P,
                                       sent.steps, 2 * SPOUTBASKET_MOST_STEPS, sent.outputs, SPOUTBASKET_MOST_PAYSLIPS,
                                       sent.bytes, SPOUTBASKET_LONGEST_FILE,
                                       received.steps, 2 * SPOUTBASKET_MOST_STEPS, received.outputs, SPOUTBASKET_MOST_PAYSLIPS,
                                       scratch, SPOUTBASKET_MOST_VALUES, values, SPOUTBASKET_MOST_VALUES, figures, Q, answer);
    return refused("path", number, answer);
}

/* Whether the shorter of two files is chosen. The chain received serves as scratch. */
static int choose_shorter(const struct chain *a, const struct chain *b)
{
    uint64_t answer[8];
    uint32_t number = spoutbasket_choose(P, Q, amounts, P * Q, a->bytes, a->length, b->bytes, b->length,
                                         received.steps, 2 * SPOUTBASKET_MOST_STEPS, received.outputs, SPOUTBASKET_MOST_PAYSLIPS,
                                         scratch, SPOUTBASKET_MOST_VALUES, answer);
    if (refused("choose", number, answer))
        return 0;
    printf("of %zu and %zu steps file %" PRIu64 " is chosen\n", a->n, b->n, answer[0]);
    return answer[0] == (a->n <= b->n ? 1U : 2U);
}

/* A payslip's figure by a plain loop: one multiplication for each unit of an amount. */
static uint32_t plain_figure(const uint32_t payslip[P])
{
    uint64_t product = 1 % modulus;
    size_t column;
    uint32_t i;
    for (column = 0; column < P; column++)
        for (i = 0; i < payslip[column]; i++)
            product = product * bases[column] % modulus;
    return (uint32_t)product;
}

int main(void)
{
    uint32_t figures[Q], again[Q];
    size_t payslip;
    if (make(SPOUTBASKET_YAO, 2, &other) || make(SPOUTBASKET_STRAUS, 1, &sent))
        return 1;
    if (!keeps_to_ceiling(SPOUTBASKET_YAO, 2, &other) || !keeps_to_ceiling(SPOUTBASKET_STRAUS, 1, &sent))
        return 1;
    if (!choose_shorter(&other, &sent) || receive(&sent, &received, figures))
        return 1;
    for (payslip = 0; payslip < Q; payslip++) {
        uint32_t plain = plain_figure(&amounts[payslip * P]);
        printf("payslip %zu: %" PRIu32 "\n", payslip + 1, figures[payslip]);
        if (figures[payslip] != plain) {
            fprintf(stderr, "the plain loop has %" PRIu32 "\n", plain);
            return 1;
        }
    }
    if (whole_path(SPOUTBASKET_STRAUS, 1, again))
        return 1;
    if (memcmp(figures, again, sizeof figures) != 0) {
        fprintf(stderr, "the whole path has other figures\n");
        return 1;
    }
    return 0;
}
