/* Spoutbasket: payslip sheets compiled into multiplication chains, their files, their check and their control figures.
 *
 * Link libspoutbasket.a, which `rt lib` in crates/spoutbasket writes, or the shared object that `make` makes of it. The library allocates nothing and keeps
 * nothing between calls; any number of threads may call it at once, each with its own slices.
 *
 * A slice is a pointer and the number of its cells. Steps lie flat, first and second operand in turn, so n steps are 2n cells; an odd last cell
 * belongs to no step. Each pointer is aligned, not null even where the length is 0, and good for as many cells as its length says. A slice that the
 * call may write overlaps no other slice of that call. The slices stay the caller's; they may hold anything when they are lent.
 *
 * Each function looks at all its input itself. It returns 0, or the number of a refusal, and writes eight words to `answer`: the values that the call
 * answers, or the refusal's place, then zeros. A place is a step (9, 10, 11, 13), a payslip (12, 14) or a packed field (18, 19, 20), counted from 1, and 0
 * where there is none. What the two functions that read texts write on a refusal stands at them. After a refusal every slice is as it was, unless the
 * function's comment says otherwise. Cells past those that are needed never change.
 *
 * The counts of a chain, which compile, read, check, run and pool answer, are three: n, the number of its steps; its squarings, which are the steps whose
 * two operands are one number; and its products, which are all the others. Squarings and products add up to n. Two values that happen to be equal under
 * different numbers make a product.
 *
 * A call needs no more stack than SPOUTBASKET_STACK, and spoutbasket_list SPOUTBASKET_STACK_LIST: a thread with a stack of that many bytes will do. */
#ifndef SPOUTBASKET_H
#define SPOUTBASKET_H

#include <stddef.h>
#include <stdint.h>

#ifdef __cplusplus
extern "C" {
#endif

/* The version of this header and of the library. */
#define SPOUTBASKET_VERSION_MAJOR 0
#define SPOUTBASKET_VERSION_MINOR 8
#define SPOUTBASKET_VERSION_PATCH 0
#define SPOUTBASKET_VERSION "0.8.0"

/* The bytes of stack that are enough for a call, whatever it is given. */
#define SPOUTBASKET_STACK (64 * 1024)
#define SPOUTBASKET_STACK_LIST (256 * 1024)

/* The limits. */
#define SPOUTBASKET_MOST_COLUMNS 16
#define SPOUTBASKET_MOST_PAYSLIPS 64
#define SPOUTBASKET_MOST_STEPS 16000
#define SPOUTBASKET_MOST_STEPS_EDITION_1 16000 /* in a file of edition 1 */

/* The bits of n in a file of edition 1, and those before its steps: edition, p - 1, q - 1 and n. */
#define SPOUTBASKET_LENGTH_BITS 14
#define SPOUTBASKET_HEADER_BITS (4 + 4 + 6 + SPOUTBASKET_LENGTH_BITS)

/* The bytes of the longest file, whose fields are as wide as n. */
#define SPOUTBASKET_LONGEST_FILE \
    ((SPOUTBASKET_HEADER_BITS \
      + (2 * SPOUTBASKET_MOST_STEPS_EDITION_1 + SPOUTBASKET_MOST_PAYSLIPS) * SPOUTBASKET_LENGTH_BITS + 7) \
     / 8)

/* Bytes enough for every listing: the line "16 64 16000" and, for each payslip, its number, a blank and ten digits for each column, and a newline. */
#define SPOUTBASKET_LONGEST_LISTING (12 + (2 + 11 * SPOUTBASKET_MOST_COLUMNS + 1) * SPOUTBASKET_MOST_PAYSLIPS)

/* The bytes of a packed field, in which a ledger host keeps an amount: ten half-bytes, of each byte the high half first. The first nine are decimal
 * digits, the highest first, and the last is the sign: C (hexadecimal) is plus, D minus, F unsigned. */
#define SPOUTBASKET_FIELD_BYTES 5

/* Bytes enough for the words of every refusal. */
#define SPOUTBASKET_LONGEST_PHRASE 64

/* The values of a chain with p columns and n steps: what the check's scratch and the run's values need. */
#define SPOUTBASKET_VALUES(p, n) ((size_t)(p) + (size_t)(n) + 1)
#define SPOUTBASKET_MOST_VALUES (SPOUTBASKET_MOST_COLUMNS + SPOUTBASKET_MOST_STEPS + 1)
#define SPOUTBASKET_MOST_VALUES_EDITION_1 (SPOUTBASKET_MOST_COLUMNS + SPOUTBASKET_MOST_STEPS_EDITION_1 + 1)

/* The methods, by number, and the range of each one's parameter. */
enum spoutbasket_method {
    SPOUTBASKET_STRAUS = 1,   /* 1 to 5, with p times it at most 10 */
    SPOUTBASKET_YAO = 2,      /* 1 to 8 */
    SPOUTBASKET_PARTITION = 3 /* 1 to 8 */
};

/* The refusals, by number, each with the words that spoutbasket_phrase has for it. */
enum spoutbasket_refusal {
    SPOUTBASKET_DONE = 0,
    SPOUTBASKET_REFUSED_SIZES = 1,          /* p or q out of range */
    SPOUTBASKET_REFUSED_AMOUNTS = 2,        /* amounts are not p times q */
    SPOUTBASKET_REFUSED_METHOD = 3,         /* method or parameter */
    SPOUTBASKET_REFUSED_STEPS = 4,          /* more than 16,000 steps */
    SPOUTBASKET_REFUSED_ROOM = 5,           /* a lent slice too short */
    SPOUTBASKET_REFUSED_LENGTH = 6,         /* file under 4 bytes, or not its stated length */
    SPOUTBASKET_REFUSED_EDITION = 7,        /* edition */
    SPOUTBASKET_REFUSED_FILLING = 8,        /* a filling bit set */
    SPOUTBASKET_REFUSED_OPERAND_ZERO = 9,   /* operand 0 */
    SPOUTBASKET_REFUSED_OPERAND_HIGH = 10,  /* operand not below its own value */
    SPOUTBASKET_REFUSED_OPERAND_ORDER = 11, /* first operand smaller than second */
    SPOUTBASKET_REFUSED_OUTPUT = 12,        /* output above the last value */
    SPOUTBASKET_REFUSED_EXPONENT = 13,      /* exponent too large */
    SPOUTBASKET_REFUSED_PAYSLIP = 14,       /* an output's exponents are not its payslip */
    SPOUTBASKET_REFUSED_MODULUS = 15,       /* modulus 0 */
    SPOUTBASKET_REFUSED_BASES = 16,         /* bases not p, or one not below the modulus */
    SPOUTBASKET_REFUSED_COLUMNS = 17,       /* column counts differ */
    SPOUTBASKET_REFUSED_PACKED_FIELD = 18,  /* a digit above 9, or a sign that is not C, D or F */
    SPOUTBASKET_REFUSED_PACKED_MINUS = 19,  /* sign D, minus */
    SPOUTBASKET_REFUSED_PACKED_AMOUNT = 20  /* amount above 999,999,999 */
};

/* The faults of a text, by number, each with its words. A text may also be refused 1 and 5. */
enum spoutbasket_fault {
    SPOUTBASKET_FAULT_BYTE = 101,    /* neither a digit nor a separator */
    SPOUTBASKET_FAULT_LARGE = 102,   /* number above 4,294,967,295 */
    SPOUTBASKET_FAULT_CUT_OFF = 103, /* cut off: the last line has no newline */
    SPOUTBASKET_FAULT_FIELDS = 104,  /* a line with more or fewer amounts than the first */
    SPOUTBASKET_FAULT_MARK = 105,    /* decimal point or grouping mark */
    SPOUTBASKET_FAULT_SIGN = 106,    /* sign */
    SPOUTBASKET_FAULT_EMPTY = 107    /* no amount between two separators */
};

/* Compiles a sheet of p columns and q payslips, given payslip by payslip, by a method and its parameter.
 * Needs 2n cells of steps and q outputs, n being the method's count; 2 * SPOUTBASKET_MOST_STEPS cells are always enough.
 * Answers the counts: n, squarings, products. */
uint32_t spoutbasket_compile(size_t p, size_t q, const uint32_t *amounts, size_t amounts_len, size_t method, size_t parameter,
                             uint32_t *steps, size_t steps_len, uint32_t *outputs, size_t outputs_len, uint64_t answer[8]);

/* Reckons the steps of the chain that a method makes of a sheet, without making it, and the method's ceiling, which they never exceed. A receivers' tariff
 * bills by the ceiling, and a short last group of the partition method counts there at its own size. Refused 1, 2 and 3 as compile is, but not 4: a chain
 * that is too long to compile is counted too. Answers the count, which is compile's n, and the ceiling. */
uint32_t spoutbasket_ceiling(size_t p, size_t q, const uint32_t *amounts, size_t amounts_len, size_t method, size_t parameter,
                             uint64_t answer[8]);

/* Measures the file of a chain with p columns, q payslips and n steps, whatever its steps and outputs are. Answers the width of its numbers in bits,
 * which is W in docs/FORMAT.md, and its number of bytes. */
uint32_t spoutbasket_extent(size_t p, size_t q, size_t n, uint64_t answer[8]);

/* The bytes of that file; 0 where no file has such sizes. */
static inline size_t spoutbasket_file_length(size_t p, size_t q, size_t n)
{
    uint64_t answer[8];
    return spoutbasket_extent(p, q, n, answer) == SPOUTBASKET_DONE ? (size_t)answer[1] : 0;
}

/* Writes the file of a chain. Needs spoutbasket_file_length(p, q, n) bytes. Answers the number of bytes written. */
uint32_t spoutbasket_write(size_t p, const uint32_t *steps, size_t steps_len, const uint32_t *outputs, size_t outputs_len,
                           uint8_t *bytes, size_t bytes_len, uint64_t answer[8]);

/* Reads the file of a chain. Needs 2n cells of steps and q outputs, as the file states them; SPOUTBASKET_MOST_PAYSLIPS outputs and
 * 2 * SPOUTBASKET_MOST_STEPS cells are always enough. Answers p and q, then the counts: n, squarings, products. */
uint32_t spoutbasket_read(const uint8_t *bytes, size_t bytes_len,
                          uint32_t *steps, size_t steps_len, uint32_t *outputs, size_t outputs_len, uint64_t answer[8]);

/* Checks a chain, whoever made it, against the amounts of a sheet. It is told how many amounts there are and not how they lie: q is the number of
 * outputs, and a sheet of another shape with as many amounts is no different to it, so compare p and q with the sheet's own. (The chooser is told the
 * sheet's p and q, and refuses a file with others under 14, place 0.) Needs SPOUTBASKET_VALUES(p, n) cells of scratch, which are 0 afterwards where the
 * chain passes or is refused 13 or 14. Answers the counts of a chain that passed: n, squarings, products. */
uint32_t spoutbasket_verify(size_t p, const uint32_t *steps, size_t steps_len, const uint32_t *outputs, size_t outputs_len,
                            const uint32_t *amounts, size_t amounts_len, uint32_t *scratch, size_t scratch_len, uint64_t answer[8]);

/* Runs a chain over residues: one base for each column, each below the modulus, which is at least 1. Needs SPOUTBASKET_VALUES(p, n) cells of values,
 * which get all values from 0 on, and q cells of figures, which get those of the outputs. Answers the counts: n, the multiplications made, squarings,
 * products. */
uint32_t spoutbasket_run(size_t p, const uint32_t *steps, size_t steps_len, const uint32_t *outputs, size_t outputs_len,
                         uint32_t modulus, const uint32_t *bases, size_t bases_len,
                         uint32_t *values, size_t values_len, uint32_t *figures, size_t figures_len, uint64_t answer[8]);

/* A step: the numbers of its two operands. */
typedef struct {
    uint32_t first;
    uint32_t second;
} spoutbasket_step;

/* The check and the run with the steps lent as structs, n of them; all else as above. */
uint32_t spoutbasket_verify_pairs(size_t p, const spoutbasket_step *steps, size_t steps_len, const uint32_t *outputs, size_t outputs_len,
                                  const uint32_t *amounts, size_t amounts_len, uint32_t *scratch, size_t scratch_len, uint64_t answer[8]);
uint32_t spoutbasket_run_pairs(size_t p, const spoutbasket_step *steps, size_t steps_len, const uint32_t *outputs, size_t outputs_len,
                               uint32_t modulus, const uint32_t *bases, size_t bases_len,
                               uint32_t *values, size_t values_len, uint32_t *figures, size_t figures_len, uint64_t answer[8]);

/* Pools two chains over the same columns, the parts, into one: the steps of the first and then of the second, and their outputs likewise. A number of the
 * second part that is above p becomes larger by the first's steps; 0 to p, value 0 and the bases, are common to both. Of two sheets, each with the sizes
 * of its part, let the second's amounts follow on the first's: the pool passes the check against all of them if, and only if, both parts pass against
 * theirs. Each part is judged by its own numbers. A place counts through the pool: a step of the second part on from the first's steps, a payslip on from
 * the first's payslips. Needs 2n cells of steps and q outputs, n and q being those of both parts together; 2 * SPOUTBASKET_MOST_STEPS cells and
 * SPOUTBASKET_MOST_PAYSLIPS outputs are always enough. Answers the pool's counts: n, squarings, products. Those of the parts add up to them. */
uint32_t spoutbasket_pool(size_t p1, const uint32_t *steps1, size_t steps1_len, const uint32_t *outputs1, size_t outputs1_len,
                          size_t p2, const uint32_t *steps2, size_t steps2_len, const uint32_t *outputs2, size_t outputs2_len,
                          uint32_t *steps, size_t steps_len, uint32_t *outputs, size_t outputs_len, uint64_t answer[8]);

/* Chooses between two files for a sheet: of two that make it the one with fewer steps, or the first. Needs as scratch
 * 2 * SPOUTBASKET_MOST_STEPS_EDITION_1 cells of steps, SPOUTBASKET_MOST_PAYSLIPS outputs and SPOUTBASKET_MOST_VALUES_EDITION_1 numbers; what they hold
 * afterwards is left open. Answers 1 or 2, the file chosen; if neither will do, the first file's refusal. */
uint32_t spoutbasket_choose(size_t p, size_t q, const uint32_t *amounts, size_t amounts_len,
                            const uint8_t *a, size_t a_len, const uint8_t *b, size_t b_len,
                            uint32_t *steps, size_t steps_len, uint32_t *outputs, size_t outputs_len,
                            uint32_t *numbers, size_t numbers_len, uint64_t answer[8]);

/* Compiles, writes, reads, checks and runs, each call on exactly what the one before it filled. `received` and `results` are the steps and outputs
 * read; the other slices are those of the five calls, with the same needs. Answers the steps that compile and read return and the multiplications
 * made. Refused where one of the calls is: the calls before it have then filled their slices. */
uint32_t spoutbasket_path(size_t p, size_t q, const uint32_t *amounts, size_t amounts_len, size_t method, size_t parameter,
                          uint32_t modulus, const uint32_t *bases, size_t bases_len,
                          uint32_t *steps, size_t steps_len, uint32_t *outputs, size_t outputs_len, uint8_t *bytes, size_t bytes_len,
                          uint32_t *received, size_t received_len, uint32_t *results, size_t results_len,
                          uint32_t *scratch, size_t scratch_len, uint32_t *values, size_t values_len,
                          uint32_t *figures, size_t figures_len, uint64_t answer[8]);

/* Lists a file as text: a line `p q n`, then for each payslip its number and its amounts; or one line `refused` with the number. The text goes to the
 * front of `text`, without a closing 0. Always returns 0; answers the length of the text. */
uint32_t spoutbasket_list(const uint8_t *bytes, size_t bytes_len, uint8_t text[SPOUTBASKET_LONGEST_LISTING], uint64_t answer[8]);

/* Reads a text of numbers: an optional byte order mark (EF BB BF), then decimal numbers up to 4,294,967,295 parted by blanks, tabs, newlines and carriage
 * returns, the last byte being a newline. It serves for a plain sheet (p, q, then the amounts) and for a receiver's modulus and bases. The numbers go to
 * the front of `numbers`. Answers how many there are.
 * Refused 5, 101, 102, 103, 105 or 106. The words are then the line and the column, in bytes, both counted from 1 after the byte order mark, what was
 * found there (for 101, 105 and 106 the byte; for 5 the cells that there are) and what was wanted (for 5 one more), or 0; then four zeros. The numbers that
 * stand whole before the fault have been stored; on 103 nothing has. */
uint32_t spoutbasket_numbers(const uint8_t *text, size_t text_len, uint32_t *numbers, size_t numbers_len, uint64_t answer[8]);

/* Reads a table, a sheet with one payslip a line: an optional byte order mark, then lines that end with a newline or a carriage return and a newline.
 * Amounts are parted by tabs if the first line has one, else by semicolons if it has one, else by commas if it has one, else by blanks, and by tabs in
 * later lines; but for the last case blanks around an amount are padding. A first line without a digit is a line of names, which are counted and not
 * looked at. The amounts, payslip by payslip, go to the front of `amounts`; SPOUTBASKET_MOST_COLUMNS * SPOUTBASKET_MOST_PAYSLIPS cells are always enough.
 * Answers p and q.
 * Refused 103 first of all; then line by line 1 (p or q out of range), 104, 5, and byte by byte 101, 102, 105, 106, 107; at the end 1 if there is no line
 * of amounts. The words are then as for numbers; for 1 what is found is p and what is wanted 16, or 65 and 64 payslips, or 0 payslips and 1; for
 * 104 the amounts of the line and p; for 5 the cells that there are and those needed so far. The amounts that stand whole before the fault have been
 * stored; on 103 nothing has. */
uint32_t spoutbasket_table(const uint8_t *text, size_t text_len, uint32_t *amounts, size_t amounts_len, uint64_t answer[8]);

/* Reads a sheet of p columns and q payslips from packed fields, payslip by payslip, with nothing behind them. Refused 1, then 2 for any other number of
 * bytes than SPOUTBASKET_FIELD_BYTES for each field, then field by field 18 and 19, and last 5. 19 is for every sign D, on zero too; a field with that
 * sign and a digit above 9 is refused 18. Needs p times q amounts, which are such as compile takes. Answers p times q. */
uint32_t spoutbasket_unpack(size_t p, size_t q, const uint8_t *bytes, size_t bytes_len,
                            uint32_t *amounts, size_t amounts_len, uint64_t answer[8]);

/* Writes a sheet as packed fields, each with sign C. Of fields that were read it makes the same again, but for a sign F, which becomes C. Refused 1, 2, 20
 * and 5, in this order; the place of 20 is the field that the first amount above 999,999,999 would have had. Needs SPOUTBASKET_FIELD_BYTES bytes for each
 * amount. Answers p times q. */
uint32_t spoutbasket_pack(size_t p, size_t q, const uint32_t *amounts, size_t amounts_len,
                          uint8_t *bytes, size_t bytes_len, uint64_t answer[8]);

/* The words for the number of a refusal or a fault, in ASCII, over the front of `text`, without a closing 0; for any other number "no such refusal".
 * Needs as many bytes as they have; SPOUTBASKET_LONGEST_PHRASE are always enough. Answers how many bytes they have. */
uint32_t spoutbasket_phrase(uint32_t number, uint8_t *text, size_t text_len, uint64_t answer[8]);

#ifdef __cplusplus
}
#endif

#endif
