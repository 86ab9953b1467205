/*
 * Reinoften: the calls of a verified stabilizer decoder, for programs in C.
 *
 * docs/RULES.md has the rules, README.md the commands that build the library. x86-64 Linux.
 *
 * Answers. Every call answers with a reinoften_answer, alone or as the first member of what it returns. Its number
 * tells what happened, and nothing else has to be looked at first:
 *
 *   0          done: the call did what it is for, and what it wrote or returned may be used.
 *   1 to 17    refused, with the number of the refusal. Nothing is written, count is 0.
 *   255        `none`: no error of weight at most t has the syndrome. Only the two decoding calls answer so. Nothing
 *              is written, count is 0.
 *
 * So a caller that uses a buffer or a returned value only where the number is 0 never uses a stale one.
 *
 * Buffers. A buffer is a pointer and its length in bytes; NULL with length 0 is an empty one. The bytes that a call
 * reads and those that it writes must not overlap. A call writes the first `count` bytes of `out` where its number is 0,
 * leaves the bytes behind them as they were, and leaves all of `out` as it was for every other number. No byte 0 is
 * written behind a text. The one text that tells of refusals is the report: where its input is refused with 1 to 14 or
 * 16, the report says so in its bytes, and the call answers 0, or 17 where `out` is too short for that text.
 *
 * Records. A code crosses by value. Calls on a record check first that it is within its limits, and refuse it with 15
 * where it is not, so any bytes may be handed over as a record.
 *
 * What is promised of corrections. Take a record that reinoften_read_sheet returned with number 0, unchanged, and an
 * error on at most t of its qubits, where t is (d - 1) / 2 rounded down. Given the syndrome of the error,
 * reinoften_correct answers 0, and so does reinoften_decode where `out` has n bytes or more. A report of that sheet
 * that is not refused has the same letters in the line for that syndrome. The correction weighs no more than the error,
 * and correction times error is in the group of the generators, phase aside. For a record from elsewhere a correction
 * is still the earliest error of weight at most t with the syndrome, and no more.
 *
 * The library keeps nothing between calls, allocates nothing, and may be called from any number of threads. Nothing is
 * promised about time. To read a sheet and to make a report takes a search for the distance, which belongs to start-up;
 * docs/SPEED.md has figures.
 */
#ifndef REINOFTEN_H
#define REINOFTEN_H

#include <stddef.h>
#include <stdint.h>

#ifdef __cplusplus
extern "C" {
#endif

/* The numbers of answers. */
enum {
    REINOFTEN_DONE = 0,
    REINOFTEN_TOO_LONG = 1,               /* the input has more than 4,096 bytes */
    REINOFTEN_FORM = 2,                   /* a line fails its form, or bytes stand behind the w line */
    REINOFTEN_QUBIT_COUNT = 3,            /* n is not 2 to 24 */
    REINOFTEN_DISTANCE_RANGE = 4,         /* d is not 1 to 7 */
    REINOFTEN_GENERATOR_COUNT = 5,        /* no generator, or one too many */
    REINOFTEN_GENERATORS_ANTICOMMUTE = 6, /* a generator anticommutes with an earlier one */
    REINOFTEN_MINUS_IDENTITY = 7,         /* a generator times a selection of earlier ones is -I */
    REINOFTEN_DEPENDENT_GENERATOR = 8,    /* the same product is +I */
    REINOFTEN_LOGICAL_ANTICOMMUTES = 9,   /* a logical operator anticommutes with a generator */
    REINOFTEN_LOGICAL_PAIRING = 10,       /* two logical operators do not pair as they must */
    REINOFTEN_CLAIMED_WEIGHT = 11,        /* the weight of w is not d */
    REINOFTEN_CLAIMED_ANTICOMMUTES = 12,  /* w anticommutes with a generator */
    REINOFTEN_CLAIMED_IN_GROUP = 13,      /* w is in the group, phase aside */
    REINOFTEN_DISTANCE_REFUTED = 14,      /* there is a logical error of weight below d */
    REINOFTEN_RECORD_LIMITS = 15,         /* a record is outside its limits */
    REINOFTEN_SYNDROME = 16,              /* a syndrome is off its form */
    REINOFTEN_SHORT_BUFFER = 17,          /* `out` is shorter than the answer */
    REINOFTEN_NONE = 255                  /* there is no correction */
};

/* Bytes that always hold what a call writes. */
enum {
    REINOFTEN_SYNDROME_ROOM = 23,
    REINOFTEN_LETTERS_ROOM = 24,
    REINOFTEN_CANONICAL_ROOM = 644,
    REINOFTEN_SHEET_ROOM = 1352,
    REINOFTEN_REPORT_ROOM = 32768
};

/* The rows of each family that a record has places for. */
#define REINOFTEN_ROW_ROOM 32

typedef struct {
    uint32_t number; /* see above */
    uint32_t family; /* of a refusal about a row: 'g' for a generator, 'x' or 'z' for a logical operator; else 0 */
    size_t line;     /* the line of the sheet that a refusal names, from 1; else 0 */
    size_t count;    /* the bytes written into `out` */
} reinoften_answer;

/*
 * i^p D(a, b): the phase p is read modulo 4, a is the X part and b the Z part. Qubit j is bit j - 1 of both masks. A
 * qubit's letter is X where only a has the bit, Z where only b has it, Y where both have, I where none has. With sign +
 * the phase is the count of letters Y modulo 4, and with sign - that plus 2.
 */
typedef struct {
    uint32_t p;
    uint32_t a;
    uint32_t b;
} reinoften_pauli;

/*
 * The record of a code: n qubits, r generators, claimed distance d; the generators, k = n - r pairs of logical
 * operators, and w, the claimed lightest logical. The first r places of g and the first k of x and of z are used.
 *
 * Its limits, outside of which it is refused with 15: n is 2 to 24, r is 1 to n - 1, d is 1 to 7; no mask has a bit
 * above qubit n; the phase of each row is that of a row with sign + or -, and that of w is that of sign +; the rows that
 * are not used are +I.
 */
typedef struct {
    size_t n;
    size_t r;
    size_t d;
    reinoften_pauli g[REINOFTEN_ROW_ROOM];
    reinoften_pauli x[REINOFTEN_ROW_ROOM];
    reinoften_pauli z[REINOFTEN_ROW_ROOM];
    reinoften_pauli w;
} reinoften_code;

/*
 * The two errors, on n qubits, that refusal 14 shows: together lighter than d, of equal syndromes, and their product is
 * not in the group, phase aside. Beside every other answer n is 0 and both are +I.
 */
typedef struct {
    size_t n;
    reinoften_pauli e;
    reinoften_pauli f;
} reinoften_error_pair;

typedef struct {
    reinoften_answer answer;
    reinoften_error_pair errors;
    reinoften_code code;
} reinoften_reading;

typedef struct {
    reinoften_answer answer;
    reinoften_pauli correction;
} reinoften_correction;

/*
 * Reads a sheet and checks it.
 *   0          admitted: `code` is its record.
 *   1 to 14    refused: 1 names no line, 2 to 14 name one; 6 to 10 have a `family`, 14 has `errors`. `code` has all
 *              numbers 0 and all rows +I, which every call on a record refuses with 15.
 */
reinoften_reading reinoften_read_sheet(const uint8_t *sheet, size_t sheet_length);

/*
 * Writes the sheet of a record: at most REINOFTEN_SHEET_ROOM bytes.
 *   0          `out` begins with the `count` bytes of the sheet.
 *   15, 17     refused.
 */
reinoften_answer reinoften_write_sheet(reinoften_code code, uint8_t *out, size_t out_length);

/*
 * Writes the canonical generators of a record, a line `h=` with sign and letters for each: at most
 * REINOFTEN_CANONICAL_ROOM bytes.
 *   0          `out` begins with the `count` bytes of the lines.
 *   15         refused.
 *   6 to 8     refused, with the line that the row has in the record's written sheet, and family 'g'.
 *   17         refused.
 */
reinoften_answer reinoften_canonical(reinoften_code code, uint8_t *out, size_t out_length);

/*
 * Writes the syndrome of a Pauli: r characters, the first for the first generator, '1' where it anticommutes with the
 * Pauli and '0' where it commutes. The phase, and mask bits above qubit n, change nothing.
 *   0          `out` begins with the r characters; `count` is r, at most REINOFTEN_SYNDROME_ROOM.
 *   15, 17     refused.
 */
reinoften_answer reinoften_syndrome(reinoften_code code, reinoften_pauli error, uint8_t *out, size_t out_length);

/*
 * Decodes a syndrome that is given as r characters '0' or '1'.
 *   0          `out` begins with the n letters of the correction; `count` is n, at most REINOFTEN_LETTERS_ROOM.
 *   255        there is no correction.
 *   15         refused.
 *   16         refused: not exactly r characters, or one that is neither '0' nor '1'.
 *   17         refused: `out` is shorter than n bytes. This comes before 255.
 */
reinoften_answer reinoften_decode(reinoften_code code, const uint8_t *syndrome, size_t syndrome_length,
                                  uint8_t *out, size_t out_length);

/*
 * Decodes a syndrome that is given by value: the first generator's bit is the lowest, and bits from r on are 0.
 *   0          `correction` is the correction, with sign +.
 *   255        there is no correction.
 *   15         refused.
 *   16         refused: a bit from r on is 1.
 * Beside 255, 15 and 16 `correction` is +I, and says nothing.
 */
reinoften_correction reinoften_correct(reinoften_code code, uint32_t syndrome);

/*
 * Writes the report of an input, a sheet and the lines `s=` behind it: at most REINOFTEN_REPORT_ROOM bytes.
 *   0          `out` begins with the `count` bytes of the report, be it of an admitted or of a refused input.
 *   17         refused.
 */
reinoften_answer reinoften_report(const uint8_t *input, size_t input_length, uint8_t *out, size_t out_length);

#ifdef __cplusplus
}
#endif

#endif
