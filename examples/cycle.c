/*
 * A cycle of error correction: a sheet is admitted, an error struck, its syndrome decoded, and the product of
 * correction and error has no syndrome left.
 *
 *   cc -std=c11 -Iinclude examples/cycle.c target/staticlib/librack.a -o target/cycle
 *   target/cycle examples/five-qubit.sheet
 *
 * The file is a sheet and nothing else. The admitted sheets in samples have `s=` lines behind them, which only a report
 * reads: here they are refused with 2.
 */
#include <stdio.h>
#include <stdlib.h>

#include "reinoften.h"

/* Ends the program unless the call did what it is for: only then may its answer be used. */
static void require_done(const char *call, reinoften_answer answer) {
    if (answer.number == REINOFTEN_DONE) {
        return;
    }
    if (answer.number == REINOFTEN_NONE) {
        fprintf(stderr, "%s: there is no correction\n", call);
    } else {
        fprintf(stderr, "%s: refused with %u at line %zu\n", call, answer.number, answer.line);
    }
    exit(EXIT_FAILURE);
}

static reinoften_code read_code(const char *path) {
    uint8_t sheet[4097]; /* One byte more than any input may have, so a file that is too long is seen to be. */
    FILE *file = fopen(path, "rb");
    size_t length = file == NULL ? 0 : fread(sheet, 1, sizeof sheet, file);
    if (file == NULL || ferror(file)) {
        perror(path);
        exit(EXIT_FAILURE);
    }
    fclose(file);
    reinoften_reading reading = reinoften_read_sheet(sheet, length);
    require_done("read_sheet", reading.answer);
    return reading.code;
}

/* The characters of a syndrome as a number, in which the first generator's bit is the lowest. */
static uint32_t value_of(const uint8_t *characters, size_t count) {
    uint32_t value = 0;
    for (size_t i = 0; i < count; i++) {
        value |= (uint32_t)(characters[i] == '1') << i;
    }
    return value;
}

int main(int argc, char **argv) {
    if (argc != 2) {
        fprintf(stderr, "usage: cycle SHEET\n");
        return EXIT_FAILURE;
    }
    reinoften_code code = read_code(argv[1]);
    printf("admitted: n=%zu r=%zu d=%zu\n", code.n, code.r, code.d);

    reinoften_pauli error = {.p = 1, .a = 1u << 1, .b = 1u << 1}; /* Y on qubit 2 */
    uint8_t syndrome[REINOFTEN_SYNDROME_ROOM];
    reinoften_answer answer = reinoften_syndrome(code, error, syndrome, sizeof syndrome);
    require_done("syndrome", answer);
    printf("Y on qubit 2 has the syndrome %.*s\n", (int)answer.count, (const char *)syndrome);

    uint8_t letters[REINOFTEN_LETTERS_ROOM];
    reinoften_answer decoded = reinoften_decode(code, syndrome, answer.count, letters, sizeof letters);
    require_done("decode", decoded);
    printf("correction: %.*s\n", (int)decoded.count, (const char *)letters);

    reinoften_correction found = reinoften_correct(code, value_of(syndrome, answer.count));
    require_done("correct", found.answer);
    printf("by value: X part 0x%x, Z part 0x%x\n", found.correction.a, found.correction.b);

    /* The phase is left aside: no syndrome depends on it. */
    reinoften_pauli product = {.p = 0, .a = found.correction.a ^ error.a, .b = found.correction.b ^ error.b};
    answer = reinoften_syndrome(code, product, syndrome, sizeof syndrome);
    require_done("syndrome", answer);
    printf("correction times error has the syndrome %.*s\n", (int)answer.count, (const char *)syndrome);
    return value_of(syndrome, answer.count) == 0 ? EXIT_SUCCESS : EXIT_FAILURE;
}
