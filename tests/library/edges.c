/*
 * The calls at their edges, from C: rooms, lengths, records and syndromes that are just good or just not, and the
 * refusals of the sheets at the edges. A check prints only where it fails. tests/library/run-c builds and runs this.
 */
#include <stdbool.h>
#include <stdio.h>
#include <stdlib.h>
#include <string.h>

#include "reinoften.h"

/* Where a member stands, and how many bytes it has. */
#define PLACE(type, member, offset, size)                                                                             \
    _Static_assert(offsetof(reinoften_##type, member) == (offset), #type "." #member);                                \
    _Static_assert(sizeof(((reinoften_##type *)NULL)->member) == (size), #type "." #member)
#define SIZE(type, size) _Static_assert(sizeof(reinoften_##type) == (size), #type)

PLACE(answer, number, 0, 4);
PLACE(answer, family, 4, 4);
PLACE(answer, line, 8, 8);
PLACE(answer, count, 16, 8);
SIZE(answer, 24);

PLACE(pauli, p, 0, 4);
PLACE(pauli, a, 4, 4);
PLACE(pauli, b, 8, 4);
SIZE(pauli, 12);

PLACE(code, n, 0, 8);
PLACE(code, r, 8, 8);
PLACE(code, d, 16, 8);
PLACE(code, g, 24, 384);
PLACE(code, x, 408, 384);
PLACE(code, z, 792, 384);
PLACE(code, w, 1176, 12);
SIZE(code, 1192);

PLACE(error_pair, n, 0, 8);
PLACE(error_pair, e, 8, 12);
PLACE(error_pair, f, 20, 12);
SIZE(error_pair, 32);

PLACE(reading, answer, 0, 24);
PLACE(reading, errors, 24, 32);
PLACE(reading, code, 56, 1192);
SIZE(reading, 1248);

PLACE(correction, answer, 0, 24);
PLACE(correction, correction, 24, 12);
SIZE(correction, 40);

static unsigned passed, failed;

static void check(bool holds, const char *what, const char *subject, int line) {
    if (holds) {
        passed++;
    } else {
        failed++;
        printf("edges.c:%d: %s: not %s\n", line, subject, what);
    }
}

#define CHECK(subject, condition) check((condition), #condition, (subject), __LINE__)

/* The longest input, and the dots that a buffer holds before a call. */
enum { LONGEST_INPUT = 4096, DOT = '.' };

/* The dots that stand on either side of a buffer, to be looked at when it comes back. */
enum { MARGIN = 64 };

static uint8_t *lent(size_t length) {
    uint8_t *bytes = malloc(MARGIN + length + MARGIN);
    if (bytes == NULL) {
        abort();
    }
    memset(bytes, DOT, MARGIN + length + MARGIN);
    return bytes + MARGIN;
}

static bool all_dots(const uint8_t *bytes, size_t length) {
    for (size_t i = 0; i < length; i++) {
        if (bytes[i] != DOT) {
            return false;
        }
    }
    return true;
}

/* A call leaves what is beside its buffers. The library's own stores are seen here, and not by AddressSanitizer. */
static void give_back(const char *name, uint8_t *bytes, size_t length) {
    CHECK(name, all_dots(bytes - MARGIN, MARGIN));
    CHECK(name, all_dots(bytes + length, MARGIN));
    free(bytes - MARGIN);
}

static bool is_answer(reinoften_answer answer, uint32_t number, size_t line, uint32_t family, size_t count) {
    return answer.number == number && answer.line == line && answer.family == family && answer.count == count;
}

static bool is_done(reinoften_answer answer, size_t count) {
    return is_answer(answer, REINOFTEN_DONE, 0, 0, count);
}

/* A refusal that names no line; or `none`. */
static bool is_plain(reinoften_answer answer, uint32_t number) {
    return is_answer(answer, number, 0, 0, 0);
}

static bool is_pauli(reinoften_pauli found, uint32_t p, uint32_t a, uint32_t b) {
    return found.p == p && found.a == a && found.b == b;
}

/* The sheets *A to *L of crates/sheet/specs/Starred.antt, by the rows that they share. */
#define FIVE "g=+XZZXI\ng=+IXZZX\ng=+XIXZZ\ng=+ZXIXZ\n"
#define FIVE_LOGICALS "x=+XXXXX\nz=+ZZZZZ\n"
#define SHEET_A "n=5\nd=3\n" FIVE FIVE_LOGICALS "w=IYYIX\n"
#define SHEET_K "n=2\nd=1\ng=+ZZ\nx=+XX\nz=+ZI\nw=ZI\n"
#define SHEET_L                                                                                                       \
    "n=7\nd=3\ng=+IIIXXXX\ng=+IXXIIXX\ng=+XIXIXIX\ng=+IIIZZZZ\ng=+IZZIIZZ\ng=+ZIZIZIZ\n"                              \
    "x=+XXXXXXX\nz=+ZZZZZZZ\nw=XXXIIII\n"

static reinoften_reading read_bytes(const uint8_t *bytes, size_t length) {
    uint8_t *sheet = lent(length);
    memcpy(sheet, bytes, length);
    reinoften_reading reading = reinoften_read_sheet(sheet, length);
    give_back("read_sheet", sheet, length);
    return reading;
}

static reinoften_reading read_text(const char *text) {
    return read_bytes((const uint8_t *)text, strlen(text));
}

static reinoften_code admitted(const char *text) {
    reinoften_reading reading = read_text(text);
    CHECK(text, is_done(reading.answer, 0));
    CHECK(text, reading.errors.n == 0);
    return reading.code;
}

/* A row with one letter other than I, on a qubit that counts from 0. */
static char *put_row(char *at, const char *key, char letter, size_t qubit, size_t n) {
    at += sprintf(at, "%s", key);
    memset(at, 'I', n);
    at[qubit] = letter;
    at[n] = '\n';
    return at + n + 1;
}

/* An admitted sheet of distance 1: Z on each of the first r qubits is a generator, and the others are free. */
static size_t put_sheet(char *sheet, size_t n, size_t r) {
    char *at = sheet + sprintf(sheet, "n=%zu\nd=1\n", n);
    for (size_t i = 0; i < r; i++) {
        at = put_row(at, "g=+", 'Z', i, n);
    }
    for (size_t i = r; i < n; i++) {
        at = put_row(at, "x=+", 'X', i, n);
    }
    for (size_t i = r; i < n; i++) {
        at = put_row(at, "z=+", 'Z', i, n);
    }
    at = put_row(at, "w=", 'X', n - 1, n);
    *at = '\0';
    return (size_t)(at - sheet);
}

/* A call that writes, about a record. */
typedef reinoften_answer (*writing)(reinoften_code code, uint8_t *out, size_t out_length);

/* Its room: refused with 17 up to one byte too few, done from there on, and no other byte written. */
static void check_room(const char *name, writing call, reinoften_code code, const char *expected) {
    size_t needed = strlen(expected);
    CHECK(name, is_plain(call(code, NULL, 0), REINOFTEN_SHORT_BUFFER));
    for (size_t length = needed > 40 ? needed - 40 : 0; length <= needed + 9; length++) {
        uint8_t *out = lent(length);
        reinoften_answer answer = call(code, out, length);
        if (length < needed) {
            CHECK(name, is_plain(answer, REINOFTEN_SHORT_BUFFER));
            CHECK(name, all_dots(out, length));
        } else {
            CHECK(name, is_done(answer, needed));
            CHECK(name, memcmp(out, expected, needed) == 0);
            CHECK(name, all_dots(out + needed, length - needed));
        }
        give_back(name, out, length);
    }
}

/* Any other answer than 0, which leaves the buffer as it was. */
static void check_untouched(const char *name, writing call, reinoften_code code, size_t length, uint32_t number) {
    uint8_t *out = lent(length);
    CHECK(name, is_plain(call(code, out, length), number));
    CHECK(name, all_dots(out, length));
    give_back(name, out, length);
}

/* Y on qubit 2, with another phase, and with mask bits above all qubits. */
static reinoften_answer syndrome_of_y2(reinoften_code code, uint8_t *out, size_t out_length) {
    return reinoften_syndrome(code, (reinoften_pauli){7, 0xff000002, 0x80000002}, out, out_length);
}

static reinoften_answer decode_text(reinoften_code code, const char *syndrome, uint8_t *out, size_t out_length) {
    return reinoften_decode(code, (const uint8_t *)syndrome, strlen(syndrome), out, out_length);
}

static reinoften_answer decode_1101(reinoften_code code, uint8_t *out, size_t out_length) {
    return decode_text(code, "1101", out, out_length);
}

static reinoften_answer decode_zeros(reinoften_code code, uint8_t *out, size_t out_length) {
    return decode_text(code, "00000000000000000000000", out, out_length);
}

static reinoften_answer decode_without(reinoften_code code, uint8_t *out, size_t out_length) {
    return reinoften_decode(code, NULL, 0, out, out_length);
}

static reinoften_answer decode_110(reinoften_code code, uint8_t *out, size_t out_length) {
    return decode_text(code, "110", out, out_length);
}

static reinoften_answer decode_11010(reinoften_code code, uint8_t *out, size_t out_length) {
    return decode_text(code, "11010", out, out_length);
}

static reinoften_answer decode_1102(reinoften_code code, uint8_t *out, size_t out_length) {
    return decode_text(code, "1102", out, out_length);
}

static reinoften_answer decode_010001(reinoften_code code, uint8_t *out, size_t out_length) {
    return decode_text(code, "010001", out, out_length);
}

static reinoften_answer decode_010010(reinoften_code code, uint8_t *out, size_t out_length) {
    return decode_text(code, "010010", out, out_length);
}

static reinoften_answer report_a(reinoften_code code, uint8_t *out, size_t out_length) {
    (void)code;
    static const char input[] = SHEET_A "s=0001\ns=1010\n";
    return reinoften_report((const uint8_t *)input, strlen(input), out, out_length);
}

static reinoften_answer report_nothing(reinoften_code code, uint8_t *out, size_t out_length) {
    (void)code;
    return reinoften_report(NULL, 0, out, out_length);
}

static void check_rooms(void) {
    reinoften_code a = admitted(SHEET_A);
    check_room("write_sheet", reinoften_write_sheet, a, SHEET_A);
    check_room("canonical", reinoften_canonical, a, "h=+YZIZY\nh=+IXZZX\nh=+ZZXIX\nh=+ZIZYY\n");
    check_room("syndrome", syndrome_of_y2, a, "1101");
    check_room("decode", decode_1101, a, "IYIII");
    check_room("report", report_a, a,
               "n=5\nk=1\nd=3\nt=1\nh=+YZIZY\nh=+IXZZX\nh=+ZZXIX\nh=+ZIZYY\nc=XIIII\nc=ZIIII\n");
    check_room("report of nothing", report_nothing, a, "r=2\nat=1\n");
    check_room("write_sheet", reinoften_write_sheet, admitted(SHEET_K), SHEET_K);
}

/* With the room that holds every report, the bytes behind this one stay too. */
static void check_report_room(void) {
    uint8_t *out = lent(REINOFTEN_REPORT_ROOM);
    reinoften_answer answer = report_a(admitted(SHEET_A), out, REINOFTEN_REPORT_ROOM);
    CHECK("report", is_done(answer, 68));
    CHECK("report", all_dots(out + 68, REINOFTEN_REPORT_ROOM - 68));
    give_back("report", out, REINOFTEN_REPORT_ROOM);
}

/* The rooms of the header are those of the longest answers. */
static void check_longest(void) {
    char sheet[REINOFTEN_SHEET_ROOM + 1];
    CHECK("n=24 r=1", put_sheet(sheet, 24, 1) == REINOFTEN_SHEET_ROOM);
    check_room("write_sheet", reinoften_write_sheet, admitted(sheet), sheet);

    put_sheet(sheet, 24, 23);
    reinoften_code code = admitted(sheet);
    char lines[REINOFTEN_CANONICAL_ROOM + 1];
    char *at = lines;
    for (size_t i = 0; i < 23; i++) {
        at = put_row(at, "h=+", 'Z', i, 24);
    }
    *at = '\0';
    CHECK("n=24 r=23", at - lines == REINOFTEN_CANONICAL_ROOM);
    check_room("canonical", reinoften_canonical, code, lines);
    static const char syndrome[] = "01000000000000000000000", letters[] = "IIIIIIIIIIIIIIIIIIIIIIII";
    CHECK("n=24 r=23", strlen(syndrome) == REINOFTEN_SYNDROME_ROOM);
    check_room("syndrome", syndrome_of_y2, code, syndrome);
    CHECK("n=24 r=23", strlen(letters) == REINOFTEN_LETTERS_ROOM);
    check_room("decode", decode_zeros, code, letters);
    CHECK("n=24 r=23", is_done(reinoften_correct(code, 0).answer, 0));
    CHECK("n=24 r=23", is_plain(reinoften_correct(code, (1u << 23) - 1).answer, REINOFTEN_NONE));
    CHECK("n=24 r=23", is_plain(reinoften_correct(code, 1u << 23).answer, REINOFTEN_SYNDROME));
}

/* An input of 4,096 bytes is read, and one of 4,097 is not looked at. */
static void check_input_lengths(void) {
    char input[LONGEST_INPUT + 2];
    size_t length = put_sheet(input, 24, 1);
    while (length < LONGEST_INPUT) {
        length += (size_t)sprintf(input + length, "s=%d\n", length % 8 == 4);
    }
    CHECK("longest input", length == LONGEST_INPUT);
    input[LONGEST_INPUT] = '\n';
    const uint8_t *bytes = (const uint8_t *)input;
    CHECK("longest input", is_answer(read_bytes(bytes, length).answer, REINOFTEN_FORM, 51, 0, 0));
    CHECK("one byte more", is_plain(read_bytes(bytes, length + 1).answer, REINOFTEN_TOO_LONG));

    uint8_t *out = lent(REINOFTEN_REPORT_ROOM);
    CHECK("one byte more", is_done(reinoften_report(bytes, length + 1, out, REINOFTEN_REPORT_ROOM), 9));
    CHECK("one byte more", memcmp(out, "r=1\nat=0\n.", 10) == 0);
    /* Of the 686 syndromes every other has a correction. The lines have 27 bytes with letters and 7 with `none`. */
    size_t needed = strlen("n=24\nk=23\nd=1\nt=0\n") + 28 + 343 * (27 + 7);
    CHECK("longest input", is_done(reinoften_report(bytes, length, out, REINOFTEN_REPORT_ROOM), needed));
    CHECK("longest input", memcmp(out + needed - 7, "c=none\n.", 8) == 0);
    give_back("longest input", out, REINOFTEN_REPORT_ROOM);
}

/* Which number, line and family a sheet is refused with. */
typedef struct {
    const char *sheet;
    uint32_t number;
    size_t line;
    char family;
} refused_sheet;

#define THREE_ROWS(first, second) "n=3\nd=1\ng=+" first "\ng=+" second "\nx=+IXX\nz=+IZI\nw=IZI\n"
#define FOUR_ROWS(third) "n=4\nd=1\ng=+XXII\ng=+ZZII\ng=" third "\nx=+IIXI\nz=+IIZI\nw=IIXI\n"

static const refused_sheet refused_sheets[] = {
    {"", REINOFTEN_FORM, 1, 0},
    {"n=5", REINOFTEN_FORM, 1, 0},
    {"n=1\n", REINOFTEN_QUBIT_COUNT, 1, 0},
    {"n=25\n", REINOFTEN_QUBIT_COUNT, 1, 0},
    {"n=5\nd=8\n", REINOFTEN_DISTANCE_RANGE, 2, 0},
    {"n=5\nd=3\n", REINOFTEN_GENERATOR_COUNT, 3, 0},
    {"n=3\nd=1\ng=+ZZI\ng=+IZZ\ng=+ZIZ\n", REINOFTEN_GENERATOR_COUNT, 5, 0},
    {SHEET_A "\n", REINOFTEN_FORM, 10, 0},
    {SHEET_A "s=0001\n", REINOFTEN_FORM, 10, 0},
    {THREE_ROWS("XII", "ZII"), REINOFTEN_GENERATORS_ANTICOMMUTE, 4, 'g'},
    {FOUR_ROWS("+YYII"), REINOFTEN_MINUS_IDENTITY, 5, 'g'},
    {FOUR_ROWS("-YYII"), REINOFTEN_DEPENDENT_GENERATOR, 5, 'g'},
    {"n=5\nd=3\n" FIVE "x=+XIIII\nz=+ZZZZZ\nw=IYYIX\n", REINOFTEN_LOGICAL_ANTICOMMUTES, 7, 'x'},
    {"n=5\nd=3\n" FIVE "x=+XXXXX\nz=+ZIIII\nw=IYYIX\n", REINOFTEN_LOGICAL_ANTICOMMUTES, 8, 'z'},
    {"n=5\nd=3\n" FIVE "x=+XXXXX\nz=+XXXXX\nw=IYYIX\n", REINOFTEN_LOGICAL_PAIRING, 8, 'z'},
    {"n=5\nd=3\n" FIVE FIVE_LOGICALS "w=XXXXX\n", REINOFTEN_CLAIMED_WEIGHT, 9, 0},
    {"n=5\nd=3\n" FIVE FIVE_LOGICALS "w=XXXII\n", REINOFTEN_CLAIMED_ANTICOMMUTES, 9, 0},
    {"n=5\nd=4\n" FIVE FIVE_LOGICALS "w=XZZXI\n", REINOFTEN_CLAIMED_IN_GROUP, 9, 0},
};

/* Every call on a record refuses it with 15, before 16 and 17 are looked at. */
static void check_refused_record(const char *name, reinoften_code code) {
    static const writing calls[] = {
        reinoften_write_sheet, reinoften_canonical, syndrome_of_y2, decode_1101, decode_without,
    };
    for (size_t i = 0; i < sizeof calls / sizeof calls[0]; i++) {
        check_untouched(name, calls[i], code, REINOFTEN_SHEET_ROOM, REINOFTEN_RECORD_LIMITS);
        CHECK(name, is_plain(calls[i](code, NULL, 0), REINOFTEN_RECORD_LIMITS));
    }
    reinoften_correction found = reinoften_correct(code, 0xffffffff);
    CHECK(name, is_plain(found.answer, REINOFTEN_RECORD_LIMITS));
    CHECK(name, is_pauli(found.correction, 0, 0, 0));
}

/* Beside a refused reading: all numbers 0 and all rows +I, which is 0 in each place. */
static bool is_empty_record(const reinoften_code *code) {
    static const reinoften_code empty;
    return code->n == 0 && code->r == 0 && code->d == 0 && memcmp(code->g, empty.g, sizeof empty.g) == 0 &&
           memcmp(code->x, empty.x, sizeof empty.x) == 0 && memcmp(code->z, empty.z, sizeof empty.z) == 0 &&
           is_pauli(code->w, 0, 0, 0);
}

static void check_refused_sheets(void) {
    for (size_t i = 0; i < sizeof refused_sheets / sizeof refused_sheets[0]; i++) {
        const refused_sheet *expected = &refused_sheets[i];
        reinoften_reading reading = read_text(expected->sheet);
        CHECK(expected->sheet,
              is_answer(reading.answer, expected->number, expected->line, (uint32_t)expected->family, 0));
        CHECK(expected->sheet, reading.errors.n == 0);
        CHECK(expected->sheet, is_pauli(reading.errors.e, 0, 0, 0) && is_pauli(reading.errors.f, 0, 0, 0));
        CHECK(expected->sheet, is_empty_record(&reading.code));
        check_refused_record(expected->sheet, reading.code);
    }
    CHECK("NULL", is_answer(reinoften_read_sheet(NULL, 0).answer, REINOFTEN_FORM, 1, 0, 0));
}

/* *C: the two errors are IIXYI and IIIIX. */
static void check_refuted_distance(void) {
    reinoften_reading reading = read_text("n=5\nd=5\n" FIVE FIVE_LOGICALS "w=XXXXX\n");
    CHECK("*C", is_answer(reading.answer, REINOFTEN_DISTANCE_REFUTED, 9, 0, 0));
    CHECK("*C", reading.errors.n == 5);
    CHECK("*C", is_pauli(reading.errors.e, 1, 12, 8));
    CHECK("*C", is_pauli(reading.errors.f, 0, 16, 0));
    CHECK("*C", is_empty_record(&reading.code));
    check_refused_record("*C", reading.code);
}

static void check_records_of_bytes(void) {
    reinoften_code code;
    memset(&code, 0, sizeof code);
    check_refused_record("all bytes 0", code);
    memset(&code, 0xff, sizeof code);
    check_refused_record("all bytes 0xff", code);
}

/* One value of an admitted record is changed, to the next that is outside the limits. */
#define CHECK_CHANGED(place, value)                                                                                   \
    do {                                                                                                              \
        reinoften_code changed = a;                                                                                   \
        changed.place = (value);                                                                                      \
        check_refused_record(#place " = " #value, changed);                                                           \
    } while (0)

static void check_record_limits(void) {
    reinoften_code a = admitted(SHEET_A);
    CHECK_CHANGED(n, 4);
    CHECK_CHANGED(n, 25);
    CHECK_CHANGED(n, SIZE_MAX);
    CHECK_CHANGED(r, 0);
    CHECK_CHANGED(r, 3);
    CHECK_CHANGED(r, 5);
    CHECK_CHANGED(r, SIZE_MAX);
    CHECK_CHANGED(d, 0);
    CHECK_CHANGED(d, 8);
    CHECK_CHANGED(g[0].a, a.g[0].a | 1u << 5);
    CHECK_CHANGED(g[0].p, a.g[0].p + 1);
    CHECK_CHANGED(g[4].b, 1);
    CHECK_CHANGED(x[1].p, 2);
    CHECK_CHANGED(z[31].a, 1);
    CHECK_CHANGED(w.b, a.w.b | 1u << 31);
    CHECK_CHANGED(w.p, a.w.p + 2);

    /* A phase is read modulo 4, so this is the same record. */
    a.g[0].p += 4;
    a.x[1].p = 0xfffffffc;
    check_room("phases above 3", reinoften_write_sheet, a, SHEET_A);
}

/* A record within limits need not be of an admitted sheet: canonical checks 6 to 8, and that before 17. */
static void check_second_generator(reinoften_pauli row, uint32_t number) {
    reinoften_code code = admitted(SHEET_A);
    code.g[1] = row;
    uint8_t *out = lent(REINOFTEN_CANONICAL_ROOM);
    CHECK("canonical", is_answer(reinoften_canonical(code, out, REINOFTEN_CANONICAL_ROOM), number, 4, 'g', 0));
    CHECK("canonical", is_answer(reinoften_canonical(code, NULL, 0), number, 4, 'g', 0));
    CHECK("canonical", all_dots(out, REINOFTEN_CANONICAL_ROOM));
    give_back("canonical", out, REINOFTEN_CANONICAL_ROOM);
}

static void check_generators(void) {
    reinoften_pauli first = admitted(SHEET_A).g[0];
    reinoften_pauli minus_first = {first.p + 2, first.a, first.b};
    check_second_generator((reinoften_pauli){0, 0, 1}, REINOFTEN_GENERATORS_ANTICOMMUTE);
    check_second_generator(minus_first, REINOFTEN_MINUS_IDENTITY);
    check_second_generator(first, REINOFTEN_DEPENDENT_GENERATOR);
}

/* 16 before 17, and 17 before `none`. */
static void check_syndromes(void) {
    static const writing off_form[] = {decode_without, decode_110, decode_11010, decode_1102};
    reinoften_code a = admitted(SHEET_A);
    for (size_t i = 0; i < sizeof off_form / sizeof off_form[0]; i++) {
        check_untouched("off form", off_form[i], a, REINOFTEN_LETTERS_ROOM, REINOFTEN_SYNDROME);
        CHECK("off form", is_plain(off_form[i](a, NULL, 0), REINOFTEN_SYNDROME));
    }
    CHECK("bit r", is_plain(reinoften_correct(a, 1u << 4).answer, REINOFTEN_SYNDROME));
    CHECK("bit 31", is_plain(reinoften_correct(a, 1u << 31).answer, REINOFTEN_SYNDROME));

    reinoften_code l = admitted(SHEET_L);
    check_room("*L", decode_010010, l, "IYIIIII");
    check_untouched("*L", decode_010001, l, 6, REINOFTEN_SHORT_BUFFER);
    check_untouched("*L", decode_010001, l, 7, REINOFTEN_NONE);
    check_untouched("*L", decode_010001, l, 8, REINOFTEN_NONE);
    /* Of 010001 the second and the sixth character are 1, so by value bits 1 and 5. */
    reinoften_correction found = reinoften_correct(l, 0x22);
    CHECK("*L", is_plain(found.answer, REINOFTEN_NONE));
    CHECK("*L", is_pauli(found.correction, 0, 0, 0));
}

/* Both decoding calls give the same correction for every syndrome of *A, and syndrome gives the syndrome back. */
static void check_both_ways(void) {
    reinoften_code a = admitted(SHEET_A);
    for (uint32_t value = 0; value < 16; value++) {
        uint8_t syndrome[4], again[4], letters[5];
        for (size_t i = 0; i < 4; i++) {
            syndrome[i] = (uint8_t)('0' + (value >> i & 1));
        }
        reinoften_correction found = reinoften_correct(a, value);
        CHECK("both ways", is_done(found.answer, 0));
        CHECK("both ways", is_done(reinoften_decode(a, syndrome, 4, letters, 5), 5));
        for (size_t j = 0; j < 5; j++) {
            size_t bits = (found.correction.a >> j & 1) + 2 * (found.correction.b >> j & 1);
            CHECK("both ways", letters[j] == "IXZY"[bits]);
        }
        CHECK("both ways", is_done(reinoften_syndrome(a, found.correction, again, 4), 4));
        CHECK("both ways", memcmp(again, syndrome, 4) == 0);
    }
}

int main(void) {
    check_rooms();
    check_report_room();
    check_longest();
    check_input_lengths();
    check_refused_sheets();
    check_refuted_distance();
    check_records_of_bytes();
    check_record_limits();
    check_generators();
    check_syndromes();
    check_both_ways();
    printf("%u passed, %u failed\n", passed, failed);
    return failed == 0 ? EXIT_SUCCESS : EXIT_FAILURE;
}
