/*
 * Each function of the header, called from C: what it returns, what it sets, and what it leaves as it was.
 * It says which line failed and ends with status 1, or ends with status 0.
 */
#include "bolfrega.h"

#include <stdio.h>
#include <string.h>

#define EXPECT(fact)                                                       \
    do {                                                                   \
        if (!(fact)) {                                                     \
            fprintf(stderr, "%s:%d: not so: %s\n", __FILE__, __LINE__, #fact); \
            failures++;                                                    \
        }                                                                  \
    } while (0)

static int failures = 0;

/* Plan B of document 01 with its sheet S; plan A is the same without record 3. */
static const uint8_t plan_b[] = {
    1, 0, 2, 129, 3,   0, 0, 0, /* 0 gives (procedure 1) 3 */
    1, 1, 0, 0,   0,   0, 0, 0, /* 1 gives nothing */
    1, 1, 2, 1,   130, 0, 0, 0, /* 1 gives 1 (procedure 2) */
    1, 2, 1, 129, 0,   0, 0, 0, /* 2 gives (procedure 1) */
    1, 2, 2, 2,   129, 0, 0, 0, /* 2 gives 2 (procedure 1) */
    2, 0, 1, 1,   0,   0, 0, 0, /* from stage 0 on code 1 to stage 1 */
    2, 0, 3, 2,   0,   0, 0, 0, /* from stage 0 on code 3 to stage 2 */
    2, 1, 2, 0,   0,   0, 0, 0, /* from stage 1 on code 2 to stage 0 */
    3, 2, 0, 0,   0,   0, 0, 0, /* stage 2 is finishing */
};

#define SHEET (plan_b + 40)
#define SHEET_LENGTH (sizeof plan_b - 40)

/* bolfrega_check sets eight of them, bolfrega_check_from nine, and neither the last. */
static uint64_t details[10];
#define AS_BEFORE 0x7777777777777777
static uint8_t buffer[64];

/* Makes a check over places that hold something else, and returns its code. */
static uint64_t check(const uint8_t *file, size_t length, size_t rows, uint64_t budget, size_t room)
{
    memset(details, 0x77, sizeof details);
    memset(buffer, 0xee, sizeof buffer);
    return bolfrega_check(file, length, rows, budget, details, buffer, room);
}

/* The same for a set of procedures. */
static uint64_t check_from(const uint8_t *file, size_t length, uint64_t starts, size_t rows, uint64_t budget, size_t room)
{
    memset(details, 0x77, sizeof details);
    memset(buffer, 0xee, sizeof buffer);
    return bolfrega_check_from(file, length, starts, rows, budget, details, buffer, room);
}

/* Whether the nine details are these, and the next is as it was. */
static int said_from(uint64_t record, uint64_t joins, uint64_t used, uint64_t pass, uint64_t row, uint64_t pairs, uint64_t length,
                     uint64_t refused, uint64_t procedure)
{
    const uint64_t expected[10] = {record, joins, used, pass, row, pairs, length, refused, procedure, AS_BEFORE};
    return memcmp(details, expected, sizeof expected) == 0;
}

/* Whether the eight details are these, and the ninth is as it was. */
static int said(uint64_t record, uint64_t joins, uint64_t used, uint64_t pass, uint64_t row, uint64_t pairs, uint64_t length,
                uint64_t refused)
{
    return said_from(record, joins, used, pass, row, pairs, length, refused, AS_BEFORE);
}

/* Whether the buffer is unchanged from a place on. */
static int untouched(size_t from)
{
    for (size_t i = from; i < sizeof buffer; i++)
        if (buffer[i] != 0xee)
            return 0;
    return 1;
}

static void refusals(void)
{
    uint64_t record = 77;
    EXPECT(bolfrega_refusal(plan_b, sizeof plan_b, &record) == 0 && record == 0);
    record = 77;
    EXPECT(bolfrega_refusal(NULL, 0, &record) == 0 && record == 0);
    record = 77;
    EXPECT(bolfrega_refusal(plan_b, 7, &record) == 1 && record == 0);

    static const uint8_t many[8 * 1297];
    record = 77;
    EXPECT(bolfrega_refusal(many, sizeof many, &record) == 2 && record == 0);
    EXPECT(bolfrega_refusal(many, sizeof many - 8, &record) == 3 && record == 0);

    uint8_t damaged[sizeof plan_b];
    memcpy(damaged, plan_b, sizeof plan_b);
    damaged[8 * 7 + 1] = 16;
    EXPECT(bolfrega_refusal(damaged, sizeof damaged, &record) == 4 && record == 7);
    damaged[8 * 6 + 7] = 1;
    EXPECT(bolfrega_refusal(damaged, sizeof damaged, &record) == 5 && record == 6);
    memcpy(damaged + 8 * 5, plan_b, 8);
    EXPECT(bolfrega_refusal(damaged, sizeof damaged, &record) == 6 && record == 5);

    static const uint8_t on_remark[16] = {2, 0, 119, 1, 0, 0, 0, 0, 2, 0, 120, 1, 0, 0, 0, 0};
    record = 77;
    EXPECT(bolfrega_refusal(on_remark, 8, &record) == 0 && record == 0);
    EXPECT(bolfrega_refusal(on_remark, 16, &record) == 12 && record == 1);
}

/* Steps from a place with other things in what is set, and says whether all of it is as expected. */
static int steps(const uint8_t *file, size_t length, size_t from, uint64_t code, uint64_t record, uint64_t a, uint64_t b, uint64_t c, uint64_t d,
                 uint64_t next)
{
    const uint64_t expected[4] = {a, b, c, d};
    uint64_t found = 77, values[4] = {77, 77, 77, 77}, after = 77;
    return bolfrega_step(file, length, from, &found, values, &after) == code && found == record &&
           memcmp(values, expected, sizeof expected) == 0 && after == next;
}

static void reading(void)
{
    EXPECT(steps(plan_b, sizeof plan_b, 0, BOLFREGA_STEP_RULE, 0, 0, 2, 129, 3, 1));
    EXPECT(steps(plan_b, sizeof plan_b, 1, BOLFREGA_STEP_RULE, 0, 1, 0, 0, 0, 2));
    EXPECT(steps(plan_b, sizeof plan_b, 7, BOLFREGA_STEP_MOVE, 0, 1, 2, 0, 0, 8));
    EXPECT(steps(plan_b, sizeof plan_b, 8, BOLFREGA_STEP_FINISHING, 0, 2, 0, 0, 0, 9));
    EXPECT(steps(plan_b, sizeof plan_b, 9, BOLFREGA_STEP_ENDED, 0, 0, 0, 0, 0, 9));
    EXPECT(steps(plan_b, sizeof plan_b, SIZE_MAX, BOLFREGA_STEP_ENDED, 0, 0, 0, 0, 0, SIZE_MAX));
    EXPECT(steps(NULL, 0, 0, BOLFREGA_STEP_ENDED, 0, 0, 0, 0, 0, 0));
    EXPECT(steps(plan_b, 7, 3, 1, 0, 0, 0, 0, 0, 3));

    uint8_t damaged[sizeof plan_b];
    memcpy(damaged, plan_b, sizeof plan_b);
    damaged[8 * 6 + 7] = 1;
    EXPECT(steps(damaged, sizeof damaged, 6, 5, 6, 0, 0, 0, 0, 6));
    /* A record before it is not checked again. */
    EXPECT(steps(damaged, sizeof damaged, 7, BOLFREGA_STEP_MOVE, 0, 1, 2, 0, 0, 8));
    /* But it is to be exceeded. */
    EXPECT(steps(damaged + 8, sizeof damaged - 8, 5, 5, 5, 0, 0, 0, 0, 5));
    memcpy(damaged + 8 * 7, plan_b, 8);
    EXPECT(steps(damaged, sizeof damaged, 7, 6, 7, 0, 0, 0, 0, 7));

    uint64_t offset = 77, length = 77;
    bolfrega_moves(plan_b, sizeof plan_b, &offset, &length);
    EXPECT(offset == 40 && length == 24);
    bolfrega_moves(SHEET, SHEET_LENGTH, &offset, &length);
    EXPECT(offset == 0 && length == 24);
    bolfrega_moves(plan_b, 40, &offset, &length);
    EXPECT(offset == 40 && length == 0);
    offset = length = 77;
    bolfrega_moves(damaged, sizeof damaged, &offset, &length);
    EXPECT(offset == 0 && length == 0);
    offset = length = 77;
    bolfrega_moves(NULL, 0, &offset, &length);
    EXPECT(offset == 0 && length == 0);
}

static void judgements(void)
{
    static const uint8_t accepted[] = {1, 2, 3}, turned_away[] = {1, 3}, no_code[] = {128}, with_remarks[] = {120, 1, 2, 127, 3};
    static const uint8_t long_run[65535];
    uint64_t record = 77;
    EXPECT(bolfrega_judge(SHEET, SHEET_LENGTH, accepted, 3, &record) == BOLFREGA_ACCEPTED && record == 0);
    record = 77;
    EXPECT(bolfrega_judge(SHEET, SHEET_LENGTH, turned_away, 2, &record) == BOLFREGA_TURNED_AWAY && record == 0);
    EXPECT(bolfrega_judge(SHEET, SHEET_LENGTH, with_remarks, 5, &record) == BOLFREGA_ACCEPTED && record == 0);
    EXPECT(bolfrega_judge(SHEET, SHEET_LENGTH, NULL, 0, &record) == BOLFREGA_TURNED_AWAY && record == 0);
    record = 77;
    EXPECT(bolfrega_judge(SHEET, SHEET_LENGTH, no_code, 1, &record) == 11 && record == 0);
    EXPECT(bolfrega_judge(SHEET, SHEET_LENGTH, long_run, 65535, &record) == 11 && record == 0);
    EXPECT(bolfrega_judge(SHEET, SHEET_LENGTH, long_run, 65534, &record) == BOLFREGA_TURNED_AWAY && record == 0);
    EXPECT(bolfrega_judge(SHEET + 8, 3, no_code, 1, &record) == 1 && record == 0);
    static const uint8_t twice[16] = {3, 0, 0, 0, 0, 0, 0, 0, 3, 0, 0, 0, 0, 0, 0, 0};
    EXPECT(bolfrega_judge(twice, 16, no_code, 1, &record) == 6 && record == 1);
}

static void recognitions(void)
{
    static uint64_t table[BOLFREGA_CELLS + 1];
    static const uint8_t derived[] = {1, 3}, other[] = {2, 1, 3}, no_code[] = {128}, long_run[65];
    uint64_t record = 77;
    memset(table, 0x77, sizeof table);
    const uint64_t old = table[0];
    EXPECT(bolfrega_recognize(plan_b, 7, long_run, 65, &record, table, 0) == 1 && record == 0);
    EXPECT(bolfrega_recognize(plan_b, sizeof plan_b, no_code, 1, &record, table, 0) == 11 && record == 0);
    EXPECT(bolfrega_recognize(plan_b, sizeof plan_b, long_run, 65, &record, table, 0) == 13 && record == 0);
    EXPECT(bolfrega_recognize(plan_b, sizeof plan_b, long_run, 64, &record, table, BOLFREGA_CELLS + 1) == 14 && record == 0);
    EXPECT(bolfrega_recognize(plan_b, sizeof plan_b, long_run, 64, &record, NULL, 0) == 14 && record == 0);
    for (size_t i = 0; i <= BOLFREGA_CELLS; i++)
        EXPECT(table[i] == old);

    record = 77;
    EXPECT(bolfrega_recognize(plan_b, sizeof plan_b, derived, 2, &record, table, BOLFREGA_CELLS) == BOLFREGA_DERIVED && record == 0);
    /* Procedures 1 and 2 derive the empty stretch and 1; procedure 0 derives 3 and 1 3. */
    EXPECT(table[BOLFREGA_CELL(0, 0)] == 6 && table[BOLFREGA_CELL(0, 1)] == 6 && table[BOLFREGA_CELL(1, 2)] == 1);
    EXPECT(table[BOLFREGA_CELL(0, 2)] == 1 && table[BOLFREGA_CELL(0, 3)] == 0 && table[BOLFREGA_CELL(64, 64)] == 0);
    EXPECT(BOLFREGA_CELL(0, 64) == 64 && BOLFREGA_CELL(1, 1) == 65 && BOLFREGA_CELL(64, 64) == 2144 && table[BOLFREGA_CELLS] == old);
    EXPECT(bolfrega_recognize(plan_b, sizeof plan_b, other, 3, &record, table, BOLFREGA_CELLS) == BOLFREGA_NOT_DERIVED && record == 0);
    EXPECT(table[BOLFREGA_CELL(1, 3)] == 1 && table[BOLFREGA_CELL(0, 3)] == 0);
    EXPECT(bolfrega_recognize(NULL, 0, NULL, 0, &record, table, BOLFREGA_CELLS) == BOLFREGA_NOT_DERIVED && record == 0);
}

static void lists(void)
{
    static uint8_t list[BOLFREGA_LIST_BYTES + 1];
    /* The moves of stage 0 on code 1 are two, stage 1 has none on code 2, and no move is from stage 3, which is finishing. */
    static const uint8_t edited[40] = {2, 0, 1, 0, 0, 0, 0, 0, 2, 0, 1, 1, 0, 0, 0, 0, 2, 0, 2, 1, 0, 0, 0, 0,
                                       2, 1, 1, 0, 0, 0, 0, 0, 3, 3, 0, 0, 0, 0, 0, 0};
    static const uint8_t expected[12] = {0, 1, 2, 1, 2, 0, 3, 1, 0, 3, 2, 0};
    static const uint8_t twice[16] = {3, 0, 0, 0, 0, 0, 0, 0, 3, 0, 0, 0, 0, 0, 0, 0};
    uint64_t record = 77, entries = 77;
    memset(list, 0xee, sizeof list);
    EXPECT(bolfrega_list(edited, 7, &record, &entries, list, 0) == 1 && record == 0 && entries == 0);
    EXPECT(bolfrega_list(twice, 16, &record, &entries, list, 0) == 6 && record == 1 && entries == 0);
    record = entries = 77;
    EXPECT(bolfrega_list(edited, sizeof edited, &record, &entries, list, BOLFREGA_LIST_BYTES - 1) == 15 && record == 0 && entries == 0);
    EXPECT(bolfrega_list(NULL, 0, &record, &entries, NULL, 0) == 15 && record == 0 && entries == 0);
    for (size_t i = 0; i < sizeof list; i++)
        EXPECT(list[i] == 0xee);

    record = entries = 77;
    EXPECT(bolfrega_list(NULL, 0, &record, &entries, list, BOLFREGA_LIST_BYTES) == BOLFREGA_LISTED && record == 0 && entries == 0);
    EXPECT(list[0] == 0xee);
    record = 77;
    EXPECT(bolfrega_list(edited, sizeof edited, &record, &entries, list, BOLFREGA_LIST_BYTES) == BOLFREGA_LISTED && record == 0);
    EXPECT(entries * BOLFREGA_ENTRY_BYTES == sizeof expected && memcmp(list, expected, sizeof expected) == 0);
    for (size_t i = sizeof expected; i < sizeof list; i++)
        EXPECT(list[i] == 0xee);
    EXPECT(bolfrega_list(SHEET, SHEET_LENGTH, &record, &entries, list, sizeof list) == BOLFREGA_LISTED && record == 0 && entries == 6);
    EXPECT(list[0] == 0 && list[1] == 2 && list[2] == 0 && list[17] == 0 && list[18] == 0xee);
}

typedef uint64_t conversion(const uint8_t *, size_t, uint64_t *, uint64_t *, uint8_t *, size_t);

/* Converts a file over places that hold something else. Returns whether it gave this code, record, length and result, and left every other
 * byte of the output as it was. */
static int converts(conversion *call, const uint8_t *file, size_t file_length, size_t room, uint64_t code, uint64_t record,
                    const uint8_t *result, size_t length)
{
    static uint8_t out[BOLFREGA_WIDE_BYTES + 8];
    uint64_t said_record = 77, said_length = 77;
    memset(out, 0xee, sizeof out);
    if (call(file, file_length, &said_record, &said_length, out, room) != code || said_record != record || said_length != length)
        return 0;
    for (size_t i = 0; i < sizeof out; i++)
        if (out[i] != (i < length ? result[i] : 0xee))
            return 0;
    return 1;
}

static void conversions(void)
{
    /* 0 gives 1 (procedure 1) 3 and the remark 120; 1 gives nothing, or 1 3 and the remark: equal rests are not shared. */
    static const uint8_t wide[] = {
        1, 0, 4, 1, 129, 3,   120, 0, 0, 0, 0, 0, 0, 0, 0, 0, /* takes chain procedures 2 and 3 */
        1, 1, 0, 0, 0,   0,   0,   0, 0, 0, 0, 0, 0, 0, 0, 0,
        1, 1, 3, 1, 3,   120, 0,   0, 0, 0, 0, 0, 0, 0, 0, 0, /* takes chain procedure 4 */
        2, 0, 1, 1, 0,   0,   0,   0, 0, 0, 0, 0, 0, 0, 0, 0, /* from stage 0 on code 1 to stage 1 */
        3, 2, 0, 0, 0,   0,   0,   0, 0, 0, 0, 0, 0, 0, 0, 0, /* stage 2 is finishing */
    };
    static const uint8_t unfolded[] = {
        1, 0, 2, 1,   130, 0, 0, 0, /* 0 gives 1 (procedure 2) */
        1, 1, 0, 0,   0,   0, 0, 0, /* 1 gives nothing */
        1, 1, 2, 1,   132, 0, 0, 0, /* 1 gives 1 (procedure 4) */
        1, 2, 2, 129, 131, 0, 0, 0, /* 2 gives (procedure 1) (procedure 3) */
        1, 3, 2, 3,   120, 0, 0, 0, /* 3 gives 3 120 */
        1, 4, 2, 3,   120, 0, 0, 0, /* 4 gives 3 120 */
        2, 0, 1, 1,   0,   0, 0, 0,
        3, 2, 0, 0,   0,   0, 0, 0,
    };
    const size_t n = sizeof wide, u = sizeof unfolded, most = BOLFREGA_WIDE_BYTES;
    EXPECT(converts(bolfrega_unfold, wide, n, u, BOLFREGA_CONVERTED, 0, unfolded, u));
    EXPECT(converts(bolfrega_unfold, wide, n, u + 1, BOLFREGA_CONVERTED, 0, unfolded, u));
    EXPECT(converts(bolfrega_unfold, wide, n, u - 1, 10, 0, NULL, 0));
    EXPECT(converts(bolfrega_unfold, wide, n - 8, 0, 16, 0, NULL, 0));
    EXPECT(converts(bolfrega_narrow, wide, n, 0, 17, 0, NULL, 0));
    EXPECT(converts(bolfrega_narrow, wide, n - 1, 0, 16, 0, NULL, 0));

    /* Over and back; a file that was moved over unfolds to itself. */
    static uint8_t moved[2 * sizeof plan_b];
    for (size_t i = 0; i < sizeof plan_b; i++)
        moved[i / 8 * 16 + i % 8] = plan_b[i];
    EXPECT(converts(bolfrega_widen, plan_b, sizeof plan_b, sizeof moved, BOLFREGA_CONVERTED, 0, moved, sizeof moved));
    EXPECT(converts(bolfrega_widen, plan_b, sizeof plan_b, sizeof moved - 1, 10, 0, NULL, 0));
    EXPECT(converts(bolfrega_widen, plan_b, 7, 0, 1, 0, NULL, 0));
    EXPECT(converts(bolfrega_narrow, moved, sizeof moved, sizeof plan_b, BOLFREGA_CONVERTED, 0, plan_b, sizeof plan_b));
    EXPECT(converts(bolfrega_narrow, moved, sizeof moved, sizeof plan_b - 1, 10, 0, NULL, 0));
    EXPECT(converts(bolfrega_unfold, moved, sizeof moved, most, BOLFREGA_CONVERTED, 0, plan_b, sizeof plan_b));

    /* The empty file, with nothing lent. */
    uint64_t record = 77, length = 77;
    EXPECT(bolfrega_widen(NULL, 0, &record, &length, NULL, 0) == BOLFREGA_CONVERTED && record == 0 && length == 0);
    record = length = 77;
    EXPECT(bolfrega_narrow(NULL, 0, &record, &length, NULL, 0) == BOLFREGA_CONVERTED && record == 0 && length == 0);
    record = length = 77;
    EXPECT(bolfrega_unfold(NULL, 0, &record, &length, NULL, 0) == BOLFREGA_CONVERTED && record == 0 && length == 0);

    /* The records of the new form: a body of thirteen, byte 15, a move on a remark, two that are the same; and 18. */
    uint8_t damaged[sizeof wide];
    memcpy(damaged, wide, sizeof wide);
    damaged[16 * 4 + 15] = 1;
    EXPECT(converts(bolfrega_unfold, damaged, n, 0, 5, 4, NULL, 0));
    EXPECT(converts(bolfrega_narrow, damaged, n, 0, 5, 4, NULL, 0));
    damaged[16 * 3 + 2] = 120;
    EXPECT(converts(bolfrega_unfold, damaged, n, 0, 12, 3, NULL, 0));
    damaged[16 * 2 + 2] = 13;
    EXPECT(converts(bolfrega_unfold, damaged, n, 0, 4, 2, NULL, 0));
    memcpy(damaged + 16, damaged, 16);
    EXPECT(converts(bolfrega_unfold, damaged, n, 0, 6, 1, NULL, 0));
    memcpy(damaged, wide, sizeof wide);
    damaged[16 * 1 + 1] = damaged[16 * 2 + 1] = 63;
    EXPECT(converts(bolfrega_unfold, damaged, n, 0, 18, 0, NULL, 0));

    static const uint8_t many[16 * 1297];
    EXPECT(converts(bolfrega_unfold, many, sizeof many, 0, 2, 0, NULL, 0));
    EXPECT(converts(bolfrega_narrow, many, sizeof many, 0, 2, 0, NULL, 0));
    EXPECT(converts(bolfrega_narrow, many, sizeof many - 16, 0, 3, 0, NULL, 0));
    EXPECT(converts(bolfrega_widen, many, 8 * 1297, 0, 2, 0, NULL, 0));
    EXPECT(BOLFREGA_WIDE_BYTES == 16 * 1296 && BOLFREGA_FILE_BYTES == 8 * 1296);
}

static void checks(void)
{
    uint8_t plan_a[sizeof plan_b - 8];
    memcpy(plan_a, plan_b, 24);
    memcpy(plan_a + 24, plan_b + 32, sizeof plan_b - 32);

    EXPECT(check(plan_a, sizeof plan_a, 1024, 1000000, 64) == BOLFREGA_HOLDS);
    EXPECT(said(0, 12, 4, 4, 65535, 0, 0, 0) && untouched(0));
    EXPECT(check(plan_a, sizeof plan_a, 1024, 11, 64) == BOLFREGA_SPENT);
    EXPECT(said(0, 11, 4, 4, 65535, 0, 0, 0) && untouched(0));
    EXPECT(check(plan_a, sizeof plan_a, 3, 1000000, 64) == BOLFREGA_FULL);
    EXPECT(said(0, 7, 3, 3, 65535, 0, 0, 0) && untouched(0));

    EXPECT(check(plan_b, sizeof plan_b, 1024, 1000000, 64) == BOLFREGA_BROKEN);
    EXPECT(said(0, 12, 7, 4, 6, 0, 2, 0) && buffer[0] == 1 && buffer[1] == 3 && untouched(2));
    EXPECT(check(plan_b, sizeof plan_b, 1024, 1000000, 2) == BOLFREGA_BROKEN);
    EXPECT(said(0, 12, 7, 4, 6, 0, 2, 0) && buffer[0] == 1 && buffer[1] == 3 && untouched(2));
    EXPECT(check(plan_b, sizeof plan_b, 1024, 1000000, 1) == BOLFREGA_BROKEN);
    EXPECT(said(0, 12, 7, 4, 6, 0, 2, 10) && untouched(0));

    EXPECT(check(plan_b, sizeof plan_b, 0, 1000000, 64) == 8);
    EXPECT(said(0, 0, 0, 0, 0, 0, 0, 0) && untouched(0));
    EXPECT(check(plan_b, sizeof plan_b, 4097, 1000000, 64) == 8);
    EXPECT(check(plan_b, sizeof plan_b, 4096, 1000000, 64) == BOLFREGA_BROKEN);
    EXPECT(check(plan_b, sizeof plan_b - 1, 0, 1000000, 64) == 1);
    EXPECT(said(0, 0, 0, 0, 0, 0, 0, 0) && untouched(0));
    static const uint8_t twice[16] = {3, 0, 0, 0, 0, 0, 0, 0, 3, 0, 0, 0, 0, 0, 0, 0};
    EXPECT(check(twice, 16, 0, 0, 64) == 6);
    EXPECT(said(1, 0, 0, 0, 0, 0, 0, 0) && untouched(0));

    /* The sheet turns every run away, and a remark is written out with its run. */
    static const uint8_t remark_alone[16] = {1, 0, 1, 120, 0, 0, 0, 0, 2, 0, 120, 0, 0, 0, 0, 0};
    EXPECT(check(remark_alone, 8, 1024, 1000000, 64) == BOLFREGA_BROKEN);
    EXPECT(said(0, 1, 1, 1, 0, 16, 1, 0) && buffer[0] == 120 && untouched(1));
    EXPECT(check(remark_alone, 16, 1024, 1000000, 64) == 12);
    EXPECT(said(1, 0, 0, 0, 0, 0, 0, 0) && untouched(0));

    /* A plan without runs: the empty file; 0 gives 1 (procedure 0), and 1 gives nothing; the joins run out first. */
    memset(details, 0x77, sizeof details);
    EXPECT(bolfrega_check(NULL, 0, 1, 0, details, NULL, 0) == BOLFREGA_EMPTY);
    EXPECT(said(0, 0, 0, 1, 65535, 0, 0, 0));
    static const uint8_t endless[16] = {1, 0, 2, 1, 128, 0, 0, 0, 1, 1, 0, 0, 0, 0, 0, 0};
    EXPECT(check(endless, 16, 1, 2, 64) == BOLFREGA_EMPTY);
    EXPECT(said(0, 2, 1, 2, 65535, 0, 0, 0) && untouched(0));
    EXPECT(check(endless, 16, 1, 1, 64) == BOLFREGA_SPENT);
    EXPECT(said(0, 1, 1, 2, 65535, 0, 0, 0) && untouched(0));
}

/* The set with these two procedures. */
#define BOTH(p, q) (UINT64_C(1) << (p) | UINT64_C(1) << (q))

static void starts(void)
{
    /* Plan B from its other procedures: 1 and 2 give nothing, and stage 0 is not finishing. Procedure 63 has no rule. */
    const size_t n = sizeof plan_b;
    EXPECT(check_from(plan_b, n, 1, 1024, 1000000, 64) == BOLFREGA_BROKEN);
    EXPECT(said_from(0, 12, 7, 4, 6, 0, 2, 0, 0) && buffer[0] == 1 && buffer[1] == 3 && untouched(2));
    EXPECT(check_from(plan_b, n, BOTH(0, 1), 1024, 1000000, 64) == BOLFREGA_BROKEN);
    EXPECT(said_from(0, 1, 1, 1, 0, 16, 0, 0, 1) && untouched(0));
    EXPECT(check_from(plan_b, n, BOTH(0, 2), 1024, 1000000, 64) == BOLFREGA_BROKEN);
    EXPECT(said_from(0, 4, 3, 2, 2, 16, 0, 0, 2) && untouched(0));
    EXPECT(check_from(plan_b, n, UINT64_MAX, 1024, 1000000, 64) == BOLFREGA_BROKEN && details[BOLFREGA_PROCEDURE] == 1);
    EXPECT(check_from(plan_b, n, 0, 1024, 1000000, 64) == BOLFREGA_HOLDS);
    EXPECT(details[BOLFREGA_ROW] == 65535 && details[BOLFREGA_PROCEDURE] == 0 && untouched(0));
    EXPECT(check_from(plan_b, n, BOTH(62, 63), 1024, 1000000, 64) == BOLFREGA_EMPTY && details[BOLFREGA_PROCEDURE] == 0 && untouched(0));
    EXPECT(check_from(plan_b, n, BOTH(0, 63), 1024, 1000000, 64) == BOLFREGA_BROKEN && details[BOLFREGA_PROCEDURE] == 0);
    EXPECT(check_from(plan_b, n, 0, 3, 1000000, 64) == BOLFREGA_FULL && details[BOLFREGA_PROCEDURE] == 0 && untouched(0));
    EXPECT(check_from(plan_b, n, BOTH(0, 63), 1024, 11, 64) == BOLFREGA_SPENT);
    EXPECT(said_from(0, 11, 6, 4, 65535, 0, 0, 0, 0) && untouched(0));

    EXPECT(check_from(plan_b, n, 2, 0, 1000000, 64) == 8);
    EXPECT(said_from(0, 0, 0, 0, 0, 0, 0, 0, 0) && untouched(0));
    EXPECT(check_from(plan_b, n, 2, 4097, 1000000, 64) == 8);
    static const uint8_t twice[16] = {3, 0, 0, 0, 0, 0, 0, 0, 3, 0, 0, 0, 0, 0, 0, 0};
    EXPECT(check_from(twice, 16, UINT64_MAX, 0, 0, 64) == 6);
    EXPECT(said_from(1, 0, 0, 0, 0, 0, 0, 0, 0) && untouched(0));

    /* Procedure 63 gives 5 6, and no stage is finishing: its run is shown, or does not fit. Procedure 0 has none. */
    static const uint8_t last[8] = {1, 63, 2, 5, 6, 0, 0, 0};
    EXPECT(check_from(last, 8, BOTH(0, 63), 1, 1, 2) == BOLFREGA_BROKEN);
    EXPECT(said_from(0, 1, 1, 1, 0, 0, 2, 0, 63) && buffer[0] == 5 && buffer[1] == 6 && untouched(2));
    EXPECT(check_from(last, 8, BOTH(0, 63), 1, 1, 1) == BOLFREGA_BROKEN);
    EXPECT(said_from(0, 1, 1, 1, 0, 0, 2, 10, 63) && untouched(0));
    EXPECT(check_from(last, 8, 1, 1, 2, 64) == BOLFREGA_EMPTY);
    EXPECT(said_from(0, 2, 1, 2, 65535, 0, 0, 0, 0) && untouched(0));

    /* 0 gives nothing, and stage 0 is finishing: every run of procedure 0 is accepted, and no other procedure has one. */
    static const uint8_t nothing[16] = {1, 0, 0, 0, 0, 0, 0, 0, 3, 0, 0, 0, 0, 0, 0, 0};
    EXPECT(check_from(nothing, 16, 1, 1, 2, 64) == BOLFREGA_HOLDS && said_from(0, 2, 1, 2, 65535, 0, 0, 0, 0));
    EXPECT(check_from(nothing, 16, BOTH(0, 1), 1, 2, 64) == BOLFREGA_EMPTY && said_from(0, 2, 1, 2, 65535, 0, 0, 0, 0));
    EXPECT(check_from(nothing, 16, 2, 1, 2, 64) == BOLFREGA_EMPTY && said_from(0, 2, 1, 2, 65535, 0, 0, 0, 0));

    /* The empty file, with nothing lent. */
    EXPECT(bolfrega_check_from(NULL, 0, 0, 1, 0, details, NULL, 0) == BOLFREGA_HOLDS);
    EXPECT(said_from(0, 0, 0, 1, 65535, 0, 0, 0, 0));
    EXPECT(bolfrega_check_from(NULL, 0, 1, 1, 0, details, NULL, 0) == BOLFREGA_EMPTY);
    EXPECT(said_from(0, 0, 0, 1, 65535, 0, 0, 0, 0));
}

static uint64_t unfold_from_0(const uint8_t *file, size_t length, uint64_t *record, uint64_t *result, uint8_t *out, size_t room)
{
    return bolfrega_unfold_from(file, length, 1, record, result, out, room);
}

static uint64_t unfold_from_0_and_1(const uint8_t *file, size_t length, uint64_t *record, uint64_t *result, uint8_t *out, size_t room)
{
    return bolfrega_unfold_from(file, length, BOTH(0, 1), record, result, out, room);
}

static uint64_t unfold_from_63(const uint8_t *file, size_t length, uint64_t *record, uint64_t *result, uint8_t *out, size_t room)
{
    return bolfrega_unfold_from(file, length, BOTH(63, 63), record, result, out, room);
}

static void unfoldings(void)
{
    /* 0 gives 5 6 7: the chain procedure is 1, or 2 where procedure 1 is a member. */
    static const uint8_t wide[32] = {1, 0, 3, 5, 6, 7};
    static const uint8_t alone[16] = {1, 0, 2, 5, 129, 0, 0, 0, 1, 1, 2, 6, 7, 0, 0, 0};
    static const uint8_t with_1[16] = {1, 0, 2, 5, 130, 0, 0, 0, 1, 2, 2, 6, 7, 0, 0, 0};
    static const uint8_t short_body[16] = {1, 0, 2, 5, 6};
    EXPECT(converts(unfold_from_0, wide, 16, 16, BOLFREGA_CONVERTED, 0, alone, 16));
    EXPECT(converts(unfold_from_0_and_1, wide, 16, 16, BOLFREGA_CONVERTED, 0, with_1, 16));
    EXPECT(converts(unfold_from_0_and_1, wide, 16, 17, BOLFREGA_CONVERTED, 0, with_1, 16));
    EXPECT(converts(unfold_from_0_and_1, wide, 16, 15, 10, 0, NULL, 0));
    EXPECT(converts(unfold_from_63, wide, 16, 0, 18, 0, NULL, 0));
    EXPECT(converts(unfold_from_63, short_body, 16, 8, BOLFREGA_CONVERTED, 0, short_body, 8));
    EXPECT(converts(unfold_from_63, wide, 15, 0, 16, 0, NULL, 0));
    EXPECT(converts(unfold_from_63, wide, 32, 0, 3, 1, NULL, 0));
    uint64_t record = 77, length = 77;
    EXPECT(bolfrega_unfold_from(NULL, 0, UINT64_MAX, &record, &length, NULL, 0) == BOLFREGA_CONVERTED && record == 0 && length == 0);
}

int main(void)
{
    EXPECT(bolfrega_version() == BOLFREGA_VERSION);
    refusals();
    reading();
    judgements();
    recognitions();
    lists();
    conversions();
    checks();
    starts();
    unfoldings();
    return failures != 0;
}
