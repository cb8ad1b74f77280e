/*
 * What the header itself brings, as C and as C++: the version, the constants, the message of each number. tests/header compiles it under every
 * standard and runs it. It says which line failed and ends with status 1, or ends with status 0.
 */
#include "bolfrega.h"
#include "bolfrega.h" /* a second time changes nothing */

#include <stdio.h>
#include <string.h>

#define EXPECT(fact)                                                       \
    do {                                                                   \
        if (!(fact)) {                                                     \
            fprintf(stderr, "%s:%d: not so: %s\n", __FILE__, __LINE__, #fact); \
            failures++;                                                    \
        }                                                                  \
    } while (0)

static int failures = 0;

/* Every number that a function returns. */
static const uint64_t numbers[] = {
    0,
    BOLFREGA_REFUSAL_LENGTH,
    BOLFREGA_REFUSAL_RECORDS,
    BOLFREGA_REFUSAL_KIND,
    BOLFREGA_REFUSAL_ABOVE_RANGE,
    BOLFREGA_REFUSAL_UNUSED,
    BOLFREGA_REFUSAL_ORDER,
    BOLFREGA_REFUSAL_COUNT,
    BOLFREGA_REFUSAL_JOURNAL,
    BOLFREGA_REFUSAL_ROW,
    BOLFREGA_REFUSAL_ROOM,
    BOLFREGA_REFUSAL_RUN,
    BOLFREGA_REFUSAL_REMARK,
    BOLFREGA_REFUSAL_LONG_RUN,
    BOLFREGA_REFUSAL_TABLE,
    BOLFREGA_REFUSAL_LIST,
    BOLFREGA_REFUSAL_WIDE_LENGTH,
    BOLFREGA_REFUSAL_LONG_BODY,
    BOLFREGA_REFUSAL_CHAINS,
    BOLFREGA_HOLDS,
    BOLFREGA_BROKEN,
    BOLFREGA_FULL,
    BOLFREGA_SPENT,
    BOLFREGA_EMPTY,
    BOLFREGA_ACCEPTED,
    BOLFREGA_TURNED_AWAY,
    BOLFREGA_DERIVED,
    BOLFREGA_NOT_DERIVED,
    BOLFREGA_LISTED,
    BOLFREGA_CONVERTED,
    BOLFREGA_WRITTEN,
    BOLFREGA_STEP_RULE,
    BOLFREGA_STEP_MOVE,
    BOLFREGA_STEP_FINISHING,
    BOLFREGA_STEP_ENDED,
};
#define COUNT (sizeof numbers / sizeof numbers[0])

static int known(uint64_t number)
{
    for (size_t i = 0; i < COUNT; i++)
        if (numbers[i] == number)
            return 1;
    return 0;
}

/* Each number has a message of its own, and all others have one that is none of these. */
static void messages(void)
{
    const char *unknown = bolfrega_message(UINT64_MAX);
    for (size_t i = 0; i < COUNT; i++) {
        EXPECT(strlen(bolfrega_message(numbers[i])) > 0 && strcmp(bolfrega_message(numbers[i]), unknown) != 0);
        for (size_t j = 0; j < i; j++)
            EXPECT(numbers[i] != numbers[j] && strcmp(bolfrega_message(numbers[i]), bolfrega_message(numbers[j])) != 0);
    }
    for (uint64_t number = 0; number < 1000; number++)
        EXPECT(known(number) || strcmp(bolfrega_message(number), unknown) == 0);
    EXPECT(strcmp(bolfrega_message(BOLFREGA_HOLDS), "holds: the sheet accepts every run") == 0);
}

/* The constants are those by which the library goes: at each limit it takes the last value and refuses the next. */
static void limits(void)
{
    uint64_t record = 77;
    static uint8_t file[BOLFREGA_RECORD_BYTES * (BOLFREGA_MOST_RECORDS + 1)];
    EXPECT(sizeof file == BOLFREGA_FILE_BYTES + BOLFREGA_RECORD_BYTES);
    EXPECT(BOLFREGA_WIDE_BYTES == BOLFREGA_WIDE_RECORD_BYTES * BOLFREGA_MOST_RECORDS);
    EXPECT(bolfrega_refusal(file, sizeof file, &record) == BOLFREGA_REFUSAL_RECORDS);
    EXPECT(bolfrega_refusal(file, sizeof file - BOLFREGA_RECORD_BYTES, &record) == BOLFREGA_REFUSAL_KIND);

    const uint8_t last_symbol = BOLFREGA_SYMBOL(BOLFREGA_PROCEDURES - 1);
    uint8_t rule[BOLFREGA_RECORD_BYTES] = {BOLFREGA_RULE, BOLFREGA_PROCEDURES - 1, BOLFREGA_MOST_SYMBOLS, last_symbol, BOLFREGA_CODES - 1};
    EXPECT(bolfrega_refusal(rule, sizeof rule, &record) == 0);
    rule[2]++;
    EXPECT(bolfrega_refusal(rule, sizeof rule, &record) == BOLFREGA_REFUSAL_ABOVE_RANGE);
    rule[2]--, rule[3]++;
    EXPECT(bolfrega_refusal(rule, sizeof rule, &record) == BOLFREGA_REFUSAL_ABOVE_RANGE);
    rule[3]--, rule[1]++;
    EXPECT(bolfrega_refusal(rule, sizeof rule, &record) == BOLFREGA_REFUSAL_ABOVE_RANGE);

    uint8_t move[BOLFREGA_RECORD_BYTES] = {BOLFREGA_MOVE, BOLFREGA_STAGES - 1, BOLFREGA_FIRST_REMARK - 1, BOLFREGA_STAGES - 1};
    EXPECT(bolfrega_refusal(move, sizeof move, &record) == 0);
    move[2]++;
    EXPECT(bolfrega_refusal(move, sizeof move, &record) == BOLFREGA_REFUSAL_REMARK);
    move[2] = BOLFREGA_CODES;
    EXPECT(bolfrega_refusal(move, sizeof move, &record) == BOLFREGA_REFUSAL_ABOVE_RANGE);

    uint8_t finishing[BOLFREGA_RECORD_BYTES] = {BOLFREGA_FINISHING, BOLFREGA_STAGES - 1};
    EXPECT(bolfrega_refusal(finishing, sizeof finishing, &record) == 0);
    finishing[1]++;
    EXPECT(bolfrega_refusal(finishing, sizeof finishing, &record) == BOLFREGA_REFUSAL_ABOVE_RANGE);

    static const uint8_t run[BOLFREGA_LONGEST_RUN + 1] = {0};
    EXPECT(bolfrega_judge(NULL, 0, run, BOLFREGA_LONGEST_RUN, &record) == BOLFREGA_TURNED_AWAY);
    EXPECT(bolfrega_judge(NULL, 0, run, BOLFREGA_LONGEST_RUN + 1, &record) == BOLFREGA_REFUSAL_RUN);
    static uint64_t table[BOLFREGA_CELLS];
    EXPECT(bolfrega_recognize(NULL, 0, run, BOLFREGA_MOST_STEPS, &record, table, BOLFREGA_CELLS) == BOLFREGA_NOT_DERIVED);
    EXPECT(bolfrega_recognize(NULL, 0, run, BOLFREGA_MOST_STEPS + 1, &record, table, BOLFREGA_CELLS) == BOLFREGA_REFUSAL_LONG_RUN);
    EXPECT(BOLFREGA_CELL(BOLFREGA_MOST_STEPS, BOLFREGA_MOST_STEPS) == BOLFREGA_CELLS - 1);
    EXPECT(BOLFREGA_LIST_BYTES == BOLFREGA_STAGES * BOLFREGA_FIRST_REMARK * BOLFREGA_ENTRY_BYTES);

    uint8_t wide[BOLFREGA_WIDE_RECORD_BYTES] = {BOLFREGA_RULE, 0, BOLFREGA_MOST_WIDE_SYMBOLS};
    static uint8_t out[BOLFREGA_FILE_BYTES];
    uint64_t length = 77;
    EXPECT(bolfrega_unfold(wide, sizeof wide, &record, &length, out, sizeof out) == BOLFREGA_CONVERTED);
    wide[2]++;
    EXPECT(bolfrega_unfold(wide, sizeof wide, &record, &length, out, sizeof out) == BOLFREGA_REFUSAL_ABOVE_RANGE);
}

/* A file of this many rules or moves, of which some procedure or stage has each. */
static size_t fill(uint8_t *file, uint8_t kind, size_t count)
{
    memset(file, 0, BOLFREGA_RECORD_BYTES * count);
    for (size_t i = 0; i < count; i++) {
        uint8_t *record = file + BOLFREGA_RECORD_BYTES * i;
        record[0] = kind;
        if (kind == BOLFREGA_RULE) {
            record[1] = (uint8_t)(i / 100);
            record[2] = 1;
            record[3] = (uint8_t)(i % 100);
        } else {
            record[1] = (uint8_t)(i / 100);
            record[2] = (uint8_t)(i % 100);
        }
    }
    return BOLFREGA_RECORD_BYTES * count;
}

static void counts(void)
{
    static uint8_t file[BOLFREGA_FILE_BYTES];
    uint64_t record = 77;
    EXPECT(bolfrega_refusal(file, fill(file, BOLFREGA_RULE, BOLFREGA_MOST_RULES), &record) == 0);
    EXPECT(bolfrega_refusal(file, fill(file, BOLFREGA_RULE, BOLFREGA_MOST_RULES + 1), &record) == BOLFREGA_REFUSAL_COUNT);
    EXPECT(record == BOLFREGA_MOST_RULES);
    EXPECT(bolfrega_refusal(file, fill(file, BOLFREGA_MOVE, BOLFREGA_MOST_MOVES), &record) == 0);
    EXPECT(bolfrega_refusal(file, fill(file, BOLFREGA_MOVE, BOLFREGA_MOST_MOVES + 1), &record) == BOLFREGA_REFUSAL_COUNT);
    EXPECT(record == BOLFREGA_MOST_MOVES);
}

static void details(void)
{
    uint64_t said[BOLFREGA_DETAILS_FROM];
    static uint8_t room[BOLFREGA_PROGRAM_ROOM];
    EXPECT(bolfrega_check(NULL, 0, BOLFREGA_MOST_ROWS + 1, 0, said, room, sizeof room) == BOLFREGA_REFUSAL_JOURNAL);
    EXPECT(bolfrega_check(NULL, 0, BOLFREGA_MOST_ROWS, 0, said, room, sizeof room) == BOLFREGA_EMPTY);
    EXPECT(said[BOLFREGA_ROW] == BOLFREGA_NO_ROW && BOLFREGA_DETAILS == BOLFREGA_DETAILS_FROM - 1);
    EXPECT(bolfrega_check_from(NULL, 0, 1, BOLFREGA_PROGRAM_ROWS, BOLFREGA_PROGRAM_BUDGET, said, room, sizeof room) == BOLFREGA_EMPTY);
    EXPECT(BOLFREGA_LENGTH_CAP == BOLFREGA_LONGEST_RUN + 1);
}

int main(void)
{
    EXPECT(bolfrega_version() >= BOLFREGA_VERSION);
    messages();
    limits();
    counts();
    details();
    return failures == 0 ? 0 : 1;
}
