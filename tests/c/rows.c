/*
 * Checks over rows that the host lends, and the runs behind them, beside bolfrega_check_from: the files are the arguments.
 * Rows, cells and words hold garbage before each call, between areas that no call may touch. It says which line failed for which file and ends
 * with status 1, or ends with status 0.
 */
#include "bolfrega.h"

#include <stdio.h>
#include <string.h>

#define EXPECT(fact)                                                                    \
    do {                                                                                \
        if (!(fact)) {                                                                  \
            fprintf(stderr, "%s:%d: %s: not so: %s\n", __FILE__, __LINE__, name, #fact); \
            failures++;                                                                 \
        }                                                                               \
    } while (0)

/* The words of a row, in their order. */
#define AT(field, word) _Static_assert(offsetof(struct bolfrega_row, field) == 8 * (word), #field)
AT(procedure, 0);
AT(rule, 1);
AT(effect, 2);
AT(left, 6);
AT(right, 7);
AT(length, 8);
AT(birth, 9);
AT(retired, 10);
_Static_assert(sizeof(struct bolfrega_row) == 88, "eleven words");

static int failures = 0;
static const char *name = "";

/* All that is lent, each area between two that are to stay as they are. */
#define GUARD 64
static struct {
    uint8_t before[GUARD];
    struct bolfrega_row rows[BOLFREGA_MOST_ROWS];
    uint8_t after_rows[GUARD];
    uint32_t cells[BOLFREGA_TABLE_CELLS];
    uint8_t after_cells[GUARD];
    uint64_t near[BOLFREGA_NEAR_WORDS];
    uint8_t after_near[GUARD];
    uint64_t details[BOLFREGA_DETAILS_FROM];
    uint8_t after_details[GUARD];
    uint64_t record, length;
    uint8_t after_numbers[GUARD];
    uint8_t buffer[BOLFREGA_LONGEST_RUN];
    uint8_t after_buffer[GUARD];
} lent, garbage;

/* The answer of bolfrega_check_from. */
static uint64_t expected[BOLFREGA_DETAILS_FROM];
static uint8_t shown[BOLFREGA_LONGEST_RUN];

/* Fills all areas with numbers that nothing else has, other ones each time. */
static void spoil(void)
{
    static uint64_t state = 1;
    uint8_t *bytes = (uint8_t *)&garbage;
    for (size_t i = 0; i < sizeof garbage; i++) {
        state = state * 6364136223846793005u + 1442695040888963407u;
        bytes[i] = (uint8_t)(state >> 56);
    }
    memcpy(&lent, &garbage, sizeof lent);
}

#define SAME(area) (memcmp(&lent.area, &garbage.area, sizeof lent.area) == 0)

static int guards_same(void)
{
    return SAME(before) && SAME(after_rows) && SAME(after_cells) && SAME(after_near) && SAME(after_details) && SAME(after_numbers) &&
           SAME(after_buffer);
}

/* Whether the rows from `from` on hold what they held. */
static int rows_same(size_t from)
{
    return memcmp(lent.rows + from, garbage.rows + from, (BOLFREGA_MOST_ROWS - from) * sizeof lent.rows[0]) == 0;
}

/* Writes the run behind `row`, and returns what the call does. */
static uint64_t write_run(const uint8_t *file, size_t length, size_t rows, size_t used, size_t row, size_t room)
{
    memcpy(lent.buffer, garbage.buffer, sizeof lent.buffer);
    return bolfrega_write(file, length, lent.rows, rows, used, row, &lent.record, &lent.length, lent.buffer, room);
}

/* Whether a call of bolfrega_write with this number was refused as it should be. */
static int refuses(uint64_t code, uint64_t number)
{
    return code == number && lent.length == 0 && SAME(buffer) && guards_same();
}

/* Writes the run behind each used row. */
static void runs(const uint8_t *file, size_t length, size_t rows, size_t used)
{
    for (size_t i = 0; i < used; i++) {
        uint64_t code = write_run(file, length, rows, used, i, BOLFREGA_LONGEST_RUN);
        uint64_t told = lent.rows[i].length;
        if (told == BOLFREGA_LENGTH_CAP) {
            EXPECT(refuses(code, 10));
            continue;
        }
        EXPECT(code == BOLFREGA_WRITTEN && lent.record == 0 && lent.length == told && guards_same());
        EXPECT(memcmp(lent.buffer + told, garbage.buffer + told, BOLFREGA_LONGEST_RUN - told) == 0);
        if (told > 0)
            EXPECT(refuses(write_run(file, length, rows, used, i, told - 1), 10));
    }
    EXPECT(refuses(write_run(file, length, rows, used, used, BOLFREGA_LONGEST_RUN), 9));
    EXPECT(refuses(write_run(file, length, rows, rows + 1, 0, BOLFREGA_LONGEST_RUN), 9));
    EXPECT(refuses(write_run(file, length, 0, used, 0, BOLFREGA_LONGEST_RUN), 8));
}

/* One check over `rows` rows of garbage, and what can be written after it. */
static void check(const uint8_t *file, size_t length, uint64_t starts, size_t rows, uint64_t budget)
{
    uint64_t code = bolfrega_check_from(file, length, starts, rows, budget, expected, shown, sizeof shown);
    uint64_t refused = expected[BOLFREGA_REFUSED];
    expected[BOLFREGA_REFUSED] = 0;
    spoil();
    EXPECT(bolfrega_check_rows(file, length, starts, budget, lent.rows, rows, lent.cells, lent.near, lent.details) == code);
    EXPECT(memcmp(lent.details, expected, sizeof expected) == 0);
    EXPECT(guards_same() && SAME(buffer) && SAME(record) && SAME(length));
    EXPECT(rows_same(expected[BOLFREGA_USED]));
    if (code < 100) {
        EXPECT(rows_same(0));
        uint64_t written = write_run(file, length, rows, 1, 0, BOLFREGA_LONGEST_RUN);
        EXPECT(refuses(written, code) && lent.record == expected[BOLFREGA_RECORD]);
        return;
    }
    size_t used = expected[BOLFREGA_USED];
    if (code == BOLFREGA_BROKEN && refused == 0) {
        const struct bolfrega_row *row = &lent.rows[expected[BOLFREGA_ROW]];
        EXPECT(row->procedure == expected[BOLFREGA_PROCEDURE] && row->length == expected[BOLFREGA_LENGTH] && row->retired == 0);
        EXPECT(write_run(file, length, rows, used, expected[BOLFREGA_ROW], BOLFREGA_LONGEST_RUN) == BOLFREGA_WRITTEN);
        EXPECT(memcmp(lent.buffer, shown, expected[BOLFREGA_LENGTH]) == 0);
    }
    if (used <= 64)
        runs(file, length, rows, used);
}

static void check_all(const uint8_t *file, size_t length)
{
    static const uint64_t starts[] = {1, 0, 2, 9, UINT64_MAX};
    static const size_t rows[] = {BOLFREGA_MOST_ROWS, 1, 7};
    for (size_t i = 0; i < sizeof starts / sizeof starts[0]; i++)
        for (size_t k = 0; k < sizeof rows / sizeof rows[0]; k++) {
            check(file, length, starts[i], rows[k], 1000000);
            check(file, length, starts[i], rows[k], 5);
        }
    check(file, length, 1, 0, 1000000);
    /* A row that no check of the file could have stored. */
    check(file, length, 1, BOLFREGA_MOST_ROWS, 1000000);
    size_t used = expected[BOLFREGA_USED];
    if (used > 0) {
        lent.rows[0].effect[0] ^= 1;
        lent.rows[0].birth = 0;
        lent.rows[0].rule = UINT64_MAX;
        EXPECT(refuses(write_run(file, length, BOLFREGA_MOST_ROWS, used, used - 1, BOLFREGA_LONGEST_RUN), 9));
    }
}

int main(int count, char **names)
{
    static uint8_t file[BOLFREGA_FILE_BYTES + 8];
    if (count < 2) {
        fprintf(stderr, "rows: no file\n");
        return 1;
    }
    for (int i = 1; i < count; i++) {
        name = names[i];
        FILE *in = fopen(name, "rb");
        if (in == NULL) {
            fprintf(stderr, "rows: cannot read %s\n", name);
            return 1;
        }
        size_t length = fread(file, 1, sizeof file, in);
        fclose(in);
        check_all(file, length);
    }
    return failures == 0 ? 0 : 1;
}
