/*
 * Reads calls with their answers from standard input, as rust/making/src/calls.rs writes them, makes each call and compares: what it returns, what
 * it sets, the lent area by its sum, and some bytes before and after the area, which it must leave.
 * It is C and C++. It prints how many calls agreed. Exit status: 0 all agree; 1 some do not, and standard error says which; 2 the input cannot be read.
 */
#ifndef _GNU_SOURCE
#define _GNU_SOURCE
#endif
#include "bolfrega.h"

#include <inttypes.h>
#include <stdio.h>
#include <stdlib.h>
#include <string.h>

#ifdef __cplusplus
#define LANGUAGE "C++"
#else
#define LANGUAGE "C"
#endif

#define BESIDE 16
#define BESIDE_BYTE 0xcc
#define CELL UINT64_C(0x5555555555555555)

/* More than any case has, with the bytes and the cells beside it. */
static uint8_t area[BESIDE + 65536 + BESIDE];
static uint64_t table[1 + BOLFREGA_CELLS + 1 + 1];
/* The row before and the one after those that are lent, and what a check works in, where each call finds what the one before has left. */
static struct bolfrega_row journal[1 + BOLFREGA_MOST_ROWS + 1 + 1];
static uint32_t cells[1 + BOLFREGA_TABLE_CELLS + 1];
static uint64_t near[1 + BOLFREGA_NEAR_WORDS + 1];
static uint8_t *file, *run;
static size_t file_length, run_length;
static uint32_t sums[256];

static void no_input(const char *why)
{
    fprintf(stderr, "agree: %s\n", why);
    exit(2);
}

/* CRC-32, as zlib has it. */
static void make_sums(void)
{
    for (uint32_t at = 0; at < 256; at++) {
        sums[at] = at;
        for (int bit = 0; bit < 8; bit++)
            sums[at] = (sums[at] & 1 ? 0xedb88320 : 0) ^ sums[at] >> 1;
    }
}
static uint64_t sum(const uint8_t *bytes, size_t length)
{
    uint32_t all = ~UINT32_C(0);
    for (size_t i = 0; i < length; i++)
        all = sums[(all ^ bytes[i]) & 255] ^ all >> 8;
    return ~all;
}

static int digit(char letter)
{
    return letter >= '0' && letter <= '9' ? letter - '0' : letter >= 'a' && letter <= 'f' ? letter - 'a' + 10 : -1;
}

/* The bytes that a text of digits stands for, in memory of just that length, so that a tool sees each read past its end. */
static uint8_t *read_bytes(const char *text, size_t *length)
{
    *length = strlen(text) / 2;
    uint8_t *bytes = (uint8_t *)malloc(*length == 0 ? 1 : *length);
    if (bytes == NULL)
        no_input("no memory");
    for (size_t i = 0; i < *length; i++) {
        int high = digit(text[2 * i]), low = digit(text[2 * i + 1]);
        if (high < 0 || low < 0)
            no_input("bytes that are none");
        bytes[i] = (uint8_t)(16 * high + low);
    }
    return bytes;
}

/* The numbers of a text, at most sixteen. Returns how many there are. */
static size_t read_numbers(char *text, uint64_t numbers[16])
{
    size_t count = 0;
    for (char *word = strtok(text, " "); word != NULL; word = strtok(NULL, " ")) {
        char *end;
        if (count == 16)
            no_input("too many numbers in a line");
        numbers[count++] = strtoull(word, &end, 10);
        if (*end != '\0')
            no_input("a word that is no number");
    }
    return count;
}

static uint8_t *lend(uint64_t room)
{
    if (room > sizeof area - 2 * BESIDE)
        no_input("an area that is too long");
    memset(area, BESIDE_BYTE, BESIDE + (size_t)room + BESIDE);
    for (size_t i = 0; i < room; i++)
        area[BESIDE + i] = (uint8_t)(200 + i % 50);
    return area + BESIDE;
}

static int left_beside(uint64_t room)
{
    for (size_t i = 0; i < BESIDE; i++)
        if (area[i] != BESIDE_BYTE || area[BESIDE + (size_t)room + i] != BESIDE_BYTE)
            return 0;
    return 1;
}

/* Checks over `rows` rows, sets the details and returns the number; or 0 where something beside what is lent has changed. */
static uint64_t check_rows(uint64_t starts, uint64_t rows, uint64_t budget, uint64_t details[BOLFREGA_DETAILS_FROM])
{
    struct bolfrega_row beside;
    if (rows > BOLFREGA_MOST_ROWS + 1)
        no_input("a journal that is too long");
    memset(&beside, 0x55, sizeof beside);
    for (size_t i = 0; i < rows + 2; i++)
        journal[i] = beside;
    cells[0] = cells[BOLFREGA_TABLE_CELLS + 1] = (uint32_t)CELL;
    near[0] = near[BOLFREGA_NEAR_WORDS + 1] = CELL;
    uint64_t number = bolfrega_check_rows(file, file_length, starts, budget, journal + 1, (size_t)rows, cells + 1, near + 1, details);
    if (memcmp(&journal[0], &beside, sizeof beside) != 0 || memcmp(&journal[rows + 1], &beside, sizeof beside) != 0
        || cells[0] != (uint32_t)CELL || cells[BOLFREGA_TABLE_CELLS + 1] != (uint32_t)CELL || near[0] != CELL
        || near[BOLFREGA_NEAR_WORDS + 1] != CELL)
        return 0;
    return number;
}

/* Makes a call: fills `got` with the number, what is set, and the sum. Returns how many these are, and 0 if bytes beside the area have changed. */
static size_t make(const char *name, const uint64_t *given, size_t count, uint64_t got[16])
{
    size_t set = 1;
    for (size_t i = 0; i < 16; i++)
        got[i] = CELL;
    if (strcmp(name, "refusal") == 0 && count == 0) {
        got[0] = bolfrega_refusal(file, file_length, &got[1]);
        return 2;
    }
    if (strcmp(name, "judge") == 0 && count == 0) {
        got[0] = bolfrega_judge(file, file_length, run, run_length, &got[1]);
        return 2;
    }
    if (strcmp(name, "recognize") == 0 && count == 1) {
        size_t cells = (size_t)given[0];
        if (cells > BOLFREGA_CELLS + 1)
            no_input("a table that is too long");
        for (size_t i = 0; i < cells + 2; i++)
            table[i] = CELL;
        got[0] = bolfrega_recognize(file, file_length, run, run_length, &got[1], table + 1, cells);
        got[2] = sum((const uint8_t *)(table + 1), 8 * cells);
        return table[0] == CELL && table[cells + 1] == CELL ? 3 : 0;
    }
    if (strcmp(name, "step") == 0 && count == 1) {
        got[0] = bolfrega_step(file, file_length, (size_t)given[0], &got[1], &got[2], &got[2 + BOLFREGA_STEP_VALUES]);
        return 3 + BOLFREGA_STEP_VALUES;
    }
    if (strcmp(name, "moves") == 0 && count == 0) {
        bolfrega_moves(file, file_length, &got[0], &got[1]);
        return 2;
    }
    if (strcmp(name, "check_rows") == 0 && count == 3) {
        got[0] = check_rows(given[0], given[2], given[1], &got[1]);
        got[1 + BOLFREGA_DETAILS_FROM] = sum((const uint8_t *)(journal + 1), sizeof journal[0] * (size_t)given[2]);
        return got[0] == 0 ? 0 : 2 + BOLFREGA_DETAILS_FROM;
    }
    uint64_t room = count == 0 ? 0 : given[count - 1];
    uint8_t *lent = lend(room);
    if (strcmp(name, "list") == 0 && count == 1) {
        set = 2;
        got[0] = bolfrega_list(file, file_length, &got[1], &got[2], lent, (size_t)room);
    } else if (strcmp(name, "widen") == 0 && count == 1) {
        set = 2;
        got[0] = bolfrega_widen(file, file_length, &got[1], &got[2], lent, (size_t)room);
    } else if (strcmp(name, "narrow") == 0 && count == 1) {
        set = 2;
        got[0] = bolfrega_narrow(file, file_length, &got[1], &got[2], lent, (size_t)room);
    } else if (strcmp(name, "unfold") == 0 && count == 1) {
        set = 2;
        got[0] = bolfrega_unfold(file, file_length, &got[1], &got[2], lent, (size_t)room);
    } else if (strcmp(name, "unfold_from") == 0 && count == 2) {
        set = 2;
        got[0] = bolfrega_unfold_from(file, file_length, given[0], &got[1], &got[2], lent, (size_t)room);
    } else if (strcmp(name, "check") == 0 && count == 3) {
        set = BOLFREGA_DETAILS;
        got[0] = bolfrega_check(file, file_length, (size_t)given[0], given[1], &got[1], lent, (size_t)room);
    } else if (strcmp(name, "check_from") == 0 && count == 4) {
        set = BOLFREGA_DETAILS_FROM;
        got[0] = bolfrega_check_from(file, file_length, given[0], (size_t)given[1], given[2], &got[1], lent, (size_t)room);
    } else if (strcmp(name, "write") == 0 && count == 5) {
        uint64_t details[BOLFREGA_DETAILS_FROM];
        size_t rows = (size_t)given[1];
        set = 2;
        if (check_rows(given[0], given[1], given[2], details) == 0)
            return 0;
        size_t used = (size_t)details[BOLFREGA_USED];
        got[0] = bolfrega_write(file, file_length, journal + 1, rows, used, (size_t)given[3], &got[1], &got[2], lent, (size_t)room);
    } else {
        no_input("a call that there is not");
    }
    if (got[1 + set] != CELL || !left_beside(room))
        return 0;
    got[1 + set] = sum(lent, (size_t)room);
    return set + 2;
}

/* Makes the call of a line `NAME PARAMETER.. = NUMBER RESULT..`. Returns whether it did as the line says. */
static int agrees(char *line)
{
    uint64_t given[16], expected[16], got[16];
    char *answer = strstr(line, " = ");
    if (answer == NULL)
        no_input("a line that is no call");
    *answer = '\0';
    size_t count = read_numbers(answer + 3, expected);
    char *parameters = strchr(line, ' ');
    if (parameters != NULL)
        *parameters++ = '\0';
    size_t parameter_count = parameters == NULL ? 0 : read_numbers(parameters, given);
    return make(line, given, parameter_count, got) == count && memcmp(got, expected, 8 * count) == 0;
}

int main(void)
{
    char *line = NULL, *copy;
    size_t room = 0;
    ssize_t length;
    uint64_t number = 0, calls = 0, failures = 0;
    make_sums();
    while ((length = getline(&line, &room, stdin)) >= 0) {
        number++;
        if (length > 0 && line[length - 1] == '\n')
            line[length - 1] = '\0';
        if (strncmp(line, "file ", 5) == 0) {
            free(file);
            file = read_bytes(line + 5, &file_length);
        } else if (strncmp(line, "run ", 4) == 0) {
            free(run);
            run = read_bytes(line + 4, &run_length);
        } else {
            copy = strdup(line);
            if (copy == NULL)
                no_input("no memory");
            calls++;
            if (!agrees(line)) {
                fprintf(stderr, "agree: line %" PRIu64 " is not so: %s\n", number, copy);
                failures++;
            }
            free(copy);
        }
    }
    if (ferror(stdin))
        no_input("standard input cannot be read");
    if (calls == 0)
        no_input("there is no call");
    free(line);
    free(file);
    free(run);
    printf("%" PRIu64 " calls from %s, %" PRIu64 " failed\n", calls, LANGUAGE, failures);
    return failures == 0 ? 0 : 1;
}
