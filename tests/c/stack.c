/*
 * How much stack each function takes: it is called on a thread whose stack is painted before, and the lowest byte that has changed says how deep
 * it went. The file has as many rules and moves as there may be; a run is written from rows that hang as deep as there are rows. It prints a line for
 * each function, and ends with status 1 where one took more than the header says, and with 2 where there is no thread or no such run.
 */
#define _GNU_SOURCE
#include "bolfrega.h"

#include <pthread.h>
#include <stdio.h>
#include <stdlib.h>
#include <string.h>

#define STACK ((size_t)4 << 20)
#define PAINT 0xa5

static uint8_t file[BOLFREGA_WIDE_BYTES];
static size_t file_length;
static uint8_t out[BOLFREGA_WIDE_BYTES];
static uint8_t run[BOLFREGA_LONGEST_RUN];
static uint64_t table[BOLFREGA_CELLS], record, length, details[BOLFREGA_DETAILS_FROM];
static uint64_t values[BOLFREGA_STEP_VALUES], near[BOLFREGA_NEAR_WORDS];
static uint32_t cells[BOLFREGA_TABLE_CELLS];
static struct bolfrega_row rows[BOLFREGA_MOST_ROWS];
static uint64_t number;
static int failures = 0;

static void nothing(void) {}
static void version(void) { bolfrega_version(); }
static void refusal(void) { bolfrega_refusal(file, file_length, &record); }
static void judge(void) { bolfrega_judge(file, file_length, run, sizeof run, &record); }
static void recognize(void) { bolfrega_recognize(file, file_length, run, BOLFREGA_MOST_STEPS, &record, table, BOLFREGA_CELLS); }
static void list(void) { bolfrega_list(file, file_length, &record, &length, out, sizeof out); }
static void widen(void) { bolfrega_widen(file, file_length, &record, &length, out, sizeof out); }
static void narrow(void) { bolfrega_narrow(file, file_length, &record, &length, out, sizeof out); }
static void unfold(void) { bolfrega_unfold(file, file_length, &record, &length, out, sizeof out); }
static void unfold_from(void) { bolfrega_unfold_from(file, file_length, 3, &record, &length, out, sizeof out); }
static void check(void) { bolfrega_check(file, file_length, BOLFREGA_MOST_ROWS, 4000000, details, run, sizeof run); }
static void check_from(void) { bolfrega_check_from(file, file_length, 1, BOLFREGA_MOST_ROWS, 4000000, details, run, sizeof run); }

static void step(void) { bolfrega_step(file, file_length, BOLFREGA_MOST_RECORDS - 1, &record, values, &length); }
static void moves(void) { bolfrega_moves(file, file_length, &record, &length); }
static void check_rows(void) { bolfrega_check_rows(file, file_length, 1, 4000000, rows, BOLFREGA_MOST_ROWS, cells, near, details); }

static void write_run(void)
{
    size_t used = BOLFREGA_MOST_ROWS;
    number = bolfrega_write(file, file_length, rows, used, used, used - 1, &record, &length, run, sizeof run);
}

static void *on_thread(void *call)
{
    (*(void (**)(void))call)();
    return NULL;
}

/* The bytes of stack that a call on a thread takes, with what the thread itself takes. */
static size_t taken(void (*call)(void))
{
    pthread_attr_t attributes;
    pthread_t thread;
    void *stack = NULL;
    if (posix_memalign(&stack, 4096, STACK) != 0 || pthread_attr_init(&attributes) != 0
        || pthread_attr_setstack(&attributes, stack, STACK) != 0) {
        perror("a stack");
        exit(2);
    }
    memset(stack, PAINT, STACK);
    if (pthread_create(&thread, &attributes, on_thread, &call) != 0 || pthread_join(thread, NULL) != 0) {
        perror("a thread");
        exit(2);
    }
    size_t untouched = 0;
    while (untouched < STACK && ((uint8_t *)stack)[untouched] == PAINT)
        untouched++;
    free(stack);
    return STACK - untouched;
}

/* Adds a record with these first bytes to the file, in records of this many bytes. */
static void add(size_t bytes, uint8_t kind, uint8_t first, uint8_t second, uint8_t third, uint8_t fourth)
{
    const uint8_t record_bytes[5] = {kind, first, second, third, fourth};
    memset(file + file_length, 0, bytes);
    memcpy(file + file_length, record_bytes, 5);
    file_length += bytes;
}

/* 256 rules and 1,024 moves: each procedure gives a code and another procedure. */
static void large(size_t bytes)
{
    file_length = 0;
    for (unsigned i = 0; i < BOLFREGA_MOST_RULES; i++)
        add(bytes, BOLFREGA_RULE, (uint8_t)(i / 4), 2, (uint8_t)(i % 4), BOLFREGA_SYMBOL(63 - i / 4));
    for (unsigned i = 0; i < BOLFREGA_MOST_MOVES; i++)
        add(bytes, BOLFREGA_MOVE, (uint8_t)(i / 64), (uint8_t)(i % 64), (uint8_t)(i % 16), 0);
    for (unsigned i = 0; i < BOLFREGA_STAGES; i++)
        add(bytes, BOLFREGA_FINISHING, (uint8_t)i, 0, 0, 0);
}

/* Procedure 0 gives a remark, or itself and a remark; each row is made from the one before, by the second rule. */
static void deep(void)
{
    file_length = 0;
    add(8, BOLFREGA_RULE, 0, 1, BOLFREGA_FIRST_REMARK, 0);
    add(8, BOLFREGA_RULE, 0, 2, BOLFREGA_SYMBOL(0), BOLFREGA_FIRST_REMARK);
    for (size_t i = 0; i < BOLFREGA_MOST_ROWS; i++) {
        memset(&rows[i], 0, sizeof rows[i]);
        for (size_t stage = 0; stage < BOLFREGA_STAGES; stage++)
            rows[i].effect[stage / 4] |= UINT64_C(1) << (16 * (stage % 4) + stage);
        rows[i].rule = i > 0;
        rows[i].left = i > 0 ? i - 1 : BOLFREGA_NO_ROW;
        rows[i].right = BOLFREGA_NO_ROW;
        rows[i].length = i + 1;
        rows[i].birth = i + 1;
    }
}

static void measure(const char *name, void (*call)(void), size_t most)
{
    size_t bytes = taken(call) - taken(nothing);
    printf("%-12s %8zu bytes\n", name, bytes);
    if (bytes > most) {
        fprintf(stderr, "%s takes %zu bytes of stack, and the header says %zu\n", name, bytes, most);
        failures++;
    }
}

/* What the header says, and a little for what it calls "about". */
#define KIB(number) ((size_t)(number) * 1024)

int main(void)
{
    large(8);
    measure("version", version, KIB(1));
    measure("refusal", refusal, KIB(1));
    measure("judge", judge, KIB(4) + 512);
    measure("recognize", recognize, KIB(36));
    measure("list", list, KIB(4) + 512);
    measure("widen", widen, KIB(1));
    measure("step", step, KIB(1));
    measure("moves", moves, KIB(1));
    measure("check", check, KIB(352 + 411 + 3));
    measure("check_from", check_from, KIB(352 + 411 + 3));
    measure("check_rows", check_rows, KIB(7) + 512);
    large(16);
    measure("narrow", narrow, KIB(1));
    measure("unfold", unfold, KIB(2) + 512);
    measure("unfold_from", unfold_from, KIB(2) + 512);
    deep();
    measure("write", write_run, KIB(578));
    if (number != BOLFREGA_WRITTEN || length != BOLFREGA_MOST_ROWS) {
        fprintf(stderr, "the deep run is not written: %s\n", bolfrega_message(number));
        return 2;
    }
    return failures == 0 ? 0 : 1;
}
