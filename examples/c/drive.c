/*
 * Says whether a drive was one of the plan's: whether procedure 0 derives the steps that a receiver saved, in the order they were taken.
 *
 *     cc -Iinclude examples/c/drive.c target/staticlib/libbolfrega.a -o drive
 *     ./drive samples/plan-b.plan 1 3
 *
 * Exit status: 0 derived, 1 not derived, 2 no answer (the file cannot be read, a step is no code, or the answer not written), 3 refused.
 */
#include "bolfrega.h"
#include "io.h"

/* Prints the answer, and returns the exit status that goes with it. */
static int print_answer(uint64_t code, uint64_t record)
{
    switch (code) {
    case BOLFREGA_DERIVED:
        printf("derived\n");
        return 0;
    case BOLFREGA_NOT_DERIVED:
        printf("not derived\n");
        return 1;
    default:
        return print_refusal(code, record);
    }
}

/* The steps that the words name, in memory to be freed; null after saying on standard error why not. */
static uint8_t *read_run(char **words, size_t steps)
{
    /* One byte more, so that a run of no step is not null. */
    uint8_t *run = malloc(steps + 1);
    if (run == NULL)
        perror("drive");
    for (size_t i = 0; run != NULL && i < steps; i++) {
        /* What is above 127 is the library's to refuse. */
        if (!read_number(words[i], 255, &run[i])) {
            fprintf(stderr, "drive: %s is no step code\n", words[i]);
            free(run);
            run = NULL;
        }
    }
    return run;
}

int main(int argc, char **argv)
{
    if (argc < 2) {
        fprintf(stderr, "usage: drive FILE STEP..\n");
        return 2;
    }
    size_t length, steps = (size_t)argc - 2;
    uint8_t *run = read_run(argv + 2, steps);
    uint8_t *file = read_file(argv[1], &length);
    int status = 2;
    if (run != NULL && file != NULL) {
        uint64_t record, table[BOLFREGA_CELLS];
        uint64_t code = bolfrega_recognize(file, length, run, steps, &record, table, BOLFREGA_CELLS);
        status = print_answer(code, record);
    }
    free(file);
    free(run);
    return written() ? status : 2;
}
