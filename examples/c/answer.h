/* What the examples that check a file share: the answer as the check program of document 01 prints it, and its exit status. */
#ifndef EXAMPLES_ANSWER_H
#define EXAMPLES_ANSWER_H

#include "bolfrega.h"
#include "io.h"

#include <inttypes.h>
#include <stdio.h>

/* Line 3: the step codes, or that the run is not in the buffer. */
static inline void print_run(const uint64_t *details, const uint8_t *run)
{
    if (details[BOLFREGA_REFUSED] != 0) {
        printf("refused %" PRIu64 "\n", details[BOLFREGA_REFUSED]);
        return;
    }
    for (uint64_t i = 0; i < details[BOLFREGA_LENGTH]; i++)
        printf(i == 0 ? "%u" : " %u", (unsigned)run[i]);
    printf("\n");
}

/* Prints the lines of the check program. Returns the exit status that goes with them. */
static inline int print_answer(uint64_t code, const uint64_t *details, const uint8_t *run)
{
    static const char *const verdicts[] = {"holds", "broken", "full", "spent", "empty"};
    static const int statuses[] = {0, 1, 4, 4, 5};
    if (code < BOLFREGA_HOLDS || code > BOLFREGA_EMPTY)
        return print_refusal(code, details[BOLFREGA_RECORD]);
    printf("%s %" PRIu64 " %" PRIu64 " %" PRIu64 "\n", verdicts[code - BOLFREGA_HOLDS], details[BOLFREGA_JOINS], details[BOLFREGA_USED],
           details[BOLFREGA_PASS]);
    if (code == BOLFREGA_BROKEN) {
        printf("%" PRIu64 " %" PRIu64 " %" PRIu64 "\n", details[BOLFREGA_ROW], details[BOLFREGA_PAIRS], details[BOLFREGA_LENGTH]);
        print_run(details, run);
    }
    return statuses[code - BOLFREGA_HOLDS];
}

#endif
