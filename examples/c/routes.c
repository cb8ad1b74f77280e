/*
 * Checks one plan file for several first procedures, with what the check program of document 01 has: 1,024 rows, a budget of 1,000,000, a run
 * buffer of 4,096 bytes. It prints the answer as that program does, and after a broken one the procedure whose run is turned away.
 *
 *     cc -Iinclude examples/c/routes.c target/staticlib/libbolfrega.a -o routes
 *     ./routes samples/routes.plan 0 3
 *
 * Exit status: 0 holds, 1 broken, 2 no answer (no procedure is given or one is not 0 to 63, the file cannot be read, or the answer not written),
 * 3 refused, 4 full or spent, 5 empty.
 */
#include "answer.h"
#include "bolfrega.h"
#include "io.h"

/* The set of the procedures that the words name. Returns 0 after saying on standard error why there is none. */
static int read_starts(char **words, int count, uint64_t *starts)
{
    *starts = 0;
    for (int i = 0; i < count; i++) {
        uint8_t procedure;
        if (!read_number(words[i], BOLFREGA_PROCEDURES - 1, &procedure)) {
            fprintf(stderr, "routes: %s is no procedure\n", words[i]);
            return 0;
        }
        *starts |= UINT64_C(1) << procedure;
    }
    return 1;
}

int main(int argc, char **argv)
{
    /* Without a procedure every plan would pass. */
    if (argc < 3) {
        fprintf(stderr, "usage: routes FILE PROCEDURE..\n");
        return 2;
    }
    uint64_t starts;
    if (!read_starts(argv + 2, argc - 2, &starts))
        return 2;
    size_t length;
    uint8_t *file = read_file(argv[1], &length);
    if (file == NULL)
        return 2;

    uint64_t details[BOLFREGA_DETAILS_FROM];
    uint8_t run[BOLFREGA_PROGRAM_ROOM];
    uint64_t code = bolfrega_check_from(file, length, starts, BOLFREGA_PROGRAM_ROWS, BOLFREGA_PROGRAM_BUDGET, details, run, sizeof run);
    free(file);
    int status = print_answer(code, details, run);
    if (code == BOLFREGA_BROKEN)
        printf("procedure %" PRIu64 "\n", details[BOLFREGA_PROCEDURE]);
    return written() ? status : 2;
}
