/*
 * Checks a plan file as the check program of document 01 does: 1,024 rows, a budget of 1,000,000, a run buffer of 4,096 bytes.
 *
 *     cc -Iinclude examples/c/check.c target/staticlib/libbolfrega.a -o check
 *     ./check samples/plan-b.plan
 *
 * Exit status: 0 holds, 1 broken, 2 no answer (the file cannot be read, or the answer not written), 3 refused, 4 full or spent,
 * 5 empty.
 */
#include "answer.h"
#include "bolfrega.h"
#include "io.h"

int main(int argc, char **argv)
{
    if (argc != 2) {
        fprintf(stderr, "usage: check FILE\n");
        return 2;
    }
    size_t length;
    uint8_t *file = read_file(argv[1], &length);
    if (file == NULL)
        return 2;

    uint64_t details[BOLFREGA_DETAILS];
    uint8_t run[BOLFREGA_PROGRAM_ROOM];
    uint64_t code = bolfrega_check(file, length, BOLFREGA_PROGRAM_ROWS, BOLFREGA_PROGRAM_BUDGET, details, run, sizeof run);
    free(file);
    int status = print_answer(code, details, run);
    return written() ? status : 2;
}
