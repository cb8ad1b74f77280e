/*
 * Unfolds a plan file of sixteen-byte records, and checks the result as the check program of document 01 does: 1,024 rows, a budget of
 * 1,000,000, a run buffer of 4,096 bytes. If a second name is given, the unfolded file is written there, for check-plan and others.
 *
 *     cc -Iinclude examples/c/unfold.c target/staticlib/libbolfrega.a -o unfold
 *     ./unfold samples/long-bodies.wide
 *
 * Exit status: 0 holds, 1 broken, 2 no answer (the file cannot be read, or the answer or the unfolded file not written), 3 refused,
 * 4 full or spent, 5 empty.
 */
#include "answer.h"
#include "bolfrega.h"
#include "io.h"

/* Writes an unfolded file. Returns 0 after saying on standard error why not. */
static int write_file(const char *path, const uint8_t *file, size_t length)
{
    FILE *stream = fopen(path, "wb");
    int whole = stream != NULL && fwrite(file, 1, length, stream) == length;
    if (stream != NULL && fclose(stream) != 0)
        whole = 0;
    if (!whole)
        perror(path);
    return whole;
}

int main(int argc, char **argv)
{
    if (argc != 2 && argc != 3) {
        fprintf(stderr, "usage: unfold FILE [UNFOLDED]\n");
        return 2;
    }
    size_t wide_length;
    uint8_t *wide = read_file(argv[1], &wide_length);
    if (wide == NULL)
        return 2;

    static uint8_t file[BOLFREGA_FILE_BYTES];
    uint64_t record, length, details[BOLFREGA_DETAILS];
    uint8_t run[BOLFREGA_PROGRAM_ROOM];
    uint64_t code = bolfrega_unfold(wide, wide_length, &record, &length, file, sizeof file);
    details[BOLFREGA_RECORD] = record;
    free(wide);
    if (code == BOLFREGA_CONVERTED) {
        if (argc == 3 && !write_file(argv[2], file, (size_t)length))
            return 2;
        code = bolfrega_check(file, (size_t)length, BOLFREGA_PROGRAM_ROWS, BOLFREGA_PROGRAM_BUDGET, details, run, sizeof run);
    }
    int status = print_answer(code, details, run);
    return written() ? status : 2;
}
