/*
 * Lists what was forgotten in an order sheet, and what stands there more than once: a line for each stage and code whose number of moves is
 * not one, with that number.
 *
 *     cc -Iinclude examples/c/gaps.c target/staticlib/libbolfrega.a -o gaps
 *     ./gaps samples/edited.plan
 *
 * Exit status: 0 no entry, 1 some entries, 2 no answer (the file cannot be read, or the answer not written), 3 refused.
 */
#include "bolfrega.h"
#include "io.h"

/* Prints the answer, and returns the exit status that goes with it. */
static int print_answer(uint64_t code, uint64_t record, uint64_t entries, const uint8_t *list)
{
    if (code != BOLFREGA_LISTED)
        return print_refusal(code, record);
    for (uint64_t i = 0; i < entries; i++) {
        const uint8_t *entry = list + i * BOLFREGA_ENTRY_BYTES;
        printf("%d %d %d\n", entry[0], entry[1], entry[2]);
    }
    return entries > 0;
}

int main(int argc, char **argv)
{
    if (argc != 2) {
        fprintf(stderr, "usage: gaps FILE\n");
        return 2;
    }
    size_t length;
    uint8_t *file = read_file(argv[1], &length);
    if (file == NULL)
        return 2;
    uint64_t record, entries;
    uint8_t list[BOLFREGA_LIST_BYTES];
    uint64_t code = bolfrega_list(file, length, &record, &entries, list, sizeof list);
    int status = print_answer(code, record, entries, list);
    free(file);
    return written() ? status : 2;
}
