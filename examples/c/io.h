/* What the examples share: a file read whole, a number among the words, a refusal, and an answer that was written. */
#ifndef EXAMPLES_IO_H
#define EXAMPLES_IO_H

#include "bolfrega.h"

#include <inttypes.h>
#include <stdint.h>
#include <stdio.h>
#include <stdlib.h>

/* Reads all of a stream. Returns memory to be freed, or null if it can't be read. */
static inline uint8_t *read_all(FILE *stream, size_t *length)
{
    size_t room = 16384;
    uint8_t *bytes = malloc(room);
    *length = 0;
    while (bytes != NULL) {
        *length += fread(bytes + *length, 1, room - *length, stream);
        if (*length < room)
            break;
        room *= 2;
        uint8_t *more = realloc(bytes, room);
        if (more == NULL)
            free(bytes);
        bytes = more;
    }
    if (bytes != NULL && ferror(stream)) {
        free(bytes);
        bytes = NULL;
    }
    return bytes;
}

/* Reads all of a file. Returns memory to be freed, or null after saying on standard error why not. */
static inline uint8_t *read_file(const char *path, size_t *length)
{
    FILE *stream = fopen(path, "rb");
    if (stream == NULL) {
        perror(path);
        return NULL;
    }
    uint8_t *file = read_all(stream, length);
    if (file == NULL)
        fprintf(stderr, "cannot read %s\n", path);
    fclose(stream);
    return file;
}

/* Reads a number from 0 to `most`, which is at most 255. Returns 0 where the text is none. */
static inline int read_number(const char *text, unsigned long most, uint8_t *number)
{
    char *end;
    unsigned long value = strtoul(text, &end, 10);
    if (text[0] < '0' || text[0] > '9' || *end != '\0' || value > most)
        return 0;
    *number = (uint8_t)value;
    return 1;
}

/* Prints a number that is no answer of the call that gave it, and says on standard error what it means, with the record where it names one. Returns
 * the exit status: 3 for a refusal, and 2 for a number that is none, which is not printed. */
static inline int print_refusal(uint64_t number, uint64_t record)
{
    if ((number >= BOLFREGA_REFUSAL_KIND && number <= BOLFREGA_REFUSAL_COUNT) || number == BOLFREGA_REFUSAL_REMARK)
        fprintf(stderr, "record %" PRIu64 ": ", record);
    fprintf(stderr, "%s (%" PRIu64 ")\n", bolfrega_message(number), number);
    if (number < 1 || number > 99)
        return 2;
    printf("refused %" PRIu64 "\n", number);
    return 3;
}

/* Whether all that was printed was written. An answer that was not is none. */
static inline int written(void)
{
    if (fflush(stdout) == 0 && !ferror(stdout))
        return 1;
    perror("standard output");
    return 0;
}

#endif
