/* What the examples share: reading a recording from a file, and saying a refusal. */
#ifndef FILE_H
#define FILE_H

#include <mill.h>

#include <stdio.h>
#include <stdlib.h>

/* Room for a recording and one byte more, so that one which is too long is refused and not cut. */
#define ROOM (MILL_MAX_RECORDS * MILL_RECORD_BYTES + 1)

/* Reads a file, and ends the program if it can't be read. */
static inline size_t read_file(const char *name, uint8_t *bytes)
{
    FILE *file = fopen(name, "rb");
    size_t length = file == NULL ? 0 : fread(bytes, 1, ROOM, file);
    if (file == NULL || ferror(file) || fclose(file) != 0) {
        perror(name);
        exit(2);
    }
    return length;
}

/* Says why a call gave no result. */
static inline int refused(uint64_t returned)
{
    fprintf(stderr, "refused %lu %lu: %s\n", (unsigned long)MILL_NUMBER(returned), (unsigned long)MILL_PLACE(returned),
            mill_sentence(MILL_NUMBER(returned)));
    return 1;
}

#endif
