/* ask RECORDING TEXT: all whole numbers that make the text true of the recording, one run a line. */
#include "file.h"

#include <string.h>

static long number_at(const uint8_t *b)
{
    uint32_t bits = (uint32_t)b[0] | (uint32_t)b[1] << 8 | (uint32_t)b[2] << 16 | (uint32_t)b[3] << 24;
    return (long)((int64_t)(bits ^ 0x80000000u) - 0x80000000LL);
}

int main(int argc, char **argv)
{
    static uint8_t recording[ROOM];
    uint8_t set[MILL_SET_BYTES];
    size_t length, at;
    uint64_t r;

    if (argc != 3) {
        fprintf(stderr, "usage: ask RECORDING TEXT\n");
        return 2;
    }
    length = read_file(argv[1], recording);
    r = mill_question(recording, length, (const uint8_t *)argv[2], strlen(argv[2]), set, sizeof set);
    if (!MILL_IS_RESULT(r))
        return refused(r);
    for (at = 0; at < MILL_RESULT(r); at += MILL_RUN_BYTES)
        printf("%ld %ld\n", number_at(set + at), number_at(set + at + 4));
    return 0;
}
