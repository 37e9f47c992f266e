/*
** thin KEPT [MARK..] <RECORDING: thins a recording of any length, piece by piece as it comes in, into the file KEPT.
** A works would also note the marks beside it, and write it so that no crash loses it, as the tool `mill` does.
*/
#include "file.h"

#include <string.h>

enum { PIECE = 4 * MILL_RECORD_BYTES };

int main(int argc, char **argv)
{
    static uint8_t held[ROOM + PIECE], out[ROOM];
    static uint8_t marks[MILL_MARK_BYTES * (MILL_MAX_MARKS + 1)];
    size_t marks_len = 0, held_len = 0, piece_len, came = 0;
    uint64_t r;
    FILE *kept;
    int i, byte;

    if (argc < 2) {
        fprintf(stderr, "usage: thin KEPT [MARK..] <RECORDING\n");
        return 2;
    }
    for (i = 2; i < argc && marks_len < sizeof marks; i++)
        for (byte = 0; byte < MILL_MARK_BYTES; byte++)
            marks[marks_len++] = (uint8_t)(strtoul(argv[i], NULL, 10) >> (8 * byte));

    /* What is held, with the next piece behind it, is thinned again; in the end it is what is kept of all pieces joined. */
    while ((piece_len = fread(held + held_len, 1, PIECE, stdin)) != 0) {
        r = mill_thin(held, held_len + piece_len, marks, marks_len, out, sizeof out);
        if (!MILL_IS_RESULT(r))
            return refused(r);
        held_len = MILL_RESULT(r);
        memcpy(held, out, held_len);
        came += piece_len;
    }

    kept = fopen(argv[1], "wb");
    if (ferror(stdin) || kept == NULL || fwrite(held, 1, held_len, kept) != held_len || fclose(kept) != 0) {
        perror(argv[1]);
        return 2;
    }
    printf("%lu readings, %lu kept\n", (unsigned long)(came / MILL_RECORD_BYTES), (unsigned long)(held_len / MILL_RECORD_BYTES));
    return 0;
}
