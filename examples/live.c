/*
** live RECORDING [MOMENT]: hands a run its readings one by one, as a mill does, and prints how many are held after each.
** After the reading of that number, from 1, a moment is set; in the end the run goes back to it.
*/
#include "file.h"

/* Prints how many readings the run holds. */
static uint64_t say(const uint8_t *live, const char *what)
{
    uint8_t kept[MILL_HELD_BYTES];
    uint64_t r = mill_live_kept(live, MILL_LIVE_BYTES, kept, sizeof kept);
    if (MILL_IS_RESULT(r))
        printf("%s%lu held\n", what, (unsigned long)(MILL_RESULT(r) / MILL_RECORD_BYTES));
    return r;
}

int main(int argc, char **argv)
{
    static uint8_t recording[ROOM], live[MILL_LIVE_BYTES];
    size_t length, at, moment;
    uint64_t r;

    if (argc < 2) {
        fprintf(stderr, "usage: live RECORDING [MOMENT]\n");
        return 2;
    }
    length = read_file(argv[1], recording);
    moment = argc < 3 ? 0 : (size_t)strtoul(argv[2], NULL, 10) * MILL_RECORD_BYTES;

    r = mill_live_start(NULL, 0, live, sizeof live);
    for (at = 0; at < length && MILL_IS_RESULT(r); at += MILL_RECORD_BYTES) {
        size_t left = length - at;
        r = mill_live_add(live, sizeof live, recording + at, left < MILL_RECORD_BYTES ? left : MILL_RECORD_BYTES);
        if (MILL_IS_RESULT(r) && at + MILL_RECORD_BYTES == moment)
            r = mill_live_save(live, sizeof live, 1);
        if (MILL_IS_RESULT(r))
            r = say(live, "");
    }
    if (MILL_IS_RESULT(r) && moment != 0) {
        r = mill_live_restore(live, sizeof live, 1);
        if (MILL_IS_RESULT(r))
            r = say(live, "gone back: ");
    }
    return MILL_IS_RESULT(r) ? 0 : refused(r);
}
