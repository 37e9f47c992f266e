/*
** Covers: the examples in the comments of mill.h, as they stand there. tests/c/run takes them out into examples.h, compiles them
** as C and as C++, and holds what is printed to examples.out. Here stands what they leave to their reader: the recording R1, the
** mark 40, R1 in pieces of three readings, three batches, and what is done with a refusal. tests/c/run says what CAPACITY is. All of R1 is kept.
*/
#include "mill.h"

#include <stdio.h>
#include <string.h>

#define READINGS 8

uint8_t recording[READINGS * MILL_RECORD_BYTES];
size_t recording_len;
const uint8_t marks[] = {40, 0, 0, 0};
const size_t marks_len = sizeof marks;

static size_t taken, batches;

/* Puts the next piece of the recording there and tells its length, 0 after the last. */
size_t next_piece(uint8_t *to, size_t room)
{
    size_t length = recording_len - taken;
    if (length > 3 * MILL_RECORD_BYTES)
        length = 3 * MILL_RECORD_BYTES;
    if (length > room)
        length = room - room % MILL_RECORD_BYTES;
    memcpy(to, recording + taken, length);
    taken += length;
    return length;
}

/* The next batch: all of the recording, its first four readings, its first. */
const uint8_t *next_batch(size_t *length)
{
    static const size_t most[] = {READINGS, 4, 1};
    *length = most[batches % 3] * MILL_RECORD_BYTES;
    if (*length > recording_len || batches == 0)
        *length = recording_len;
    batches += 1;
    return recording;
}

int report(uint32_t number, uint32_t place)
{
    printf("refused %lu %lu\n", (unsigned long)number, (unsigned long)place);
    return 1;
}

/* Readings that are held, by their times; each must be the recording's own, byte by byte. */
void held_are(const uint8_t *held, size_t held_len)
{
    size_t at;
    for (at = 0; at < held_len; at += MILL_RECORD_BYTES) {
        unsigned time = held[at];
        int own = time / 10 < READINGS && memcmp(held + at, recording + MILL_RECORD_BYTES * (time / 10), MILL_RECORD_BYTES) == 0;
        printf("%s%u%s", at == 0 ? "" : " ", time, own ? "" : " altered");
    }
    printf("\n");
}

/* What is looked at where an example prints nothing itself. */
#define AFTER_mill_thin held_are(held, held_len);
#define AFTER_mill_live_kept held_are(kept, (size_t)r);

#include "examples.h"

static void make_r1(void)
{
    static const uint8_t a[READINGS] = {40, 60, 80, 70, 30, 55, 90, 45}, slope[READINGS] = {2, 2, 2, 0, 0, 2, 2, 0};
    size_t i;
    for (i = 0; i < READINGS; i++) {
        uint8_t *at = recording + MILL_RECORD_BYTES * i;
        at[0] = (uint8_t)(10 * i);
        at[4] = a[i];
        at[8] = 50;
        at[12] = slope[i];
        at[13] = MILL_FLAT;
    }
}

/* Runs an example on so many bytes of R1. */
static void run(const char *name, int (*example)(void), size_t length)
{
    int returned;
    recording_len = length;
    taken = batches = 0;
    printf("%s, %u bytes of R1\n", name, (unsigned)length);
    returned = example();
    printf("returned %d\n", returned);
}

int main(void)
{
    make_r1();
#define EXAMPLE(name) run(#name, example_##name, sizeof recording);
    EXAMPLES
#undef EXAMPLE
    /* Refused: no whole number of records. */
#define EXAMPLE(name) run(#name, example_##name, 17);
    EXAMPLES
    return 0;
}
