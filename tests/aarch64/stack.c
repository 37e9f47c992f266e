/* stack: how much of a painted stack the calls take with the deepest inputs known, which must be no more than mill.h says of each. */
#define _GNU_SOURCE
#include <mill.h>

#include <pthread.h>
#include <stdio.h>
#include <stdlib.h>
#include <string.h>
#include <sys/mman.h>

enum { STACK = 1 << 20, PAINT = 0xA5 };

static uint8_t recording[MILL_RECORD_BYTES * MILL_MAX_RECORDS], out[sizeof recording], report[MILL_REPORT_BYTES], live[MILL_LIVE_BYTES];
static uint8_t deep[64], open_brackets[MILL_MAX_TEXT];
static size_t deep_len;

static void *nothing(void *unused)
{
    return unused;
}

static void *question(void *unused)
{
    mill_question(recording, sizeof recording, deep, deep_len, out, MILL_SET_BYTES);
    return unused;
}

static void *degree(void *unused)
{
    double distance, near;
    mill_degree(recording, sizeof recording, deep, deep_len, 5, &distance, &near);
    return unused;
}

static void *band(void *unused)
{
    int32_t a, b, c, d;
    mill_band(recording, sizeof recording, open_brackets, sizeof open_brackets, 5, &a, &b, &c, &d);
    return unused;
}

static void *pair(void *unused)
{
    uint32_t earlier, later;
    mill_pair(recording, sizeof recording, MILL_CURVE_A, 40, &earlier, &later);
    return unused;
}

static void *thin(void *unused)
{
    mill_thin(recording, sizeof recording, NULL, 0, out, sizeof out);
    return unused;
}

static void *report_start(void *unused)
{
    mill_report_start(1, open_brackets, sizeof open_brackets, 5, report, sizeof report);
    return unused;
}

static void *report_add(void *unused)
{
    uint32_t met, empty;
    uint64_t distances;
    double mean;
    mill_report_start(1, deep, deep_len, 5, report, sizeof report);
    mill_report_add(report, sizeof report, recording, sizeof recording, &met, &empty, &distances, &mean);
    return unused;
}

static void *live_add(void *unused)
{
    size_t at;
    mill_live_start(NULL, 0, live, sizeof live);
    for (at = 0; at < 100; at++)
        mill_live_add(live, sizeof live, recording + MILL_RECORD_BYTES * at, MILL_RECORD_BYTES);
    return unused;
}

static void *others(void *unused)
{
    uint32_t time, line;
    uint8_t sheet[] = {1, 2};
    mill_order(recording, sizeof recording, sheet, sizeof sheet, &time, &line);
    mill_entry(recording, sizeof recording, out, MILL_ENTRY_BYTES);
    mill_find(out, MILL_ENTRY_BYTES, MILL_CURVE_A, 0, out + MILL_ENTRY_BYTES, MILL_FOUND_BYTES);
    mill_live_save(live, sizeof live, 1);
    mill_live_restore(live, sizeof live, 1);
    mill_live_kept(live, sizeof live, out, MILL_HELD_BYTES);
    mill_live_entry(live, sizeof live, out, MILL_ENTRY_BYTES);
    return unused;
}

/* How many bytes of a thread's stack are no longer as they were painted. */
static long taken(void *(*work)(void *))
{
    uint8_t *stack = mmap(NULL, STACK, PROT_READ | PROT_WRITE, MAP_PRIVATE | MAP_ANONYMOUS, -1, 0);
    pthread_attr_t attributes;
    pthread_t thread;
    long at = 0;
    if (stack == MAP_FAILED)
        exit(2);
    memset(stack, PAINT, STACK);
    pthread_attr_init(&attributes);
    if (pthread_attr_setstack(&attributes, stack, STACK) != 0 || pthread_create(&thread, &attributes, work, NULL) != 0)
        exit(2);
    pthread_join(thread, NULL);
    while (at < STACK && stack[at] == PAINT)
        at++;
    munmap(stack, STACK);
    return STACK - at;
}

int main(void)
{
    static const struct {
        const char *name;
        void *(*work)(void *);
        long named;
    } calls[] = {
        {"mill_question", question, MILL_STACK_QUESTION},
        {"mill_degree", degree, MILL_STACK_DEGREE},
        {"mill_pair", pair, MILL_STACK_PAIR},
        {"mill_thin", thin, MILL_STACK_THIN},
        {"mill_band", band, MILL_STACK_BAND},
        {"mill_report_start", report_start, MILL_STACK_REPORT_START},
        {"mill_report_add", report_add, MILL_STACK_REPORT_ADD},
        {"mill_live_add", live_add, MILL_STACK_LIVE_ADD},
        {"the others", others, MILL_STACK_ORDER},
    };
    long own = taken(nothing);
    size_t i;
    int failed = 0;
    for (i = 0; i < MILL_MAX_RECORDS; i++) {
        recording[16 * i] = (uint8_t)i;
        recording[16 * i + 1] = (uint8_t)(i >> 8);
        recording[16 * i + 4] = (uint8_t)(i * 37);
        recording[16 * i + 12] = (uint8_t)(i % 64 == 0 ? 2 : i % 64 == 30 ? 0 : 1);
        recording[16 * i + 13] = (uint8_t)(i % 64 == 5 ? 2 : i % 64 == 40 ? 0 : 1);
    }
    memset(open_brackets, '(', sizeof open_brackets);
    memset(deep, '!', 31);
    memcpy(deep + 31, "lag", 3);
    deep_len = 34;
    for (i = 0; i < sizeof calls / sizeof calls[0]; i++) {
        long peak = taken(calls[i].work) - own;
        printf("%-18s %7ld of %7ld bytes\n", calls[i].name, peak, calls[i].named);
        failed |= peak > calls[i].named;
    }
    return failed;
}
