/*
** serve: makes the calls that come in over standard input, and gives what each returned and wrote on standard output.
**
** A request is the number of the call in mill.h and its parameters: 8 bytes a number; bytes as their length, in 8 bytes, and themselves,
** of an output what it holds before; a place for a number as what it holds before. NOTHING for a length is a null pointer of length 0.
** An answer is the returned number, in 8 bytes, and the outputs with the places, as they are after the call. The cases are made of mill.h
** by declarations.py.
**
** Bytes end where a page begins that can't be touched. An input that a call wrote ends the program.
*/
#define _GNU_SOURCE
#include <mill.h>

#include <stdio.h>
#include <stdlib.h>
#include <string.h>
#include <sys/mman.h>
#include <unistd.h>

enum { REGIONS = 10, ROOM = 1 << 18, MOST = 1 << 28 };
#define NOTHING UINT64_MAX

struct region {
    uint8_t *end;   /* where the page begins that can't be touched */
    size_t room;    /* how many bytes lie before it */
    uint8_t *at;    /* what the call is handed */
    size_t length;
    uint8_t *copy;  /* an input as it came in */
};
static struct region regions[REGIONS];

static void stop(const char *why)
{
    fprintf(stderr, "serve: %s\n", why);
    exit(3);
}

/* Standard input, and standard output, which is written before there is a wait. */
static uint8_t in[1 << 16], out[1 << 16];
static size_t in_at, in_end, out_end;

static void flush(void)
{
    size_t at = 0;
    while (at < out_end) {
        ssize_t wrote = write(1, out + at, out_end - at);
        if (wrote <= 0)
            stop("standard output can't be written");
        at += (size_t)wrote;
    }
    out_end = 0;
}

/* Takes so many bytes; none where the input ends before the first. */
static int get(void *bytes, size_t length)
{
    size_t taken = 0;
    while (taken < length) {
        size_t some;
        if (in_at == in_end) {
            ssize_t came;
            flush();
            came = read(0, in, sizeof in);
            if (came <= 0) {
                if (came == 0 && taken == 0)
                    return 0;
                stop("the input ends within a request");
            }
            in_at = 0;
            in_end = (size_t)came;
        }
        some = in_end - in_at < length - taken ? in_end - in_at : length - taken;
        memcpy((uint8_t *)bytes + taken, in + in_at, some);
        in_at += some;
        taken += some;
    }
    return 1;
}

static void put(const void *bytes, size_t length)
{
    size_t given = 0;
    while (given < length) {
        size_t some = sizeof out - out_end < length - given ? sizeof out - out_end : length - given;
        memcpy(out + out_end, (const uint8_t *)bytes + given, some);
        out_end += some;
        given += some;
        if (out_end == sizeof out)
            flush();
    }
}

static uint64_t number_in(void)
{
    uint64_t number;
    if (!get(&number, sizeof number))
        stop("the input ends within a request");
    return number;
}

/* A region with room for so many bytes. */
static void grow(struct region *region, size_t least)
{
    size_t page = (size_t)sysconf(_SC_PAGESIZE), room = (least + page - 1) / page * page;
    uint8_t *start;
    if (least > MOST)
        stop("bytes are too many");
    if (region->end != NULL)
        munmap(region->end - region->room, region->room + page);
    free(region->copy);
    start = mmap(NULL, room + page, PROT_READ | PROT_WRITE, MAP_PRIVATE | MAP_ANONYMOUS | MAP_NORESERVE, -1, 0);
    region->copy = malloc(room);
    if (start == MAP_FAILED || mprotect(start + room, page, PROT_NONE) != 0 || region->copy == NULL)
        stop("there is no memory");
    region->end = start + room;
    region->room = room;
}

static struct region *bytes_in(int which, int written)
{
    struct region *region = &regions[which];
    uint64_t length = number_in();
    region->length = length == NOTHING ? 0 : (size_t)length;
    if (region->length > region->room)
        grow(region, region->length);
    region->at = length == NOTHING ? NULL : region->end - region->length;
    if (region->length != 0 && !get(region->at, region->length))
        stop("the input ends within a request");
    if (!written && region->length != 0)
        memcpy(region->copy, region->at, region->length);
    return region;
}

static struct region *place_in(int which, size_t size)
{
    struct region *region = &regions[which];
    region->length = size;
    region->at = region->end - size;
    if (!get(region->at, size))
        stop("the input ends within a request");
    return region;
}

static void unchanged(const struct region *region)
{
    if (region->length != 0 && memcmp(region->copy, region->at, region->length) != 0)
        stop("a call wrote an input");
}

static void make(uint64_t number)
{
    switch (number) {
#include "serve.h"
    default:
        stop("there is no such call");
    }
}

int main(void)
{
    uint64_t number;
    int i;
    for (i = 0; i < REGIONS; i++)
        grow(&regions[i], ROOM);
    while (get(&number, sizeof number))
        make(number);
    flush();
    return 0;
}
