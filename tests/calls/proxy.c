/*
** libmill.a, of which every call is made by a server (serve.c): so the tests of this machine's programs try a library that is made for
** another processor. MILL_SERVER is the command that starts a server. Calls of several threads go to a server each.
*/
#define _GNU_SOURCE
#include <mill.h>

#include <fcntl.h>
#include <pthread.h>
#include <stdio.h>
#include <stdlib.h>
#include <string.h>
#include <unistd.h>

#define NOTHING UINT64_MAX

struct server {
    int to, from;
    struct server *next;
};
static struct server *idle;
static pthread_mutex_t lock = PTHREAD_MUTEX_INITIALIZER;

/* What is sent, of this thread. */
static __thread uint8_t *request;
static __thread size_t request_end, request_room;

static void stop(const char *why)
{
    fprintf(stderr, "proxy: %s\n", why);
    _exit(3);
}

static struct server *start(void)
{
    struct server *server = malloc(sizeof *server);
    const char *command = getenv("MILL_SERVER");
    int to[2], from[2];
    pid_t child;
    if (server == NULL || command == NULL || pipe2(to, O_CLOEXEC) != 0 || pipe2(from, O_CLOEXEC) != 0)
        stop("no server can be started");
    child = fork();
    if (child < 0)
        stop("no server can be started");
    if (child == 0) {
        dup2(to[0], 0);
        dup2(from[1], 1);
        execl("/bin/sh", "sh", "-c", command, (char *)NULL);
        _exit(127);
    }
    close(to[0]);
    close(from[1]);
    server->to = to[1];
    server->from = from[0];
    return server;
}

static struct server *begin(void)
{
    struct server *server;
    pthread_mutex_lock(&lock);
    server = idle;
    if (server != NULL)
        idle = server->next;
    else
        server = start();
    pthread_mutex_unlock(&lock);
    request_end = 0;
    return server;
}

static void end(struct server *server)
{
    pthread_mutex_lock(&lock);
    server->next = idle;
    idle = server;
    pthread_mutex_unlock(&lock);
}

static void add(const void *bytes, size_t length)
{
    if (request_room - request_end < length) {
        request_room = 2 * (request_room + length) + 4096;
        request = realloc(request, request_room);
        if (request == NULL)
            stop("there is no memory");
    }
    if (length != 0)
        memcpy(request + request_end, bytes, length);
    request_end += length;
}

static void number_out(uint64_t number)
{
    add(&number, sizeof number);
}

static void bytes_out(const uint8_t *bytes, size_t length)
{
    number_out(bytes == NULL && length == 0 ? NOTHING : length);
    add(bytes, length);
}

static void send_all(const struct server *server)
{
    size_t at = 0;
    while (at < request_end) {
        ssize_t wrote = write(server->to, request + at, request_end - at);
        if (wrote <= 0)
            stop("the server is gone");
        at += (size_t)wrote;
    }
}

static void take(const struct server *server, void *bytes, size_t length)
{
    size_t at = 0;
    while (at < length) {
        ssize_t came = read(server->from, (uint8_t *)bytes + at, length - at);
        if (came <= 0)
            stop("the server is gone");
        at += (size_t)came;
    }
}

#include "proxy.h"
