/* A read that fails after some bytes came: loaded before the C library, it lets the descriptor FAIL_FD give FAIL_AFTER bytes
** and then fail with EIO. Other descriptors are read as ever. */
#define _GNU_SOURCE
#include <errno.h>
#include <stdlib.h>
#include <sys/syscall.h>
#include <unistd.h>

ssize_t read(int fd, void *buf, size_t count) {
    static size_t given;
    size_t after = (size_t)atol(getenv("FAIL_AFTER"));
    ssize_t got;
    if (fd != atoi(getenv("FAIL_FD")))
        return syscall(SYS_read, fd, buf, count);
    if (given == after) {
        errno = EIO;
        return -1;
    }
    got = syscall(SYS_read, fd, buf, count < after - given ? count : after - given);
    if (got > 0)
        given += (size_t)got;
    return got;
}
