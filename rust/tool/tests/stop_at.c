/*
** Runs a command and stops it at one of its system calls, or makes one fail. For x86-64 and Linux.
**
**   stop_at kill N REPORT COMMAND..       kills it where it enters its N-th call, which is not made
**   stop_at list 0 REPORT COMMAND..       lets it run, and writes the number of each of its calls on a line of REPORT
**   stop_at ERRNO N REPORT FROM COMMAND.. makes its N-th call on files fail with this number; counted from the first
**                                         that opens a name with FROM in it, so after the program has been loaded
**
** Ends with the command's own status, or 137 where it was killed. Writes the number of the call that was met to the end of the
** file REPORT, and makes no such file where there was none.
*/
#define _GNU_SOURCE
#include <errno.h>
#include <signal.h>
#include <stdio.h>
#include <stdlib.h>
#include <string.h>
#include <sys/ptrace.h>
#include <sys/syscall.h>
#include <sys/types.h>
#include <sys/uio.h>
#include <sys/user.h>
#include <sys/wait.h>
#include <unistd.h>

static void die(const char *what)
{
    perror(what);
    exit(125);
}

static int on_files(unsigned long long call)
{
    switch (call) {
    case SYS_read: case SYS_write: case SYS_openat: case SYS_statx: case SYS_fsync: case SYS_fdatasync:
    case SYS_rename: case SYS_renameat: case SYS_renameat2: case SYS_unlink: case SYS_unlinkat: case SYS_flock:
    case SYS_fchmod: case SYS_ftruncate: case SYS_lseek: case SYS_readlink: case SYS_copy_file_range:
        return 1;
    default:
        return 0;
    }
}

/* Whether the call opens a name with this in it. */
static int opens(pid_t child, const struct user_regs_struct *regs, const char *from)
{
    char name[4096];
    struct iovec here = {name, sizeof name - 1}, there = {(void *)regs->rsi, sizeof name - 1};
    ssize_t got;
    if (regs->orig_rax != SYS_openat)
        return 0;
    /* The name may lie at the end of what is mapped: ask for less where more can't be had. */
    while ((got = process_vm_readv(child, &here, 1, &there, 1, 0)) < 0 && here.iov_len > 16) {
        here.iov_len /= 2;
        there.iov_len = here.iov_len;
    }
    name[got < 0 ? 0 : got] = 0;
    return strstr(name, from) != NULL;
}

static void report(const char *file, unsigned long long call)
{
    FILE *out = fopen(file, "a");
    if (out == NULL)
        die(file);
    fprintf(out, "%llu\n", call);
    fclose(out);
}

int main(int count, char **words)
{
    int killing, listing, fault, status, entering = 1, failing = 0, counting;
    long n, seen = 0;
    const char *from = NULL, *file;
    pid_t child;
    char **command;

    if (count < 5)
        return 125;
    killing = strcmp(words[1], "kill") == 0;
    listing = strcmp(words[1], "list") == 0;
    fault = atoi(words[1]);
    n = atol(words[2]);
    file = words[3];
    command = words + 4;
    if (!killing && !listing)
        from = *command++;
    counting = killing;

    child = fork();
    if (child < 0)
        die("fork");
    if (child == 0) {
        if (ptrace(PTRACE_TRACEME, 0, NULL, NULL) < 0)
            die("ptrace");
        execv(command[0], command);
        die(command[0]);
    }
    if (waitpid(child, &status, 0) < 0)
        die("waitpid");
    if (!WIFSTOPPED(status))
        return 125;
    if (ptrace(PTRACE_SETOPTIONS, child, NULL, (void *)(long)(PTRACE_O_TRACESYSGOOD | PTRACE_O_EXITKILL)) < 0)
        die("ptrace");
    for (;;) {
        int signal = WIFSTOPPED(status) && WSTOPSIG(status) != SIGTRAP && WSTOPSIG(status) != (SIGTRAP | 0x80) ? WSTOPSIG(status) : 0;
        if (ptrace(PTRACE_SYSCALL, child, NULL, (void *)(long)signal) < 0 && errno != ESRCH)
            die("ptrace");
        if (waitpid(child, &status, 0) < 0)
            die("waitpid");
        if (WIFEXITED(status))
            return WEXITSTATUS(status);
        if (WIFSIGNALED(status))
            return 128 + WTERMSIG(status);
        if (WSTOPSIG(status) != (SIGTRAP | 0x80))
            continue;
        struct user_regs_struct regs;
        if (ptrace(PTRACE_GETREGS, child, NULL, &regs) < 0)
            die("ptrace");
        if (entering) {
            if (listing)
                report(file, regs.orig_rax);
            else if (!counting && opens(child, &regs, from))
                counting = 1;
            if (counting && (killing || on_files(regs.orig_rax)) && ++seen == n) {
                report(file, regs.orig_rax);
                if (killing) {
                    kill(child, SIGKILL);
                } else {
                    failing = 1;
                    regs.orig_rax = (unsigned long long)-1;
                    if (ptrace(PTRACE_SETREGS, child, NULL, &regs) < 0)
                        die("ptrace");
                }
            }
        } else if (failing) {
            failing = 0;
            regs.rax = (unsigned long long)-(long long)fault;
            if (ptrace(PTRACE_SETREGS, child, NULL, &regs) < 0)
                die("ptrace");
        }
        entering = !entering;
    }
}
