/*
** Runs a command with a terminal of its own: `on_terminal FD COMMAND..` makes descriptor FD of the command the terminal, leaves the
** others, and writes what the command wrote to the terminal to its own descriptor FD. Ends with the command's status.
*/
#define _GNU_SOURCE
#include <fcntl.h>
#include <stdio.h>
#include <stdlib.h>
#include <sys/wait.h>
#include <unistd.h>

int main(int count, char **words)
{
    int terminal, side, status;
    pid_t child;
    char bytes[4096];
    ssize_t got;

    if (count < 3)
        return 125;
    terminal = posix_openpt(O_RDWR | O_NOCTTY);
    if (terminal < 0 || grantpt(terminal) != 0 || unlockpt(terminal) != 0 || (side = open(ptsname(terminal), O_RDWR | O_NOCTTY)) < 0) {
        perror("on_terminal");
        return 125;
    }
    child = fork();
    if (child == 0) {
        dup2(side, atoi(words[1]));
        close(side);
        close(terminal);
        execv(words[2], words + 2);
        _exit(125);
    }
    close(side);
    /* The end of the child's side is an error here, EIO. */
    while ((got = read(terminal, bytes, sizeof bytes)) > 0)
        if (write(atoi(words[1]), bytes, (size_t)got) != got)
            return 125;
    if (child < 0 || waitpid(child, &status, 0) < 0 || !WIFEXITED(status))
        return 125;
    return WEXITSTATUS(status);
}
