/* Times one whole run of a command: from before its process is made until it has ended and been waited for.
 *
 *     timed OUTPUT COMMAND ARGUMENT..
 *
 * The command's standard output goes to the file OUTPUT, which is opened before the clock starts. Prints the
 * microseconds and ends with the command's status; 125 where it could not be run. */
#define _GNU_SOURCE
#include <fcntl.h>
#include <spawn.h>
#include <stdio.h>
#include <stdlib.h>
#include <string.h>
#include <sys/wait.h>
#include <time.h>
#include <unistd.h>

static double microseconds(void)
{
    struct timespec now;
    clock_gettime(CLOCK_MONOTONIC, &now);
    return (double)now.tv_sec * 1e6 + (double)now.tv_nsec / 1e3;
}

/* The wait status of the command, or -1. */
static int run(int output, char **command)
{
    posix_spawn_file_actions_t actions;
    pid_t process;
    int status = -1;
    if (posix_spawn_file_actions_init(&actions) != 0)
        return -1;
    int fault = posix_spawn_file_actions_adddup2(&actions, output, STDOUT_FILENO);
    if (fault == 0)
        fault = posix_spawnp(&process, command[0], &actions, NULL, command, environ);
    posix_spawn_file_actions_destroy(&actions);
    if (fault != 0) {
        fprintf(stderr, "timed: %s: %s\n", command[0], strerror(fault));
        return -1;
    }
    return waitpid(process, &status, 0) == process ? status : -1;
}

int main(int count, char **arguments)
{
    if (count < 3) {
        fprintf(stderr, "usage: timed OUTPUT COMMAND ARGUMENT..\n");
        return 125;
    }
    int output = open(arguments[1], O_WRONLY | O_CREAT | O_TRUNC | O_CLOEXEC, 0666);
    if (output < 0) {
        perror(arguments[1]);
        return 125;
    }
    double start = microseconds();
    int status = run(output, arguments + 2);
    double end = microseconds();
    if (status == -1)
        return 125;
    printf("%.0f\n", end - start);
    return WIFEXITED(status) ? WEXITSTATUS(status) : 128 + WTERMSIG(status);
}
