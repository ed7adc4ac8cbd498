/* Runs a program, and writes what it cost: measured FD PROGRAM [WORD ..]
 *
 * When the program has ended, one line is written to the file descriptor FD: its exit status, or 128 and the number of the
 * signal that ended it, its processor time (user and system) in microseconds, and its peak memory in kilobytes. What the system
 * tells as the peak of a process begins with that of the process that started it: so bench/table.py, which takes 16 MB, starts
 * programs by this small one. */
#include <stdio.h>
#include <stdlib.h>
#include <sys/resource.h>
#include <sys/time.h>
#include <sys/types.h>
#include <sys/wait.h>
#include <unistd.h>

static long long microseconds(struct timeval time)
{
    return time.tv_sec * 1000000LL + time.tv_usec;
}

int main(int argc, char **argv)
{
    if (argc < 3) {
        fprintf(stderr, "usage: measured FD PROGRAM [WORD ..]\n");
        return 2;
    }
    int line = atoi(argv[1]);
    pid_t child = fork();
    if (child == 0) {
        close(line);
        execv(argv[2], argv + 2);
        _exit(127);
    }
    /* the program's standard output ends with the program */
    close(STDOUT_FILENO);
    int status;
    struct rusage usage;
    if (child < 0 || wait4(child, &status, 0, &usage) != child) {
        perror("measured");
        return 1;
    }
    int code = WIFEXITED(status) ? WEXITSTATUS(status) : 128 + WTERMSIG(status);
    long long time = microseconds(usage.ru_utime) + microseconds(usage.ru_stime);
    return dprintf(line, "%d %lld %ld\n", code, time, usage.ru_maxrss) < 0;
}
