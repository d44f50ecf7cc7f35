/* Runs a program and writes what it took to a file: its status, the processor's seconds (user and system), and the most memory in KiB.
 *   usage FILE PROGRAM WORD ..
 * A child's peak memory is at least what its parent had as it was started, so a small parent is needed. */
#include <stdio.h>
#include <sys/resource.h>
#include <sys/wait.h>
#include <unistd.h>

static double seconds(struct timeval t) { return t.tv_sec + t.tv_usec / 1e6; }

int main(int argc, char **argv) {
    int status;
    struct rusage taken;
    FILE *out = argc > 2 ? fopen(argv[1], "we") : NULL;
    pid_t child = out ? fork() : -1;
    if (child < 0) return 1;
    if (child == 0) {
        execv(argv[2], argv + 2);
        _exit(127);
    }
    if (wait4(child, &status, 0, &taken) != child) return 1;
    fprintf(out, "%d %f %ld\n", WIFEXITED(status) ? WEXITSTATUS(status) : -WTERMSIG(status), seconds(taken.ru_utime) + seconds(taken.ru_stime), taken.ru_maxrss);
    return fclose(out) != 0;
}
