/* Runs a command some times and prints the least seconds that it took, its greatest resident set in KiB, and the least
   seconds that it had a processor, which say more where the machine has other work.
   measure TIMES INPUT COMMAND WORD.. : standard input is the file INPUT, what is written is dropped. */
#include <fcntl.h>
#include <stdio.h>
#include <stdlib.h>
#include <sys/resource.h>
#include <sys/wait.h>
#include <time.h>
#include <unistd.h>

static double seconds(struct timeval t) { return t.tv_sec + t.tv_usec / 1e6; }

static double now(void) {
    struct timespec t;
    clock_gettime(CLOCK_MONOTONIC, &t);
    return t.tv_sec + t.tv_nsec / 1e9;
}

int main(int argc, char **argv) {
    if (argc < 4) return 2;
    double least = 1e9, least_used = 1e9;
    long resident = 0;
    for (int i = 0; i < atoi(argv[1]); i++) {
        double start = now();
        pid_t child = fork();
        if (child == 0) {
            dup2(open(argv[2], O_RDONLY), 0);
            dup2(open("/dev/null", O_WRONLY), 1);
            execvp(argv[3], argv + 3);
            _exit(127);
        }
        int status;
        struct rusage used;
        wait4(child, &status, 0, &used);
        if (!WIFEXITED(status) || WEXITSTATUS(status) != 0) {
            fprintf(stderr, "measure: %s failed\n", argv[3]);
            return 1;
        }
        double took = now() - start;
        double worked = seconds(used.ru_utime) + seconds(used.ru_stime);
        if (took < least) least = took;
        if (worked < least_used) least_used = worked;
        if (used.ru_maxrss > resident) resident = used.ru_maxrss;
    }
    printf("%.4f %ld %.4f\n", least, resident, least_used);
    return 0;
}
