/* Runs a program with its standard output into a file, and prints its exit status, its wall and processor
   time in nanoseconds and its peak memory in bytes. It is small, since the peak that the system gives
   counts what the process held before the program took its place. */
#include <fcntl.h>
#include <stdio.h>
#include <sys/resource.h>
#include <sys/wait.h>
#include <time.h>
#include <unistd.h>

static long long now(void) {
    struct timespec at;
    clock_gettime(CLOCK_MONOTONIC, &at);
    return at.tv_sec * 1000000000LL + at.tv_nsec;
}

static long long nanoseconds(struct timeval time) {
    return time.tv_sec * 1000000000LL + time.tv_usec * 1000LL;
}

int main(int words, char **word) {
    if (words < 3) {
        fprintf(stderr, "timed OUT PROGRAM WORD..\n");
        return 2;
    }
    long long begin = now();
    pid_t child = fork();
    if (child == 0) {
        int out = open(word[1], O_WRONLY | O_CREAT | O_TRUNC, 0666);
        if (out < 0 || dup2(out, 1) < 0) {
            _exit(126);
        }
        execv(word[2], word + 2);
        _exit(127);
    }
    int status;
    struct rusage used;
    if (child < 0 || wait4(child, &status, 0, &used) != child) {
        fprintf(stderr, "timed: can't run %s\n", word[2]);
        return 1;
    }
    long long wall = now() - begin;
    int code = WIFEXITED(status) ? WEXITSTATUS(status) : 255;
    printf("%d %lld %lld %lld %lld %lld\n", code, wall, nanoseconds(used.ru_utime),
           nanoseconds(used.ru_stime), used.ru_maxrss * 1024LL, (long long)used.ru_minflt);
    return 0;
}
