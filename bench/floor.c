/* The floor: copies so many bytes once by memcpy, and prints the best nanoseconds of so many turns, twice:
   between two buffers that were touched before, and into memory that the system hands out anew, whose
   pages are made as they are first written. */
#include <stdio.h>
#include <stdlib.h>
#include <string.h>
#include <sys/mman.h>
#include <time.h>

static long long now(void) {
    struct timespec at;
    clock_gettime(CLOCK_MONOTONIC, &at);
    return at.tv_sec * 1000000000LL + at.tv_nsec;
}

static void *room(size_t bytes) {
    void *at = mmap(NULL, bytes, PROT_READ | PROT_WRITE, MAP_PRIVATE | MAP_ANONYMOUS, -1, 0);
    if (at == MAP_FAILED) {
        fprintf(stderr, "floor: no memory\n");
        exit(1);
    }
    return at;
}

int main(int words, char **word) {
    if (words != 3) {
        fprintf(stderr, "floor BYTES TURNS\n");
        return 2;
    }
    size_t bytes = strtoull(word[1], NULL, 10);
    int turns = atoi(word[2]);
    unsigned char *from = room(bytes);
    unsigned char *touched = room(bytes);
    memset(from, 1, bytes);
    memset(touched, 2, bytes);
    long long best = -1, best_fresh = -1;
    volatile unsigned char seen;
    for (int turn = 0; turn < turns; turn++) {
        from[bytes / 2] = (unsigned char)turn;
        long long begin = now();
        memcpy(touched, from, bytes);
        long long took = now() - begin;
        seen = touched[bytes / 2];
        if (best < 0 || took < best) {
            best = took;
        }
        unsigned char *fresh = room(bytes);
        begin = now();
        memcpy(fresh, from, bytes);
        took = now() - begin;
        seen = fresh[bytes / 2];
        munmap(fresh, bytes);
        if (best_fresh < 0 || took < best_fresh) {
            best_fresh = took;
        }
    }
    (void)seen;
    printf("%lld %lld\n", best, best_fresh);
    return 0;
}
