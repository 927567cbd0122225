/* Has the threads of the program that it is loaded into by LD_PRELOAD give way to each other: one that asks for memory waits now and then, so that several workers have a share of a run of some
 * hundred commands, and go on in the middle of each other's. */
#include <stddef.h>
#include <time.h>

/* At each so many calls of a thread, which is no multiple of what a command asks for, it waits so many nanoseconds at least. */
enum { EVERY = 61, WAIT = 20000 };

extern void *__libc_malloc(size_t);
void *malloc(size_t size);

static _Thread_local unsigned calls __attribute__((tls_model("initial-exec")));

void *malloc(size_t size)
{
    if (++calls % EVERY == 0)
        nanosleep(&(struct timespec) { 0, WAIT }, NULL);
    return __libc_malloc(size);
}
