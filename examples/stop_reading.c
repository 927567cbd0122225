/* Lets the program that it is loaded into by LD_PRELOAD read STOP_AFTER bytes of its files, and then fails each read, as a
   disk does that stops in the middle. */
#define _GNU_SOURCE
#include <errno.h>
#include <stdlib.h>
#include <sys/syscall.h>
#include <unistd.h>

static long long left = -1;

ssize_t read(int file, void *into, size_t size) {
    const char *after = getenv("STOP_AFTER");
    if (file <= 2 || !after) {
        return syscall(SYS_read, file, into, size);
    }
    if (left < 0) {
        left = atoll(after);
    }
    if (left == 0) {
        errno = EIO;
        return -1;
    }
    long count = syscall(SYS_read, file, into, size < (size_t)left ? size : (size_t)left);
    left -= count > 0 ? count : 0;
    return count;
}
