/* Chooses the call that refuses, in a copy of the repository that sweep/refusals made.
 *
 * The program that is built with this keeps itself as the file KEPT when it first runs, and ends. Later it asks the table that
 * REFUSED names: its first 8 bytes are the number of the call that refuses, and behind them stands a byte for each number, which
 * is set once that call is made. */
#define _GNU_SOURCE
#include <dlfcn.h>
#include <fcntl.h>
#include <stdint.h>
#include <stdlib.h>
#include <sys/mman.h>
#include <unistd.h>

static unsigned char none[8 + CALLS], *table = none;

/* Answers 1 where the call of this number is to refuse. */
uint64_t zalkvorn_refused_call(uint64_t number)
{
    table[7 + number] = 1;
    return *(uint64_t *)table == number;
}

static void keep(void)
{
    static char bytes[1 << 16];
    Dl_info own;
    int from = dladdr((void *)keep, &own) ? open(own.dli_fname, O_RDONLY) : -1;
    int to = open(KEPT, O_WRONLY | O_CREAT | O_EXCL, 0700);
    for (ssize_t got; (got = read(from, bytes, sizeof bytes)) != 0;)
        if (got < 0 || write(to, bytes, got) != got)
            _exit(1);
    _exit(0);
}

__attribute__((constructor)) static void begin(void)
{
    const char *name = getenv("REFUSED");
    if (!name && access(KEPT, F_OK))
        keep();
    int file = name ? open(name, O_RDWR | O_CLOEXEC) : -1;
    void *mapped = name ? mmap(NULL, sizeof none, PROT_READ | PROT_WRITE, MAP_SHARED, file, 0) : none;
    if (mapped == MAP_FAILED)
        _exit(1);
    table = mapped;
}
