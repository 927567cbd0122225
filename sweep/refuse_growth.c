/* Refuses growths of memory to the program that it is loaded into by LD_PRELOAD.
 *
 * A growth is a malloc or a calloc, or a realloc to more bytes than were asked for before; a realloc to
 * as many or fewer is none, and nor is a free. Growths count from 1, from the beginning of main on: what
 * the loader and the C library ask for before main neither counts nor is refused. Those with numbers
 * from REFUSE_FROM to REFUSE_TO are refused. Where REFUSE_FROM isn't set, none is, and where REFUSE_TO
 * isn't, all from REFUSE_FROM on are. Aligned allocations aren't known here: a program that makes them
 * can't be run with this.
 *
 * GROWTHS names a file of at least 24 bytes that takes three numbers: of growths, refused ones too; of
 * the bytes that the last refused one asked for; and of those that the next one did. It is mapped, and
 * not written at the end, so that it is right after a crash as well. */
#define _GNU_SOURCE
#include <dlfcn.h>
#include <errno.h>
#include <fcntl.h>
#include <stdint.h>
#include <stdlib.h>
#include <sys/mman.h>

/* What the C library has under the names that this file takes. */
extern void *__libc_malloc(size_t), *__libc_calloc(size_t, size_t), *__libc_realloc(void *, size_t);
extern void __libc_free(void *);

/* Stands before each block, since the C library only tells what it rounded the size to. */
typedef struct {
    _Alignas(16) size_t size;
} Head;

static uint64_t before_main[3], *numbers = before_main, first = UINT64_MAX, last = UINT64_MAX;

static int is_refused(size_t size)
{
    uint64_t number = __atomic_add_fetch(&numbers[0], 1, __ATOMIC_SEQ_CST);
    int is_first_to_last = first <= number && number <= last;
    if (is_first_to_last)
        numbers[1] = size;
    else if (number == last + 1)
        numbers[2] = size;
    return is_first_to_last || size > SIZE_MAX - sizeof(Head);
}

static void *block_of(Head *head, size_t size)
{
    if (!head) {
        errno = ENOMEM;
        return NULL;
    }
    head->size = size;
    return head + 1;
}

void *malloc(size_t size)
{
    return block_of(is_refused(size) ? NULL : __libc_malloc(sizeof(Head) + size), size);
}

void *calloc(size_t items, size_t size)
{
    size_t whole = size && items > SIZE_MAX / size ? SIZE_MAX : items * size;
    return block_of(is_refused(whole) ? NULL : __libc_calloc(1, sizeof(Head) + whole), whole);
}

void *realloc(void *block, size_t size)
{
    if (!block)
        return malloc(size);
    Head *head = (Head *)block - 1;
    int refused = size > head->size && is_refused(size);
    return block_of(refused ? NULL : __libc_realloc(head, sizeof(Head) + size), size);
}

void free(void *block)
{
    if (block)
        __libc_free((Head *)block - 1);
}

static int (*own_main)(int, char **, char **);

static int counted_main(int words, char **word, char **environment)
{
    const char *from = getenv("REFUSE_FROM"), *to = getenv("REFUSE_TO"), *file = getenv("GROWTHS");
    int opened = file ? open(file, O_RDWR | O_CLOEXEC) : -1;
    void *mapped = mmap(NULL, sizeof before_main, PROT_READ | PROT_WRITE, MAP_SHARED, opened, 0);
    if (mapped == MAP_FAILED)
        abort();
    numbers = mapped;
    first = from ? strtoull(from, NULL, 10) : UINT64_MAX;
    last = to ? strtoull(to, NULL, 10) : UINT64_MAX;
    return own_main(words, word, environment);
}

int __libc_start_main(int (*main)(int, char **, char **), int words, char **word, void (*begin)(void),
                      void (*end)(void), void (*loader_end)(void), void *stack)
{
    __typeof__(__libc_start_main) *start = dlsym(RTLD_NEXT, "__libc_start_main");
    own_main = main;
    return start(counted_main, words, word, begin, end, loader_end, stack);
}
