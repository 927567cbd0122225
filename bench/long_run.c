/* Has a namespace run for long, and measures its resident memory and the time of a change.
 *
 *     long_run changes THREADS CHANGES UNITS LIMIT
 *     long_run memory BLOCKS BLOCK_SIZE UNIT WRITTEN [DISTANCE]
 *
 * `changes` does one-block Writes of 512 bytes by threads with a port each, all on the first UNITS units of a namespace of 4,096 units of 8 blocks, in which each block was written once before. It prints the resident memory in KB after
 * 100,000 changes and at the end, how much of it was no file's then, and the nanoseconds by the wall's clock and of processor time of the changes between. With a LIMIT of 0 the namespace
 * isn't recorded.
 *
 * `memory` has one port write all blocks of a namespace that isn't recorded, by Writes of WRITTEN blocks that begin DISTANCE blocks apart, WRITTEN without
 * that word. Where WRITTEN is above 1 and the Writes don't overlap, it then writes each block of each Write but the first again, by one-block Writes. Then
 * it deallocates all blocks. It prints a line after each step: its name, the resident memory in KB, and what malloc has handed out and what it has of the
 * system, in KB, too. */
#include <malloc.h>
#include <pthread.h>
#include <sched.h>
#include <stdio.h>
#include <stdlib.h>
#include <string.h>
#include <time.h>

#include "../clients/entries.h"

enum { BLOCK = 512, UNIT = 8, STRIDE = 40503, DATA = 256, PHASES = 3, FIRST = 1000, EARLY = 100000, MOST_UNITS = 4096, MOST_BLOCK = 4096,
       MOST_WRITTEN = 256 };

struct share {
    struct zk_port *port;
    uint64_t first, blocks;
    unsigned long end[PHASES + 1];
    int failed;
};

static uint8_t data[DATA][BLOCK];
static pthread_barrier_t barrier;

/* The resident memory in KB, and how much of it is no file's, as the program's own code is. It is counted page by page here, while /proc/self/status
 * may be late by 256 KB for each thread. */
static struct size { long resident, anonymous; } size(void)
{
    char line[256];
    struct size found = { -1, -1 };
    FILE *file = fopen("/proc/self/smaps_rollup", "r");
    while (file && fgets(line, sizeof line, file)) {
        sscanf(line, "Rss: %ld", &found.resident);
        sscanf(line, "Anonymous: %ld", &found.anonymous);
    }
    if (file)
        fclose(file);
    return found;
}

static long long now(clockid_t clock)
{
    struct timespec at;
    clock_gettime(clock, &at);
    return at.tv_sec * 1000000000LL + at.tv_nsec;
}

/* Does a command to its end. 1 if it succeeded. */
static int done(struct zk_port *port, const uint8_t *entry, uint8_t *bytes, size_t length)
{
    uint8_t told[ZK_COMPLETION_BYTES];
    int code = zk_submit(port, entry, ZK_ENTRY_BYTES, bytes, length, told, sizeof told);
    while (code == ZK_PENDING) {
        sched_yield();
        code = zk_poll(port, bytes, length, told, sizeof told);
    }
    return code == ZK_DONE && status_of(told) == 0;
}

static void change(struct share *share, unsigned long from, unsigned long to)
{
    uint8_t entry[ZK_ENTRY_BYTES];
    for (unsigned long i = from; i < to && !share->failed; i++) {
        entry_of(entry, WRITE, 0, (uint16_t)i, (share->first + i * STRIDE) % share->blocks, 1);
        share->failed = !done(share->port, entry, data[i % DATA], BLOCK);
    }
}

/* Does the changes of each phase between two waits. */
static void *work(void *given)
{
    struct share *share = given;
    for (int phase = 1; phase <= PHASES; phase++) {
        pthread_barrier_wait(&barrier);
        change(share, share->end[phase - 1], share->end[phase]);
        pthread_barrier_wait(&barrier);
    }
    return NULL;
}

static int changes(unsigned long threads, unsigned long count, unsigned long units, uint32_t limit)
{
    static struct zk_port ports[ZK_MOST_PORTS];
    static struct share shares[ZK_MOST_PORTS];
    pthread_t ids[ZK_MOST_PORTS];
    struct zk_namespace ns = { MOST_UNITS * UNIT, BLOCK, UNIT - 1, 0, UNIT - 1, UNIT - 1 };
    struct share whole = { ports, 0, ns.nsze, { 0 }, 0 };
    uint64_t blocks = units * UNIT;
    struct size sizes[PHASES + 1];
    long long wall = 0, processor = 0;
    for (int i = 0; i < DATA; i++)
        memset(data[i], i, BLOCK);
    if (threads == 0 || count < EARLY || units > MOST_UNITS || zk_open(ports, threads, &ns, limit, false) != ZK_DONE)
        return 1;
    /* Each block of the namespace is written once before. */
    change(&whole, 0, ns.nsze);
    if (whole.failed)
        return 1;
    pthread_barrier_init(&barrier, NULL, (unsigned)threads + 1);
    for (unsigned long t = 0; t < threads; t++) {
        shares[t] = (struct share) { &ports[t], t * blocks / threads, blocks, { 0, FIRST / threads, EARLY / threads, count / threads }, 0 };
        if (pthread_create(&ids[t], NULL, work, &shares[t]))
            return 1;
    }
    /* The first phase is there so that the program's own pages are all in memory when the second ends. */
    for (int phase = 1; phase <= PHASES; phase++) {
        wall = now(CLOCK_MONOTONIC);
        processor = now(CLOCK_PROCESS_CPUTIME_ID);
        pthread_barrier_wait(&barrier);
        pthread_barrier_wait(&barrier);
        wall = now(CLOCK_MONOTONIC) - wall;
        processor = now(CLOCK_PROCESS_CPUTIME_ID) - processor;
        sizes[phase] = size();
    }
    for (unsigned long t = 0; t < threads; t++) {
        pthread_join(ids[t], NULL);
        if (shares[t].failed)
            return 1;
    }
    printf("%ld %ld %ld %ld %lld %lld\n", sizes[2].resident, sizes[3].resident, sizes[2].anonymous, sizes[3].anonymous, wall, processor);
    return 0;
}

static void tell(const char *step)
{
    struct mallinfo2 info = mallinfo2();
    printf("%s\t%ld\t%zu\t%zu\n", step, size().resident, (info.uordblks + info.hblkhd) / 1024, (info.arena + info.hblkhd) / 1024);
}

static int memory(uint64_t blocks, uint32_t block_size, uint32_t unit, uint32_t written, uint32_t distance)
{
    static uint8_t bytes[MOST_WRITTEN * MOST_BLOCK];
    struct zk_port port = ZK_PORT_INIT;
    uint8_t entry[ZK_ENTRY_BYTES], range[RANGE_BYTES];
    struct zk_namespace ns = { blocks, block_size, (uint16_t)(unit - 1), 0, (uint16_t)(unit - 1), (uint16_t)(unit - 1) };
    if (block_size > MOST_BLOCK || written == 0 || written > MOST_WRITTEN || distance == 0 || blocks % written)
        return 1;
    memset(bytes, 0x5a, sizeof bytes);
    tell("before zk_open");
    if (zk_open(&port, 1, &ns, ZK_NO_LIMIT, false) != ZK_DONE)
        return 1;
    tell("open");
    for (uint64_t lba = 0; lba + written <= blocks; lba += distance) {
        entry_of(entry, WRITE, 0, (uint16_t)lba, lba, written);
        if (!done(&port, entry, bytes, (size_t)written * block_size))
            return 1;
    }
    tell("written");
    bool again = written > 1 && distance == written;
    for (uint64_t lba = 0; lba < blocks && again; lba++) {
        entry_of(entry, WRITE, 0, (uint16_t)lba, lba, 1);
        if (lba % written && !done(&port, entry, bytes, block_size))
            return 1;
    }
    if (again)
        tell("but one written again");
    deallocate_of(entry, 1, 1);
    range_of(range, 0, (uint32_t)blocks);
    if (!done(&port, entry, range, sizeof range))
        return 1;
    tell("deallocated");
    malloc_trim(0);
    tell("malloc_trim");
    if (zk_close(&port) != ZK_DONE)
        return 1;
    malloc_trim(0);
    tell("closed and malloc_trim");
    return 0;
}

int main(int words, char **word)
{
    unsigned long number[5] = { 0 };
    for (int i = 2; i < words && i < 7; i++)
        number[i - 2] = strtoul(word[i], NULL, 10);
    if (words == 6 && strcmp(word[1], "changes") == 0 && number[0] <= ZK_MOST_PORTS)
        return changes(number[0], number[1], number[2], (uint32_t)number[3]);
    if ((words == 6 || words == 7) && strcmp(word[1], "memory") == 0)
        return memory(number[0], (uint32_t)number[1], (uint32_t)number[2], (uint32_t)number[3], (uint32_t)number[words - 3]);
    fprintf(stderr, "long_run changes THREADS CHANGES UNITS LIMIT\nlong_run memory BLOCKS BLOCK_SIZE UNIT WRITTEN [DISTANCE]\n");
    return 2;
}
