/* Commands through the library for C, or through bench/plain_engine.c, by 1 to 63 threads with a port each.
 *
 *     c_load COMMAND BLOCKS SIZE THREADS NUMBER [hot] [recorded]
 *     c_load answers SEED NUMBER
 *
 * COMMAND is write, read, compare, pair, or cut for a pair whose data comes in two pieces, each of BLOCKS blocks of SIZE bytes, NUMBER in all. Each thread has 512 blocks of its own in units of 8 blocks, or of BLOCKS where that is more; with `hot` all work in
 * the first unit. With `recorded` the namespace is recorded. All blocks are written before anything is measured. Pairs and Compares hold. It prints the number of commands on standard output, and on standard error the nanoseconds by the wall's clock and of processor time. Compiled with
 * -DCOUNTED and linked with -Wl,--wrap=malloc,--wrap=realloc,--wrap=free it prints the calls of these three after that.
 *
 * `answers` sends NUMBER random commands, wrong ones among them, by one thread to one namespace, and prints a sum of each code, each completion, and the data after each success: two engines that answer alike print the same. */
#include <pthread.h>
#include <sched.h>
#include <stdio.h>
#include <stdlib.h>
#include <time.h>

#include "../clients/entries.h"

enum { OWN = 512, UNIT = 8, MOST_BLOCKS = 64, MOST_SIZE = 4096, DATA = 16 };

static _Thread_local unsigned long mallocs, reallocs, frees;

#ifdef COUNTED
void *__real_malloc(size_t size);
void *__real_realloc(void *old, size_t size);
void __real_free(void *old);

void *__wrap_malloc(size_t size)
{
    mallocs++;
    return __real_malloc(size);
}

void *__wrap_realloc(void *old, size_t size)
{
    reallocs++;
    return __real_realloc(old, size);
}

void __wrap_free(void *old)
{
    frees++;
    __real_free(old);
}
#endif

struct share {
    struct zk_port *port;
    uint8_t opcode;
    uint64_t first;
    uint32_t places, blocks, size;
    unsigned long number, mallocs, reallocs, frees;
    bool cut;
    int failed;
};

/* Does a command, and polls where it is pending. Gives whether it ended as `wanted`. With `cut` the data of a pair's two commands comes in two pieces. */
static int is_done(struct zk_port *port, const uint8_t *entries, size_t count, uint8_t *data, size_t length, bool cut, uint16_t wanted)
{
    uint8_t told[2 * ZK_COMPLETION_BYTES];
    int code = cut ? zk_submit_pair(port, entries, 2 * ZK_ENTRY_BYTES, data, length / 2, data + length / 2, length / 2, told, sizeof told)
                   : zk_submit(port, entries, count * ZK_ENTRY_BYTES, data, length, told, count * ZK_COMPLETION_BYTES);
    while (code == ZK_PENDING) {
        sched_yield();
        code = zk_poll(port, data, length, told, count * ZK_COMPLETION_BYTES);
    }
    for (size_t i = 0; i < count; i++)
        if (code != ZK_DONE || status_of(told + i * ZK_COMPLETION_BYTES) != wanted)
            return 0;
    return 1;
}

static void *do_all(void *given)
{
    struct share *share = given;
    uint8_t entries[2 * ZK_ENTRY_BYTES];
    size_t bytes = (size_t)share->blocks * share->size, length = share->opcode == 0 ? 2 * bytes : bytes;
    uint8_t *data = calloc(DATA, 2 * bytes);
    if (!data)
        return NULL;
    /* Writes change data; pairs and Compares find what is there, zeroes, and leave it so. */
    for (size_t i = 0; share->opcode == WRITE && i < DATA; i++)
        memset(data + i * 2 * bytes, (int)i, bytes);
    mallocs = reallocs = frees = 0;
    for (unsigned long i = 0; i < share->number; i++) {
        uint64_t at = share->first + i * 40503 % share->places * share->blocks;
        size_t count = share->opcode == 0 ? 2 : 1;
        if (count == 2) {
            entry_of(entries, COMPARE, FUSED_FIRST, (uint16_t)i, at, share->blocks);
            entry_of(entries + ZK_ENTRY_BYTES, WRITE, FUSED_SECOND, (uint16_t)(i + 1), at, share->blocks);
        } else
            entry_of(entries, share->opcode, 0, (uint16_t)i, at, share->blocks);
        if (!is_done(share->port, entries, count, data + i % DATA * 2 * bytes, length, share->cut, 0)) {
            share->failed = 1;
            break;
        }
    }
    share->mallocs = mallocs;
    share->reallocs = reallocs;
    share->frees = frees;
    free(data);
    return NULL;
}

/* Writes all blocks of a share: one that nobody has written has no memory to be read. */
static int write_all(const struct share *share)
{
    uint8_t entry[ZK_ENTRY_BYTES], *data = calloc(share->blocks, share->size);
    int done = data != NULL;
    for (uint64_t place = 0; done && place < share->places; place++) {
        entry_of(entry, WRITE, 0, 0, share->first + place * share->blocks, share->blocks);
        done = is_done(share->port, entry, 1, data, (size_t)share->blocks * share->size, false, 0);
    }
    free(data);
    return done;
}

static long long now(clockid_t clock)
{
    struct timespec at;
    clock_gettime(clock, &at);
    return at.tv_sec * 1000000000LL + at.tv_nsec;
}

static uint64_t state;

static uint32_t drawn(uint32_t below)
{
    state ^= state << 13;
    state ^= state >> 7;
    state ^= state << 17;
    return (uint32_t)(state >> 33) % below;
}

static int answers(unsigned long seed, unsigned long number)
{
    static const uint8_t opcodes[] = { WRITE, WRITE, WRITE, READ, READ, COMPARE, COMPARE, WRITE_UNCORRECTABLE, WRITE_ZEROES, DATASET_MANAGEMENT, 0x00, 0x19 };
    static uint8_t data[2 * 16 * 512 + 256 * RANGE_BYTES];
    struct zk_namespace ns = { 64, 512, 7, 3, 7, 3 };
    struct zk_port port = ZK_PORT_INIT;
    uint64_t sum = 1469598103934665603u;
    state = seed * 2862933555777941757u + 1;
    if (zk_open(&port, 1, &ns, ZK_NO_LIMIT, false) != ZK_DONE)
        return 1;
    for (unsigned long i = 0; i < number; i++) {
        uint8_t entries[2 * ZK_ENTRY_BYTES], told[2 * ZK_COMPLETION_BYTES] = { 0 };
        bool is_pair = drawn(5) == 0;
        size_t length = 0, count = is_pair ? 2 : 1;
        uint64_t at = drawn(20) ? drawn(60) : 64 - drawn(4);
        for (size_t k = 0; k < count; k++) {
            uint8_t *entry = entries + k * ZK_ENTRY_BYTES, opcode = is_pair && drawn(30) ? (k ? WRITE : COMPARE) : opcodes[drawn(sizeof opcodes)];
            uint32_t blocks = is_pair && k && drawn(30) ? entries[48] + 1u : 1 + drawn(drawn(4) ? 4 : 12);
            entry_of(entry, opcode, is_pair ? (uint8_t)(k + 1) : drawn(40) ? 0 : (uint8_t)drawn(4), (uint16_t)i, is_pair && k && drawn(30) ? at : at + (k ? drawn(2) : 0), blocks);
            if (drawn(40) == 0)
                entry[4] = 2;
            if (opcode == DATASET_MANAGEMENT) {
                uint32_t ranges = 1 + drawn(3);
                deallocate_of(entry, (uint16_t)i, ranges);
                entry[1] = is_pair ? (uint8_t)(k + 1) : 0;
                entry[44] = drawn(4) ? DEALLOCATE : 0;
                for (uint32_t r = 0; r < ranges; r++)
                    range_of(data + length + r * RANGE_BYTES, drawn(66), drawn(6));
                length += ranges * RANGE_BYTES;
            } else if (opcode == WRITE || opcode == COMPARE || (opcode == READ && !is_pair)) {
                for (uint32_t b = 0; b < blocks; b++)
                    memset(data + length + b * 512, (int)drawn(3), 512);
                length += blocks * 512u;
            }
        }
        int code = zk_submit(&port, entries, count * ZK_ENTRY_BYTES, data, length, told, count * ZK_COMPLETION_BYTES);
        sum = (sum ^ (uint64_t)code) * 1099511628211u;
        for (size_t b = 0; b < sizeof told; b++)
            sum = (sum ^ told[b]) * 1099511628211u;
        for (size_t b = 0; code == ZK_DONE && status_of(told) == 0 && b < length; b++)
            sum = (sum ^ data[b]) * 1099511628211u;
    }
    printf("%016llx\n", (unsigned long long)sum);
    return zk_close(&port) != ZK_DONE;
}

int main(int words, char **word)
{
    static const char *const names[] = { "pair", "write", "read", "compare", "cut" };
    static const uint8_t opcodes[] = { 0, WRITE, READ, COMPARE, 0 };
    struct zk_port ports[ZK_MOST_PORTS];
    struct share shares[ZK_MOST_PORTS];
    pthread_t ids[ZK_MOST_PORTS];
    int kind = 0;
    if (words == 4 && !strcmp(word[1], "answers"))
        return answers(strtoul(word[2], NULL, 10), strtoul(word[3], NULL, 10));
    while (words > 1 && kind < 5 && strcmp(word[1], names[kind]))
        kind++;
    if (words < 6 || kind == 5)
        return fprintf(stderr, "c_load write|read|compare|pair|cut BLOCKS SIZE THREADS NUMBER [hot] [recorded], or c_load answers SEED NUMBER\n"), 2;
    uint32_t blocks = (uint32_t)strtoul(word[2], NULL, 10), size = (uint32_t)strtoul(word[3], NULL, 10);
    unsigned long threads = strtoul(word[4], NULL, 10), number = strtoul(word[5], NULL, 10);
    bool hot = words > 6 && !strcmp(word[6], "hot"), recorded = !strcmp(word[words - 1], "recorded");
    uint16_t unit = (uint16_t)(blocks > UNIT ? blocks : UNIT);
    if (!blocks || blocks > MOST_BLOCKS || size > MOST_SIZE || !threads || threads >= ZK_MOST_PORTS)
        return 2;
    struct zk_namespace ns = { (threads + 1) * OWN, size, (uint16_t)(unit - 1), 0, (uint16_t)(unit - 1), (uint16_t)(unit - 1) };
    memset(ports, 0, sizeof ports);
    if (zk_open(ports, threads, &ns, recorded ? ZK_MOST_CHANGES : ZK_NO_LIMIT, false) != ZK_DONE)
        return 1;
    for (unsigned long t = 0; t < threads; t++)
        shares[t] = (struct share){ .port = &ports[t], .opcode = opcodes[kind], .cut = kind == 4, .first = hot ? 0 : t * OWN, .places = hot ? unit / blocks : OWN / blocks, .blocks = blocks, .size = size, .number = number / threads };
    for (unsigned long t = 0; t < threads; t++)
        if (!write_all(&shares[t]))
            return 1;
    long long wall = now(CLOCK_MONOTONIC), processor = now(CLOCK_PROCESS_CPUTIME_ID);
    for (unsigned long t = 1; t < threads; t++)
        if (pthread_create(&ids[t], NULL, do_all, &shares[t]))
            return 1;
    do_all(&shares[0]);
    for (unsigned long t = 1; t < threads; t++)
        pthread_join(ids[t], NULL);
    wall = now(CLOCK_MONOTONIC) - wall;
    processor = now(CLOCK_PROCESS_CPUTIME_ID) - processor;
    unsigned long done = 0, sums[3] = { 0 };
    for (unsigned long t = 0; t < threads; t++) {
        if (shares[t].failed)
            return 1;
        done += shares[t].number;
        sums[0] += shares[t].mallocs;
        sums[1] += shares[t].reallocs;
        sums[2] += shares[t].frees;
    }
    printf("%lu\n", done);
    fprintf(stderr, "%lld %lld", wall, processor);
#ifdef COUNTED
    fprintf(stderr, " %lu %lu %lu", sums[0], sums[1], sums[2]);
#endif
    fprintf(stderr, "\n");
    for (unsigned long t = 0; t < threads; t++)
        zk_close(&ports[t]);
    return 0;
}
