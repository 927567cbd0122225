/* Eight threads move money between the accounts of two banks and add to counters, by ports that they hand to one another under a lock, and close some at work.
 *
 *     transfers SECONDS SEED
 *
 * A bank is an atomic unit, and each of its blocks is an account. Who moves money reads the whole bank and writes it back by a fused Compare and
 * Write, so its total never changes: each Read of the bank, and each zk_read_now, must find that. No addition to a counter is lost. Namespaces of which a record
 * is kept have it judged, and in the others ports are closed, some with a command that is pending. It ends with 1 at the first wrong answer. */
#include <pthread.h>
#include <sched.h>
#include <stdbool.h>
#include <stdio.h>
#include <stdlib.h>
#include <string.h>
#include <time.h>

#include "entries.h"

enum {
    THREADS = 8,
    PORTS = 16,
    LEAST_PORTS = 4,        /* so many are left open */
    BLOCK = 512,
    ACCOUNTS = 8,           /* of a bank, which is a unit */
    BANKS = 2,
    COUNTERS = 4,           /* a block each, in a unit of its own */
    WORTH = 1000,           /* of an account at first */
    STEPS = 100             /* of a thread in a namespace */
};

enum { SUCCESS = 0x000, FAILED_FUSED = 0x009, COMPARE_FAILURE = 0x285 };

/* A port, and who has it. */
struct shared {
    struct zk_port *port;
    pthread_mutex_t lock;
    bool open;
};

struct space {
    struct shared *ports;
    bool closes, versions;
    pthread_mutex_t lock;   /* of `left` */
    int left;               /* ports that are open */
};

struct worker {
    struct space *space;
    uint64_t random;
    unsigned long moved, added, failed, seen, closed;
};

#define MUST(holds) do { if (!(holds)) { fprintf(stderr, "transfers: line %d: %s\n", __LINE__, #holds); exit(1); } } while (0)

static uint64_t below(struct worker *w, uint64_t end)
{
    w->random ^= w->random >> 12;
    w->random ^= w->random << 25;
    w->random ^= w->random >> 27;
    return (w->random * 0x2545f4914f6cdd1dull >> 11) % end;
}

/* Goes on with what was submitted until it is done. */
static void finish(struct zk_port *port, int code, uint8_t *data, size_t length, uint8_t *told, size_t count)
{
    while (code == ZK_PENDING) {
        sched_yield();
        code = zk_poll(port, data, length, told, count * ZK_COMPLETION_BYTES);
    }
    MUST(code == ZK_DONE);
}

static void read_blocks(struct zk_port *port, uint64_t lba, uint32_t blocks, uint8_t *data)
{
    uint8_t entry[ZK_ENTRY_BYTES], told[ZK_COMPLETION_BYTES];
    entry_of(entry, READ, 0, 1, lba, blocks);
    size_t length = (size_t)blocks * BLOCK;
    finish(port, zk_submit(port, entry, sizeof entry, data, length, told, sizeof told), data, length, told, 1);
    MUST(status_of(told) == SUCCESS);
}

/* Submits a fused Compare and Write of what stands at `data` and behind it. */
static int submit_pair(struct zk_port *port, uint64_t lba, uint32_t blocks, uint8_t *data, uint8_t *told)
{
    uint8_t entries[2 * ZK_ENTRY_BYTES];
    entry_of(entries, COMPARE, FUSED_FIRST, 2, lba, blocks);
    entry_of(entries + ZK_ENTRY_BYTES, WRITE, FUSED_SECOND, 3, lba, blocks);
    return zk_submit(port, entries, sizeof entries, data, (size_t)2 * blocks * BLOCK, told, 2 * ZK_COMPLETION_BYTES);
}

/* Whether the pair wrote. */
static bool exchanged(struct zk_port *port, uint64_t lba, uint32_t blocks, uint8_t *data)
{
    uint8_t told[2 * ZK_COMPLETION_BYTES];
    finish(port, submit_pair(port, lba, blocks, data, told), data, (size_t)2 * blocks * BLOCK, told, 2);
    uint16_t first = status_of(told), second = status_of(told + ZK_COMPLETION_BYTES);
    MUST((first == SUCCESS && second == SUCCESS) || (first == COMPARE_FAILURE && second == FAILED_FUSED));
    return first == SUCCESS;
}

static uint64_t total(const uint8_t *bank)
{
    uint64_t sum = 0;
    for (int i = 0; i < ACCOUNTS; i++)
        sum += little(bank + i * BLOCK, 8);
    return sum;
}

/* Moves some of an account's money to another one. */
static void transfer(struct worker *w, struct zk_port *port, uint64_t bank)
{
    uint8_t data[2 * ACCOUNTS * BLOCK], *after = data + ACCOUNTS * BLOCK;
    for (;;) {
        read_blocks(port, bank, ACCOUNTS, data);
        MUST(total(data) == ACCOUNTS * WORTH);
        memcpy(after, data, ACCOUNTS * BLOCK);
        uint8_t *from = after + below(w, ACCOUNTS) * BLOCK, *to = after + below(w, ACCOUNTS) * BLOCK;
        uint64_t sum = below(w, little(from, 8) + 1);
        put_little(from, 8, little(from, 8) - sum);
        put_little(to, 8, little(to, 8) + sum);
        if (exchanged(port, bank, ACCOUNTS, data))
            break;
        w->failed++;
    }
    w->moved++;
}

static void add(struct worker *w, struct zk_port *port, uint64_t lba)
{
    uint8_t data[2 * BLOCK];
    for (;;) {
        read_blocks(port, lba, 1, data);
        memcpy(data + BLOCK, data, BLOCK);
        put_little(data + BLOCK, 8, little(data, 8) + 1);
        if (exchanged(port, lba, 1, data))
            break;
        w->failed++;
    }
    w->added++;
}

static void look(struct worker *w, struct zk_port *port, uint64_t bank)
{
    uint8_t data[ACCOUNTS * BLOCK];
    struct zk_status status;
    int code = zk_read_now(port, bank, ACCOUNTS - 1, data, sizeof data, &status);
    MUST(w->space->versions ? code == ZK_DONE || code == ZK_NEWER : code == ZK_NO_VERSIONS);
    if (code == ZK_DONE) {
        MUST(status.type == 0 && status.code == 0 && total(data) == ACCOUNTS * WORTH);
        w->seen++;
    }
}

/* Closes the port, unless few are left; half of the time with a pair that is pending. That one was not done. */
static void close_one(struct worker *w, struct shared *s, uint64_t bank)
{
    pthread_mutex_lock(&w->space->lock);
    bool may = w->space->closes && w->space->left > LEAST_PORTS;
    w->space->left -= may;
    pthread_mutex_unlock(&w->space->lock);
    if (!may)
        return;
    if (below(w, 2)) {
        /* What nobody has in an account: where it isn't pending, it fails. */
        uint8_t data[2 * ACCOUNTS * BLOCK], told[2 * ZK_COMPLETION_BYTES];
        memset(data, 0xee, sizeof data);
        int code = submit_pair(s->port, bank, ACCOUNTS, data, told);
        MUST(code == ZK_PENDING || (code == ZK_DONE && status_of(told) == COMPARE_FAILURE));
    }
    MUST(zk_close(s->port) == ZK_DONE);
    s->open = false;
    w->closed++;
}

static void *work(void *given)
{
    struct worker *w = given;
    for (int step = 0; step < STEPS;) {
        struct shared *s = &w->space->ports[below(w, PORTS)];
        if (pthread_mutex_trylock(&s->lock)) {
            sched_yield();
            continue;
        }
        uint64_t bank = below(w, BANKS) * ACCOUNTS, kind = below(w, 100);
        if (!s->open)
            MUST(zk_close(s->port) == ZK_NOT_OPEN);
        else if (kind < 45)
            transfer(w, s->port, bank);
        else if (kind < 80)
            add(w, s->port, (BANKS + below(w, COUNTERS)) * ACCOUNTS);
        else if (kind < 97)
            look(w, s->port, bank);
        else
            close_one(w, s, bank);
        step++;
        pthread_mutex_unlock(&s->lock);
    }
    return NULL;
}

/* Has the record of what all ports did judged. */
static void judge(struct zk_port *ports)
{
    size_t length = 0;
    uint8_t none;
    char line[ZK_LINE_BYTES];
    MUST(zk_record(ports, PORTS, &none, 0, &length) == ZK_SHORT_ROOM);
    uint8_t *bytes = malloc(length);
    MUST(bytes && zk_record(ports, PORTS, bytes, length, &length) == ZK_DONE);
    MUST(zk_audit(bytes, length, line, sizeof line) == ZK_DONE);
    free(bytes);
}

/* Opens a namespace, puts money into its banks, and has all threads work on it. */
static void round_of(uint64_t number, uint64_t seed, struct worker *sums)
{
    struct zk_namespace ns = { (BANKS + COUNTERS) * ACCOUNTS, BLOCK, ACCOUNTS - 1, 0, ACCOUNTS - 1, ACCOUNTS - 1 };
    struct zk_port ports[PORTS];
    struct shared shared[PORTS];
    bool recorded = number % 3 == 0;
    struct space space = { shared, !recorded, number % 2 == 0, PTHREAD_MUTEX_INITIALIZER, PORTS };
    memset(ports, 0, sizeof ports);
    MUST(zk_open(ports, PORTS, &ns, recorded ? ZK_MOST_CHANGES : ZK_NO_LIMIT, space.versions) == ZK_DONE);
    uint8_t data[ACCOUNTS * BLOCK] = { 0 }, entry[ZK_ENTRY_BYTES], told[ZK_COMPLETION_BYTES];
    for (int i = 0; i < ACCOUNTS; i++)
        put_little(data + i * BLOCK, 8, WORTH);
    for (int i = 0; i < BANKS; i++) {
        entry_of(entry, WRITE, 0, 4, (uint64_t)i * ACCOUNTS, ACCOUNTS);
        MUST(zk_submit(&ports[0], entry, sizeof entry, data, sizeof data, told, sizeof told) == ZK_DONE && status_of(told) == SUCCESS);
    }
    for (int i = 0; i < PORTS; i++) {
        shared[i] = (struct shared) { .port = &ports[i], .open = true };
        MUST(pthread_mutex_init(&shared[i].lock, NULL) == 0);
    }
    struct worker workers[THREADS];
    pthread_t threads[THREADS];
    for (int i = 0; i < THREADS; i++) {
        workers[i] = (struct worker) { .space = &space, .random = (seed + number * THREADS + (uint64_t)i) * 0x9e3779b97f4a7c15ull | 1 };
        MUST(pthread_create(&threads[i], NULL, work, &workers[i]) == 0);
    }
    unsigned long added = 0;
    for (int i = 0; i < THREADS; i++) {
        pthread_join(threads[i], NULL);
        added += workers[i].added;
        sums->moved += workers[i].moved;
        sums->failed += workers[i].failed;
        sums->seen += workers[i].seen;
        sums->closed += workers[i].closed;
    }
    sums->added += added;
    struct shared *open = shared;
    while (!open->open)
        open++;
    for (int i = 0; i < BANKS; i++) {
        read_blocks(open->port, (uint64_t)i * ACCOUNTS, ACCOUNTS, data);
        MUST(total(data) == ACCOUNTS * WORTH);
    }
    for (int i = 0; i < COUNTERS; i++) {
        read_blocks(open->port, (uint64_t)(BANKS + i) * ACCOUNTS, 1, data);
        added -= little(data, 8);
    }
    MUST(added == 0);
    if (recorded)
        judge(ports);
    for (int i = 0; i < PORTS; i++) {
        MUST(zk_close(&ports[i]) == (shared[i].open ? ZK_DONE : ZK_NOT_OPEN));
        pthread_mutex_destroy(&shared[i].lock);
    }
}

int main(int words, char **word)
{
    if (words != 3) {
        fprintf(stderr, "transfers SECONDS SEED\n");
        return 2;
    }
    time_t end = time(NULL) + atol(word[1]);
    uint64_t seed = strtoull(word[2], NULL, 0), rounds = 0;
    struct worker sums = { 0 };
    do
        round_of(rounds++, seed, &sums);
    while (time(NULL) < end);
    printf("%llu namespaces by %d threads from seed %s: %lu transfers, each total kept, %lu additions, none lost, %lu failed pairs, %lu zk_read_now, %lu ports closed\n",
           (unsigned long long)rounds, THREADS, word[2], sums.moved, sums.added, sums.failed, sums.seen, sums.closed);
    return 0;
}
