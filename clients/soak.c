/* Has 64 ports of one namespace that isn't recorded do commands of every kind, for minutes or for months, and holds each answer to
 * what the port that asked knows for certain.
 *
 *     soak [--seconds N] [--threads N] [--seed N] [--every SECONDS] [--versions 0]
 *
 * With --versions 0 it opens the namespace without versions, so that a unit is one piece of memory and zk_read_now isn't asked. Without words it runs for 60 seconds with a thread for each port. With fewer threads each has several ports, which it serves in turn.
 * What a port asks for follows from the seed, its number and the command's place alone; when it is done doesn't.
 *
 * A written block is a stamp: who wrote it, the number of that port's change, the command's range, and bytes that follow from these. So a
 * block that was read is zero bytes or one whole stamp, or it is wrong. The namespace has zones:
 *   - A zone of each port, which that port alone changes and all read. What stands there is known exactly, unless a change is under way.
 *   - Three zones that all ports change: one is only written, one is zeroed and deallocated, too, and one is marked uncorrectable, too. Once a
 *     reader has seen a port's change of a block, or that port has told that it is done, none of that port's earlier ones may be read there;
 *     and a stamp that was seen replaced may not come back. Blocks of one atomic unit that are read at once have to be what some order of the
 *     writes leaves.
 *   - Counters, each in two blocks of a unit, which fused pairs alone change. None may be lost.
 * Each N seconds (10 without that word) a line tells on standard error how far it is. It ends with 1 at the first wrong answer, and
 * says what is wrong with it. */
#include <pthread.h>
#include <sched.h>
#include <stdarg.h>
#include <stdatomic.h>
#include <stdbool.h>
#include <stdio.h>
#include <stdlib.h>
#include <string.h>
#include <time.h>
#include <unistd.h>

#include "entries.h"

enum {
    PORTS = ZK_MOST_PORTS,
    BLOCK = 512,
    UNIT = 16,              /* blocks of an atomic unit */
    OFFSET = 5,             /* the first boundary */
    OWN_UNITS = 4,
    SHARED_UNITS = 8,
    COUNTERS = 4,           /* a unit each */
    TWIN = 2,               /* blocks of a counter */
    MOST_BLOCKS = 24,
    MOST_RANGES = 4,
    STUCK = 120             /* seconds in which each port must end a command */
};

/* Zone number p below PORTS is that of port p. */
enum { WRITTEN = PORTS, ZEROED, MARKED, COUNTED, ZONES };

enum {
    OWN_END = OFFSET + (PORTS * OWN_UNITS - 1) * UNIT,
    BLOCKS = OWN_END + (3 * SHARED_UNITS + COUNTERS) * UNIT,
    SLOTS = OWN_END + (BLOCKS - OWN_END) * PORTS
};

enum { SUCCESS = 0x000, FAILED_FUSED = 0x009, UNRECOVERED = 0x281, COMPARE_FAILURE = 0x285 };

/* The state of a block. NOTHING is no state: nobody wrote these bytes. */
enum state { ZERO, MARK, STAMP, NOTHING };

/* Which commands were done, for the totals. */
enum { WRITES, READS, COMPARES, ZEROES, MARKS, DEALLOCATES, PAIRS, PAIRS_FAILED, READS_NOW, READS_NEWER, PENDINGS, COUNTS };

struct stamp {
    uint64_t port, sequence, lba, first, blocks, number;
};

struct range {
    uint64_t first, blocks;
};

/* A command. A change leaves blocks of `state`, and has a sequence number. */
struct asked {
    const char *name;
    uint8_t opcode;
    bool pair, deallocates, counts;
    uint16_t cid;
    struct range range;
    int ranges;
    struct range each[MOST_RANGES];
    enum state state;
    uint64_t sequence, number;
    size_t length;
};

struct port {
    struct zk_port *handle;
    unsigned number;
    uint64_t step, random, sequence;
    bool pending;
    struct asked asked;
    struct range follow;                /* a pair comes next, on what was just read */
    uint64_t least[SLOTS];              /* the least sequence number that may be read */
    struct stamp last[BLOCKS];          /* what was seen or done last, and its state */
    uint8_t last_state[BLOCKS];
    uint64_t least_number[COUNTERS], added[COUNTERS];
    uint64_t before[MOST_BLOCKS];       /* what was told of the blocks before the command */
    struct stamp stamps[MOST_BLOCKS];
    enum state states[MOST_BLOCKS];
    uint8_t data[2 * MOST_BLOCKS * BLOCK], told[2 * ZK_COMPLETION_BYTES];
    uint64_t counts[COUNTS];
    _Atomic uint64_t begun_sequence, ended;
};

static uint64_t seed = 1;
static bool versions = true;
static long long started;
static struct zk_port handles[PORTS];
static struct port ports[PORTS];
static atomic_bool stop;

/* What ports tell one another: by slot the last change that a port has done, as sequence * 4 + state, and in its own zone the last one
 * that it has begun. Of counters the highest number that was written. */
static _Atomic uint64_t done[SLOTS], begun[OWN_END], counted[COUNTERS];

static uint64_t told_of(_Atomic uint64_t *place)
{
    return atomic_load_explicit(place, memory_order_acquire);
}

static void tell(_Atomic uint64_t *place, uint64_t value)
{
    atomic_store_explicit(place, value, memory_order_release);
}

static void raise_to(uint64_t *place, uint64_t value)
{
    if (*place < value)
        *place = value;
}

static long long now(void)
{
    struct timespec at;
    clock_gettime(CLOCK_MONOTONIC, &at);
    return at.tv_sec * 1000000000LL + at.tv_nsec;
}

static uint64_t mixed(uint64_t x)
{
    x = (x ^ x >> 30) * 0xbf58476d1ce4e5b9ull;
    x = (x ^ x >> 27) * 0x94d049bb133111ebull;
    return x ^ x >> 31;
}

/* A random number below `end`. */
static uint64_t below(struct port *p, uint64_t end)
{
    p->random += 0x9e3779b97f4a7c15ull;
    return mixed(p->random) % end;
}

static uint64_t unit_of(uint64_t lba)
{
    return lba < OFFSET ? 0 : 1 + (lba - OFFSET) / UNIT;
}

/* The end of the atomic unit that has the LBA. */
static uint64_t unit_end(uint64_t lba)
{
    return OFFSET + unit_of(lba) * UNIT;
}

static uint64_t lesser(uint64_t a, uint64_t b)
{
    return a < b ? a : b;
}

static unsigned zone_of(uint64_t lba)
{
    if (lba < OWN_END)
        return (unsigned)(unit_of(lba) / OWN_UNITS);
    return WRITTEN + (unsigned)((lba - OWN_END) / (SHARED_UNITS * UNIT));
}

static struct range range_of_zone(unsigned zone)
{
    struct range r;
    if (zone < PORTS) {
        r.first = zone == 0 ? 0 : OFFSET + (zone * OWN_UNITS - 1) * UNIT;
        r.blocks = OFFSET + ((zone + 1) * OWN_UNITS - 1) * UNIT - r.first;
    } else {
        r.first = OWN_END + (zone - WRITTEN) * SHARED_UNITS * UNIT;
        r.blocks = (zone == COUNTED ? COUNTERS : SHARED_UNITS) * UNIT;
    }
    return r;
}

/* The first block of a counter, each at another place of its unit. */
static uint64_t counter_lba(unsigned counter)
{
    return range_of_zone(COUNTED).first + counter * UNIT + 4 * counter;
}

static unsigned counter_of(uint64_t lba)
{
    return (unsigned)((lba - range_of_zone(COUNTED).first) / UNIT);
}

/* The place of what is known of a port's changes of a block. In a zone of one port there is no other. */
static size_t slot(uint64_t lba, uint64_t port)
{
    return lba < OWN_END ? lba : OWN_END + (lba - OWN_END) * PORTS + port;
}

/* The least sequence number of a stamp once the change is done. */
static uint64_t least_after(uint64_t change)
{
    return change == 0 ? 0 : (change >> 2) + ((change & 3) != STAMP);
}

static void write_stamp(uint8_t *block, const struct stamp *s)
{
    uint64_t words[BLOCK / 8] = { 0x706d617453206b5aull, s->port, s->sequence, s->lba, s->first, s->blocks, s->number };
    uint64_t sum = 0;
    for (int i = 0; i < 7; i++)
        sum = mixed(sum + words[i]);
    for (int i = 7; i < BLOCK / 8; i++)
        words[i] = sum ^ (uint64_t)i * 0x9e3779b97f4a7c15ull;
    memcpy(block, words, BLOCK);
}

static enum state state_in(const uint8_t *block, uint64_t lba, struct stamp *s)
{
    static const uint8_t zeroes[BLOCK];
    uint64_t words[7];
    uint8_t whole[BLOCK];
    memcpy(words, block, sizeof words);
    if (words[0] == 0)
        return memcmp(block, zeroes, BLOCK) == 0 ? ZERO : NOTHING;
    *s = (struct stamp) { words[1], words[2], words[3], words[4], words[5], words[6] };
    write_stamp(whole, s);
    return memcmp(block, whole, BLOCK) == 0 && s->lba == lba && s->port < PORTS ? STAMP : NOTHING;
}

static bool is_same_stamp(const struct stamp *a, const struct stamp *b)
{
    return a->port == b->port && a->sequence == b->sequence;
}

static bool covers(const struct stamp *s, uint64_t lba)
{
    return s->first <= lba && lba - s->first < s->blocks;
}

static void tell_block(const uint8_t *block, uint64_t lba)
{
    struct stamp s;
    uint8_t whole[BLOCK];
    int same = 0;
    fprintf(stderr, "  LBA %llu, unit %llu: ", (unsigned long long)lba, (unsigned long long)unit_of(lba));
    switch (state_in(block, lba, &s)) {
    case ZERO:
        fprintf(stderr, "zero bytes\n");
        return;
    case STAMP:
        fprintf(stderr, "port %llu, sequence %llu, of %llu blocks from LBA %llu, number %llu\n", (unsigned long long)s.port,
                (unsigned long long)s.sequence, (unsigned long long)s.blocks, (unsigned long long)s.first, (unsigned long long)s.number);
        return;
    default:
        write_stamp(whole, &s);
        while (same < BLOCK && block[same] == whole[same])
            same++;
        fprintf(stderr, "no whole block; %d bytes are those of port %llu, sequence %llu, LBA %llu:", same, (unsigned long long)s.port,
                (unsigned long long)s.sequence, (unsigned long long)s.lba);
        for (int i = 0; i < BLOCK; i++)
            fprintf(stderr, "%s%02x", i % 32 == 0 ? "\n    " : i % 8 == 0 ? " " : "", block[i]);
        fprintf(stderr, "\n");
    }
}

/* Says what is wrong with an answer, and ends the program. */
static _Noreturn void wrong(const struct port *p, const char *what, ...)
{
    static pthread_mutex_t first = PTHREAD_MUTEX_INITIALIZER;
    const struct asked *a = &p->asked;
    va_list values;
    pthread_mutex_lock(&first);
    fprintf(stderr, "soak: wrong: ");
    va_start(values, what);
    vfprintf(stderr, what, values);
    va_end(values);
    fprintf(stderr, "\n  seed %llu, port %u, its command %llu, after %.1f seconds\n", (unsigned long long)seed, p->number,
            (unsigned long long)p->step, (double)(now() - started) / 1e9);
    if (a->name) {
        fprintf(stderr, "  asked: %s of %llu blocks from LBA %llu, change %llu, answered %x/%02x", a->name,
                (unsigned long long)a->range.blocks, (unsigned long long)a->range.first, (unsigned long long)a->sequence,
                zk_status_type(p->told), zk_status_code(p->told));
        if (a->pair)
            fprintf(stderr, " and %x/%02x", zk_status_type(p->told + ZK_COMPLETION_BYTES), zk_status_code(p->told + ZK_COMPLETION_BYTES));
        fprintf(stderr, "; data:\n");
        for (uint64_t i = 0; i < a->length / BLOCK; i++)
            tell_block(p->data + i * BLOCK, a->range.first + i % a->range.blocks);
        for (int i = 0; i < a->ranges; i++)
            fprintf(stderr, "  range: %llu blocks from LBA %llu\n", (unsigned long long)a->each[i].blocks, (unsigned long long)a->each[i].first);
    }
    fflush(stderr);
    _exit(1);
}

/* Before a look: takes what ports have told of the blocks. Nothing from before may be read. */
static void prepare_look(struct port *p, struct range r)
{
    for (uint64_t i = 0; i < r.blocks; i++) {
        uint64_t lba = r.first + i;
        if (lba < OWN_END) {
            p->before[i] = told_of(&done[lba]);
            raise_to(&p->least[lba], least_after(p->before[i]));
            continue;
        }
        for (unsigned port = 0; port < PORTS; port++)
            raise_to(&p->least[slot(lba, port)], least_after(told_of(&done[slot(lba, port)])));
        if (zone_of(lba) == COUNTED)
            raise_to(&p->least_number[counter_of(lba)], told_of(&counted[counter_of(lba)]));
    }
}

/* After a look: whether the state of block `i` of the range was that of `before` all the while. */
static bool is_known(const struct port *p, struct range r, uint64_t i)
{
    uint64_t lba = r.first + i;
    return lba < OWN_END && (zone_of(lba) == p->number || told_of(&begun[lba]) == p->before[i]);
}

/* The block isn't any more what it was. */
static void replaced(struct port *p, uint64_t lba)
{
    if (p->last_state[lba] == STAMP)
        raise_to(&p->least[slot(lba, p->last[lba].port)], p->last[lba].sequence + 1);
}

/* Whether writes exist in some order that leave these stamps in one unit at one time: a stamp that was written over a block which
 * now has another is older than that one. */
static bool have_order(const struct port *p, uint64_t first, uint64_t begin, uint64_t end)
{
    uint32_t older[MOST_BLOCKS] = { 0 };
    uint64_t same[MOST_BLOCKS];
    for (uint64_t i = begin; i < end; i++) {
        same[i] = i;
        for (uint64_t j = begin; j < i && p->states[i] == STAMP && same[i] == i; j++)
            if (p->states[j] == STAMP && is_same_stamp(&p->stamps[i], &p->stamps[j]))
                same[i] = j;
    }
    for (uint64_t i = begin; i < end; i++)
        for (uint64_t j = begin; j < end; j++) {
            const struct stamp *a = &p->stamps[i], *b = &p->stamps[j];
            if (p->states[i] == STAMP && p->states[j] == STAMP && same[i] != same[j]
                && (covers(a, first + j) || (a->port == b->port && a->sequence < b->sequence)))
                older[same[i]] |= 1u << same[j];
        }
    for (uint64_t k = begin; k < end; k++)
        for (uint64_t i = begin; i < end; i++)
            if (older[i] >> k & 1)
                older[i] |= older[k];
    for (uint64_t i = begin; i < end; i++)
        if (older[i] >> i & 1)
            return false;
    return true;
}

/* Judges a stamp by itself. */
static void judge_stamp(const struct port *p, const struct stamp *s, uint64_t lba)
{
    if (!covers(s, lba))
        wrong(p, "LBA %llu holds a stamp of another range", (unsigned long long)lba);
    if (zone_of(lba) < PORTS && s->port != zone_of(lba))
        wrong(p, "LBA %llu holds a stamp of port %llu, which doesn't write there", (unsigned long long)lba, (unsigned long long)s->port);
    if (s->sequence > told_of(&ports[s->port].begun_sequence))
        wrong(p, "LBA %llu holds a change that port %llu hasn't begun", (unsigned long long)lba, (unsigned long long)s->port);
}

/* Judges a block by what the port knows of changes there. */
static void judge_block(const struct port *p, struct range r, uint64_t i)
{
    uint64_t lba = r.first + i;
    const struct stamp *s = &p->stamps[i];
    enum state state = p->states[i];
    if (state == STAMP && s->sequence < p->least[slot(lba, s->port)])
        wrong(p, "LBA %llu is older than port %llu's change %llu, which was seen or done there", (unsigned long long)lba,
              (unsigned long long)s->port, (unsigned long long)p->least[slot(lba, s->port)]);
    if (state == STAMP && zone_of(lba) == COUNTED && s->number < p->least_number[counter_of(lba)])
        wrong(p, "the counter at LBA %llu went back from %llu to %llu", (unsigned long long)lba,
              (unsigned long long)p->least_number[counter_of(lba)], (unsigned long long)s->number);
    if (state == ZERO && (zone_of(lba) == WRITTEN || zone_of(lba) == COUNTED))
        for (unsigned port = 0; port < PORTS; port++)
            if (p->least[slot(lba, port)])
                wrong(p, "LBA %llu is zero bytes, though port %u wrote it and nobody zeroes it", (unsigned long long)lba, port);
    if (is_known(p, r, i)) {
        uint64_t due = p->before[i];
        if (state != (due & 3) || (state == STAMP && s->sequence != due >> 2))
            wrong(p, "LBA %llu isn't what change %llu of its port left there, which is %s", (unsigned long long)lba,
                  (unsigned long long)(due >> 2), (due & 3) == STAMP ? "a stamp" : (due & 3) == MARK ? "uncorrectable" : "zero bytes");
    }
}

/* Judges blocks that were read, or that a comparison found equal. */
static void judge_blocks(struct port *p, struct range r, const uint8_t *data)
{
    for (uint64_t i = 0; i < r.blocks; i++) {
        p->states[i] = state_in(data + i * BLOCK, r.first + i, &p->stamps[i]);
        if (p->states[i] == NOTHING)
            wrong(p, "LBA %llu isn't zero bytes and isn't one whole stamp", (unsigned long long)(r.first + i));
        if (p->states[i] == STAMP)
            judge_stamp(p, &p->stamps[i], r.first + i);
    }
    for (uint64_t i = 0; i < r.blocks; i++) {
        const struct stamp *s = &p->stamps[i];
        uint64_t lba = r.first + i, end = unit_end(lba);
        if (p->states[i] != STAMP || (p->last_state[lba] == STAMP && is_same_stamp(s, &p->last[lba])))
            continue;
        for (uint64_t at = s->first; at < s->first + s->blocks && at < end; at++)
            if (unit_of(at) == unit_of(lba) && at != lba)
                raise_to(&p->least[slot(at, s->port)], s->sequence);
    }
    for (uint64_t i = 0; i < r.blocks; i++)
        judge_block(p, r, i);
    for (uint64_t begin = 0; begin < r.blocks;) {
        uint64_t end = lesser(r.blocks, unit_end(r.first + begin) - r.first);
        if (!have_order(p, r.first, begin, end))
            wrong(p, "the blocks of unit %llu are torn: no order of their writes leaves these at one time",
                  (unsigned long long)unit_of(r.first + begin));
        begin = end;
    }
    for (uint64_t i = 0; i < r.blocks; i++) {
        const struct stamp *s = &p->stamps[i];
        uint64_t lba = r.first + i;
        if (p->states[i] == STAMP) {
            if (p->last_state[lba] == STAMP && is_same_stamp(s, &p->last[lba]))
                continue;
            replaced(p, lba);
            raise_to(&p->least[slot(lba, s->port)], s->sequence);
            if (zone_of(lba) == COUNTED)
                raise_to(&p->least_number[counter_of(lba)], s->number);
            p->last[lba] = *s;
        } else {
            replaced(p, lba);
        }
        p->last_state[lba] = (uint8_t)p->states[i];
    }
}

/* Judges that one of the blocks was found uncorrectable. */
static void judge_unrecovered(struct port *p, struct range r)
{
    bool may = zone_of(r.first) == MARKED;
    for (uint64_t i = 0; i < r.blocks && zone_of(r.first) < PORTS; i++)
        may |= !is_known(p, r, i) || (p->before[i] & 3) == MARK;
    if (!may)
        wrong(p, "none of the blocks is uncorrectable");
    if (r.blocks == 1) {
        replaced(p, r.first);
        p->last_state[r.first] = MARK;
    }
}

/* How a comparison with the data ends, or -1 where the port can't know: in each unit a mark decides before any byte. */
static int comparison(const struct port *p, struct range r)
{
    struct stamp s;
    for (uint64_t i = 0; i < r.blocks; i++)
        if (!is_known(p, r, i))
            return -1;
    for (uint64_t i = 0; i < r.blocks;) {
        uint64_t end = lesser(r.blocks, unit_end(r.first + i) - r.first);
        bool differs = false;
        for (; i < end; i++) {
            enum state state = state_in(p->data + i * BLOCK, r.first + i, &s);
            if ((p->before[i] & 3) == MARK)
                return UNRECOVERED;
            differs |= state != (p->before[i] & 3) || (state == STAMP && (s.port != zone_of(r.first) || s.sequence != p->before[i] >> 2));
        }
        if (differs)
            return COMPARE_FAILURE;
    }
    return SUCCESS;
}

static void judge_comparison(struct port *p, struct range r, uint16_t status)
{
    int due = comparison(p, r);
    if (due >= 0 && due != status)
        wrong(p, "the comparison ends with %x/%02x, and not %x/%02x", status >> 8, status & 0xff, due >> 8, due & 0xff);
    if (status == SUCCESS)
        judge_blocks(p, r, p->data);
    else if (status == UNRECOVERED)
        judge_unrecovered(p, r);
    else if (status != COMPARE_FAILURE)
        wrong(p, "a comparison doesn't end so");
}

/* A change of the port's own is done. */
static void change(struct port *p, struct range r)
{
    const struct asked *a = &p->asked;
    uint64_t told = a->sequence << 2 | a->state;
    for (uint64_t lba = r.first; lba < r.first + r.blocks; lba++) {
        replaced(p, lba);
        p->last_state[lba] = (uint8_t)a->state;
        p->last[lba] = (struct stamp) { p->number, a->sequence, lba, r.first, r.blocks, a->number };
        p->least[slot(lba, p->number)] = least_after(told);
        tell(&done[slot(lba, p->number)], told);
    }
}

/* Tells of a change in the port's own zone that it is begun, or that it wasn't done after all. */
static void tell_begun(struct port *p, struct range r, bool is_begun)
{
    for (uint64_t lba = r.first; lba < r.first + r.blocks && lba < OWN_END; lba++)
        tell(&begun[lba], is_begun ? p->asked.sequence << 2 | p->asked.state : told_of(&done[lba]));
}

static void judge_pair(struct port *p)
{
    const struct asked *a = &p->asked;
    uint16_t compared = status_of(p->told), written = status_of(p->told + ZK_COMPLETION_BYTES);
    judge_comparison(p, a->range, compared);
    if (written != (compared == SUCCESS ? SUCCESS : FAILED_FUSED))
        wrong(p, "the Write of a pair doesn't end so");
    p->counts[compared == SUCCESS ? PAIRS : PAIRS_FAILED]++;
    if (compared != SUCCESS) {
        tell_begun(p, a->range, false);
        return;
    }
    change(p, a->range);
    if (a->counts) {
        unsigned counter = counter_of(a->range.first);
        uint64_t number = told_of(&counted[counter]);
        while (number < a->number && !atomic_compare_exchange_weak(&counted[counter], &number, a->number))
            ;
        raise_to(&p->least_number[counter], a->number);
        p->added[counter]++;
    }
}

static void judge_completion(const struct port *p, const uint8_t *told, uint16_t cid)
{
    static const uint8_t zeroes[10];
    if (memcmp(told, zeroes, sizeof zeroes) != 0 || little(told + 10, 2) != p->number + 1u || zk_cid(told) != cid || (told[14] & 1)
        || told[15] >> 4)
        wrong(p, "the completion is %016llx %016llx, of CID %u", (unsigned long long)little(told, 8), (unsigned long long)little(told + 8, 8), cid);
}

/* Judges what ZK_DONE came with. */
static void judge(struct port *p)
{
    const struct asked *a = &p->asked;
    uint16_t status = status_of(p->told);
    judge_completion(p, p->told, a->cid);
    p->pending = false;
    if (a->pair) {
        judge_completion(p, p->told + ZK_COMPLETION_BYTES, (uint16_t)(a->cid + 1));
        judge_pair(p);
    } else if (a->opcode == COMPARE) {
        p->counts[COMPARES]++;
        judge_comparison(p, a->range, status);
    } else if (a->opcode == READ) {
        p->counts[READS]++;
        if (status == SUCCESS)
            judge_blocks(p, a->range, p->data);
        else if (status == UNRECOVERED)
            judge_unrecovered(p, a->range);
        else
            wrong(p, "a Read doesn't end so");
    } else {
        p->counts[a->opcode == WRITE ? WRITES : a->opcode == WRITE_ZEROES ? ZEROES : a->opcode == DATASET_MANAGEMENT ? DEALLOCATES : MARKS]++;
        if (status != SUCCESS)
            wrong(p, "a change doesn't end so");
        if (a->opcode != DATASET_MANAGEMENT)
            change(p, a->range);
        for (int i = 0; i < a->ranges && a->deallocates; i++)
            change(p, a->each[i]);
    }
    atomic_store_explicit(&p->ended, atomic_load_explicit(&p->ended, memory_order_relaxed) + 1, memory_order_relaxed);
}

/* Judges the code of a submission or a poll, and what came with it. Whether the command is done. */
static bool judge_code(struct port *p, int code)
{
    if (code == ZK_PENDING) {
        p->pending = true;
        p->counts[PENDINGS]++;
        return false;
    }
    if (code != ZK_DONE)
        wrong(p, "a call answers code %d", code);
    judge(p);
    return true;
}

/* Submits the command, which has its data already. */
static bool submit(struct port *p)
{
    struct asked *a = &p->asked;
    uint8_t entries[2 * ZK_ENTRY_BYTES];
    a->cid = (uint16_t)p->step;
    if (a->opcode == DATASET_MANAGEMENT) {
        deallocate_of(entries, a->cid, (uint32_t)a->ranges);
        if (!a->deallocates)
            entries[44] = 0;
    } else {
        entry_of(entries, a->opcode, a->pair ? FUSED_FIRST : 0, a->cid, a->range.first, (uint32_t)a->range.blocks);
        entry_of(entries + ZK_ENTRY_BYTES, WRITE, FUSED_SECOND, (uint16_t)(a->cid + 1), a->range.first, (uint32_t)a->range.blocks);
    }
    if (a->opcode == READ || a->opcode == COMPARE)
        prepare_look(p, a->range);
    if (a->sequence) {
        tell(&p->begun_sequence, a->sequence);
        if (a->opcode != DATASET_MANAGEMENT)
            tell_begun(p, a->range, true);
        for (int i = 0; i < a->ranges && a->deallocates; i++)
            tell_begun(p, a->each[i], true);
    }
    memset(p->told, 0xa5, sizeof p->told);
    size_t count = a->pair ? 2 : 1;
    return judge_code(p, zk_submit(p->handle, entries, count * ZK_ENTRY_BYTES, p->data, a->length, p->told, count * ZK_COMPLETION_BYTES));
}

static bool poll(struct port *p)
{
    return judge_code(p, zk_poll(p->handle, p->data, p->asked.length, p->told, (p->asked.pair ? 2 : 1) * ZK_COMPLETION_BYTES));
}

static void read_now(struct port *p)
{
    const struct asked *a = &p->asked;
    struct zk_status status = { 0xa5, 0xa5 };
    prepare_look(p, a->range);
    int code = zk_read_now(p->handle, a->range.first, (uint16_t)(a->range.blocks - 1), p->data, a->length, &status);
    memset(p->told, 0, sizeof p->told);
    if (code == ZK_DONE) {
        p->told[15] = (uint8_t)(status.type << 1 | status.code >> 7);
        p->told[14] = (uint8_t)(status.code << 1);
    }
    if (code == ZK_NEWER && zone_of(a->range.first) != p->number) {
        p->counts[READS_NEWER]++;
        return;
    }
    p->counts[READS_NOW]++;
    if (code != ZK_DONE)
        wrong(p, "zk_read_now answers code %d", code);
    else if (status.type == 0 && status.code == 0)
        judge_blocks(p, a->range, p->data);
    else if (status.type == 2 && status.code == 0x81)
        judge_unrecovered(p, a->range);
    else
        wrong(p, "zk_read_now doesn't end so");
}

/* A range of a zone. In a zone of all ports half of them begin in the first unit. */
static struct range some_range(struct port *p, unsigned zone, bool in_one_unit)
{
    struct range whole = range_of_zone(zone), r;
    uint64_t kind = below(p, 20), places = zone >= PORTS && below(p, 2) ? UNIT : whole.blocks;
    r.first = whole.first + below(p, places);
    r.blocks = kind < 10 ? 1 : kind < 17 ? 2 + below(p, 7) : 9 + below(p, MOST_BLOCKS - 8);
    r.blocks = lesser(r.blocks, whole.first + whole.blocks - r.first);
    if (in_one_unit)
        r.blocks = lesser(r.blocks, unit_end(r.first) - r.first);
    return r;
}

/* A zone to look at: one's own, another port's, or one of all ports. */
static unsigned some_zone(struct port *p)
{
    uint64_t kind = below(p, 10);
    return kind < 3 ? p->number : kind < 5 ? (unsigned)below(p, PORTS) : WRITTEN + (unsigned)below(p, 4);
}

/* A zone to change: one's own, or one of all ports from `first` to MARKED. */
static unsigned some_zone_from(struct port *p, unsigned first)
{
    return below(p, 2) ? p->number : first + (unsigned)below(p, MARKED + 1 - first);
}

/* Blocks to compare with: what the port saw last, and now and then a block that nobody wrote. */
static void blocks_seen(struct port *p, struct range r)
{
    for (uint64_t i = 0; i < r.blocks; i++) {
        if (p->last_state[r.first + i] == STAMP)
            write_stamp(p->data + i * BLOCK, &p->last[r.first + i]);
        else
            memset(p->data + i * BLOCK, 0, BLOCK);
    }
    if (below(p, 16) == 0)
        p->data[below(p, r.blocks * BLOCK)] ^= (uint8_t)(1 + below(p, 255));
}

static void stamps(struct port *p, uint8_t *data)
{
    struct asked *a = &p->asked;
    for (uint64_t i = 0; i < a->range.blocks; i++) {
        struct stamp s = { p->number, a->sequence, a->range.first + i, a->range.first, a->range.blocks, a->number };
        write_stamp(data + i * BLOCK, &s);
    }
}

static void ask(struct port *p, const char *name, uint8_t opcode, struct range r, enum state state)
{
    p->asked = (struct asked) { .name = name, .opcode = opcode, .range = r, .state = state };
    if (opcode != READ && opcode != COMPARE)
        p->asked.sequence = ++p->sequence;
}

static bool ask_read(struct port *p, struct range r)
{
    ask(p, "Read", READ, r, NOTHING);
    p->asked.length = r.blocks * BLOCK;
    memset(p->data, 0xee, p->asked.length);
    return submit(p);
}

static bool ask_pair(struct port *p, struct range r)
{
    ask(p, "Compare and Write", COMPARE, r, STAMP);
    struct asked *a = &p->asked;
    a->pair = true;
    a->sequence = ++p->sequence;
    a->length = 2 * r.blocks * BLOCK;
    a->counts = zone_of(r.first) == COUNTED;
    if (a->counts)
        a->number = (p->last_state[r.first] == STAMP ? p->last[r.first].number : 0) + 1;
    blocks_seen(p, r);
    stamps(p, p->data + r.blocks * BLOCK);
    return submit(p);
}

static bool ask_deallocate(struct port *p)
{
    ask(p, "Dataset Management", DATASET_MANAGEMENT, (struct range) { 0, 0 }, ZERO);
    struct asked *a = &p->asked;
    a->deallocates = below(p, 8);
    a->ranges = 1 + (int)below(p, MOST_RANGES);
    a->length = (size_t)a->ranges * RANGE_BYTES;
    for (int i = 0; i < a->ranges; i++) {
        a->each[i] = some_range(p, some_zone_from(p, ZEROED), false);
        if (below(p, 8) == 0)
            a->each[i].blocks = 0;
        range_of(p->data + i * RANGE_BYTES, a->each[i].first, (uint32_t)a->each[i].blocks);
    }
    return submit(p);
}

/* Begins the next command. Whether it is done. */
static bool begin(struct port *p)
{
    p->step++;
    p->random = mixed(seed + mixed((uint64_t)p->number << 48 ^ p->step));
    if (p->follow.blocks) {
        struct range r = p->follow;
        p->follow.blocks = 0;
        return ask_pair(p, r);
    }
    uint64_t kind = below(p, 100);
    if (kind < 26) {
        ask(p, "Write", WRITE, some_range(p, some_zone_from(p, WRITTEN), false), STAMP);
        p->asked.length = p->asked.range.blocks * BLOCK;
        stamps(p, p->data);
        return submit(p);
    }
    if (kind < 48)
        return ask_read(p, some_range(p, some_zone(p), false));
    if (kind < 60 && !versions)
        return ask_read(p, some_range(p, some_zone(p), true));
    if (kind < 60) {
        ask(p, "zk_read_now", READ, some_range(p, some_zone(p), true), NOTHING);
        p->asked.length = p->asked.range.blocks * BLOCK;
        memset(p->data, 0xee, p->asked.length);
        read_now(p);
        return true;
    }
    if (kind < 68) {
        ask(p, "Compare", COMPARE, some_range(p, some_zone(p), false), NOTHING);
        p->asked.length = p->asked.range.blocks * BLOCK;
        blocks_seen(p, p->asked.range);
        return submit(p);
    }
    if (kind < 74) {
        ask(p, "Write Zeroes", WRITE_ZEROES, some_range(p, some_zone_from(p, ZEROED), false), ZERO);
        return submit(p);
    }
    if (kind < 78) {
        ask(p, "Write Uncorrectable", WRITE_UNCORRECTABLE, some_range(p, some_zone_from(p, MARKED), false), MARK);
        return submit(p);
    }
    if (kind < 82)
        return ask_deallocate(p);
    if (kind < 86)
        return ask_pair(p, some_range(p, some_zone_from(p, WRITTEN), true));
    /* What is read now is compared next. */
    p->follow = kind < 94 ? some_range(p, some_zone_from(p, WRITTEN), true)
                          : (struct range) { counter_lba((unsigned)below(p, COUNTERS)), TWIN };
    return ask_read(p, p->follow);
}

static void finish(struct port *p)
{
    while (p->pending)
        if (!poll(p))
            sched_yield();
}

struct share {
    unsigned number, threads;
};

static void *work(void *given)
{
    const struct share *share = given;
    while (!atomic_load_explicit(&stop, memory_order_relaxed)) {
        bool any = false;
        for (unsigned i = share->number; i < PORTS; i += share->threads)
            any |= ports[i].pending ? poll(&ports[i]) : begin(&ports[i]);
        if (!any)
            sched_yield();
    }
    for (unsigned i = share->number; i < PORTS; i += share->threads) {
        struct port *p = &ports[i];
        struct range zone = range_of_zone(p->number);
        finish(p);
        for (uint64_t lba = zone.first; lba < zone.first + zone.blocks; lba++) {
            ask_read(p, (struct range) { lba, 1 });
            finish(p);
        }
    }
    return NULL;
}

/* The resident memory in KB. */
static long resident(void)
{
    char line[256];
    long size = -1;
    FILE *file = fopen("/proc/self/status", "r");
    while (file && fgets(line, sizeof line, file))
        if (sscanf(line, "VmRSS: %ld", &size) == 1)
            break;
    if (file)
        fclose(file);
    return size;
}

static uint64_t commands(void)
{
    uint64_t sum = 0;
    for (int i = 0; i < PORTS; i++)
        sum += atomic_load_explicit(&ports[i].ended, memory_order_relaxed);
    return sum;
}

/* Stops where a port has ended no command for long. */
static void watch_ports(void)
{
    static uint64_t ended[PORTS];
    static long long since[PORTS];
    for (int i = 0; i < PORTS; i++) {
        uint64_t count = atomic_load_explicit(&ports[i].ended, memory_order_relaxed);
        if (count != ended[i] || since[i] == 0) {
            ended[i] = count;
            since[i] = now();
        } else if (now() - since[i] > STUCK * 1000000000LL) {
            fprintf(stderr, "soak: wrong: port %d has ended no command for %d seconds, after %llu\n", i, STUCK, (unsigned long long)count);
            _exit(1);
        }
    }
}

/* Waits for the end, and tells how far it is. Gives the resident memory after the first minute, or after half of a shorter run. */
static long watch(double seconds, double every)
{
    double told = 0, minute = seconds < 120 ? seconds / 2 : 60;
    uint64_t before = 0;
    long first = -1;
    for (double at = 0; at < seconds; at = (double)(now() - started) / 1e9) {
        struct timespec pause = { 0, 50000000 };
        nanosleep(&pause, NULL);
        watch_ports();
        if (first < 0 && at >= minute)
            first = resident();
        if (at - told >= every) {
            uint64_t count = commands();
            fprintf(stderr, "soak: minute %.1f, %llu commands, %.0f a second, resident %ld KB, wrong 0\n", at / 60,
                    (unsigned long long)count, (double)(count - before) / (at - told), resident());
            before = count;
            told = at;
        }
    }
    return first < 0 ? resident() : first;
}

/* Each counter must have what all ports added. */
static void judge_counters(void)
{
    struct port *p = &ports[0];
    for (unsigned counter = 0; counter < COUNTERS; counter++) {
        uint64_t lba = counter_lba(counter), sum = 0;
        for (int i = 0; i < PORTS; i++)
            sum += ports[i].added[counter];
        ask_read(p, (struct range) { lba, TWIN });
        finish(p);
        if (p->last_state[lba] == STAMP ? p->last[lba].number != sum : sum != 0)
            wrong(p, "the ports added %llu to the counter at LBA %llu", (unsigned long long)sum, (unsigned long long)lba);
    }
}

/* Runs, and prints the totals. */
static int soak(unsigned threads, double seconds, double every)
{
    static const char *names[COUNTS] = { "Writes", "Reads", "Compares", "Write Zeroes", "Write Uncorrectables", "Deallocates", "pairs",
                                         "failed pairs", "zk_read_now", "zk_read_now newer", "pending" };
    struct zk_namespace ns = { BLOCKS, BLOCK, UNIT - 1, OFFSET, UNIT - 1, UNIT - 1 };
    static struct share shares[PORTS];
    static pthread_t ids[PORTS];
    memset(ports, 0, sizeof ports);
    for (unsigned i = 0; i < PORTS; i++) {
        ports[i].number = i;
        ports[i].handle = &handles[i];
    }
    int code = zk_open(handles, PORTS, &ns, ZK_NO_LIMIT, versions);
    if (code != ZK_DONE) {
        fprintf(stderr, "soak: zk_open answers code %d\n", code);
        return 1;
    }
    started = now();
    for (unsigned i = 0; i < threads; i++) {
        shares[i] = (struct share) { i, threads };
        if (pthread_create(&ids[i], NULL, work, &shares[i])) {
            fprintf(stderr, "soak: no thread\n");
            return 1;
        }
    }
    long first = watch(seconds, every), last = resident();
    atomic_store(&stop, true);
    for (unsigned i = 0; i < threads; i++)
        pthread_join(ids[i], NULL);
    double took = (double)(now() - started) / 1e9;
    judge_counters();
    printf("%d ports by %u threads, %.1f minutes from seed %llu: %llu commands, each answer right", PORTS, threads, took / 60,
           (unsigned long long)seed, (unsigned long long)commands());
    for (int kind = 0; kind < COUNTS; kind++) {
        uint64_t sum = 0;
        for (int i = 0; i < PORTS; i++)
            sum += ports[i].counts[kind];
        printf("%s %llu %s", kind ? "," : ":", (unsigned long long)sum, names[kind]);
    }
    printf("; resident %ld KB after %.0f seconds, %ld KB at the end\n", first, seconds < 120 ? seconds / 2 : 60, last);
    for (unsigned i = 0; i < PORTS; i++)
        if (zk_close(&handles[i]) != ZK_DONE)
            wrong(&ports[i], "zk_close doesn't close the port");
    return 0;
}

int main(int words, char **word)
{
    double seconds = 60, every = 10;
    unsigned long threads = PORTS;
    for (int i = 1; i < words; i += 2) {
        const char *value = i + 1 < words ? word[i + 1] : "";
        if (*value && strcmp(word[i], "--seconds") == 0)
            seconds = atof(value);
        else if (*value && strcmp(word[i], "--threads") == 0)
            threads = strtoul(value, NULL, 10);
        else if (*value && strcmp(word[i], "--seed") == 0)
            seed = strtoull(value, NULL, 0);
        else if (*value && strcmp(word[i], "--every") == 0)
            every = atof(value);
        else if (strcmp(word[i], "--versions") == 0 && strcmp(value, "0") == 0)
            versions = false;
        else
            threads = 0;
        if (threads < 1 || threads > PORTS || seconds <= 0 || every <= 0) {
            fprintf(stderr, "soak [--seconds N] [--threads N] [--seed N] [--every SECONDS] [--versions 0]\n");
            return 2;
        }
    }
    return soak((unsigned)threads, seconds, every);
}
