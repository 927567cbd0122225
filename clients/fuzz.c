/* Calls the library with entries, lengths and numbers of any kind for some seconds, and holds each answer to a small model of
 * what zalkvorn.h says: which codes a call may answer, the completions to the byte, and the data of Reads wherever one thread
 * alone has the atomic unit. What a call must not write is compared with what stood there before.
 *
 *     fuzz SECONDS SEED [THREADS]
 *
 * It ends with 1 at the first wrong answer, and says what was asked. One thread's calls follow from the seed alone. Rounds have
 * 1, 2 .. THREADS threads in turn (4 without that word). Each round opens two namespaces and gives each thread a port of both. */
#include <pthread.h>
#include <sched.h>
#include <stdbool.h>
#include <stdio.h>
#include <stdlib.h>
#include <string.h>
#include <time.h>

#include "entries.h"

#ifndef FUZZ_ROOM
#define FUZZ_ROOM (1 << 20)
#endif

enum { MOST_THREADS = 8, STEPS = 400, ROOM = FUZZ_ROOM, CODES = ZK_NO_VERSIONS + 1 };

/* What one thread knows of a namespace. The blocks in its own zone are changed by nobody else. Those from `shared` up are
 * changed by all threads, and the others by one other thread each. Each zone is whole atomic units. */
struct space {
    struct zk_namespace ns;
    uint32_t limit;
    bool versions, open, alone;
    struct zk_port *port;
    uint16_t place;
    uint64_t own, own_end, shared;
    uint8_t *blocks;
    bool *marked;
    uint32_t *changes;
};

struct command {
    uint8_t opcode, fuse;
    uint16_t cid;
    uint32_t nsid;
    uint64_t slba, blocks;
    bool deallocates;
    size_t called;
    const uint8_t *data;
};

/* What a submission may answer: codes as bits, and pairs of statuses as status1 << 16 | status2. */
struct expected {
    unsigned codes;
    int count;
    uint32_t answers[5];
    struct command first, second;
    bool pair;
};

struct worker {
    uint64_t random;
    uint64_t seed;
    int number;
    struct space spaces[2];
    uint8_t *data, *before;
    unsigned long calls[CODES];
    bool failed;
};

#define BIT(code) (1u << (code))

/* Bytes that choose in the place of random numbers, where one thread is alone: fuzz/calls.c sets them. */
static const uint8_t *choices, *choices_end;

/* A random number below `end`, or one that follows from as many of the bytes that are given as it may need; behind the last it is 0. */
static uint64_t below(struct worker *w, uint64_t end)
{
    if (choices) {
        size_t count = end <= 1 << 8 ? 1 : end <= 1 << 16 ? 2 : 4, left = (size_t)(choices_end - choices);
        uint64_t number = little(choices, count < left ? count : left);
        choices += count < left ? count : left;
        return number % end;
    }
    w->random ^= w->random >> 12;
    w->random ^= w->random << 25;
    w->random ^= w->random >> 27;
    return (w->random * 0x2545f4914f6cdd1dull >> 11) % end;
}

static void fill(struct worker *w, uint8_t *bytes, size_t length)
{
    for (size_t i = 0; i < length; i++)
        bytes[i] = (uint8_t)below(w, 256);
}

static bool wrong(struct worker *w, const char *what, const uint8_t *entries, uint64_t told, uint64_t expected)
{
    flockfile(stderr);
    fprintf(stderr, "fuzz: seed %llu, thread %d: %s: %#llx, and not %#llx\n", (unsigned long long)w->seed, w->number, what,
            (unsigned long long)told, (unsigned long long)expected);
    for (int i = 0; entries && i < 2 * ZK_ENTRY_BYTES; i++)
        fprintf(stderr, "%02x%s", entries[i], i % ZK_ENTRY_BYTES == ZK_ENTRY_BYTES - 1 ? "\n" : " ");
    funlockfile(stderr);
    w->failed = true;
    return false;
}

/* The number of the LBA's atomic unit: how many boundaries above 0 are at most it. */
static uint64_t unit_of(const struct zk_namespace *ns, uint64_t lba)
{
    uint64_t distance = ns->nabsn + 1u;
    if (ns->nabsn == 0 || lba < ns->nabo)
        return 0;
    return (lba - ns->nabo) / distance + (ns->nabo != 0);
}

/* The first LBA of the unit, or NSZE where there is no such unit. */
static uint64_t first_of(const struct zk_namespace *ns, uint64_t unit)
{
    if (unit == 0)
        return 0;
    if (ns->nabsn == 0)
        return ns->nsze;
    uint64_t first = (unit - (ns->nabo != 0)) * (ns->nabsn + 1u) + ns->nabo;
    return first < ns->nsze ? first : ns->nsze;
}

static bool is_served(uint8_t opcode)
{
    return opcode == WRITE || opcode == READ || opcode == WRITE_UNCORRECTABLE || opcode == COMPARE || opcode == WRITE_ZEROES
        || opcode == DATASET_MANAGEMENT;
}

static struct command command_in(const struct space *s, const uint8_t *entry)
{
    struct command c = { .opcode = entry[0], .fuse = entry[1] & 3, .cid = (uint16_t)little(entry + 2, 2) };
    c.nsid = (uint32_t)little(entry + 4, 4);
    c.slba = little(entry + 40, 8);
    c.blocks = little(entry + 48, 2) + 1;
    c.deallocates = entry[44] & DEALLOCATE;
    if (c.opcode == WRITE || c.opcode == COMPARE)
        c.called = c.blocks * s->ns.block_size;
    if (c.opcode == DATASET_MANAGEMENT)
        c.called = (entry[40] + 1u) * RANGE_BYTES;
    return c;
}

static bool ends_above(const struct space *s, uint64_t first, uint64_t blocks)
{
    return first > s->ns.nsze || blocks > s->ns.nsze - first;
}

static uint64_t range_first(const struct command *c, size_t i)
{
    return little(c->data + i * RANGE_BYTES + 8, 8);
}

static uint64_t range_blocks(const struct command *c, size_t i)
{
    return little(c->data + i * RANGE_BYTES + 4, 4);
}

/* The status of a command by itself that is refused before anything is done, or -1. */
static int refusal(const struct space *s, const struct command *c)
{
    if (!is_served(c->opcode))
        return 0x001;
    if (c->fuse == 3)
        return 0x002;
    if (c->fuse)
        return 0x00a;
    if (c->nsid != 1)
        return 0x00b;
    if (c->opcode != DATASET_MANAGEMENT)
        return ends_above(s, c->slba, c->blocks) ? 0x080 : -1;
    for (size_t i = 0; i < c->called / RANGE_BYTES; i++)
        if (ends_above(s, range_first(c, i), range_blocks(c, i)))
            return 0x080;
    return -1;
}

/* The statuses of a pair that is refused, or 0. */
static uint32_t pair_refusal(const struct space *s, const struct command *c, const struct command *d)
{
    if (c->opcode != COMPARE || d->opcode != WRITE)
        return 0x0020002;
    if (c->nsid != 1 || d->nsid != 1)
        return 0x00b0009;
    if (c->slba != d->slba || c->blocks != d->blocks)
        return 0x0020002;
    if (ends_above(s, c->slba, c->blocks))
        return 0x0800009;
    if (c->blocks > s->ns.nacwu + 1u || unit_of(&s->ns, c->slba) != unit_of(&s->ns, c->slba + c->blocks - 1))
        return 0x0140009;
    return 0;
}

static bool is_own(const struct space *s, uint64_t lba)
{
    return s->own <= lba && lba < s->own_end;
}

static bool all_own(const struct space *s, uint64_t first, uint64_t blocks)
{
    return s->own <= first && first + blocks <= s->own_end;
}

/* Whether this thread may change all of these blocks. */
static bool may_change(const struct space *s, uint64_t first, uint64_t blocks)
{
    for (uint64_t lba = first; lba < first + blocks; lba++)
        if (!is_own(s, lba) && lba < s->shared)
            return false;
    return true;
}

static bool changes_others(const struct space *s, const struct command *c)
{
    if (c->opcode == DATASET_MANAGEMENT) {
        for (size_t i = 0; c->deallocates && i < c->called / RANGE_BYTES; i++)
            if (!may_change(s, range_first(c, i), range_blocks(c, i)))
                return true;
        return false;
    }
    return c->opcode != READ && c->opcode != COMPARE && !may_change(s, c->slba, c->blocks);
}

static void may_answer(struct expected *x, uint32_t answer)
{
    x->answers[x->count++] = answer;
}

/* The block at the LBA after the command, if it has to do with it. */
static void put(struct space *s, const struct command *c, uint64_t lba)
{
    uint8_t *block = s->blocks + lba * s->ns.block_size;
    bool about = c->opcode != DATASET_MANAGEMENT;
    for (size_t i = 0; !about && i < c->called / RANGE_BYTES; i++)
        about = range_first(c, i) <= lba && lba - range_first(c, i) < range_blocks(c, i);
    if (!about)
        return;
    s->marked[lba] = c->opcode == WRITE_UNCORRECTABLE;
    if (c->opcode == WRITE)
        memcpy(block, c->data + (lba - c->slba) * s->ns.block_size, s->ns.block_size);
    else
        memset(block, 0, s->ns.block_size);
}

/* Whether the command has a block in the unit. */
static bool meets(const struct space *s, const struct command *c, uint64_t unit)
{
    uint64_t first = first_of(&s->ns, unit), end = first_of(&s->ns, unit + 1);
    if (c->opcode != DATASET_MANAGEMENT)
        return c->slba < end && first < c->slba + c->blocks;
    for (size_t i = 0; i < c->called / RANGE_BYTES; i++)
        if (range_blocks(c, i) && range_first(c, i) < end && first < range_first(c, i) + range_blocks(c, i))
            return true;
    return false;
}

/* A change is made unit by unit upwards, until one has no room in its history. */
static void change(struct space *s, const struct command *c, struct expected *x)
{
    uint64_t units = unit_of(&s->ns, s->ns.nsze - 1) + 1;
    bool surely = true;
    for (uint64_t unit = 0; unit < units; unit++) {
        if (!meets(s, c, unit))
            continue;
        if (!is_own(s, first_of(&s->ns, unit))) {
            surely = false;
            continue;
        }
        if (s->limit != ZK_NO_LIMIT && s->changes[unit] == s->limit) {
            may_answer(x, 0x006);
            return;
        }
        s->changes[unit]++;
        for (uint64_t lba = first_of(&s->ns, unit); lba < first_of(&s->ns, unit + 1); lba++)
            if (c->opcode == DATASET_MANAGEMENT || (c->slba <= lba && lba - c->slba < c->blocks))
                put(s, c, lba);
    }
    may_answer(x, 0x000);
    if (!surely)
        may_answer(x, 0x006);
}

/* How the comparison of own blocks ends: in each unit a mark decides before any byte. */
static uint32_t comparison(const struct space *s, const struct command *c)
{
    for (uint64_t lba = c->slba; lba < c->slba + c->blocks;) {
        uint64_t end = first_of(&s->ns, unit_of(&s->ns, lba) + 1);
        bool differs = false;
        for (; lba < end && lba < c->slba + c->blocks; lba++) {
            if (s->marked[lba])
                return 0x281;
            differs |= memcmp(s->blocks + lba * s->ns.block_size, c->data + (lba - c->slba) * s->ns.block_size,
                              s->ns.block_size) != 0;
        }
        if (differs)
            return 0x285;
    }
    return 0x000;
}

static void look(const struct space *s, const struct command *c, struct expected *x)
{
    bool own = all_own(s, c->slba, c->blocks);
    if (c->opcode == COMPARE) {
        if (own) {
            may_answer(x, comparison(s, c));
            return;
        }
        may_answer(x, 0x000);
        may_answer(x, 0x281);
        may_answer(x, 0x285);
        return;
    }
    for (uint64_t lba = c->slba; lba < c->slba + c->blocks; lba++)
        if (is_own(s, lba) && s->marked[lba]) {
            may_answer(x, 0x281);
            return;
        }
    may_answer(x, 0x000);
    if (!own)
        may_answer(x, 0x281);
}

static void compare_and_write(struct space *s, const struct command *c, const struct command *d, struct expected *x)
{
    uint64_t unit = unit_of(&s->ns, c->slba);
    if (!all_own(s, c->slba, c->blocks)) {
        may_answer(x, 0x0000000);
        may_answer(x, 0x0000006);
        may_answer(x, 0x2810009);
        may_answer(x, 0x2850009);
        return;
    }
    uint32_t compared = comparison(s, c);
    if (compared) {
        may_answer(x, compared << 16 | 0x009);
    } else if (s->limit != ZK_NO_LIMIT && s->changes[unit] == s->limit) {
        may_answer(x, 0x006);
    } else {
        s->changes[unit]++;
        for (uint64_t lba = d->slba; lba < d->slba + d->blocks; lba++)
            put(s, d, lba);
        may_answer(x, 0x0000000);
    }
}

/* The data of a submission is in one piece. */
#define UNCUT SIZE_MAX

/* What a submission may answer, with its data in two pieces where `cut` says how long the first one is. Where it isn't refused by a code, the
 * thread's own blocks are as after it. */
static void expect(struct space *s, const uint8_t *entries, size_t entries_length, const uint8_t *data, size_t data_length, size_t cut,
                   size_t completions_length, struct expected *x)
{
    memset(x, 0, sizeof *x);
    if (!s->open) {
        x->codes = BIT(ZK_NOT_OPEN);
        return;
    }
    if (entries_length != 2 * ZK_ENTRY_BYTES && (cut != UNCUT || entries_length != ZK_ENTRY_BYTES)) {
        x->codes = BIT(ZK_BAD_LENGTH);
        return;
    }
    struct command *c = &x->first, *d = &x->second;
    x->pair = entries_length == 2 * ZK_ENTRY_BYTES;
    *c = command_in(s, entries);
    c->data = data;
    size_t called = c->called;
    if (x->pair) {
        *d = command_in(s, entries + ZK_ENTRY_BYTES);
        d->data = data + called;
        called += d->called;
        if (c->fuse != FUSED_FIRST || d->fuse != FUSED_SECOND || !is_served(c->opcode) || !is_served(d->opcode))
            x->codes |= BIT(ZK_NO_PAIR);
    } else if (c->opcode == READ) {
        called = c->blocks * s->ns.block_size;
    }
    if (data_length != called || (cut != UNCUT && cut != c->called) || completions_length != (x->pair ? 2 : 1) * ZK_COMPLETION_BYTES)
        x->codes |= BIT(ZK_BAD_LENGTH);
    if (x->codes)
        return;
    x->codes = s->alone ? BIT(ZK_DONE) : BIT(ZK_DONE) | BIT(ZK_PENDING);
    if (x->pair) {
        uint32_t refused = pair_refusal(s, c, d);
        if (refused)
            may_answer(x, refused);
        else
            compare_and_write(s, c, d, x);
        return;
    }
    int refused = refusal(s, c);
    if (refused >= 0)
        may_answer(x, (uint32_t)refused);
    else if (c->opcode == DATASET_MANAGEMENT && !c->deallocates)
        may_answer(x, 0x000);
    else if (c->opcode == READ || c->opcode == COMPARE)
        look(s, c, x);
    else
        change(s, c, x);
}

/* Whether the completion says what it must of a command with this identifier. Its status is judged elsewhere. */
static bool is_completion(const struct space *s, const uint8_t *told, uint16_t cid)
{
    static const uint8_t zeroes[10];
    return memcmp(told, zeroes, sizeof zeroes) == 0 && little(told + 10, 2) == s->place && zk_cid(told) == cid
        && (told[14] & 1) == 0 && told[15] >> 4 == 0;
}

/* Judges what ZK_DONE came with. The data buffer has `length` bytes, and the one before the call is at `before`. */
static bool judge_done(struct worker *w, struct space *s, const uint8_t *entries, const struct expected *x, const uint8_t *told,
                       size_t length)
{
    if (!is_completion(s, told, x->first.cid) || (x->pair && !is_completion(s, told + ZK_COMPLETION_BYTES, x->second.cid)))
        return wrong(w, "completion", entries, little(told, 8), little(told + 8, 8));
    uint32_t answer = status_of(told);
    if (x->pair)
        answer = answer << 16 | status_of(told + ZK_COMPLETION_BYTES);
    bool found = false;
    for (int i = 0; i < x->count; i++)
        found |= x->answers[i] == answer;
    if (!found)
        return wrong(w, "status", entries, answer, x->count ? x->answers[0] : 0);
    size_t size = s->ns.block_size, read = 0;
    if (!x->pair && x->first.opcode == READ && answer == 0)
        read = x->first.blocks * size;
    for (uint64_t i = 0; i < read / size; i++)
        if (is_own(s, x->first.slba + i) && memcmp(w->data + i * size, s->blocks + (x->first.slba + i) * size, size) != 0)
            return wrong(w, "data of LBA", entries, x->first.slba + i, 0);
    if (memcmp(w->data + read, w->before + read, length - read) != 0)
        return wrong(w, "data written", entries, read, length);
    return true;
}

/* Counts the code, and judges it. */
static bool judge_code(struct worker *w, const char *call, const uint8_t *entries, int code, unsigned codes)
{
    if (code < 0 || code >= CODES || !(codes & BIT(code)))
        return wrong(w, call, entries, (uint64_t)code, codes);
    w->calls[code]++;
    return true;
}

static bool is_same(struct worker *w, const char *call, const uint8_t *entries, const uint8_t *told, const uint8_t *told_before,
                    size_t told_length, size_t length)
{
    if (memcmp(w->data, w->before, length) != 0 || memcmp(told, told_before, told_length) != 0)
        return wrong(w, call, entries, 1, 0);
    return true;
}

static bool try_read_now(struct worker *w, struct space *s, bool pending);
static bool try_identify(struct worker *w, struct space *s);

/* Polls until the command is done. Meanwhile the port is asked for other things, and sometimes closed. */
static bool finish(struct worker *w, struct space *s, const uint8_t *entries, const struct expected *x, size_t length)
{
    uint8_t told[2 * ZK_COMPLETION_BYTES], told_before[2 * ZK_COMPLETION_BYTES];
    size_t room = !x->pair && x->first.opcode == READ ? x->first.blocks * s->ns.block_size : 0;
    size_t told_length = x->pair ? 32 : 16;
    for (;;) {
        memset(told, 0x5a, sizeof told);
        memcpy(told_before, told, sizeof told);
        size_t given = length, told_given = told_length;
        switch (below(w, 8)) {
        case 0:
            if (!judge_code(w, "submit meanwhile", entries,
                            zk_submit(s->port, entries, 64, w->data, length, told, told_given), BIT(ZK_BUSY))
                || !is_same(w, "written by a refused submit", entries, told, told_before, sizeof told, length)
                || !try_read_now(w, s, true) || !try_identify(w, s))
                return false;
            memcpy(w->before, w->data, length);
            break;
        case 1:
            told_given = below(w, 33);
            break;
        case 2:
            given = below(w, length + 1);
            break;
        case 3:
            if (below(w, 20))
                break;
            s->open = false;
            return judge_code(w, "close meanwhile", entries, zk_close(s->port), BIT(ZK_DONE));
        }
        bool bad = told_given != told_length || given < room;
        int code = zk_poll(s->port, w->data, given, told, told_given);
        if (!judge_code(w, "poll", entries, code, bad ? BIT(ZK_BAD_LENGTH) : BIT(ZK_DONE) | BIT(ZK_PENDING)))
            return false;
        if (code == ZK_DONE)
            return judge_done(w, s, entries, x, told, length);
        if (!is_same(w, "written by a poll", entries, told, told_before, sizeof told, length))
            return false;
        sched_yield();
    }
}

/* An LBA: mostly of a zone in which this thread may change blocks. */
static uint64_t some_lba(struct worker *w, const struct space *s)
{
    uint64_t kind = below(w, 16);
    if (kind == 0)
        return below(w, 2) ? below(w, s->ns.nsze + 8) : ~0ull - below(w, 8);
    if (kind < 11 && s->own < s->own_end)
        return s->own + below(w, s->own_end - s->own);
    if (s->shared < s->ns.nsze)
        return s->shared + below(w, s->ns.nsze - s->shared);
    return below(w, s->ns.nsze);
}

static void some_entry(struct worker *w, const struct space *s, uint8_t *entry)
{
    static const uint8_t opcodes[] = { WRITE, WRITE, READ, READ, WRITE_UNCORRECTABLE, COMPARE, WRITE_ZEROES, DATASET_MANAGEMENT };
    fill(w, entry, ZK_ENTRY_BYTES);
    if (below(w, 16))
        entry[0] = opcodes[below(w, sizeof opcodes)];
    if (below(w, 16))
        entry[1] &= 0xfc;
    put_little(entry + 4, 4, below(w, 24) ? 1 : below(w, 3) ? below(w, 4) : 0xffffffff);
    if (entry[0] == DATASET_MANAGEMENT) {
        entry[40] = (uint8_t)below(w, below(w, 8) ? 4 : 256);
        return;
    }
    put_little(entry + 40, 8, some_lba(w, s));
    put_little(entry + 48, 2, below(w, 24) ? below(w, below(w, 4) ? 3 : 16) : below(w, 65536));
}

/* Data for the command, as far as there is room: blocks that compare equal, ranges, or any bytes. */
static void some_data(struct worker *w, const struct space *s, const struct command *c, uint8_t *data)
{
    size_t size = s->ns.block_size;
    if (c->opcode == DATASET_MANAGEMENT) {
        fill(w, data, c->called);
        for (size_t i = 0; i < c->called / RANGE_BYTES; i++) {
            put_little(data + i * RANGE_BYTES + 4, 4, below(w, 64) ? below(w, 5) : below(w, 1ull << 32));
            put_little(data + i * RANGE_BYTES + 8, 8, below(w, 4) ? some_lba(w, s) : s->own);
        }
        return;
    }
    memset(data, (int)below(w, 256), c->called);
    if (c->called)
        fill(w, data + below(w, c->called), 1);
    if (c->opcode == COMPARE && below(w, 4))
        for (uint64_t i = 0; i < c->blocks && c->slba + i < s->ns.nsze; i++)
            memcpy(data + i * size, s->blocks + (c->slba + i) * size, size);
}

static bool try_submit(struct worker *w, struct space *s)
{
    uint8_t entries[2 * ZK_ENTRY_BYTES], told[2 * ZK_COMPLETION_BYTES + 1], told_before[sizeof told];
    static const uint8_t odd_lengths[] = { 0, 1, 63, 65, 127 };
    some_entry(w, s, entries);
    some_entry(w, s, entries + ZK_ENTRY_BYTES);
    bool pair = below(w, 5) == 0;
    if (pair && below(w, 12)) {
        entries[0] = COMPARE;
        put_little(entries + 48, 2, below(w, 3));
        memcpy(entries + ZK_ENTRY_BYTES + 4, entries + 4, ZK_ENTRY_BYTES - 4);
        entries[ZK_ENTRY_BYTES] = WRITE;
        if (below(w, 16) == 0)
            fill(w, entries + ZK_ENTRY_BYTES + (below(w, 2) ? 40 : 48), 1);
    }
    if (pair && below(w, 12)) {
        entries[1] = (uint8_t)((entries[1] & 0xfc) | FUSED_FIRST);
        entries[ZK_ENTRY_BYTES + 1] = (uint8_t)((entries[ZK_ENTRY_BYTES + 1] & 0xfc) | FUSED_SECOND);
    }
    size_t entries_length = pair ? 128 : 64, told_length = pair ? 32 : 16;
    struct command c = command_in(s, entries), d = command_in(s, entries + ZK_ENTRY_BYTES);
    if (!pair)
        d.called = 0;
    size_t length = !pair && c.opcode == READ ? c.blocks * s->ns.block_size : c.called + d.called;
    size_t told_by_library = zk_data_length(entries, pair ? 2 : 1, s->ns.block_size);
    if (told_by_library != length)
        return wrong(w, "zk_data_length", entries, told_by_library, length);
    if (zk_data_length(entries, 0, s->ns.block_size) != ZK_NO_LENGTH || zk_data_length(entries, pair ? 2 : 1, s->ns.block_size + 1) != ZK_NO_LENGTH)
        return wrong(w, "zk_data_length of nothing", entries, 0, 1);
    if (length > ROOM) {
        /* There is no room for as much, so the length is wrong. */
        length = ROOM;
        memset(w->data, 1, length);
    } else {
        memset(w->data, 1, length);
        some_data(w, s, &c, w->data);
        if (pair)
            some_data(w, s, &d, w->data + c.called);
    }
    c.data = w->data;
    d.data = w->data + c.called;
    if (pair ? !pair_refusal(s, &c, &d) && changes_others(s, &d)
             : length == c.called && refusal(s, &c) < 0 && changes_others(s, &c))
        put_little(entries + 4, 4, 2);
    if (below(w, 24) == 0)
        length = below(w, 2) ? below(w, length + 1) : below(w, 8192);
    if (below(w, 24) == 0)
        told_length = below(w, sizeof told + 1);
    if (below(w, 24) == 0)
        entries_length = odd_lengths[below(w, sizeof odd_lengths)];
    if (length > ROOM)
        length = ROOM;
    memset(told, 0xa5, sizeof told);
    memcpy(told_before, told, sizeof told);
    memcpy(w->before, w->data, length);

    size_t cut = UNCUT;
    if (below(w, pair ? 2 : 24) == 0)
        cut = c.called <= length && below(w, 16) ? c.called : below(w, length + 1);
    struct expected x;
    expect(s, entries, entries_length, w->before, length, cut, told_length, &x);
    int code = cut == UNCUT ? zk_submit(s->port, entries, entries_length, w->data, length, told, told_length)
                            : zk_submit_pair(s->port, entries, entries_length, w->data, cut, w->data + cut, length - cut, told, told_length);
    if (!judge_code(w, "submit", entries, code, x.codes))
        return false;
    if (code != ZK_DONE && !is_same(w, "written by a submit", entries, told, told_before, sizeof told, length))
        return false;
    if (code == ZK_PENDING)
        return finish(w, s, entries, &x, length);
    if (code == ZK_DONE && memcmp(told + told_length, told_before + told_length, sizeof told - told_length) != 0)
        return wrong(w, "written behind the completions", entries, 1, 0);
    return code != ZK_DONE || judge_done(w, s, entries, &x, told, length);
}

static bool try_read_now(struct worker *w, struct space *s, bool pending)
{
    uint64_t slba = some_lba(w, s);
    uint16_t nlb = (uint16_t)below(w, below(w, 8) ? 4 : 65536);
    size_t size = s->ns.block_size, room = (nlb + 1u) * size, length = below(w, 16) ? room : below(w, 2 * room);
    if (length > ROOM)
        length = ROOM;
    struct zk_status status = { 0xa5, 0x5a };
    memset(w->data, 0x77, length);
    memcpy(w->before, w->data, length);
    unsigned codes = BIT(ZK_DONE) | BIT(ZK_NEWER);
    bool own = false, marked = false;
    if (!s->open) {
        codes = BIT(ZK_NOT_OPEN);
    } else if (pending) {
        codes = BIT(ZK_BUSY);
    } else if (!s->versions) {
        codes = BIT(ZK_NO_VERSIONS);
    } else if (length != room) {
        codes = BIT(ZK_BAD_LENGTH);
    } else if (ends_above(s, slba, nlb + 1u)) {
        codes = BIT(ZK_OUT_OF_RANGE);
    } else if (unit_of(&s->ns, slba) != unit_of(&s->ns, slba + nlb)) {
        codes = BIT(ZK_CROSSES);
    } else if (all_own(s, slba, nlb + 1u)) {
        codes = BIT(ZK_DONE);
        own = true;
        for (uint64_t lba = slba; lba <= slba + nlb; lba++)
            marked |= s->marked[lba];
    }
    int code = zk_read_now(s->port, slba, nlb, w->data, length, &status);
    if (!judge_code(w, "read_now", NULL, code, codes))
        return false;
    bool read = code == ZK_DONE && status.type == 0 && status.code == 0;
    if (code != ZK_DONE && (status.type != 0xa5 || status.code != 0x5a))
        return wrong(w, "status of read_now written", NULL, status.code, 0x5a);
    if (code == ZK_DONE && !read && (status.type != 2 || status.code != 0x81))
        return wrong(w, "status of read_now", NULL, status.code, 0x81);
    if (own && read == marked)
        return wrong(w, "read_now of a marked block", NULL, read, marked);
    if (own && read && memcmp(w->data, s->blocks + slba * size, length) != 0)
        return wrong(w, "data of read_now", NULL, slba, 0);
    if (!read && memcmp(w->data, w->before, length) != 0)
        return wrong(w, "written by read_now", NULL, 1, 0);
    return true;
}

/* Identifies the namespace by the port, or by its numbers where there is none. */
static bool identify(struct worker *w, struct zk_port *port, const struct zk_namespace *ns, size_t length, int due)
{
    uint8_t expected[ZK_IDENTIFY_BYTES + 1];
    memset(w->data, 0x33, sizeof expected);
    memcpy(expected, w->data, sizeof expected);
    int code = port ? zk_identify(port, w->data, length) : zk_identify_namespace(ns, w->data, length);
    if (!judge_code(w, port ? "identify" : "identify_namespace", NULL, code, BIT(due)))
        return false;
    if (due == ZK_DONE) {
        memset(expected, 0, ZK_IDENTIFY_BYTES);
        put_little(expected, 8, ns->nsze);
        expected[24] = 2;
        put_little(expected + 34, 2, ns->nawun);
        put_little(expected + 38, 2, ns->nacwu);
        put_little(expected + 40, 2, ns->nabsn);
        put_little(expected + 42, 2, ns->nabo);
    }
    return memcmp(w->data, expected, sizeof expected) == 0 || wrong(w, "identity", NULL, 1, 0);
}

static bool try_identify(struct worker *w, struct space *s)
{
    size_t length = below(w, 4) ? ZK_IDENTIFY_BYTES : below(w, ZK_IDENTIFY_BYTES + 2);
    int due = length == ZK_IDENTIFY_BYTES ? ZK_DONE : ZK_BAD_LENGTH;
    return identify(w, s->port, &s->ns, length, s->open ? due : ZK_NOT_OPEN) && identify(w, NULL, &s->ns, length, due);
}

static bool try_idle_poll(struct worker *w, struct space *s)
{
    uint8_t told[48], told_before[48];
    memset(told, 0x11, sizeof told);
    memcpy(told_before, told, sizeof told);
    size_t length = below(w, 8192);
    memset(w->data, 0x22, length);
    memcpy(w->before, w->data, length);
    int code = zk_poll(s->port, w->data, length, told, below(w, sizeof told + 1));
    return judge_code(w, "idle poll", NULL, code, s->open ? BIT(ZK_IDLE) : BIT(ZK_NOT_OPEN))
        && is_same(w, "written by an idle poll", NULL, told, told_before, sizeof told, length);
}

/* Whether these are numbers of a namespace, of one that can be recorded or of one of any size. */
static bool is_namespace(const struct zk_namespace *ns, bool recorded)
{
    uint64_t most = recorded ? ZK_MOST_RECORDED_BLOCKS : ns->nabsn ? ZK_MOST_BLOCKS : UINT32_MAX;
    if (ns->nsze == 0 || ns->nsze > most || (ns->block_size != 512 && ns->block_size != 4096))
        return false;
    if (ns->nabsn == 0 ? ns->nabo != 0 : ns->nabo > ns->nabsn || ns->nawun > ns->nabsn || ns->nacwu > ns->nabsn)
        return false;
    return !recorded || unit_of(ns, ns->nsze - 1) < 4096;
}

/* Opens ports of two namespaces beside one another, and again where some are open, with numbers of any kind. */
static bool try_opens(struct worker *w)
{
    static const uint32_t sizes[] = { 512, 4096, 0, 513, 1024 };
    struct zk_port ports[4] = { ZK_PORT_INIT, ZK_PORT_INIT, ZK_PORT_INIT, ZK_PORT_INIT }, before[4];
    struct zk_port many[ZK_MOST_PORTS + 1];
    bool open[4] = { false };
    for (int turn = 0; turn < 6; turn++) {
        struct zk_namespace ns = { 1 + below(w, 100), sizes[below(w, 16) < 12 ? below(w, 2) : below(w, 5)], 0, 0,
                                   (uint16_t)below(w, 9), (uint16_t)below(w, 9) };
        ns.nabsn = (uint16_t)(below(w, 4) ? 8 : below(w, 10));
        ns.nabo = (uint16_t)(below(w, 2) ? 0 : below(w, 10));
        if (below(w, 12) == 0) {
            const uint64_t edges[] = { 2, 70000, UINT32_MAX, ZK_MOST_BLOCKS + 3 };
            uint64_t edge = edges[below(w, 4)];
            ns.nsze = edge + 2 - below(w, edge < 70001 ? edge + 3 : 4);
        }
        uint32_t limit = below(w, 4) ? 1 + (uint32_t)below(w, ZK_MOST_CHANGES) : below(w, 3) ? ZK_NO_LIMIT : ZK_MOST_CHANGES + 1;
        bool versions = below(w, 2);
        size_t first = below(w, 4), count = below(w, 5 - first);
        bool any = false;
        for (size_t i = first; i < first + count; i++)
            any |= open[i];
        int due = any ? ZK_IS_OPEN : count == 0 ? ZK_BAD_PORTS : !is_namespace(&ns, limit != ZK_NO_LIMIT) ? ZK_BAD_NAMESPACE
            : limit > ZK_MOST_CHANGES ? ZK_BAD_LIMIT : ZK_DONE;
        memcpy(before, ports, sizeof ports);
        if (!judge_code(w, "open", NULL, zk_open(ports + first, count, &ns, limit, versions), BIT(due)))
            return false;
        if (!identify(w, NULL, &ns, ZK_IDENTIFY_BYTES, is_namespace(&ns, false) ? ZK_DONE : ZK_BAD_NAMESPACE))
            return false;
        if (due != ZK_DONE && memcmp(ports, before, sizeof ports) != 0)
            return wrong(w, "ports written by a refused open", NULL, (uint64_t)due, ZK_DONE);
        for (size_t i = first; due == ZK_DONE && i < first + count; i++)
            open[i] = true;
        size_t place = below(w, 4);
        if (below(w, 2)) {
            int shut = open[place] ? ZK_DONE : ZK_NOT_OPEN;
            if (!judge_code(w, "close of a spare port", NULL, zk_close(&ports[place]), BIT(shut)))
                return false;
            open[place] = false;
        }
    }
    for (int i = 0; i < 4; i++)
        if (!judge_code(w, "close", NULL, zk_close(&ports[i]), BIT(open[i] ? ZK_DONE : ZK_NOT_OPEN))
            || !judge_code(w, "second close", NULL, zk_close(&ports[i]), BIT(ZK_NOT_OPEN)))
            return false;
    memset(many, 0, sizeof many);
    struct zk_namespace ns = { 8, 512, 0, 0, 0, 0 };
    return judge_code(w, "open of too many", NULL, zk_open(many, ZK_MOST_PORTS + 1, &ns, 1, false), BIT(ZK_BAD_PORTS));
}

/* How many blocks from this one are read at once: one, or where given bytes choose as many as there are up to one that is marked, since a call for each takes longer than all else. */
static uint64_t read_at_once(const struct space *s, uint64_t lba)
{
    uint64_t most = choices ? ROOM / s->ns.block_size : 1, count = 1;
    while (count < most && lba + count < s->own_end && !s->marked[lba] && !s->marked[lba + count])
        count++;
    return count;
}

/* Reads the thread's own zone. Others may read there, too, so a unit may be held. */
static bool read_back(struct worker *w, struct space *s)
{
    uint8_t entry[2 * ZK_ENTRY_BYTES], told[ZK_COMPLETION_BYTES];
    memset(entry, 0, sizeof entry);
    for (uint64_t lba = s->own, count; s->open && lba < s->own_end; lba += count) {
        struct expected x;
        count = read_at_once(s, lba);
        size_t length = count * s->ns.block_size;
        entry_of(entry, READ, 0, (uint16_t)lba, lba, (uint32_t)count);
        memset(w->data, 0x44, length);
        memcpy(w->before, w->data, length);
        expect(s, entry, 64, w->before, length, UNCUT, 16, &x);
        int code = zk_submit(s->port, entry, 64, w->data, length, told, 16);
        if (!judge_code(w, "read back", entry, code, x.codes))
            return false;
        if (code == ZK_PENDING ? !finish(w, s, entry, &x, length) : !judge_done(w, s, entry, &x, told, length))
            return false;
    }
    return true;
}

static void *work(void *given)
{
    struct worker *w = given;
    for (int step = 0; step < STEPS && (!choices || choices < choices_end); step++) {
        struct space *s = &w->spaces[below(w, 2)];
        uint64_t kind = below(w, 100);
        if (!(kind < 80 ? try_submit(w, s) : kind < 92 ? try_read_now(w, s, false) : kind < 96 ? try_idle_poll(w, s)
              : kind < 99 ? try_identify(w, s) : try_opens(w)))
            return NULL;
    }
    if (read_back(w, &w->spaces[0]))
        read_back(w, &w->spaces[1]);
    return NULL;
}

/* Numbers of a namespace, with few changes a unit now and then. */
static void some_space(struct worker *w, struct space *s)
{
    static const uint32_t limits[] = { 1, 3, 20, 1000, ZK_MOST_CHANGES, ZK_NO_LIMIT, ZK_NO_LIMIT };
    memset(s, 0, sizeof *s);
    s->ns.nsze = 1 + below(w, 240);
    s->ns.block_size = below(w, 8) ? 512 : 4096;
    s->ns.nabsn = (uint16_t)(below(w, 5) ? 1 + below(w, 24) : 0);
    s->ns.nabo = (uint16_t)(below(w, 2) ? below(w, s->ns.nabsn + 1u) : 0);
    s->ns.nawun = (uint16_t)below(w, s->ns.nabsn ? s->ns.nabsn + 1u : 65536);
    s->ns.nacwu = (uint16_t)below(w, s->ns.nabsn ? s->ns.nabsn + 1u : 65536);
    s->limit = limits[below(w, 7)];
    s->versions = below(w, 4);
}

/* The share of thread `number` of `threads`, and room for what it knows. */
static void share(struct space *mine, const struct space *s, struct zk_port *ports, int number, int threads)
{
    *mine = *s;
    uint64_t units = unit_of(&s->ns, s->ns.nsze - 1) + 1, parts = threads == 1 ? 1 : (uint64_t)threads + 1;
    mine->open = true;
    mine->alone = threads == 1;
    mine->port = &ports[number];
    mine->place = (uint16_t)(number + 1);
    mine->own = first_of(&s->ns, (uint64_t)number * units / parts);
    mine->own_end = first_of(&s->ns, (uint64_t)(number + 1) * units / parts);
    mine->shared = threads == 1 ? s->ns.nsze : first_of(&s->ns, (uint64_t)threads * units / parts);
    mine->blocks = calloc(s->ns.nsze, s->ns.block_size);
    mine->marked = calloc(s->ns.nsze, sizeof *mine->marked);
    mine->changes = calloc(units, sizeof *mine->changes);
    if (!mine->blocks || !mine->marked || !mine->changes)
        abort();
}

/* One round: whether all answers were right. */
static bool round_of(uint64_t seed, int threads, unsigned long calls[CODES])
{
    static struct worker workers[MOST_THREADS];
    struct zk_port ports[2][MOST_THREADS];
    struct space spaces[2];
    struct worker whole = { .random = seed * 0x9e3779b97f4a7c15ull | 1, .seed = seed };
    bool failed = false;
    memset(ports, 0, sizeof ports);
    for (int i = 0; i < 2; i++) {
        some_space(&whole, &spaces[i]);
        if (!judge_code(&whole, "open of a round", NULL,
                        zk_open(ports[i], (size_t)threads, &spaces[i].ns, spaces[i].limit, spaces[i].versions), BIT(ZK_DONE)))
            return false;
    }
    pthread_t ids[MOST_THREADS];
    for (int t = 0; t < threads; t++) {
        struct worker *w = &workers[t];
        memset(w, 0, sizeof *w);
        w->seed = seed;
        w->number = t;
        w->random = (whole.random ^ (uint64_t)(t + 1) * 0xd1342543de82ef95ull) | 1;
        w->data = calloc(1, ROOM);
        w->before = calloc(1, ROOM);
        if (!w->data || !w->before)
            abort();
        for (int i = 0; i < 2; i++)
            share(&w->spaces[i], &spaces[i], ports[i], t, threads);
    }
    /* What chooses by given bytes is called by itself: a thread takes longer than most inputs. */
    for (int t = 0; t < threads; t++)
        if (choices)
            work(&workers[t]);
        else if (pthread_create(&ids[t], NULL, work, &workers[t]))
            abort();
    for (int t = 0; t < threads; t++) {
        struct worker *w = &workers[t];
        if (!choices)
            pthread_join(ids[t], NULL);
        failed |= w->failed;
    }
    for (int t = 0; t < threads; t++) {
        struct worker *w = &workers[t];
        for (int i = 0; i < 2; i++) {
            struct space *s = &w->spaces[i];
            failed |= !judge_code(w, "close of a round", NULL, zk_close(s->port), BIT(s->open ? ZK_DONE : ZK_NOT_OPEN));
            s->open = false;
            failed |= !try_identify(w, s) || !try_submit(w, s) || !try_idle_poll(w, s) || !try_read_now(w, s, false);
            free(s->blocks);
            free(s->marked);
            free(s->changes);
        }
        free(w->data);
        free(w->before);
        for (int code = 0; code < CODES; code++)
            calls[code] += w->calls[code];
    }
    return !failed;
}

int main(int words, char **word)
{
    static const char *names[CODES] = { "done", "pending", "not open", "is open", "no memory", "bad namespace", "bad ports",
                                        "bad limit", "bad length", "no pair", "busy", "idle", "newer", "out of range", "crosses",
                                        "no versions" };
    if (words < 3 || words > 4) {
        fprintf(stderr, "fuzz SECONDS SEED [THREADS]\n");
        return 2;
    }
    time_t end = time(NULL) + atol(word[1]);
    uint64_t seed = strtoull(word[2], NULL, 0);
    int most = words == 4 ? atoi(word[3]) : 4;
    if (most < 1 || most > MOST_THREADS)
        return 2;
    unsigned long calls[CODES] = { 0 }, rounds = 0;
    do {
        if (!round_of(seed + rounds, 1 + (int)(rounds % (unsigned long)most), calls))
            return 1;
        rounds++;
    } while (time(NULL) < end);
    printf("%lu rounds from seed %s, each answer as the header says:", rounds, word[2]);
    for (int code = 0; code < CODES; code++)
        if (calls[code])
            printf(" %lu %s%s", calls[code], names[code], code == CODES - 1 ? "" : ",");
    printf("\n");
    return 0;
}
