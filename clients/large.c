/* Holds large namespaces, of up to 2^40 blocks, to small ones: what is asked of a window of a large namespace is asked of a small namespace that is
 * as long as the window and has its boundaries at the same places, and both must answer alike, to the byte.
 *
 *     large [SEED] [--times]
 *     large --memory [--blocks N]
 *     large --count N [--of writes|reads|pairs] [--nsze N] [--blocks N] [--alone]
 *
 * Inside, a large namespace has up to 4,096 regions of whole atomic units, so windows lie around the first LBAs of regions, and at both ends. What
 * lies beside a window must stay zeroes. With --times it tells on standard error how long it takes to open and close, and how much is resident then.
 * With --memory it only writes 100 MB, in commands of N blocks that are spread over 2^31 blocks, zeroes them, and prints the resident memory; with --count it only
 * does so many commands of N blocks at 1,000 LBAs, for a profiler, within units of 8 that were written as a whole before, or, with --alone, just so many
 * blocks of them. NSZE is at least 16,000 then. It ends with 1 at the first wrong answer, and says what is wrong with it. */
#include <malloc.h>
#include <sched.h>
#include <stdarg.h>
#include <stdbool.h>
#include <stdio.h>
#include <stdlib.h>
#include <string.h>
#include <time.h>

#include "entries.h"

enum {
    PORTS = 2,
    MOST_REGIONS = 4096,
    MOST_WINDOWS = 8,
    MOST_BLOCKS = 40,       /* of a command with data */
    MOST_BLOCK = 4096,      /* bytes */
    MOST_RANGES = 24,
    DATA = 2 * MOST_BLOCKS * MOST_BLOCK,
    BESIDE = 48,            /* blocks before and behind a window that are looked at */
    STEPS = 1500,           /* of a namespace */
    OTHERS = 8              /* namespaces that follow from the seed */
};

/* The largest namespace that there is. */
static const uint64_t MOST_NSZE = 1ull << 40;

/* NSZE, bytes of a block, NABSN, NABO, NAWUN and NACWU. */
static const struct zk_namespace namespaces[] = {
    { 1ull << 40, 512, 7, 0, 7, 3 },
    { 1ull << 40, 4096, 15, 5, 15, 15 },
    { 1ull << 36, 512, 65535, 40000, 31, 15 },
    { 1ull << 33, 512, 1, 1, 0, 1 },
    { (1ull << 31) + 5, 4096, 7, 3, 3, 7 },
    { (1ull << 31) + 5, 512, 127, 0, 127, 0 },
    { (1ull << 31) + 5, 512, 15, 15, 0, 15 },
    { (1ull << 31) + 5, 512, 65535, 0, 65535, 65535 },
    { 100003, 4096, 1, 0, 1, 1 },
    { 100003, 512, 7, 1, 7, 7 },
    { 100003, 4096, 15, 0, 3, 15 },
    { 100003, 512, 127, 126, 127, 127 },
    { 100003, 512, 65535, 65535, 15, 31 },
    { UINT32_MAX, 512, 0, 0, 31, 15 },
    { 65537, 4096, 0, 0, 0, 0 },
};

/* A window of the large namespace, and the small one of its length. */
struct window {
    uint64_t first;
    uint32_t blocks;
    bool last;              /* it ends where the large namespace does */
    struct zk_namespace ns;
    struct zk_port ports[PORTS];
};

/* What is asked of a window. Its LBAs are the small namespace's. */
struct asked {
    uint8_t entries[2 * ZK_ENTRY_BYTES];
    size_t entries_length, data_length, told_length;
};

/* What came back. */
struct answer {
    int code;
    uint8_t told[2 * ZK_COMPLETION_BYTES];
};

static uint64_t seed = 20261129, state;
static struct zk_namespace ns;
static bool versions;
static struct zk_port ports[PORTS];
static struct window windows[MOST_WINDOWS];
static unsigned window_count;
static unsigned long commands, succeeded, failed, refused, pairs, now_read, now_newer, opened, step;

/* The data of what is asked, and what stands there afterwards in the small namespace's buffer and the large one's. */
static uint8_t given[DATA], small_data[DATA + 1], large_data[DATA + 1];

static uint64_t random_word(void)
{
    state ^= state >> 12;
    state ^= state << 25;
    state ^= state >> 27;
    return state * 0x2545f4914f6cdd1dull;
}

static uint64_t below(uint64_t end)
{
    return (random_word() >> 11) % end;
}

static bool one_in(uint64_t count)
{
    return below(count) == 0;
}

static uint64_t lesser(uint64_t a, uint64_t b)
{
    return a < b ? a : b;
}

/* Says what is wrong, and ends the program. */
static _Noreturn void wrong(const char *what, ...)
{
    va_list values;
    fprintf(stderr, "large: ");
    va_start(values, what);
    vfprintf(stderr, what, values);
    va_end(values);
    fprintf(stderr, "\n  seed %llu, step %lu, nsze %llu block %u nabsn %u nabo %u nawun %u nacwu %u, %s versions\n", (unsigned long long)seed, step,
            (unsigned long long)ns.nsze, ns.block_size, ns.nabsn, ns.nabo, ns.nawun, ns.nacwu, versions ? "with" : "without");
    exit(1);
}

#define MUST(holds) do { if (!(holds)) wrong("line %d: %s", __LINE__, #holds); } while (0)

static void tell_asked(const struct window *w, unsigned port, const struct asked *a)
{
    fprintf(stderr, "large: window of %u blocks from LBA %llu, whose first boundary is %u, port %u, %zu bytes of data\n", w->blocks,
            (unsigned long long)w->first, w->ns.nabo, port, a->data_length);
    for (size_t at = 0; at < a->entries_length / ZK_ENTRY_BYTES; at++) {
        const uint8_t *entry = a->entries + at * ZK_ENTRY_BYTES;
        fprintf(stderr, "  opcode %02x, FUSE %u, NSID %llu, %llu blocks from LBA %lld of the window, dword 11 %llx\n", entry[0], entry[1] & 3,
                (unsigned long long)little(entry + 4, 4), (unsigned long long)little(entry + 48, 2) + 1, (long long)little(entry + 40, 8),
                (unsigned long long)little(entry + 44, 4));
        if (entry[0] == DATASET_MANAGEMENT)
            for (size_t i = 0; i + RANGE_BYTES <= a->data_length; i += RANGE_BYTES)
                fprintf(stderr, "    %llu blocks from LBA %lld\n", (unsigned long long)little(given + i + 4, 4), (long long)little(given + i + 8, 8));
    }
}

/* Submits the entries, and polls until they are done. */
static struct answer submit(struct zk_port *port, const uint8_t *entries, size_t entries_length, uint8_t *data, size_t length, size_t told_length)
{
    struct answer it;
    memset(&it, 0, sizeof it);
    it.code = zk_submit(port, entries, entries_length, data, length, it.told, told_length);
    while (it.code == ZK_PENDING) {
        sched_yield();
        it.code = zk_poll(port, data, length, it.told, told_length);
    }
    return it;
}

/* Puts the ranges of the window where they lie in the large namespace. */
static void move_ranges(const struct window *w, uint8_t *ranges, size_t length)
{
    for (size_t at = 0; at + RANGE_BYTES <= length; at += RANGE_BYTES)
        put_little(ranges + at + 8, 8, little(ranges + at + 8, 8) + w->first);
}

/* The entries as they are for the large namespace. */
static void move_entries(const struct window *w, uint8_t *entries, size_t length)
{
    for (size_t at = 0; at + ZK_ENTRY_BYTES <= length; at += ZK_ENTRY_BYTES)
        if (entries[at] != DATASET_MANAGEMENT)
            put_little(entries + at + 40, 8, little(entries + at + 40, 8) + w->first);
}

static bool is_same(const struct answer *small, const struct answer *large)
{
    return small->code == large->code && memcmp(small->told, large->told, sizeof small->told) == 0;
}

static void count_answer(const struct answer *it)
{
    commands++;
    if (it->code != ZK_DONE)
        refused++;
    else if (status_of(it->told) == 0)
        succeeded++;
    else
        failed++;
}

/* Asks it of both, with the data in `given`. It gives the answer, and what was read stands in `small_data`. */
static struct answer ask(struct window *w, unsigned port, const struct asked *a)
{
    uint8_t moved[2 * ZK_ENTRY_BYTES];
    memcpy(moved, a->entries, sizeof moved);
    memcpy(small_data, given, a->data_length);
    memcpy(large_data, given, a->data_length);
    move_entries(w, moved, a->entries_length);
    if (a->entries_length == ZK_ENTRY_BYTES && moved[0] == DATASET_MANAGEMENT)
        move_ranges(w, large_data, a->data_length);
    struct answer small = submit(&w->ports[port], a->entries, a->entries_length, small_data, a->data_length, a->told_length);
    struct answer large = submit(&ports[port], moved, a->entries_length, large_data, a->data_length, a->told_length);
    bool reads = a->entries[0] == READ;
    if (!is_same(&small, &large) || (reads && memcmp(small_data, large_data, a->data_length) != 0)) {
        tell_asked(w, port, a);
        size_t at = 0;
        while (reads && at < a->data_length && small_data[at] == large_data[at])
            at++;
        wrong("the small namespace answers %d with %x/%02x, and the large one %d with %x/%02x; byte %zu of the data is %02x there, and here %02x",
              small.code, zk_status_type(small.told), zk_status_code(small.told), large.code, zk_status_type(large.told), zk_status_code(large.told),
              at, small_data[at], large_data[at]);
    }
    count_answer(&small);
    return small;
}

static struct asked asked_alone(size_t data_length)
{
    struct asked a;
    memset(&a, 0, sizeof a);
    a.entries_length = ZK_ENTRY_BYTES;
    a.data_length = data_length;
    a.told_length = ZK_COMPLETION_BYTES;
    return a;
}

static void fill(uint8_t *data, size_t length)
{
    for (size_t at = 0; at < length; at += 8)
        put_little(data + at, 8, random_word());
}

/* Reads so many blocks, and says whether that succeeded. */
static bool reads(struct window *w, unsigned port, uint64_t lba, uint32_t blocks)
{
    struct asked a = asked_alone((size_t)blocks * ns.block_size);
    entry_of(a.entries, READ, 0, (uint16_t)step, lba, blocks);
    memset(given, 0xa5, a.data_length);
    struct answer it = ask(w, port, &a);
    return it.code == ZK_DONE && status_of(it.told) == 0;
}

/* Puts data for a Compare into the front of `given`: mostly what stands there, at times but for a byte. */
static void compared(struct window *w, unsigned port, uint64_t lba, uint32_t blocks)
{
    size_t length = (size_t)blocks * ns.block_size;
    if (one_in(8) || !reads(w, port, lba, blocks)) {
        fill(given, length);
        return;
    }
    memcpy(given, small_data, length);
    if (one_in(4))
        given[below(length)] ^= 1;
}

/* A range: mostly a few blocks, and in the window. At the end of the namespace it may end above it, and at times it lies far above. */
static void choose_range(const struct window *w, uint64_t *lba, uint32_t *blocks)
{
    *blocks = 1 + (uint32_t)below(one_in(4) ? MOST_BLOCKS : 12);
    if (one_in(64)) {
        uint64_t far = below(20);
        *lba = one_in(2) ? ns.nsze + far : UINT64_MAX - w->first - far;
        return;
    }
    if (w->last && one_in(8)) {
        *lba = w->blocks - lesser(w->blocks, below(MOST_BLOCKS)) + below(4);
        return;
    }
    *blocks = (uint32_t)lesser(*blocks, w->blocks);
    *lba = below(w->blocks - *blocks + 1);
}

/* Ranges of a Dataset Management in `given`, and how many. */
static uint32_t choose_ranges(const struct window *w, bool inside)
{
    uint32_t count = 1 + (uint32_t)below(one_in(4) ? MOST_RANGES : 4);
    for (uint32_t i = 0; i < count; i++) {
        uint32_t blocks = (uint32_t)below(one_in(8) ? w->blocks : 14);
        uint64_t lba = below(w->blocks - lesser(blocks, w->blocks) + 1);
        if (!inside && one_in(100))
            lba = w->last ? w->blocks + below(3) : ns.nsze + 1 + below(3);
        range_of(given + i * RANGE_BYTES, lba, blocks);
    }
    return count;
}

static void ask_pair(struct window *w, unsigned port)
{
    struct asked a;
    uint64_t lba, other;
    uint32_t blocks;
    memset(&a, 0, sizeof a);
    choose_range(w, &lba, &blocks);
    if (!one_in(6)) {
        /* Within NACWU, and mostly within a unit. */
        blocks = 1 + (uint32_t)below(lesser(blocks, ns.nacwu + 1u));
        uint64_t length = ns.nabsn + 1u, in_unit = (lba + length - w->ns.nabo) % length;
        if (ns.nabsn != 0 && in_unit + blocks > length && lba < w->blocks && lba >= in_unit)
            lba -= in_unit;
    }
    other = one_in(16) && lba > 0 ? lba - 1 : lba;
    compared(w, port, lba, blocks);
    size_t length = (size_t)blocks * ns.block_size;
    fill(given + length, length);
    entry_of(a.entries, COMPARE, FUSED_FIRST, (uint16_t)step, lba, blocks);
    entry_of(a.entries + ZK_ENTRY_BYTES, WRITE, FUSED_SECOND, (uint16_t)(step + 1), other, blocks);
    if (one_in(40))
        a.entries[ZK_ENTRY_BYTES + 4] = 2;
    if (one_in(40))
        a.entries[ZK_ENTRY_BYTES + 1] = (uint8_t)below(4);
    a.entries_length = sizeof a.entries;
    a.data_length = 2 * length;
    a.told_length = 2 * ZK_COMPLETION_BYTES;
    ask(w, port, &a);
    pairs++;
}

/* A command of which something may be wrong: its NSID, its FUSE, its opcode or a length. */
static void ask_wrongly(struct window *w, unsigned port)
{
    static const uint8_t opcodes[] = { WRITE, READ, COMPARE, WRITE_ZEROES, WRITE_UNCORRECTABLE, 0x00, 0x0c, 0x0d, 0x7f, 0xff };
    uint64_t lba;
    uint32_t blocks;
    choose_range(w, &lba, &blocks);
    struct asked a = asked_alone(0);
    entry_of(a.entries, opcodes[below(sizeof opcodes)], (uint8_t)below(4), (uint16_t)step, lba, blocks);
    put_little(a.entries + 4, 4, one_in(2) ? 1 : one_in(2) ? UINT32_MAX : below(3));
    a.data_length = zk_data_length(a.entries, 1, ns.block_size);
    if (one_in(4))
        a.data_length ^= 1;
    if (one_in(8))
        a.told_length--;
    if (one_in(8))
        a.entries_length--;
    fill(given, DATA);
    ask(w, port, &a);
}

/* Asks zk_read_now of both. By what else was done in its region a port of the large namespace may know the last change where the small one's doesn't,
 * and the other way round; what it tells then is what a Read finds. */
static void ask_now(struct window *w, unsigned port)
{
    uint64_t lba;
    uint32_t blocks;
    struct zk_status status[2] = { { 0xff, 0xff }, { 0xff, 0xff } };
    choose_range(w, &lba, &blocks);
    if (!one_in(4))
        blocks = 1 + (uint32_t)below(lesser(blocks, ns.nabsn == 0 ? MOST_BLOCKS : ns.nabsn + 1u));
    size_t length = (size_t)blocks * ns.block_size;
    memset(given, 0xa5, length);
    memset(small_data, 0xa5, length);
    memset(large_data, 0xa5, length);
    int small = zk_read_now(&w->ports[port], lba, (uint16_t)(blocks - 1), small_data, length, &status[0]);
    int large = zk_read_now(&ports[port], lba + w->first, (uint16_t)(blocks - 1), large_data, length, &status[1]);
    now_newer += large == ZK_NEWER;
    now_read += large == ZK_DONE;
    if (large == ZK_NEWER && small == ZK_DONE)
        memcpy(small_data, given, length);
    if (large == ZK_DONE && small == ZK_NEWER) {
        struct asked a = asked_alone(length);
        entry_of(a.entries, READ, 0, 0, lba, blocks);
        struct answer it = submit(&w->ports[port], a.entries, ZK_ENTRY_BYTES, small_data, length, ZK_COMPLETION_BYTES);
        status[0] = (struct zk_status) { zk_status_type(it.told), zk_status_code(it.told) };
    } else if (small == ZK_NEWER || large == ZK_NEWER) {
        MUST(small == large || small == ZK_DONE);
        status[0] = status[1];
    } else {
        MUST(small == large);
    }
    MUST(status[0].type == status[1].type && status[0].code == status[1].code && memcmp(small_data, large_data, length) == 0);
}

/* Deallocates ranges of several windows by one command, which is one in each small namespace. */
static void deallocate_across(unsigned port)
{
    static uint8_t all[MOST_WINDOWS * MOST_RANGES * RANGE_BYTES];
    uint8_t entry[ZK_ENTRY_BYTES];
    struct answer small[MOST_WINDOWS];
    uint32_t count = 0, parts = 0;
    for (unsigned i = 0; i < window_count; i++) {
        struct window *w = &windows[i];
        uint32_t own = choose_ranges(w, true);
        if (one_in(2))
            continue;
        size_t length = (size_t)own * RANGE_BYTES;
        deallocate_of(entry, (uint16_t)step, own);
        small[parts++] = submit(&w->ports[port], entry, sizeof entry, given, length, ZK_COMPLETION_BYTES);
        memcpy(all + count * RANGE_BYTES, given, length);
        move_ranges(w, all + count * RANGE_BYTES, length);
        count += own;
    }
    if (count == 0)
        return;
    deallocate_of(entry, (uint16_t)step, count);
    struct answer large = submit(&ports[port], entry, sizeof entry, all, (size_t)count * RANGE_BYTES, ZK_COMPLETION_BYTES);
    for (uint32_t i = 0; i < parts; i++)
        MUST(is_same(&small[i], &large));
    MUST(large.code == ZK_DONE && status_of(large.told) == 0);
    count_answer(&large);
}

static void ask_something(void)
{
    struct window *w = &windows[below(window_count)];
    unsigned port = (unsigned)below(PORTS);
    uint64_t kind = below(100), lba;
    uint32_t blocks;
    choose_range(w, &lba, &blocks);
    size_t length = (size_t)blocks * ns.block_size;
    struct asked a = asked_alone(length);
    if (kind < 26) {
        fill(given, length);
        entry_of(a.entries, WRITE, 0, (uint16_t)step, lba, blocks);
        ask(w, port, &a);
    } else if (kind < 44) {
        reads(w, port, lba, blocks);
    } else if (kind < 54) {
        compared(w, port, lba, blocks);
        entry_of(a.entries, COMPARE, 0, (uint16_t)step, lba, blocks);
        ask(w, port, &a);
    } else if (kind < 62) {
        if (one_in(4) && w->blocks > lba)
            blocks = w->blocks - (uint32_t)lba;
        a.data_length = 0;
        entry_of(a.entries, WRITE_ZEROES, 0, (uint16_t)step, lba, blocks);
        ask(w, port, &a);
    } else if (kind < 66) {
        a.data_length = 0;
        entry_of(a.entries, WRITE_UNCORRECTABLE, 0, (uint16_t)step, lba, blocks);
        ask(w, port, &a);
    } else if (kind < 75) {
        uint32_t count = choose_ranges(w, false);
        a.data_length = (size_t)count * RANGE_BYTES;
        deallocate_of(a.entries, (uint16_t)step, count);
        if (one_in(3))
            a.entries[44] = (uint8_t)below(8);
        ask(w, port, &a);
    } else if (kind < 76) {
        deallocate_across(port);
    } else if (kind < 89) {
        ask_pair(w, port);
    } else if (kind < 94) {
        ask_wrongly(w, port);
    } else {
        ask_now(w, port);
    }
}

/* The first LBA of a region, by the rule: so many whole units in each that there are at most 4,096. */
static uint64_t region_start(uint64_t region)
{
    uint64_t length = ns.nabsn + 1ull, before = (length - ns.nabo) % length;
    uint64_t units = (ns.nsze - 1 + before) / length + 1, each = (units + MOST_REGIONS - 1) / MOST_REGIONS;
    uint64_t start = region * each * length;
    return start > before ? start - before : 0;
}

static uint64_t region_count(void)
{
    uint64_t low = 1;
    while (ns.nabsn != 0 && low < MOST_REGIONS && region_start(low) < ns.nsze)
        low++;
    return low;
}

/* Adds a window around an LBA, unless it meets another. It begins at a unit's first LBA, where units are short, and not always then. */
static void add_window(uint64_t around, bool at_end)
{
    around = lesser(around, ns.nsze - 1);
    uint64_t length = ns.nabsn + 1ull, before = lesser(around, 20 + below(80)), first = around - before;
    if (ns.nabsn != 0 && length <= 128 && !one_in(3)) {
        uint64_t back = (first + length - ns.nabo) % length;
        first = first >= back ? first - back : 0;
    }
    uint64_t blocks = at_end ? ns.nsze - first : lesser(around - first + 60 + below(100), ns.nsze - first);
    for (unsigned i = 0; i < window_count; i++)
        if (first < windows[i].first + windows[i].blocks && windows[i].first < first + blocks)
            return;
    struct window *w = &windows[window_count++];
    *w = (struct window) { .first = first, .blocks = (uint32_t)blocks, .last = first + blocks == ns.nsze, .ns = ns };
    w->ns.nsze = blocks;
    w->ns.nabo = ns.nabsn == 0 ? 0 : (uint16_t)((ns.nabo + length - first % length) % length);
    MUST(zk_open(w->ports, PORTS, &w->ns, ZK_NO_LIMIT, versions) == ZK_DONE);
}

static bool is_in_window(uint64_t lba)
{
    for (unsigned i = 0; i < window_count; i++)
        if (lba >= windows[i].first && lba - windows[i].first < windows[i].blocks)
            return true;
    return false;
}

static bool is_zeroes(const uint8_t *data, size_t length)
{
    return length == 0 || (data[0] == 0 && memcmp(data, data + 1, length - 1) == 0);
}

/* A block that nobody wrote. */
static void must_be_untouched(struct zk_port *port, uint64_t lba)
{
    uint8_t entry[ZK_ENTRY_BYTES];
    entry_of(entry, READ, 0, 7, lba, 1);
    memset(large_data, 0xa5, ns.block_size);
    struct answer it = submit(port, entry, sizeof entry, large_data, ns.block_size, ZK_COMPLETION_BYTES);
    if (it.code != ZK_DONE || status_of(it.told) != 0 || !is_zeroes(large_data, ns.block_size))
        wrong("LBA %llu, which nobody wrote, is answered by %d with %x/%02x, or isn't zeroes", (unsigned long long)lba, it.code,
              zk_status_type(it.told), zk_status_code(it.told));
}

/* The page of Identify has the numbers, with a port and without. */
static void identify(void)
{
    static uint8_t pages[2][ZK_IDENTIFY_BYTES];
    MUST(zk_identify(&ports[0], pages[0], ZK_IDENTIFY_BYTES) == ZK_DONE && zk_identify_namespace(&ns, pages[1], ZK_IDENTIFY_BYTES) == ZK_DONE);
    MUST(memcmp(pages[0], pages[1], ZK_IDENTIFY_BYTES) == 0 && little(pages[0], 8) == ns.nsze);
    MUST(little(pages[0] + 34, 2) == ns.nawun && little(pages[0] + 38, 2) == ns.nacwu);
    MUST(little(pages[0] + 40, 2) == ns.nabsn && little(pages[0] + 42, 2) == ns.nabo);
}

/* Holds a namespace to small ones. */
static void hold(const struct zk_namespace *numbers, bool with_versions)
{
    ns = *numbers;
    versions = with_versions;
    window_count = 0;
    step = 0;
    MUST(zk_open(ports, PORTS, &ns, ZK_NO_LIMIT, versions) == ZK_DONE);
    identify();
    uint64_t regions = region_count();
    add_window(0, false);
    add_window(ns.nsze - 1, true);
    if (regions > 1) {
        add_window(region_start(1), false);
        add_window(region_start(regions - 1), false);
        add_window(region_start(1 + below(regions - 1)), false);
        add_window(region_start(regions / 2), false);
    }
    add_window(ns.nsze / 2 + below(1000), false);
    add_window(below(ns.nsze), false);
    opened += window_count;
    for (step = 1; step <= STEPS; step++)
        ask_something();
    for (unsigned i = 0; i < window_count; i++) {
        struct window *w = &windows[i];
        for (uint64_t lba = 0; lba < w->blocks; lba++)
            reads(w, (unsigned)(lba % PORTS), lba, 1);
        for (uint64_t lba = w->first - lesser(w->first, BESIDE); lba < ns.nsze && lba < w->first + w->blocks + BESIDE; lba++)
            if (!is_in_window(lba))
                must_be_untouched(&ports[0], lba);
        for (int p = 0; p < PORTS; p++)
            MUST(zk_close(&w->ports[p]) == ZK_DONE);
    }
    for (int p = 0; p < PORTS; p++)
        MUST(zk_close(&ports[p]) == ZK_DONE);
}

/* A namespace that follows from the seed. */
static struct zk_namespace any_namespace(void)
{
    struct zk_namespace it = { 0, one_in(4) ? 4096 : 512, 0, 0, 0, 0 };
    it.nsze = 1 + below(1ull << (12 + below(22)));
    if (one_in(8)) {
        it.nsze = lesser(it.nsze, 1u << 22);
        it.nawun = (uint16_t)below(64);
        it.nacwu = (uint16_t)below(64);
        return it;
    }
    it.nabsn = (uint16_t)(1 + below(1ull << (1 + below(15))));
    uint64_t length = it.nabsn + 1ull;
    it.nabo = one_in(3) ? 0 : (uint16_t)below(length);
    it.nawun = (uint16_t)below(length);
    it.nacwu = (uint16_t)below(length);
    return it;
}

static double milliseconds(void)
{
    struct timespec at;
    clock_gettime(CLOCK_MONOTONIC, &at);
    return (double)at.tv_sec * 1e3 + (double)at.tv_nsec / 1e6;
}

static long resident_bytes(void)
{
    char line[256];
    long kilobytes = -1;
    FILE *file = fopen("/proc/self/status", "r");
    while (file && fgets(line, sizeof line, file))
        if (sscanf(line, "VmRSS: %ld", &kilobytes) == 1)
            break;
    if (file)
        fclose(file);
    return kilobytes * 1024;
}

/* Opens the largest namespace with all its ports, which takes less than 256 MB, reads its ends, and closes it. */
static void open_largest(bool times)
{
    static struct zk_port all[ZK_MOST_PORTS];
    for (int turn = 0; turn < 2; turn++) {
        versions = turn != 0;
        ns = (struct zk_namespace) { MOST_NSZE, 512, 7, 0, 7, 7 };
        long before = resident_bytes();
        double begin = milliseconds();
        MUST(zk_open(all, ZK_MOST_PORTS, &ns, ZK_NO_LIMIT, versions) == ZK_DONE);
        double open = milliseconds();
        long resident = resident_bytes();
        MUST(resident - before < 256000000);
        must_be_untouched(&all[ZK_MOST_PORTS - 1], MOST_NSZE - 1);
        must_be_untouched(&all[0], 0);
        double read = milliseconds();
        for (int p = 0; p < ZK_MOST_PORTS; p++)
            MUST(zk_close(&all[p]) == ZK_DONE);
        if (times)
            fprintf(stderr, "large: 2^40 blocks, 64 ports, %s versions: opened in %.3f ms, closed in %.3f ms, resident %ld KB meanwhile\n",
                    versions ? "with" : "without", open - begin, milliseconds() - read, resident / 1024);
    }
}

/* A row of numbers that are taken or refused, with a limit. */
struct row {
    struct zk_namespace ns;
    uint32_t limit;
    int code;
};

static unsigned hold_numbers(void)
{
    static const struct row rows[] = {
        { { 0, 512, 7, 0, 7, 7 }, ZK_NO_LIMIT, ZK_BAD_NAMESPACE },
        { { (1ull << 40) + 1, 512, 7, 0, 7, 7 }, ZK_NO_LIMIT, ZK_BAD_NAMESPACE },
        { { UINT64_MAX, 512, 7, 0, 7, 7 }, ZK_NO_LIMIT, ZK_BAD_NAMESPACE },
        { { 1ull << 40, 512, 65535, 65535, 65535, 65535 }, ZK_NO_LIMIT, ZK_DONE },
        { { 1ull << 40, 512, 1, 0, 0, 0 }, ZK_NO_LIMIT, ZK_DONE },
        { { 1ull << 32, 512, 0, 0, 0, 0 }, ZK_NO_LIMIT, ZK_BAD_NAMESPACE },
        { { 1ull << 40, 512, 0, 0, 0, 0 }, ZK_NO_LIMIT, ZK_BAD_NAMESPACE },
        { { UINT32_MAX, 512, 0, 0, 65535, 65535 }, ZK_NO_LIMIT, ZK_DONE },
        { { UINT32_MAX, 512, 0, 1, 0, 0 }, ZK_NO_LIMIT, ZK_BAD_NAMESPACE },
        { { 1ull << 40, 1024, 7, 0, 7, 7 }, ZK_NO_LIMIT, ZK_BAD_NAMESPACE },
        { { 1ull << 40, 4096, 7, 8, 7, 7 }, ZK_NO_LIMIT, ZK_BAD_NAMESPACE },
        { { 1ull << 40, 4096, 7, 7, 8, 7 }, ZK_NO_LIMIT, ZK_BAD_NAMESPACE },
        { { 1ull << 40, 4096, 7, 7, 7, 8 }, ZK_NO_LIMIT, ZK_BAD_NAMESPACE },
        { { 65536, 512, 15, 0, 15, 15 }, 100, ZK_DONE },
        { { 65537, 512, 127, 0, 7, 7 }, 100, ZK_BAD_NAMESPACE },
        { { 65537, 512, 127, 0, 7, 7 }, ZK_NO_LIMIT, ZK_DONE },
        { { 8192, 512, 1, 0, 1, 1 }, 100, ZK_DONE },
        { { 8194, 512, 1, 0, 1, 1 }, 100, ZK_BAD_NAMESPACE },
        { { 8194, 512, 1, 0, 1, 1 }, ZK_NO_LIMIT, ZK_DONE },
    };
    static uint8_t page[ZK_IDENTIFY_BYTES];
    unsigned count = sizeof rows / sizeof *rows;
    for (unsigned i = 0; i < count; i++) {
        struct zk_port port = ZK_PORT_INIT;
        ns = rows[i].ns;
        int code = zk_open(&port, 1, &ns, rows[i].limit, false);
        if (code != rows[i].code)
            wrong("zk_open with limit %u answers %s, and not %s", rows[i].limit, zk_code_name(code), zk_code_name(rows[i].code));
        MUST(zk_close(&port) == (code == ZK_DONE ? ZK_DONE : ZK_NOT_OPEN));
        if (rows[i].limit == ZK_NO_LIMIT)
            MUST(zk_identify_namespace(&ns, page, sizeof page) == code);
    }
    return count;
}

/* Writes 100 MB, in commands of so many blocks that are spread over 2^31, and prints what is resident. */
static void show_memory(uint32_t blocks)
{
    const uint64_t bytes = 100000000, count = bytes / 512 / blocks;
    ns = (struct zk_namespace) { 1ull << 31, 512, 7, 0, 7, 7 };
    MUST(zk_open(ports, 1, &ns, ZK_NO_LIMIT, false) == ZK_DONE);
    uint8_t entry[ZK_ENTRY_BYTES];
    fill(given, DATA);
    long before = resident_bytes();
    for (uint64_t i = 0; i < count; i++) {
        entry_of(entry, WRITE, 0, 1, ns.nsze / count * i / 8 * 8, blocks);
        struct answer it = submit(ports, entry, sizeof entry, given, (size_t)blocks * 512, ZK_COMPLETION_BYTES);
        MUST(it.code == ZK_DONE && status_of(it.told) == 0);
    }
    long after = resident_bytes();
    for (uint64_t i = 0; i < count; i++) {
        entry_of(entry, WRITE_ZEROES, 0, 1, ns.nsze / count * i / 8 * 8, blocks);
        struct answer it = submit(ports, entry, sizeof entry, NULL, 0, ZK_COMPLETION_BYTES);
        MUST(it.code == ZK_DONE && status_of(it.told) == 0);
    }
    /* Only what lies behind the last block in use goes back by itself. */
    malloc_trim(0);
    long zeroed = resident_bytes();
    MUST(zk_close(ports) == ZK_DONE);
    malloc_trim(0);
    printf("2^31 blocks of 512 bytes, %llu Writes of %u blocks: %llu bytes written, resident %ld bytes before and %ld after, "
           "%ld once they are zeroed, %ld closed\n",
           (unsigned long long)count, blocks, (unsigned long long)count * blocks * 512, before, after, zeroed, resident_bytes());
}

/* Does so many commands of up to 8 blocks at 1,000 LBAs, each within a unit that was written as a whole before, or of blocks that were written alone. */
static void do_commands(uint64_t count, const char *of, uint64_t nsze, uint32_t blocks, bool alone)
{
    enum { LBAS = 1000, UNIT = 8 };
    const size_t length = (size_t)blocks * 512;
    static uint64_t lbas[LBAS], numbers[LBAS];
    uint8_t entries[2 * ZK_ENTRY_BYTES], told[2 * ZK_COMPLETION_BYTES];
    ns = (struct zk_namespace) { nsze, 512, 7, 0, 7, 7 };
    MUST(zk_open(ports, 1, &ns, ZK_NO_LIMIT, false) == ZK_DONE);
    memset(given, 0x5a, DATA);
    for (int i = 0; i < LBAS; i++) {
        lbas[i] = (nsze / LBAS * (uint64_t)i + below(nsze / LBAS - UNIT)) / UNIT * UNIT + below(UNIT + 1 - blocks);
        uint64_t first = alone ? lbas[i] : lbas[i] / UNIT * UNIT;
        uint32_t some = alone ? blocks : UNIT;
        uint8_t *number = given + (lbas[i] - first) * 512;
        entry_of(entries, WRITE, 0, 1, first, some);
        put_little(number, 8, 0);
        MUST(zk_submit(ports, entries, ZK_ENTRY_BYTES, given, (size_t)some * 512, told, ZK_COMPLETION_BYTES) == ZK_DONE && status_of(told) == 0);
        memset(number, 0x5a, 8);
    }
    for (int kind = 0; kind < 3; kind++) {
        static const char *const names[] = { "writes", "reads", "pairs" };
        if (of && strcmp(of, names[kind]) != 0)
            continue;
        for (uint64_t i = 0; i < count; i++) {
            uint64_t at = below(LBAS);
            put_little(given, 8, numbers[at]);
            if (kind == 0) {
                put_little(given, 8, ++numbers[at]);
                entry_of(entries, WRITE, 0, 1, lbas[at], blocks);
                MUST(zk_submit(ports, entries, ZK_ENTRY_BYTES, given, length, told, ZK_COMPLETION_BYTES) == ZK_DONE);
            } else if (kind == 1) {
                entry_of(entries, READ, 0, 1, lbas[at], blocks);
                MUST(zk_submit(ports, entries, ZK_ENTRY_BYTES, given, length, told, ZK_COMPLETION_BYTES) == ZK_DONE);
                MUST(little(given, 8) == numbers[at]);
            } else {
                put_little(given + length, 8, ++numbers[at]);
                entry_of(entries, COMPARE, FUSED_FIRST, 1, lbas[at], blocks);
                entry_of(entries + ZK_ENTRY_BYTES, WRITE, FUSED_SECOND, 2, lbas[at], blocks);
                MUST(zk_submit(ports, entries, sizeof entries, given, 2 * length, told, sizeof told) == ZK_DONE);
                MUST(status_of(told + ZK_COMPLETION_BYTES) == 0);
            }
            MUST(status_of(told) == 0);
        }
        printf("%llu %s of %u blocks, nsze %llu\n", (unsigned long long)count, names[kind], blocks, (unsigned long long)nsze);
    }
    MUST(zk_close(ports) == ZK_DONE);
}

int main(int words, char **word)
{
    bool times = false, memory = false, alone = false, right = true;
    uint64_t count = 0, nsze = 1ull << 31, blocks = 1;
    const char *of = NULL;
    for (int i = 1; i < words; i++) {
        const char *name = word[i];
        if (strcmp(name, "--times") == 0)
            times = true;
        else if (strcmp(name, "--memory") == 0)
            memory = true;
        else if (strcmp(name, "--alone") == 0)
            alone = true;
        else if (name[0] != '-')
            seed = strtoull(name, NULL, 0);
        else if (i + 1 == words)
            right = false;
        else if (strcmp(name, "--count") == 0)
            count = strtoull(word[++i], NULL, 0);
        else if (strcmp(name, "--of") == 0)
            of = word[++i];
        else if (strcmp(name, "--nsze") == 0)
            nsze = strtoull(word[++i], NULL, 0);
        else if (strcmp(name, "--blocks") == 0)
            blocks = strtoull(word[++i], NULL, 0);
        else
            right = false;
    }
    if (!right || blocks < 1 || blocks > (count ? 8 : MOST_BLOCKS) || nsze < 16000) {
        fprintf(stderr, "large [SEED] [--times], large --memory [--blocks N], or large --count N [--of writes|reads|pairs] [--nsze N] [--blocks N] [--alone]\n");
        return 2;
    }
    state = seed * 0x9e3779b97f4a7c15ull | 1;
    if (memory) {
        show_memory((uint32_t)blocks);
        return 0;
    }
    if (count) {
        do_commands(count, of, nsze, (uint32_t)blocks, alone);
        return 0;
    }
    unsigned rows = hold_numbers();
    open_largest(times);
    size_t fixed = sizeof namespaces / sizeof *namespaces, all = 0;
    for (size_t i = 0; i < fixed + OTHERS; i++) {
        struct zk_namespace numbers = i < fixed ? namespaces[i] : any_namespace();
        for (int turn = 0; turn < 2; turn++, all++)
            hold(&numbers, turn != 0);
    }
    printf("%zu namespaces of up to 2^40 blocks, in %lu windows, from seed %llu: %lu commands, each answered as in a small namespace (%lu succeeded, "
           "%lu failed, %lu refused; %lu pairs; zk_read_now %lu, newer %lu); %u rows of numbers\n",
           all, opened, (unsigned long long)seed, commands, succeeded, failed, refused, pairs, now_read, now_newer, rows);
    return 0;
}
