/* An nbdkit plugin: serves a namespace to whatever speaks NBD, as QEMU, libnbd, fio and Linux's nbd do.
 *
 *     nbdkit ./nbdkit-zalkvorn.so size=64M [block=512|4096] [unit=BLOCKS] [ports=COUNT] [most=BLOCKS]
 *
 * `size` is a multiple of the block size, at most 2^40 blocks. `unit` blocks are an atomic unit (16), `ports` is how many requests are
 * done at the same time (16), `most` how many blocks one command has (256): a longer request is cut into several commands. In a region of more than 65,536 bytes a block of 4,096 bytes, or of a
 * command that isn't of whole eights of blocks, holds the data of its whole command until all blocks of that were written again, so a smaller `most` bounds memory: at worst each block holds `most` blocks.
 *
 * Each request takes a port that no other request has. A mutex hands ports from thread to thread, as the library wants. Blocks
 * that a request covers only in part are changed by a fused Compare and Write, so that nothing is lost between two of them. */
#define NBDKIT_API_VERSION 2
#include <nbdkit-plugin.h>

#include <errno.h>
#include <malloc.h>
#include <pthread.h>
#include <sched.h>
#include <stdatomic.h>
#include <stdbool.h>
#include <stdlib.h>
#include <string.h>

#include "entries.h"

#define THREAD_MODEL NBDKIT_THREAD_MODEL_PARALLEL

enum { MOST_IN_UNIT = 65536, MOST_BLOCK_SIZE = 4096 };

static int64_t size = -1;
static uint32_t block_size = 4096, ports = 16, most = 256, unit;
static struct zk_namespace ns;
static struct zk_port opened[ZK_MOST_PORTS];
static pthread_mutex_t mutexes[ZK_MOST_PORTS];

static int zalkvorn_config(const char *key, const char *value)
{
    if (strcmp(key, "size") == 0) {
        size = nbdkit_parse_size(value);
        return size < 0 ? -1 : 0;
    }
    uint32_t *number = strcmp(key, "block") == 0 ? &block_size : strcmp(key, "unit") == 0 ? &unit
        : strcmp(key, "ports") == 0 ? &ports : strcmp(key, "most") == 0 ? &most : NULL;
    if (!number) {
        nbdkit_error("zalkvorn: there is no parameter %s", key);
        return -1;
    }
    return nbdkit_parse_uint32_t(key, value, number);
}

static int zalkvorn_config_complete(void)
{
    if (block_size != 512 && block_size != 4096) {
        nbdkit_error("zalkvorn: block is 512 or 4096");
        return -1;
    }
    if (size <= 0 || size % block_size || (uint64_t)size / block_size > ZK_MOST_BLOCKS) {
        nbdkit_error("zalkvorn: size is a multiple of %u, at most 2^40 blocks", block_size);
        return -1;
    }
    if (most == 0 || most > MOST_IN_UNIT) {
        nbdkit_error("zalkvorn: most is 1 to %u blocks", MOST_IN_UNIT);
        return -1;
    }
    uint64_t blocks = (uint64_t)size / block_size;
    if (unit == 0)
        unit = 16;
    if (unit < 2 || unit > MOST_IN_UNIT) {
        nbdkit_error("zalkvorn: unit is 2 to %u blocks", MOST_IN_UNIT);
        return -1;
    }
    uint16_t distance = (uint16_t)(unit - 1);
    ns = (struct zk_namespace){ .nsze = blocks, .block_size = block_size, .nabsn = distance, .nawun = distance,
                                .nacwu = distance };
    return 0;
}

/* Opens the ports once nbdkit has gone into the background, since no port is used on both sides of a fork. */
static int zalkvorn_after_fork(void)
{
    if (zk_version() != ZK_VERSION) {
        nbdkit_error("zalkvorn: the library is of another version than its header");
        return -1;
    }
    /* A Write takes memory for its data and gives back what it replaces. One arena hands it on from thread to thread, and isn't given back to the
     * system and taken again. */
#ifdef M_ARENA_MAX
    mallopt(M_ARENA_MAX, 1);
    mallopt(M_TOP_PAD, 16 << 20);
    mallopt(M_TRIM_THRESHOLD, 1 << 30);
#endif
    int code = zk_open(opened, ports, &ns, ZK_NO_LIMIT, false);
    if (code != ZK_DONE) {
        nbdkit_error("zalkvorn: %s", code == ZK_BAD_PORTS ? "ports is 1 to 64"
                     : code == ZK_NO_MEMORY ? "no memory" : "no such namespace");
        return -1;
    }
    for (uint32_t i = 0; i < ports; i++)
        pthread_mutex_init(&mutexes[i], NULL);
    return 0;
}

static void zalkvorn_unload(void)
{
    for (uint32_t i = 0; i < ZK_MOST_PORTS; i++)
        zk_close(&opened[i]);
}

/* Takes a port that no other request has: each thread begins with another one, so that they seldom meet. */
static uint32_t take_port(void)
{
    static atomic_uint threads;
    static _Thread_local uint32_t mine;
    if (mine == 0)
        mine = atomic_fetch_add(&threads, 1) + 1;
    for (uint32_t i = 0; i < ports; i++) {
        uint32_t at = (mine + i) % ports;
        if (pthread_mutex_trylock(&mutexes[at]) == 0)
            return at;
    }
    pthread_mutex_lock(&mutexes[mine % ports]);
    return mine % ports;
}

static void give_back(uint32_t at)
{
    pthread_mutex_unlock(&mutexes[at]);
}

/* Does one entry or a fused pair by the port, and has its completions in `told`. 0, or -1 after a message. */
static int done(uint32_t at, const uint8_t *entries, size_t count, uint8_t *data, size_t length, uint8_t *told)
{
    int code = zk_submit(&opened[at], entries, count * ZK_ENTRY_BYTES, data, length, told, count * ZK_COMPLETION_BYTES);
    while (code == ZK_PENDING) {
        sched_yield();
        code = zk_poll(&opened[at], data, length, told, count * ZK_COMPLETION_BYTES);
    }
    if (code == ZK_DONE)
        return 0;
    nbdkit_error("zalkvorn: %s", code == ZK_NO_MEMORY ? "malloc refused memory for a command" : "a command was refused");
    errno = code == ZK_NO_MEMORY ? ENOMEM : EIO;
    return -1;
}

/* Says why a command failed, and makes that EIO. */
static int failed(const uint8_t *entry, uint16_t status)
{
    const char *name = zk_status_name((uint8_t)(status >> 8), (uint8_t)status);
    unsigned long long lba = little(entry + 40, 8);
    nbdkit_error("zalkvorn: opcode %02xh at LBA %llu: %s%s", entry[0], lba, name, status == 0x006 ? ": malloc refused memory" : "");
    errno = EIO;
    return -1;
}

/* Does one command, and wants success. */
static int command(uint32_t at, const uint8_t *entry, uint8_t *data, size_t length)
{
    uint8_t told[ZK_COMPLETION_BYTES];
    if (done(at, entry, 1, data, length, told))
        return -1;
    return status_of(told) ? failed(entry, status_of(told)) : 0;
}

/* Changes some bytes of one block, or reads them: by Read, and for a change by Compare and Write until the Compare holds. */
static int part_of_block(uint32_t at, bool writes, uint64_t lba, size_t from, size_t length, uint8_t *bytes)
{
    uint8_t entries[2 * ZK_ENTRY_BYTES], blocks[2 * MOST_BLOCK_SIZE];
    for (;;) {
        entry_of(entries, READ, 0, 0, lba, 1);
        if (command(at, entries, blocks, block_size))
            return -1;
        if (!writes) {
            memcpy(bytes, blocks + from, length);
            return 0;
        }
        memcpy(blocks + block_size, blocks, block_size);
        if (bytes)
            memcpy(blocks + block_size + from, bytes, length);
        else
            memset(blocks + block_size + from, 0, length);
        uint8_t told[2 * ZK_COMPLETION_BYTES];
        entry_of(entries, COMPARE, FUSED_FIRST, 0, lba, 1);
        entry_of(entries + ZK_ENTRY_BYTES, WRITE, FUSED_SECOND, 1, lba, 1);
        if (done(at, entries, 2, blocks, 2 * block_size, told))
            return -1;
        if (status_of(told) == 0x285)
            continue;
        if (status_of(told))
            return failed(entries, status_of(told));
        uint16_t status = status_of(told + ZK_COMPLETION_BYTES);
        return status ? failed(entries + ZK_ENTRY_BYTES, status) : 0;
    }
}

/* Does a request of any alignment. The opcode is WRITE, READ or WRITE_ZEROES; the last has no bytes. */
static int request(uint8_t opcode, uint8_t *bytes, uint32_t length, uint64_t offset)
{
    uint32_t at = take_port();
    int code = 0;
    while (length && code == 0) {
        uint64_t lba = offset / block_size;
        uint32_t from = (uint32_t)(offset % block_size), step;
        if (from || length < block_size) {
            step = block_size - from < length ? block_size - from : length;
            code = part_of_block(at, opcode != READ, lba, from, step, bytes);
        } else {
            uint8_t entry[ZK_ENTRY_BYTES];
            uint32_t blocks = length / block_size;
            if (blocks > most)
                blocks = most;
            step = blocks * block_size;
            entry_of(entry, opcode, 0, 0, lba, blocks);
            code = command(at, entry, bytes ? bytes : entry, bytes ? step : 0);
        }
        offset += step;
        length -= step;
        if (bytes)
            bytes += step;
    }
    give_back(at);
    return code;
}

static int zalkvorn_pread(void *handle, void *buffer, uint32_t count, uint64_t offset, uint32_t flags)
{
    (void)handle;
    (void)flags;
    return request(READ, buffer, count, offset);
}

/* The library writes nothing into the data of a Write, so nbdkit's buffer may go to it. */
static int zalkvorn_pwrite(void *handle, const void *buffer, uint32_t count, uint64_t offset, uint32_t flags)
{
    (void)handle;
    (void)flags;
    return request(WRITE, (uint8_t *)(uintptr_t)buffer, count, offset);
}

static int zalkvorn_zero(void *handle, uint32_t count, uint64_t offset, uint32_t flags)
{
    (void)handle;
    (void)flags;
    return request(WRITE_ZEROES, NULL, count, offset);
}

/* Deallocates the blocks that lie whole in the range, by a Dataset Management of one range. */
static int zalkvorn_trim(void *handle, uint32_t count, uint64_t offset, uint32_t flags)
{
    (void)handle;
    (void)flags;
    uint64_t first = (offset + block_size - 1) / block_size, end = (offset + count) / block_size;
    if (end <= first)
        return 0;
    uint8_t entry[ZK_ENTRY_BYTES], range[RANGE_BYTES];
    deallocate_of(entry, 0, 1);
    range_of(range, first, (uint32_t)(end - first));
    uint32_t at = take_port();
    int code = command(at, entry, range, sizeof range);
    give_back(at);
    return code;
}

/* Nothing is cached, so all that was answered is as kept as it will be. */
static int zalkvorn_flush(void *handle, uint32_t flags)
{
    (void)handle;
    (void)flags;
    return 0;
}

static int zalkvorn_can_fua(void *handle)
{
    (void)handle;
    return NBDKIT_FUA_NATIVE;
}

static int zalkvorn_yes(void *handle)
{
    (void)handle;
    return 1;
}

static void *zalkvorn_open(int readonly)
{
    (void)readonly;
    return NBDKIT_HANDLE_NOT_NEEDED;
}

static int64_t zalkvorn_get_size(void *handle)
{
    (void)handle;
    return size;
}

static int zalkvorn_block_size(void *handle, uint32_t *minimum, uint32_t *preferred, uint32_t *maximum)
{
    (void)handle;
    *minimum = 1;
    *preferred = 4096;
    *maximum = UINT32_MAX;
    return 0;
}

static struct nbdkit_plugin plugin = {
    .name = "zalkvorn",
    .version = "1",
    .description = "A namespace of the NVM Command Set in memory, whose engine is proved",
    .config = zalkvorn_config,
    .config_complete = zalkvorn_config_complete,
    .config_help = "size=SIZE (required)  bytes of the namespace\n"
                   "block=512|4096        bytes of a block (4096)\n"
                   "unit=BLOCKS           blocks of an atomic unit (16)\n"
                   "ports=COUNT           requests at the same time, 1 to 64 (16)\n"
                   "most=BLOCKS           blocks of one command (256)",
    .magic_config_key = "size",
    .after_fork = zalkvorn_after_fork,
    .unload = zalkvorn_unload,
    .open = zalkvorn_open,
    .get_size = zalkvorn_get_size,
    .block_size = zalkvorn_block_size,
    .can_multi_conn = zalkvorn_yes,
    .can_fast_zero = zalkvorn_yes,
    .can_fua = zalkvorn_can_fua,
    .pread = zalkvorn_pread,
    .pwrite = zalkvorn_pwrite,
    .zero = zalkvorn_zero,
    .trim = zalkvorn_trim,
    .flush = zalkvorn_flush,
};

NBDKIT_REGISTER_PLUGIN(plugin)
