/* Stands between soak.c and the library, and spoils some answers, so that it is seen that soak.c notices. The environment variable
 * BREAK says how. Link it to soak.c with -Wl,--wrap=zk_submit,--wrap=zk_poll,--wrap=zk_read_now. */
#include <sched.h>
#include <stdbool.h>
#include <stdlib.h>
#include <string.h>

#include "entries.h"

#undef zk_submit
#undef zk_poll
#undef zk_read_now

enum { BLOCK = 512, BLOCKS = 8192 };

int __real_zk_submit(struct zk_port *port, const uint8_t *entries, size_t entries_length, uint8_t *data, size_t data_length,
                     uint8_t *completions, size_t completions_length);
int __real_zk_poll(struct zk_port *port, uint8_t *data, size_t data_length, uint8_t *completions, size_t completions_length);
int __real_zk_read_now(struct zk_port *port, uint64_t slba, uint16_t nlb, uint8_t *data, size_t data_length, struct zk_status *status);

/* What a port has asked last, and an older state of each block that it has read. */
struct memory {
    unsigned long calls;
    uint8_t entry[ZK_ENTRY_BYTES];
    bool has[BLOCKS];
    uint8_t old[BLOCKS][BLOCK];
};

static struct memory *memory_of(struct zk_port *port)
{
    /* The ports of one array have their places in it, from any first one. */
    static struct memory memories[ZK_MOST_PORTS];
    return &memories[(uintptr_t)port / sizeof *port % ZK_MOST_PORTS];
}

static bool breaks(const char *how)
{
    const char *asked = getenv("BREAK");
    return asked && strcmp(asked, how) == 0;
}

/* The blocks of a Read that was done: remembers each now and then, or puts back what was remembered. */
static void spoil(struct memory *m, uint64_t slba, size_t blocks, uint8_t *data)
{
    for (size_t i = 0; i < blocks && slba + i < BLOCKS; i++) {
        uint8_t *block = data + i * BLOCK, *old = m->old[slba + i];
        bool differs = m->has[slba + i] && memcmp(block, old, BLOCK) != 0;
        if (differs && breaks("older_block"))
            memcpy(block, old, BLOCK);
        else if (differs && breaks("torn_block"))
            memcpy(block + BLOCK / 2, old + BLOCK / 2, BLOCK / 2);
        else if (m->calls % 8 == 0 || breaks("older_read_now"))
            m->has[slba + i] = memcpy(old, block, BLOCK);
    }
}

/* Does a command to its end. */
static void do_whole(struct zk_port *port, const uint8_t *entry, uint8_t *data, size_t length, uint8_t *completion)
{
    int code = __real_zk_submit(port, entry, ZK_ENTRY_BYTES, data, length, completion, ZK_COMPLETION_BYTES);
    while (code == ZK_PENDING) {
        sched_yield();
        code = __real_zk_poll(port, data, length, completion, ZK_COMPLETION_BYTES);
    }
}

/* Does a Read or Write of several blocks as one command for each block. */
static void do_in_takes(struct zk_port *port, const uint8_t *entry, uint8_t *data, size_t length, uint8_t *completion)
{
    uint8_t one[ZK_ENTRY_BYTES];
    for (size_t i = 0; i < length / BLOCK; i++) {
        entry_of(one, entry[0], 0, (uint16_t)little(entry + 2, 2), little(entry + 40, 8) + i, 1);
        do_whole(port, one, data + i * BLOCK, BLOCK, completion);
        if (status_of(completion))
            return;
    }
}

/* Does a pair as a Compare and then a Write. */
static void do_pair_in_takes(struct zk_port *port, const uint8_t *entries, uint8_t *data, size_t length, uint8_t *completions)
{
    uint8_t one[2][ZK_ENTRY_BYTES];
    memcpy(one, entries, sizeof one);
    one[0][1] = one[1][1] = 0;
    do_whole(port, one[0], data, length / 2, completions);
    sched_yield();
    if (status_of(completions) == 0) {
        do_whole(port, one[1], data + length / 2, length / 2, completions + ZK_COMPLETION_BYTES);
        return;
    }
    memcpy(completions + ZK_COMPLETION_BYTES, completions, ZK_COMPLETION_BYTES);
    memcpy(completions + ZK_COMPLETION_BYTES + 12, one[1] + 2, 2);
    put_little(completions + ZK_COMPLETION_BYTES + 14, 2, 0x009 << 1);
}

/* Has a Dataset Management that changes nothing done in place of a change. */
static int forget(struct zk_port *port, const uint8_t *entry, uint8_t *completion)
{
    uint8_t none[ZK_ENTRY_BYTES];
    entry_of(none, DATASET_MANAGEMENT, 0, (uint16_t)little(entry + 2, 2), 0, 1);
    none[40] = 0;
    return __real_zk_submit(port, none, sizeof none, (uint8_t[RANGE_BYTES]) { 0 }, RANGE_BYTES, completion, ZK_COMPLETION_BYTES);
}

int __wrap_zk_submit(struct zk_port *port, const uint8_t *entries, size_t entries_length, uint8_t *data, size_t data_length,
                     uint8_t *completions, size_t completions_length)
{
    struct memory *m = memory_of(port);
    bool pair = entries_length == 2 * ZK_ENTRY_BYTES;
    m->calls++;
    memcpy(m->entry, entries, ZK_ENTRY_BYTES);
    if (pair && breaks("pair_in_takes")) {
        do_pair_in_takes(port, entries, data, data_length, completions);
        return ZK_DONE;
    }
    if (!pair && ((entries[0] == READ && breaks("read_in_takes")) || (entries[0] == WRITE && breaks("write_in_takes")))) {
        do_in_takes(port, entries, data, data_length, completions);
        return ZK_DONE;
    }
    if (!pair && m->calls % 16 == 0
        && ((entries[0] == WRITE && breaks("lost_write")) || (entries[0] == WRITE_UNCORRECTABLE && breaks("lost_mark"))
            || (entries[0] == WRITE_ZEROES && breaks("lost_zeroes")) || (entries[0] == DATASET_MANAGEMENT && breaks("lost_deallocate"))))
        return forget(port, entries, completions);
    int code = __real_zk_submit(port, entries, entries_length, data, data_length, completions, completions_length);
    if (code == ZK_DONE && entries[0] == READ && status_of(completions) == 0)
        spoil(m, little(entries + 40, 8), data_length / BLOCK, data);
    return code;
}

int __wrap_zk_poll(struct zk_port *port, uint8_t *data, size_t data_length, uint8_t *completions, size_t completions_length)
{
    struct memory *m = memory_of(port);
    int code = __real_zk_poll(port, data, data_length, completions, completions_length);
    if (code == ZK_DONE && m->entry[0] == READ && status_of(completions) == 0)
        spoil(m, little(m->entry + 40, 8), data_length / BLOCK, data);
    return code;
}

int __wrap_zk_read_now(struct zk_port *port, uint64_t slba, uint16_t nlb, uint8_t *data, size_t data_length, struct zk_status *status)
{
    struct memory *m = memory_of(port);
    int code = __real_zk_read_now(port, slba, nlb, data, data_length, status);
    if (code != ZK_NEWER || !breaks("older_read_now"))
        return code;
    for (size_t i = 0; i <= nlb; i++)
        if (slba + i >= BLOCKS || !m->has[slba + i])
            return code;
    for (size_t i = 0; i <= nlb; i++)
        memcpy(data + i * BLOCK, m->old[slba + i], BLOCK);
    *status = (struct zk_status) { 0, 0 };
    return ZK_DONE;
}
