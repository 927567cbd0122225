/* The engine that one would write by hand, without a proof and without a record: the blocks are one array, an atomic unit has a mutex, and a command does its
 * part of each unit with that unit's mutex held, in ascending order up to the first part that fails. It answers zk_open, zk_submit and zk_close as include/zalkvorn.h has them,
 * for what bench/c_load.c asks, and zk_data_length and zk_identify_namespace for clients/nvme-tcp/target.c; nothing is ever pending, and nothing is recorded. It is what zk_submit is measured beside (bench/c_beside, bench/wire), and not for
 * use. */
#include <pthread.h>
#include <stdlib.h>
#include <string.h>

#include "../clients/entries.h"

/* The header answers null pointers before these calls; what it calls then is here. */
#undef zk_open
#undef zk_close
#undef zk_submit
#undef zk_submit_pair
#undef zk_poll
#undef zk_data_length
#undef zk_identify_namespace
#undef zk_record
#undef zk_record_part
#undef zk_audit

struct engine {
    struct zk_namespace ns;
    uint8_t *blocks;
    bool *marks;
    pthread_mutex_t *units;
    uint32_t ports;
};

struct command {
    uint8_t opcode, fuse;
    uint16_t cid;
    uint32_t nsid;
    uint64_t slba;
    uint32_t blocks;
};

enum { OK = 0, BAD_OPCODE = 0x01, BAD_FIELD = 0x02, FAILED_FUSED = 0x09, MISSING_FUSED = 0x0a, BAD_NAMESPACE = 0x0b, TOO_LONG = 0x14, OUT_OF_RANGE = 0x80,
       MARKED = 0x281, DIFFERS = 0x285 };

static struct command read_entry(const uint8_t *entry)
{
    struct command it = { entry[0], entry[1] & 3, 0, 0, 0, 0 };
    memcpy(&it.cid, entry + 2, 2);
    memcpy(&it.nsid, entry + 4, 4);
    if (it.opcode != DATASET_MANAGEMENT) {
        memcpy(&it.slba, entry + 40, 8);
        it.blocks = entry[48] + 256u * entry[49] + 1;
    }
    return it;
}

/* The bytes of data that a command carries. */
static size_t carried(const struct command *it, const uint8_t *entry, uint32_t block_size)
{
    if (it->opcode == DATASET_MANAGEMENT)
        return (entry[40] + 1u) * RANGE_BYTES;
    return it->opcode == WRITE || it->opcode == COMPARE ? (size_t)it->blocks * block_size : 0;
}

size_t zk_data_length(const uint8_t *entries, size_t count, uint32_t block_size)
{
    struct command first = read_entry(entries);
    if (count == 1)
        return first.opcode == READ ? (size_t)first.blocks * block_size : carried(&first, entries, block_size);
    struct command second = read_entry(entries + ZK_ENTRY_BYTES);
    return carried(&first, entries, block_size) + carried(&second, entries + ZK_ENTRY_BYTES, block_size);
}

static bool is_served(uint8_t opcode)
{
    return opcode == WRITE || opcode == READ || opcode == WRITE_UNCORRECTABLE || opcode == COMPARE || opcode == WRITE_ZEROES || opcode == DATASET_MANAGEMENT;
}

static uint64_t unit_of(const struct engine *of, uint64_t lba)
{
    return of->ns.nabsn == 0 || lba < of->ns.nabo ? 0 : (lba - of->ns.nabo) / (of->ns.nabsn + 1u) + (of->ns.nabo > 0);
}

/* The LBA at which the unit after this one begins. */
static uint64_t end_of(const struct engine *of, uint64_t lba)
{
    if (of->ns.nabsn == 0)
        return of->ns.nsze;
    if (lba < of->ns.nabo)
        return of->ns.nabo;
    return lba + of->ns.nabsn + 1u - (lba - of->ns.nabo) % (of->ns.nabsn + 1u);
}

static bool ends_above(const struct engine *of, uint64_t first, uint64_t blocks)
{
    return first > of->ns.nsze || blocks > of->ns.nsze - first;
}

static bool has_mark(const struct engine *of, uint64_t first, uint64_t blocks)
{
    for (uint64_t i = 0; i < blocks; i++)
        if (of->marks[first + i])
            return true;
    return false;
}

/* A comparison of blocks of one unit. */
static uint16_t compared(const struct engine *of, uint64_t first, uint64_t blocks, const uint8_t *data)
{
    size_t size = of->ns.block_size;
    if (has_mark(of, first, blocks))
        return MARKED;
    return memcmp(of->blocks + first * size, data, blocks * size) ? DIFFERS : OK;
}

/* What a command by itself does in one unit. */
static uint16_t part(struct engine *of, uint8_t opcode, uint64_t first, uint64_t blocks, uint8_t *data)
{
    size_t size = of->ns.block_size;
    uint8_t *there = of->blocks + first * size;
    switch (opcode) {
    case READ:
        if (has_mark(of, first, blocks))
            return MARKED;
        memcpy(data, there, blocks * size);
        return OK;
    case COMPARE:
        return compared(of, first, blocks, data);
    case WRITE:
        memcpy(there, data, blocks * size);
        break;
    case WRITE_UNCORRECTABLE:
        memset(of->marks + first, 1, blocks);
        return OK;
    default:
        memset(there, 0, blocks * size);
    }
    memset(of->marks + first, 0, blocks);
    return OK;
}

/* A range, unit by unit. */
static uint16_t each_part(struct engine *of, uint8_t opcode, uint64_t first, uint64_t blocks, uint8_t *data)
{
    uint16_t status = OK;
    for (uint64_t at = first; status == OK && at < first + blocks;) {
        uint64_t end = end_of(of, at), last = end < first + blocks ? end : first + blocks;
        pthread_mutex_t *unit = &of->units[unit_of(of, at)];
        pthread_mutex_lock(unit);
        status = part(of, opcode, at, last - at, data ? data + (at - first) * of->ns.block_size : NULL);
        pthread_mutex_unlock(unit);
        at = last;
    }
    return status;
}

static uint16_t deallocated(struct engine *of, uint32_t count, bool clears, const uint8_t *ranges)
{
    for (uint32_t i = 0; i < count; i++)
        if (ends_above(of, little(ranges + i * RANGE_BYTES + 8, 8), little(ranges + i * RANGE_BYTES + 4, 4)))
            return OUT_OF_RANGE;
    for (uint32_t i = 0; clears && i < count; i++)
        each_part(of, WRITE_ZEROES, little(ranges + i * RANGE_BYTES + 8, 8), little(ranges + i * RANGE_BYTES + 4, 4), NULL);
    return OK;
}

static uint16_t single(struct engine *of, const struct command *it, const uint8_t *entry, uint8_t *data)
{
    if (!is_served(it->opcode))
        return BAD_OPCODE;
    if (it->fuse == 3)
        return BAD_FIELD;
    if (it->fuse)
        return MISSING_FUSED;
    if (it->nsid != 1)
        return BAD_NAMESPACE;
    if (it->opcode == DATASET_MANAGEMENT)
        return deallocated(of, entry[40] + 1u, entry[44] & DEALLOCATE, data);
    if (ends_above(of, it->slba, it->blocks))
        return OUT_OF_RANGE;
    return each_part(of, it->opcode, it->slba, it->blocks, data);
}

/* The statuses of a pair. */
static inline __attribute__((always_inline)) void pair(struct engine *of, const struct command *first, const struct command *second, const uint8_t *expected, uint8_t *written, uint16_t told[2])
{
    told[1] = FAILED_FUSED;
    if (first->opcode != COMPARE || second->opcode != WRITE || (first->nsid == 1 && second->nsid == 1 && (first->slba != second->slba || first->blocks != second->blocks)))
        told[0] = told[1] = BAD_FIELD;
    else if (first->nsid != 1 || second->nsid != 1)
        told[0] = BAD_NAMESPACE;
    else if (ends_above(of, first->slba, first->blocks))
        told[0] = OUT_OF_RANGE;
    else if (first->blocks > of->ns.nacwu + 1u || unit_of(of, first->slba) != unit_of(of, first->slba + first->blocks - 1))
        told[0] = TOO_LONG;
    else {
        pthread_mutex_t *unit = &of->units[unit_of(of, first->slba)];
        pthread_mutex_lock(unit);
        told[0] = compared(of, first->slba, first->blocks, expected);
        if (told[0] == OK)
            told[1] = part(of, WRITE, first->slba, first->blocks, written);
        pthread_mutex_unlock(unit);
    }
}

static void complete(uint8_t *completion, uint16_t queue, uint16_t cid, uint16_t status)
{
    uint16_t field = (uint16_t)((status & 0xff) << 1 | (status >> 8) << 9);
    memset(completion, 0, ZK_COMPLETION_BYTES);
    memcpy(completion + 10, &queue, 2);
    memcpy(completion + 12, &cid, 2);
    memcpy(completion + 14, &field, 2);
}

int zk_open(struct zk_port *ports, size_t count, const struct zk_namespace *ns, uint32_t limit, bool versions)
{
    struct engine *of = malloc(sizeof *of);
    uint64_t units;
    (void)limit, (void)versions;
    if (!of)
        return ZK_NO_MEMORY;
    of->ns = *ns;
    units = unit_of(of, ns->nsze - 1) + 1;
    of->blocks = calloc(ns->nsze, ns->block_size);
    of->marks = calloc(ns->nsze, sizeof *of->marks);
    of->units = calloc(units, sizeof *of->units);
    of->ports = (uint32_t)count;
    if (!of->blocks || !of->marks || !of->units)
        return ZK_NO_MEMORY;
    for (uint64_t i = 0; i < units; i++)
        pthread_mutex_init(&of->units[i], NULL);
    for (size_t i = 0; i < count; i++) {
        ports[i].opaque[0] = (uint64_t)(uintptr_t)of;
        ports[i].opaque[1] = i + 1;
    }
    return ZK_DONE;
}

int zk_close(struct zk_port *port)
{
    struct engine *of = (struct engine *)(uintptr_t)port->opaque[0];
    if (!of)
        return ZK_NOT_OPEN;
    port->opaque[0] = 0;
    if (__atomic_sub_fetch(&of->ports, 1, __ATOMIC_ACQ_REL) == 0) {
        free(of->blocks);
        free(of->marks);
        free(of->units);
        free(of);
    }
    return ZK_DONE;
}

int zk_submit(struct zk_port *port, const uint8_t *entries, size_t entries_length, uint8_t *data, size_t data_length, uint8_t *completions, size_t completions_length)
{
    struct engine *of = (struct engine *)(uintptr_t)port->opaque[0];
    size_t count = entries_length / ZK_ENTRY_BYTES, wanted;
    uint16_t told[2] = { OK, OK };
    if (!of)
        return ZK_NOT_OPEN;
    if ((count != 1 && count != 2) || entries_length % ZK_ENTRY_BYTES || completions_length != count * ZK_COMPLETION_BYTES)
        return ZK_BAD_LENGTH;
    struct command first = read_entry(entries), second = first;
    wanted = carried(&first, entries, of->ns.block_size) + (count == 1 && first.opcode == READ ? (size_t)first.blocks * of->ns.block_size : 0);
    if (count == 2) {
        second = read_entry(entries + ZK_ENTRY_BYTES);
        if (first.fuse != FUSED_FIRST || second.fuse != FUSED_SECOND || !is_served(first.opcode) || !is_served(second.opcode))
            return ZK_NO_PAIR;
        wanted += carried(&second, entries + ZK_ENTRY_BYTES, of->ns.block_size);
    }
    if (data_length != wanted)
        return ZK_BAD_LENGTH;
    if (count == 1)
        told[0] = single(of, &first, entries, data);
    else
        pair(of, &first, &second, data, data + carried(&first, entries, of->ns.block_size), told);
    complete(completions, (uint16_t)port->opaque[1], first.cid, told[0]);
    if (count == 2)
        complete(completions + ZK_COMPLETION_BYTES, (uint16_t)port->opaque[1], second.cid, told[1]);
    return ZK_DONE;
}

int zk_submit_pair(struct zk_port *port, const uint8_t *entries, size_t entries_length, const uint8_t *expected, size_t expected_length, const uint8_t *written,
                   size_t written_length, uint8_t *completions, size_t completions_length)
{
    struct engine *of = (struct engine *)(uintptr_t)port->opaque[0];
    uint16_t told[2] = { OK, OK };
    if (!of)
        return ZK_NOT_OPEN;
    if (entries_length != 2 * ZK_ENTRY_BYTES || completions_length != 2 * ZK_COMPLETION_BYTES)
        return ZK_BAD_LENGTH;
    struct command first = read_entry(entries), second = read_entry(entries + ZK_ENTRY_BYTES);
    if (first.fuse != FUSED_FIRST || second.fuse != FUSED_SECOND || !is_served(first.opcode) || !is_served(second.opcode))
        return ZK_NO_PAIR;
    if (expected_length != carried(&first, entries, of->ns.block_size) || written_length != carried(&second, entries + ZK_ENTRY_BYTES, of->ns.block_size))
        return ZK_BAD_LENGTH;
    pair(of, &first, &second, expected, (uint8_t *)(uintptr_t)written, told);
    complete(completions, (uint16_t)port->opaque[1], first.cid, told[0]);
    complete(completions + ZK_COMPLETION_BYTES, (uint16_t)port->opaque[1], second.cid, told[1]);
    return ZK_DONE;
}

/* Nothing is ever pending. */
int zk_poll(struct zk_port *port, uint8_t *data, size_t data_length, uint8_t *completions, size_t completions_length)
{
    (void)data, (void)data_length, (void)completions, (void)completions_length;
    return port->opaque[0] ? ZK_IDLE : ZK_NOT_OPEN;
}

uint32_t zk_version(void)
{
    return ZK_VERSION;
}

int zk_identify_namespace(const struct zk_namespace *ns, uint8_t *data, size_t data_length)
{
    if (data_length != ZK_IDENTIFY_BYTES)
        return ZK_BAD_LENGTH;
    memset(data, 0, data_length);
    memcpy(data, &ns->nsze, 8);
    data[24] = 2;
    memcpy(data + 34, &ns->nawun, 2);
    memcpy(data + 38, &ns->nacwu, 2);
    memcpy(data + 40, &ns->nabsn, 2);
    memcpy(data + 42, &ns->nabo, 2);
    return ZK_DONE;
}

int zk_record(struct zk_port *ports, size_t count, uint8_t *bytes, size_t room, size_t *length)
{
    (void)ports, (void)count, (void)bytes, (void)room, (void)length;
    return ZK_NO_RECORD;
}

int zk_record_part(struct zk_port *ports, size_t count, uint64_t from, uint8_t *bytes, size_t room, size_t *length)
{
    (void)from;
    return zk_record(ports, count, bytes, room, length);
}

int zk_audit(const uint8_t *bytes, size_t length, char *line, size_t room)
{
    (void)bytes, (void)length, (void)line, (void)room;
    return ZK_BAD_RECORD;
}
