/* Submission queue entries of the NVM Command Set as bytes, for the programs here. */
#ifndef ENTRIES_H
#define ENTRIES_H

#include <stdint.h>
#include <string.h>

#include "zalkvorn.h"

enum {
    WRITE = 0x01,
    READ = 0x02,
    WRITE_UNCORRECTABLE = 0x04,
    COMPARE = 0x05,
    WRITE_ZEROES = 0x08,
    DATASET_MANAGEMENT = 0x09
};

/* The FUSE bits of the two commands of a fused pair. */
enum { FUSED_FIRST = 1, FUSED_SECOND = 2 };

/* The bytes of a range of a Dataset Management, and the bit of its dword 11 that asks for Deallocate. */
enum { RANGE_BYTES = 16, DEALLOCATE = 4 };

/* The lowest `count` bytes of a number. The library is for little-endian machines, so they are its first. */
static inline void put_little(uint8_t *bytes, size_t count, uint64_t number)
{
    memcpy(bytes, &number, count);
}

static inline uint64_t little(const uint8_t *bytes, size_t count)
{
    uint64_t number = 0;
    memcpy(&number, bytes, count);
    return number;
}

/* A command on `blocks` blocks of namespace 1, from the LBA `slba`. */
static inline void entry_of(uint8_t *entry, uint8_t opcode, uint8_t fuse, uint16_t cid, uint64_t slba, uint32_t blocks)
{
    memset(entry, 0, ZK_ENTRY_BYTES);
    entry[0] = opcode;
    entry[1] = fuse;
    put_little(entry + 2, 2, cid);
    put_little(entry + 4, 4, 1);
    put_little(entry + 40, 8, slba);
    put_little(entry + 48, 2, blocks - 1);
}

/* A Dataset Management of `count` ranges, 1 to 256, that deallocates their blocks. */
static inline void deallocate_of(uint8_t *entry, uint16_t cid, uint32_t count)
{
    entry_of(entry, DATASET_MANAGEMENT, 0, cid, 0, 1);
    entry[40] = (uint8_t)(count - 1);
    entry[44] = DEALLOCATE;
}

/* A range of `blocks` blocks from the LBA `first`. Its context attributes are 0. */
static inline void range_of(uint8_t *range, uint64_t first, uint32_t blocks)
{
    put_little(range, 4, 0);
    put_little(range + 4, 4, blocks);
    put_little(range + 8, 8, first);
}

/* A status as one number: type * 256 + code. */
static inline uint16_t status_of(const uint8_t *completion)
{
    return (uint16_t)(zk_status_type(completion) << 8 | zk_status_code(completion));
}

#endif
