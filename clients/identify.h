/* What an NVMe namespace promises, as the pages of Identify say it: NVM Command Set Specification, "Identify Namespace Data Structure",
   and Base Specification, "Identify Controller Data Structure". */
#ifndef IDENTIFY_H
#define IDENTIFY_H

#include <stdbool.h>
#include <stdint.h>

enum { PAGE = 4096 };

struct identified {
    uint64_t blocks;              /* of the namespace */
    unsigned shift;               /* a block has 2 to the power of so many bytes */
    unsigned metadata;            /* bytes of metadata with each block */
    uint32_t nabsn, nabo;
    uint32_t nawun, nacwu;        /* the namespace's where NSFEAT bit 1 is set and they aren't 0, or else AWUN and ACWU of the controller */
    unsigned dlfeat;              /* bits 2:0: what a deallocated block reads as */
};

/* The numbers of the head of a trace of some of the namespace's blocks, in which LBAs count from the first of these. */
struct head {
    uint32_t nabsn, nabo, nawun, nacwu;
    uint32_t units;
};

static inline uint32_t number_at(const uint8_t *page, unsigned at)
{
    return page[at] | (uint32_t)page[at + 1] << 8;
}

/* What the two pages say, of the namespace and of its controller. */
static inline struct identified identified_by(const uint8_t *space, const uint8_t *controller)
{
    unsigned format = (space[26] & 15) | (space[26] >> 1 & 48);
    struct identified it = {
        .shift = space[128 + 4 * format + 2],
        .metadata = number_at(space, 128 + 4 * format),
        .nabsn = number_at(space, 40),
        .nabo = number_at(space, 42),
        .nawun = number_at(space, 34),
        .nacwu = number_at(space, 38),
        .dlfeat = space[33] & 7,
    };
    for (unsigned at = 8; at-- > 0;) {
        it.blocks = it.blocks << 8 | space[at];
    }
    bool is_own = space[24] & 2;
    if (!is_own || it.nawun == 0) {
        it.nawun = number_at(controller, 526);
    }
    if (!is_own || it.nacwu == 0) {
        it.nacwu = number_at(controller, 532);
    }
    return it;
}

/* The words that a head has behind those for Reads: what a deallocated block reads as, where DLFEAT says it. */
static inline const char *deallocated_words(unsigned dlfeat)
{
    return dlfeat == 1 ? " deallocated zeroes" : dlfeat == 2 ? " deallocated ones" : "";
}

/* The head for so many blocks from an LBA on. No NAWUN or NACWU is above NABSN there: what is longer crosses a boundary, and isn't
   promised either way. */
static inline struct head head_of(const struct identified *it, uint64_t first, uint32_t blocks)
{
    struct head head = {.nawun = it->nawun, .nacwu = it->nacwu, .units = 1};
    if (it->nabsn == 0) {
        return head;
    }
    uint64_t size = it->nabsn + 1u;
    head.nabsn = it->nabsn;
    head.nabo = (uint32_t)((it->nabo % size + size - first % size) % size);
    head.nawun = it->nawun < it->nabsn ? it->nawun : it->nabsn;
    head.nacwu = it->nacwu < it->nabsn ? it->nacwu : it->nabsn;
    uint64_t boundary = head.nabo ? head.nabo : size;
    if (boundary < blocks) {
        head.units = (uint32_t)(2 + (blocks - 1 - boundary) / size);
    }
    return head;
}

#endif
