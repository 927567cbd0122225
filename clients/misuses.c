/* A table of misuses: a row for each way to be refused, with the code that is answered. Only ZK_DONE may write, so after every
 * other answer the ports, the data, the completions and the status are compared with what stood there; ZK_SHORT_ROOM tells a length.
 * The last rows are those of ZK_DONE and ZK_PENDING.
 *
 * Memory is refused, and a unit is held, by this program's own malloc: link it with -Wl,--wrap=malloc,--wrap=realloc. */
#include <pthread.h>
#include <semaphore.h>
#include <stdbool.h>
#include <stdio.h>
#include <stdlib.h>
#include <string.h>

#include "entries.h"

/* The first port is called, the second holds a unit, and the third finds out that it does. */
enum { BLOCK = 512, PORTS = 3, ROOM = 9 * BLOCK };

/* How things stand before the call. */
enum state {
    SHUT,       /* it was never opened */
    CLOSED,     /* it was opened and closed */
    OPEN,       /* all are open, with versions */
    PLAIN,      /* all are open, without versions */
    SECOND,     /* only the second is open */
    BEHIND,     /* the second has changed LBA 0 since */
    TAKEN,      /* the second has the unit of LBA 0 */
    PENDING,    /* so a Read of two blocks is pending in the first */
    WRITING,    /* so a Write is pending in the first */
    STARVED,    /* all are open, and malloc refuses */
    SHUT_STARVED,
    SETTLED,    /* all are open, without versions, the first has done Writes and a pair of LBA 0, and malloc refuses */
    RECORDED,   /* all are open, of a recorded namespace */
    MIXED,      /* so, but the third is of another one */
    ASKED,      /* the second has the unit of LBA 0, so a Read is pending in the first, of a recorded namespace */
    RECORDED_STARVED
};

enum call { OPENS, CLOSES, SUBMITS, SUBMITS_PAIR, POLLS, IDENTIFIES, IDENTIFIES_NAMESPACE, READS_NOW, RECORDS, RECORDS_PART };

struct row {
    int code;
    enum call call;
    enum state state;
    const char *misuse;
    /* Lengths: of the entries, the data and the completions. Of zk_open, zk_record and zk_record_part the first is the number of ports. */
    size_t entries, data, completions;
    /* The opcodes and the FUSE bits of a submission, the LBA and NLB of zk_read_now, the first port of zk_record, and where a piece begins. */
    uint64_t first, second;
    struct zk_namespace ns;
    uint32_t limit; /* of zk_open; of zk_submit_pair the length of the second piece, where `data` is that of the first */
};

#define USUAL { 64, BLOCK, 7, 0, 7, 7 }, 100
#define OPEN_ROW(code, state, misuse, ports, limit, ...) { code, OPENS, state, misuse, ports, 0, 0, 0, 0, { __VA_ARGS__ }, limit }
#define CLOSE_ROW(code, state, misuse) { code, CLOSES, state, misuse, 0, 0, 0, 0, 0, USUAL }
#define SUBMIT_ROW(code, state, misuse, entries, data, completions, first, second) \
    { code, SUBMITS, state, misuse, entries, data, completions, first, second, USUAL }
#define PAIR_ROW(code, state, misuse, entries, compared, written, completions, first, second) \
    { code, SUBMITS_PAIR, state, misuse, entries, compared, completions, first, second, { 64, BLOCK, 7, 0, 7, 7 }, written }
#define POLL_ROW(code, state, misuse, data, completions) { code, POLLS, state, misuse, 0, data, completions, 0, 0, USUAL }
#define IDENTIFY_ROW(code, state, misuse, data) { code, IDENTIFIES, state, misuse, 0, data, 0, 0, 0, USUAL }
#define NAMESPACE_ROW(code, state, misuse, data, ...) { code, IDENTIFIES_NAMESPACE, state, misuse, 0, data, 0, 0, 0, { __VA_ARGS__ }, 0 }
#define READ_NOW_ROW(code, state, misuse, slba, nlb, data) { code, READS_NOW, state, misuse, 0, data, 0, slba, nlb, USUAL }
#define RECORD_ROW(code, state, misuse, first, ports, room) { code, RECORDS, state, misuse, ports, room, 0, first, 0, USUAL }
#define PART_ROW(code, state, misuse, ports, from, room) { code, RECORDS_PART, state, misuse, ports, room, 0, 0, from, USUAL }

/* An opcode with its FUSE bits. */
#define FUSED(opcode, fuse) ((opcode) | (fuse) << 8)
#define FIRST(opcode) FUSED(opcode, FUSED_FIRST)
#define SECOND_OF(opcode) FUSED(opcode, FUSED_SECOND)

static const struct row rows[] = {
    OPEN_ROW(ZK_IS_OPEN, OPEN, "open where both are open", 2, 100, 64, BLOCK, 7, 0, 7, 7),
    OPEN_ROW(ZK_IS_OPEN, SECOND, "open where one is open", 2, 100, 64, BLOCK, 7, 0, 7, 7),
    OPEN_ROW(ZK_IS_OPEN, SECOND, "the same with bad numbers", 2, 0, 0, 0, 0, 0, 0, 0),
    OPEN_ROW(ZK_BAD_PORTS, SHUT, "open of no port", 0, 100, 64, BLOCK, 7, 0, 7, 7),
    OPEN_ROW(ZK_BAD_PORTS, SHUT, "open of 65 ports", 65, 100, 64, BLOCK, 7, 0, 7, 7),
    OPEN_ROW(ZK_BAD_NAMESPACE, SHUT, "NSZE 0", 2, 100, 0, BLOCK, 7, 0, 7, 7),
    OPEN_ROW(ZK_BAD_NAMESPACE, SHUT, "NSZE above 65,536 with a limit", 2, 100, 65537, BLOCK, 0, 0, 0, 0),
    OPEN_ROW(ZK_BAD_NAMESPACE, SHUT, "NSZE above 2^40", 2, ZK_NO_LIMIT, ZK_MOST_BLOCKS + 1, BLOCK, 7, 0, 7, 7),
    OPEN_ROW(ZK_BAD_NAMESPACE, SHUT, "NSZE of 2^32 without a boundary", 2, ZK_NO_LIMIT, UINT64_C(1) << 32, BLOCK, 0, 0, 0, 0),
    OPEN_ROW(ZK_BAD_NAMESPACE, SHUT, "blocks of 513 bytes", 2, 100, 64, 513, 7, 0, 7, 7),
    OPEN_ROW(ZK_BAD_NAMESPACE, SHUT, "NABO without NABSN", 2, 100, 64, BLOCK, 0, 1, 0, 0),
    OPEN_ROW(ZK_BAD_NAMESPACE, SHUT, "NABO above NABSN", 2, 100, 64, BLOCK, 7, 8, 7, 7),
    OPEN_ROW(ZK_BAD_NAMESPACE, SHUT, "NAWUN above NABSN", 2, 100, 64, BLOCK, 7, 0, 8, 7),
    OPEN_ROW(ZK_BAD_NAMESPACE, SHUT, "NACWU above NABSN", 2, 100, 64, BLOCK, 7, 0, 7, 8),
    OPEN_ROW(ZK_BAD_NAMESPACE, SHUT, "4,097 units with a limit", 2, 100, 8194, BLOCK, 1, 0, 1, 1),
    OPEN_ROW(ZK_BAD_NAMESPACE, SHUT, "a large namespace, and a limit above ZK_MOST_CHANGES", 2, ZK_MOST_CHANGES + 1, 65537, BLOCK, 7, 0, 7, 7),
    OPEN_ROW(ZK_BAD_LIMIT, SHUT, "a limit above ZK_MOST_CHANGES", 2, ZK_MOST_CHANGES + 1, 64, BLOCK, 7, 0, 7, 7),
    OPEN_ROW(ZK_NO_MEMORY, SHUT_STARVED, "open without memory", 2, 100, 64, BLOCK, 7, 0, 7, 7),
    CLOSE_ROW(ZK_NOT_OPEN, SHUT, "close of a port that was never opened"),
    CLOSE_ROW(ZK_NOT_OPEN, CLOSED, "second close"),
    SUBMIT_ROW(ZK_NOT_OPEN, SHUT, "submit to a port that was never opened", 64, BLOCK, 16, WRITE, 0),
    SUBMIT_ROW(ZK_NOT_OPEN, CLOSED, "submit after close", 64, BLOCK, 16, WRITE, 0),
    SUBMIT_ROW(ZK_BUSY, PENDING, "submit while a command is pending", 64, BLOCK, 16, WRITE, 0),
    SUBMIT_ROW(ZK_BUSY, PENDING, "the same with an entry of 63 bytes", 63, BLOCK, 16, WRITE, 0),
    SUBMIT_ROW(ZK_BAD_LENGTH, OPEN, "no entry", 0, BLOCK, 16, WRITE, 0),
    SUBMIT_ROW(ZK_BAD_LENGTH, OPEN, "an entry of 63 bytes", 63, BLOCK, 16, WRITE, 0),
    SUBMIT_ROW(ZK_BAD_LENGTH, OPEN, "an entry and a half", 96, BLOCK, 16, WRITE, 0),
    SUBMIT_ROW(ZK_BAD_LENGTH, OPEN, "three entries", 192, BLOCK, 48, WRITE, WRITE),
    SUBMIT_ROW(ZK_BAD_LENGTH, OPEN, "a Write with a byte too few", 64, BLOCK - 1, 16, WRITE, 0),
    SUBMIT_ROW(ZK_BAD_LENGTH, OPEN, "a Write with a byte too many", 64, BLOCK + 1, 16, WRITE, 0),
    SUBMIT_ROW(ZK_BAD_LENGTH, OPEN, "a Write without data", 64, 0, 16, WRITE, 0),
    SUBMIT_ROW(ZK_BAD_LENGTH, OPEN, "a Compare with a byte too few", 64, BLOCK - 1, 16, COMPARE, 0),
    SUBMIT_ROW(ZK_BAD_LENGTH, OPEN, "a Read with too little room", 64, BLOCK - 1, 16, READ, 0),
    SUBMIT_ROW(ZK_BAD_LENGTH, OPEN, "a Read with too much room", 64, 2 * BLOCK, 16, READ, 0),
    SUBMIT_ROW(ZK_BAD_LENGTH, OPEN, "Write Zeroes with data", 64, BLOCK, 16, WRITE_ZEROES, 0),
    SUBMIT_ROW(ZK_BAD_LENGTH, OPEN, "Write Uncorrectable with data", 64, 1, 16, WRITE_UNCORRECTABLE, 0),
    SUBMIT_ROW(ZK_BAD_LENGTH, OPEN, "a range of 15 bytes", 64, RANGE_BYTES - 1, 16, DATASET_MANAGEMENT, 0),
    SUBMIT_ROW(ZK_BAD_LENGTH, OPEN, "an unknown opcode with data", 64, BLOCK, 16, 0x7f, 0),
    SUBMIT_ROW(ZK_BAD_LENGTH, OPEN, "Flush with data", 64, BLOCK, 16, 0x00, 0),
    SUBMIT_ROW(ZK_BAD_LENGTH, OPEN, "a completion of 15 bytes", 64, BLOCK, 15, WRITE, 0),
    SUBMIT_ROW(ZK_BAD_LENGTH, OPEN, "room for no completion", 64, BLOCK, 0, WRITE, 0),
    SUBMIT_ROW(ZK_BAD_LENGTH, OPEN, "room for two completions", 64, BLOCK, 32, WRITE, 0),
    SUBMIT_ROW(ZK_BAD_LENGTH, OPEN, "a pair with the data of one", 128, BLOCK, 32, FIRST(COMPARE), SECOND_OF(WRITE)),
    SUBMIT_ROW(ZK_BAD_LENGTH, OPEN, "a pair with a byte too many", 128, 2 * BLOCK + 1, 32, FIRST(COMPARE), SECOND_OF(WRITE)),
    SUBMIT_ROW(ZK_BAD_LENGTH, OPEN, "a pair with room for one completion", 128, 2 * BLOCK, 16, FIRST(COMPARE), SECOND_OF(WRITE)),
    SUBMIT_ROW(ZK_NO_PAIR, OPEN, "two entries that aren't fused", 128, 2 * BLOCK, 32, WRITE, WRITE),
    SUBMIT_ROW(ZK_NO_PAIR, OPEN, "a pair whose second is first", 128, 2 * BLOCK, 32, SECOND_OF(COMPARE), FIRST(WRITE)),
    SUBMIT_ROW(ZK_NO_PAIR, OPEN, "two firsts", 128, 2 * BLOCK, 32, FIRST(COMPARE), FIRST(WRITE)),
    SUBMIT_ROW(ZK_NO_PAIR, OPEN, "a first alone", 128, 2 * BLOCK, 32, FIRST(COMPARE), WRITE),
    SUBMIT_ROW(ZK_NO_PAIR, OPEN, "FUSE 11b", 128, 2 * BLOCK, 32, FUSED(COMPARE, 3), SECOND_OF(WRITE)),
    SUBMIT_ROW(ZK_NO_PAIR, OPEN, "a pair with an unknown opcode", 128, BLOCK, 32, FIRST(0x7f), SECOND_OF(WRITE)),
    SUBMIT_ROW(ZK_NO_MEMORY, STARVED, "submit without memory", 64, BLOCK, 16, WRITE, 0),
    SUBMIT_ROW(ZK_NO_MEMORY, SETTLED, "data of another length without memory", 64, RANGE_BYTES, 16, DATASET_MANAGEMENT, 0),
    SUBMIT_ROW(ZK_NO_MEMORY, STARVED, "a pair without memory", 128, 2 * BLOCK, 32, FIRST(COMPARE), SECOND_OF(WRITE)),
    POLL_ROW(ZK_NOT_OPEN, SHUT, "poll of a port that was never opened", BLOCK, 16),
    POLL_ROW(ZK_NOT_OPEN, CLOSED, "poll after close", BLOCK, 16),
    POLL_ROW(ZK_IDLE, OPEN, "poll of an idle port", BLOCK, 16),
    POLL_ROW(ZK_IDLE, OPEN, "the same without any room", 0, 0),
    POLL_ROW(ZK_BAD_LENGTH, PENDING, "poll of a Read with too little room", 2 * BLOCK - 1, 16),
    POLL_ROW(ZK_BAD_LENGTH, PENDING, "poll with a completion of 15 bytes", 2 * BLOCK, 15),
    POLL_ROW(ZK_BAD_LENGTH, WRITING, "poll of a Write with room for two completions", BLOCK, 32),
    IDENTIFY_ROW(ZK_NOT_OPEN, SHUT, "identify of a port that was never opened", ZK_IDENTIFY_BYTES),
    IDENTIFY_ROW(ZK_NOT_OPEN, CLOSED, "identify after close", ZK_IDENTIFY_BYTES),
    IDENTIFY_ROW(ZK_BAD_LENGTH, OPEN, "identify with a byte too few", ZK_IDENTIFY_BYTES - 1),
    IDENTIFY_ROW(ZK_BAD_LENGTH, OPEN, "identify without room", 0),
    NAMESPACE_ROW(ZK_BAD_NAMESPACE, SHUT, "identify_namespace of NSZE 0", ZK_IDENTIFY_BYTES, 0, BLOCK, 7, 0, 7, 7),
    NAMESPACE_ROW(ZK_BAD_NAMESPACE, SHUT, "identify_namespace of blocks of 513 bytes", ZK_IDENTIFY_BYTES, 64, 513, 7, 0, 7, 7),
    NAMESPACE_ROW(ZK_BAD_NAMESPACE, OPEN, "identify_namespace of NSZE above 2^40", ZK_IDENTIFY_BYTES, ZK_MOST_BLOCKS + 1, BLOCK, 1, 0, 1, 1),
    NAMESPACE_ROW(ZK_BAD_NAMESPACE, SHUT, "the same with a byte too few", ZK_IDENTIFY_BYTES - 1, ZK_MOST_BLOCKS + 1, BLOCK, 1, 0, 1, 1),
    NAMESPACE_ROW(ZK_BAD_LENGTH, SHUT, "identify_namespace with a byte too few", ZK_IDENTIFY_BYTES - 1, 64, BLOCK, 7, 0, 7, 7),
    NAMESPACE_ROW(ZK_BAD_LENGTH, SHUT, "identify_namespace with a byte too many", ZK_IDENTIFY_BYTES + 1, 64, BLOCK, 7, 0, 7, 7),
    NAMESPACE_ROW(ZK_BAD_LENGTH, OPEN, "identify_namespace without room", 0, 64, BLOCK, 7, 0, 7, 7),
    READ_NOW_ROW(ZK_NOT_OPEN, SHUT, "read_now of a port that was never opened", 0, 0, BLOCK),
    READ_NOW_ROW(ZK_NOT_OPEN, CLOSED, "read_now after close", 0, 0, BLOCK),
    READ_NOW_ROW(ZK_BUSY, PENDING, "read_now while a command is pending", 0, 0, BLOCK),
    READ_NOW_ROW(ZK_NO_VERSIONS, PLAIN, "read_now without versions", 0, 0, BLOCK),
    READ_NOW_ROW(ZK_BAD_LENGTH, OPEN, "read_now with too little room", 0, 1, 2 * BLOCK - 1),
    READ_NOW_ROW(ZK_BAD_LENGTH, OPEN, "read_now with too much room", 0, 0, BLOCK + 1),
    READ_NOW_ROW(ZK_OUT_OF_RANGE, OPEN, "read_now above the namespace", 64, 0, BLOCK),
    READ_NOW_ROW(ZK_OUT_OF_RANGE, OPEN, "read_now at the last LBA of all", ~0ull, 0, BLOCK),
    READ_NOW_ROW(ZK_CROSSES, OPEN, "read_now of two units", 7, 1, 2 * BLOCK),
    READ_NOW_ROW(ZK_NEWER, BEHIND, "read_now of what another has changed", 0, 0, BLOCK),
    READ_NOW_ROW(ZK_NO_MEMORY, STARVED, "read_now without memory", 0, 0, BLOCK),
    RECORD_ROW(ZK_NOT_OPEN, SHUT, "record of ports that were never opened", 0, PORTS, ROOM),
    RECORD_ROW(ZK_NOT_OPEN, CLOSED, "record after close", 0, PORTS, ROOM),
    RECORD_ROW(ZK_NO_RECORD, OPEN, "record of a namespace that isn't recorded", 0, PORTS, ROOM),
    RECORD_ROW(ZK_OTHER_PORTS, RECORDED, "record of no port", 0, 0, ROOM),
    RECORD_ROW(ZK_OTHER_PORTS, RECORDED, "record without the last port", 0, PORTS - 1, ROOM),
    RECORD_ROW(ZK_OTHER_PORTS, RECORDED, "record without the first port", 1, PORTS - 1, ROOM),
    RECORD_ROW(ZK_OTHER_PORTS, RECORDED, "record with a port too many", 0, PORTS + 1, ROOM),
    RECORD_ROW(ZK_OTHER_PORTS, RECORDED, "record of 65 ports", 0, 65, ROOM),
    RECORD_ROW(ZK_OTHER_PORTS, MIXED, "record with a port of another namespace", 0, PORTS, ROOM),
    RECORD_ROW(ZK_BUSY, ASKED, "record while a command is pending", 0, PORTS, ROOM),
    RECORD_ROW(ZK_SHORT_ROOM, RECORDED, "record without room", 0, PORTS, 0),
    RECORD_ROW(ZK_NO_MEMORY, RECORDED_STARVED, "record without memory", 0, PORTS, ROOM),
    PART_ROW(ZK_NOT_OPEN, CLOSED, "a piece of a record after close", PORTS, 0, ROOM),
    PART_ROW(ZK_NO_RECORD, OPEN, "a piece of the record of a namespace that isn't recorded", PORTS, 0, ROOM),
    PART_ROW(ZK_OTHER_PORTS, RECORDED, "a piece of a record without the last port", PORTS - 1, 0, ROOM),
    PART_ROW(ZK_BUSY, ASKED, "a piece of a record while a command is pending", PORTS, 0, ROOM),
    PART_ROW(ZK_NO_MEMORY, RECORDED_STARVED, "a piece of a record without memory", PORTS, 0, ROOM),
    OPEN_ROW(ZK_DONE, SHUT, "open", 2, 100, 64, BLOCK, 7, 0, 7, 7),
    OPEN_ROW(ZK_DONE, SHUT, "open without a limit", 2, ZK_NO_LIMIT, 64, BLOCK, 7, 0, 7, 7),
    OPEN_ROW(ZK_DONE, CLOSED, "open again", 2, ZK_MOST_CHANGES, 65536, 4096, 15, 0, 15, 0),
    CLOSE_ROW(ZK_DONE, OPEN, "close"),
    CLOSE_ROW(ZK_DONE, PENDING, "close while a command is pending"),
    PAIR_ROW(ZK_NOT_OPEN, SHUT, "a pair in pieces to a port that was never opened", 128, BLOCK, BLOCK, 32, FIRST(COMPARE), SECOND_OF(WRITE)),
    PAIR_ROW(ZK_BUSY, PENDING, "a pair in pieces while a command is pending", 128, BLOCK, BLOCK, 32, FIRST(COMPARE), SECOND_OF(WRITE)),
    PAIR_ROW(ZK_BAD_LENGTH, OPEN, "a Write in pieces", 64, 0, BLOCK, 16, WRITE, 0),
    PAIR_ROW(ZK_BAD_LENGTH, OPEN, "a pair in pieces cut a byte early", 128, BLOCK - 1, BLOCK + 1, 32, FIRST(COMPARE), SECOND_OF(WRITE)),
    PAIR_ROW(ZK_BAD_LENGTH, OPEN, "a pair in pieces with a byte too few for the second", 128, BLOCK, BLOCK - 1, 32, FIRST(COMPARE), SECOND_OF(WRITE)),
    PAIR_ROW(ZK_BAD_LENGTH, OPEN, "a pair in pieces with room for one completion", 128, BLOCK, BLOCK, 16, FIRST(COMPARE), SECOND_OF(WRITE)),
    PAIR_ROW(ZK_BAD_LENGTH, RECORDED, "a recorded pair in pieces cut a byte late", 128, BLOCK + 1, BLOCK - 1, 32, FIRST(COMPARE), SECOND_OF(WRITE)),
    PAIR_ROW(ZK_NO_PAIR, OPEN, "two entries in pieces that aren't fused", 128, BLOCK, BLOCK, 32, WRITE, WRITE),
    PAIR_ROW(ZK_NO_MEMORY, STARVED, "a pair in pieces without memory", 128, BLOCK, BLOCK, 32, FIRST(COMPARE), SECOND_OF(WRITE)),
    PAIR_ROW(ZK_PENDING, TAKEN, "a pair in pieces while the unit is held", 128, BLOCK, BLOCK, 32, FIRST(COMPARE), SECOND_OF(WRITE)),
    PAIR_ROW(ZK_DONE, OPEN, "a pair in pieces", 128, BLOCK, BLOCK, 32, FIRST(COMPARE), SECOND_OF(WRITE)),
    PAIR_ROW(ZK_DONE, RECORDED, "a recorded pair in pieces", 128, BLOCK, BLOCK, 32, FIRST(COMPARE), SECOND_OF(WRITE)),
    PAIR_ROW(ZK_DONE, SETTLED, "a pair in pieces in the place of another, without memory", 128, BLOCK, BLOCK, 32, FIRST(COMPARE), SECOND_OF(WRITE)),
    SUBMIT_ROW(ZK_PENDING, TAKEN, "a Write while the unit is held", 64, BLOCK, 16, WRITE, 0),
    SUBMIT_ROW(ZK_PENDING, TAKEN, "a Read while the unit is held", 64, BLOCK, 16, READ, 0),
    SUBMIT_ROW(ZK_DONE, TAKEN, "an unknown opcode while the unit is held", 64, 0, 16, 0x7f, 0),
    POLL_ROW(ZK_PENDING, PENDING, "poll while the unit is held", 2 * BLOCK, 16),
    POLL_ROW(ZK_PENDING, WRITING, "poll of a Write without its data", 0, 16),
    SUBMIT_ROW(ZK_DONE, OPEN, "a Write", 64, BLOCK, 16, WRITE, 0),
    SUBMIT_ROW(ZK_DONE, SETTLED, "a Write in the place of another, without memory", 64, BLOCK, 16, WRITE, 0),
    SUBMIT_ROW(ZK_DONE, SETTLED, "a Compare without memory", 64, BLOCK, 16, COMPARE, 0),
    SUBMIT_ROW(ZK_DONE, SETTLED, "a pair in the place of another, without memory", 128, 2 * BLOCK, 32, FIRST(COMPARE), SECOND_OF(WRITE)),
    SUBMIT_ROW(ZK_DONE, OPEN, "a first by itself", 64, BLOCK, 16, FIRST(WRITE), 0),
    SUBMIT_ROW(ZK_DONE, OPEN, "a pair of a Write and a Compare", 128, 2 * BLOCK, 32, FIRST(WRITE), SECOND_OF(COMPARE)),
    SUBMIT_ROW(ZK_DONE, OPEN, "Flush", 64, 0, 16, 0x00, 0),
    IDENTIFY_ROW(ZK_DONE, PENDING, "identify while a command is pending", ZK_IDENTIFY_BYTES),
    NAMESPACE_ROW(ZK_DONE, SHUT, "identify_namespace", ZK_IDENTIFY_BYTES, 64, BLOCK, 7, 0, 7, 7),
    NAMESPACE_ROW(ZK_DONE, OPEN, "identify_namespace of 2^40 blocks", ZK_IDENTIFY_BYTES, ZK_MOST_BLOCKS, BLOCK, 1, 0, 1, 1),
    NAMESPACE_ROW(ZK_DONE, SHUT_STARVED, "identify_namespace without memory", ZK_IDENTIFY_BYTES, 64, BLOCK, 7, 0, 7, 7),
    NAMESPACE_ROW(ZK_DONE, PENDING, "identify_namespace while a command is pending", ZK_IDENTIFY_BYTES, 65536, 4096, 15, 0, 15, 0),
    READ_NOW_ROW(ZK_DONE, TAKEN, "read_now while the unit is held", 0, 0, BLOCK),
    RECORD_ROW(ZK_DONE, RECORDED, "record", 0, PORTS, ROOM),
    PART_ROW(ZK_DONE, RECORDED, "a piece of a record", PORTS, 7, BLOCK),
};

/* What this thread's malloc does: refuse, refuse from the so manyth call on, or stop at the so manyth call and wait. */
static _Thread_local bool refuses;
static _Thread_local unsigned refuses_from, stops_at;
static sem_t stopped, go_on;

void *__real_malloc(size_t size);
void *__real_realloc(void *old, size_t size);

static bool is_refused(void)
{
    if (stops_at && --stops_at == 0) {
        sem_post(&stopped);
        while (sem_wait(&go_on))
            ;
    }
    if (refuses_from && --refuses_from == 0)
        refuses = true;
    return refuses;
}

void *__wrap_malloc(size_t size)
{
    return is_refused() ? NULL : __real_malloc(size);
}

void *__wrap_realloc(void *old, size_t size)
{
    return is_refused() ? NULL : __real_realloc(old, size);
}

static struct zk_port ports[65];
static const struct zk_namespace usual = { 64, BLOCK, 7, 0, 7, 7 };

/* Another thread that stops in the midst of a Write by the second port. */
struct holder {
    pthread_t id;
    unsigned at;
    bool is_there;
};

static void *hold(void *given)
{
    const struct holder *holder = given;
    uint8_t entry[ZK_ENTRY_BYTES], block[BLOCK] = { 1 }, told[ZK_COMPLETION_BYTES];
    entry_of(entry, WRITE, 0, 1, 0, 1);
    stops_at = holder->at;
    zk_submit(&ports[1], entry, sizeof entry, block, sizeof block, told, sizeof told);
    if (stops_at) {
        stops_at = 0;
        sem_post(&stopped);
    }
    return NULL;
}

static void let_go(struct holder *holder)
{
    if (!holder->is_there)
        return;
    sem_post(&go_on);
    pthread_join(holder->id, NULL);
    while (sem_trywait(&go_on) == 0)
        ;
    holder->is_there = false;
}

static void close_all(void)
{
    for (int i = 0; i < 2 * PORTS; i++)
        zk_close(&ports[i]);
}

static int submit(struct zk_port *port, uint8_t opcode, uint32_t blocks)
{
    static uint8_t data[2 * BLOCK];
    uint8_t entry[ZK_ENTRY_BYTES], told[ZK_COMPLETION_BYTES];
    entry_of(entry, opcode, 0, 1, 0, blocks);
    return zk_submit(port, entry, sizeof entry, data, blocks * BLOCK, told, sizeof told);
}

/* What the row of a call without memory writes. */
enum { FILL = 0xa5 };

/* Writes LBA 0, and again, and then by a pair, so that the port and the block have memory of their own. */
static bool settle(struct zk_port *port)
{
    uint8_t entries[2 * ZK_ENTRY_BYTES], data[2 * BLOCK], told[2 * ZK_COMPLETION_BYTES];
    memset(data, FILL, sizeof data);
    entry_of(entries, WRITE, 0, 1, 0, 1);
    for (int i = 0; i < 2; i++)
        if (zk_submit(port, entries, ZK_ENTRY_BYTES, data, BLOCK, told, ZK_COMPLETION_BYTES) != ZK_DONE)
            return false;
    entry_of(entries, COMPARE, FUSED_FIRST, 1, 0, 1);
    entry_of(entries + ZK_ENTRY_BYTES, WRITE, FUSED_SECOND, 2, 0, 1);
    return zk_submit(port, entries, sizeof entries, data, sizeof data, told, sizeof told) == ZK_DONE;
}

/* Whether namespaces are opened with a record. */
static bool recorded;

static bool open_all(bool versions)
{
    return zk_open(ports, PORTS, &usual, recorded ? 100 : ZK_NO_LIMIT, versions) == ZK_DONE;
}

/* The third port of another namespace stands at the place of the third. */
static bool mix(void)
{
    if (!open_all(true) || zk_open(&ports[PORTS], PORTS, &usual, 100, true) != ZK_DONE)
        return false;
    struct zk_port moved = ports[PORTS - 1];
    ports[PORTS - 1] = ports[2 * PORTS - 1];
    ports[2 * PORTS - 1] = moved;
    return true;
}

/* Has the second port hold the unit of LBA 0. A Write asks for memory a few times, and at one of these it has the unit. */
static bool hold_unit(struct holder *holder)
{
    for (unsigned at = 1; at < 64; at++) {
        close_all();
        holder->at = at;
        if (!open_all(true) || pthread_create(&holder->id, NULL, hold, holder))
            return false;
        holder->is_there = true;
        while (sem_wait(&stopped))
            ;
        if (submit(&ports[2], READ, 1) == ZK_PENDING)
            return true;
        let_go(holder);
    }
    return false;
}

/* Brings the ports into the state. */
static bool prepare(enum state state, struct holder *holder)
{
    close_all();
    recorded = state >= RECORDED;
    switch (state) {
    case SHUT:
    case SHUT_STARVED:
        return true;
    case CLOSED:
        if (!open_all(true))
            return false;
        close_all();
        return true;
    case SECOND:
        return zk_open(&ports[1], 1, &usual, ZK_NO_LIMIT, true) == ZK_DONE;
    case OPEN:
    case STARVED:
    case RECORDED:
    case RECORDED_STARVED:
        return open_all(true);
    case MIXED:
        return mix();
    case PLAIN:
        return open_all(false);
    case SETTLED:
        return open_all(false) && settle(ports);
    case BEHIND:
        return open_all(true) && submit(&ports[1], WRITE, 1) == ZK_DONE;
    case TAKEN:
        return hold_unit(holder);
    case PENDING:
    case ASKED:
        return hold_unit(holder) && submit(&ports[0], READ, 2) == ZK_PENDING;
    case WRITING:
        return hold_unit(holder) && submit(&ports[0], WRITE, 1) == ZK_PENDING;
    }
    return false;
}

/* All that a call may write. */
struct written {
    uint8_t data[ROOM], completions[4 * ZK_COMPLETION_BYTES];
    struct zk_status status;
    size_t length;
};

static int call(const struct row *row, struct written *written)
{
    uint8_t entries[3 * ZK_ENTRY_BYTES];
    entry_of(entries, (uint8_t)row->first, (uint8_t)(row->first >> 8), 1, 0, 1);
    entry_of(entries + ZK_ENTRY_BYTES, (uint8_t)row->second, (uint8_t)(row->second >> 8), 2, 0, 1);
    entry_of(entries + 2 * ZK_ENTRY_BYTES, WRITE, 0, 3, 0, 1);
    switch (row->call) {
    case OPENS:
        return zk_open(ports, row->entries, &row->ns, row->limit, true);
    case CLOSES:
        return zk_close(ports);
    case SUBMITS:
        return zk_submit(ports, entries, row->entries, written->data, row->data, written->completions, row->completions);
    case SUBMITS_PAIR:
        return zk_submit_pair(ports, entries, row->entries, written->data, row->data, written->data + row->data, row->limit, written->completions,
                              row->completions);
    case POLLS:
        return zk_poll(ports, written->data, row->data, written->completions, row->completions);
    case IDENTIFIES:
        return zk_identify(ports, written->data, row->data);
    case IDENTIFIES_NAMESPACE:
        return zk_identify_namespace(&row->ns, written->data, row->data);
    case READS_NOW:
        return zk_read_now(ports, row->first, (uint16_t)row->second, written->data, row->data, &written->status);
    case RECORDS:
        return zk_record(ports + row->first, row->entries, written->data, row->data, &written->length);
    case RECORDS_PART:
        return zk_record_part(ports + row->first, row->entries, row->second, written->data, row->data, &written->length);
    }
    return -1;
}

/* Whether the row's call answers its code, writes nothing but with ZK_DONE, and leaves a pending command pending. */
static bool holds(const struct row *row)
{
    static struct written written, before;
    struct zk_port ports_before[65];
    struct holder holder = { .is_there = false };
    if (!prepare(row->state, &holder)) {
        fprintf(stderr, "misuses: %s: the ports couldn't be brought into the state\n", row->misuse);
        return false;
    }
    memset(&written, FILL, sizeof written);
    memcpy(&before, &written, sizeof written);
    memcpy(ports_before, ports, sizeof ports);
    refuses = row->state == STARVED || row->state == SHUT_STARVED || row->state == SETTLED || row->state == RECORDED_STARVED;
    int code = call(row, &written);
    refuses = false;
    bool right = code == row->code;
    if (!right)
        fprintf(stderr, "misuses: %s: %d, and not %d\n", row->misuse, code, row->code);
    for (size_t at = 0; row->state == SETTLED && code == ZK_DONE && at < row->completions; at += ZK_COMPLETION_BYTES)
        if (little(written.completions + at + 14, 2) != 0) {
            fprintf(stderr, "misuses: %s: it didn't succeed\n", row->misuse);
            right = false;
        }
    if (code == ZK_SHORT_ROOM)
        before.length = written.length;
    if (code != ZK_DONE && memcmp(&written, &before, sizeof written) != 0) {
        fprintf(stderr, "misuses: %s: something was written\n", row->misuse);
        right = false;
    }
    if (code != ZK_DONE && row->call == OPENS && memcmp(ports, ports_before, sizeof ports) != 0) {
        fprintf(stderr, "misuses: %s: the ports were written\n", row->misuse);
        right = false;
    }
    let_go(&holder);
    if ((row->state == PENDING || row->state == WRITING || row->state == ASKED) && row->call != CLOSES
        && zk_poll(ports, written.data, 2 * BLOCK, written.completions, ZK_COMPLETION_BYTES) != ZK_DONE) {
        fprintf(stderr, "misuses: %s: the pending command is lost\n", row->misuse);
        right = false;
    }
    close_all();
    return right;
}

/* A trace of the usual namespace from zero bytes on, in which no command was sent: NVT1, NSZE, the bytes of a block, NABSN, NABO, NAWUN,
 * NACWU, the first LBA, what was known, what Reads are held to, and the number of jobs. */
static const uint8_t no_jobs[] = { 'N', 'V', 'T', '1', 64, 0, 0, 0, 0, 0, 0, 0, 0, 2, 0, 0, 7, 0, 0, 0, 7, 0, 7, 0,
                                   0, 0, 0, 0, 0, 0, 0, 0, 0, 0, 0, 0, 0, 0 };

/* A contradiction without facts, which concludes a loop: NVE1, the kind of evidence, what Reads and deallocated blocks are held to, the conclusion, and the number of facts. */
static const uint8_t no_facts[] = { 'N', 'V', 'E', '1', 2, 0, 2, 0, 0, 0, 0, 0, 0, 0, 0, 0 };

/* An order of no points, and without a first content of any block. */
static const uint8_t no_points[] = { 'N', 'V', 'E', '1', 1, 0, 2, 0, 0, 0, 0, 0, 0, 0, 0, 0, 0, 0, 0, 0, 0, 0, 0 };

/* NULL has its code in each call, and a command without data takes it. */
static bool nulls_are_answered(void)
{
    uint8_t entry[ZK_ENTRY_BYTES], block[BLOCK], told[ZK_COMPLETION_BYTES], line[ZK_LINE_BYTES], zeroes[ZK_ENTRY_BYTES];
    uint8_t pair[2 * ZK_ENTRY_BYTES], both[2 * ZK_COMPLETION_BYTES];
    static uint8_t room[ZK_IDENTIFY_BYTES];
    struct zk_status status;
    size_t length = 0;
    entry_of(entry, WRITE, 0, 1, 0, 1);
    entry_of(zeroes, WRITE_ZEROES, 0, 1, 0, 1);
    entry_of(pair, COMPARE, FUSED_FIRST, 1, 0, 1);
    entry_of(pair + ZK_ENTRY_BYTES, WRITE, FUSED_SECOND, 2, 0, 1);
    memset(block, 7, sizeof block);
    recorded = true;
    if (!open_all(true))
        return false;
    struct zk_port *port = ports;
    const struct { const char *misuse; int code, answer; } calls[] = {
        { "open of NULL", ZK_BAD_PORTS, zk_open(NULL, 1, &usual, ZK_NO_LIMIT, true) },
        { "open of a NULL namespace", ZK_BAD_NAMESPACE, zk_open(&ports[PORTS], 1, NULL, ZK_NO_LIMIT, true) },
        { "close of NULL", ZK_NOT_OPEN, zk_close(NULL) },
        { "submit to NULL", ZK_NOT_OPEN, zk_submit(NULL, entry, sizeof entry, block, BLOCK, told, sizeof told) },
        { "submit of NULL", ZK_BAD_LENGTH, zk_submit(port, NULL, sizeof entry, block, BLOCK, told, sizeof told) },
        { "a Write of NULL", ZK_BAD_LENGTH, zk_submit(port, entry, sizeof entry, NULL, BLOCK, told, sizeof told) },
        { "a Write of NULL without a length", ZK_BAD_LENGTH, zk_submit(port, entry, sizeof entry, NULL, 0, told, sizeof told) },
        { "submit with NULL for its completion", ZK_BAD_LENGTH, zk_submit(port, entry, sizeof entry, block, BLOCK, NULL, sizeof told) },
        { "Write Zeroes with NULL for its data", ZK_DONE, zk_submit(port, zeroes, sizeof zeroes, NULL, 0, told, sizeof told) },
        { "a pair in pieces to NULL", ZK_NOT_OPEN, zk_submit_pair(NULL, pair, sizeof pair, block, BLOCK, block, BLOCK, both, sizeof both) },
        { "a pair in pieces of NULL", ZK_BAD_LENGTH, zk_submit_pair(port, NULL, sizeof pair, block, BLOCK, block, BLOCK, both, sizeof both) },
        { "a pair's first piece NULL", ZK_BAD_LENGTH, zk_submit_pair(port, pair, sizeof pair, NULL, BLOCK, block, BLOCK, both, sizeof both) },
        { "a pair's second piece NULL", ZK_BAD_LENGTH, zk_submit_pair(port, pair, sizeof pair, block, BLOCK, NULL, BLOCK, both, sizeof both) },
        { "a pair in pieces with NULL for its completions", ZK_BAD_LENGTH, zk_submit_pair(port, pair, sizeof pair, block, BLOCK, block, BLOCK, NULL, sizeof both) },
        { "a pair whose pieces are the same bytes", ZK_DONE, zk_submit_pair(port, pair, sizeof pair, block, BLOCK, block, BLOCK, both, sizeof both) },
        { "poll of NULL", ZK_NOT_OPEN, zk_poll(NULL, block, BLOCK, told, sizeof told) },
        { "poll with NULL for its completion", ZK_BAD_LENGTH, zk_poll(port, block, BLOCK, NULL, sizeof told) },
        { "poll of an idle port with NULL for its data", ZK_IDLE, zk_poll(port, NULL, 0, told, sizeof told) },
        { "identify of NULL", ZK_NOT_OPEN, zk_identify(NULL, block, BLOCK) },
        { "identify into NULL", ZK_BAD_LENGTH, zk_identify(port, NULL, ZK_IDENTIFY_BYTES) },
        { "identify_namespace of NULL", ZK_BAD_NAMESPACE, zk_identify_namespace(NULL, room, sizeof room) },
        { "identify_namespace into NULL", ZK_BAD_LENGTH, zk_identify_namespace(&usual, NULL, sizeof room) },
        { "data_length of NULL", true, zk_data_length(NULL, 1, BLOCK) == ZK_NO_LENGTH },
        { "data_length of no entry at NULL", true, zk_data_length(NULL, 0, BLOCK) == ZK_NO_LENGTH },
        { "read_now of NULL", ZK_NOT_OPEN, zk_read_now(NULL, 0, 0, block, BLOCK, &status) },
        { "read_now into NULL", ZK_BAD_LENGTH, zk_read_now(port, 0, 0, NULL, BLOCK, &status) },
        { "read_now with NULL for its status", ZK_BAD_LENGTH, zk_read_now(port, 0, 0, block, BLOCK, NULL) },
        { "audit of NULL", ZK_BAD_LENGTH, zk_audit(NULL, 4, (char *)line, sizeof line) },
        { "audit of NULL without a length", ZK_BAD_RECORD, zk_audit(NULL, 0, (char *)line, sizeof line) },
        { "audit into NULL", ZK_SHORT_ROOM, zk_audit(entry, sizeof entry, NULL, sizeof line) },
        { "witness of NULL", ZK_BAD_LENGTH, zk_witness(NULL, 4, entry, sizeof entry, false, (char *)line, sizeof line) },
        { "witness of NULL without a length", ZK_BAD_TRACE, zk_witness(NULL, 0, entry, sizeof entry, false, (char *)line, sizeof line) },
        { "witness by NULL", ZK_BAD_LENGTH, zk_witness(no_jobs, sizeof no_jobs, NULL, 4, false, (char *)line, sizeof line) },
        { "witness by NULL without a length", ZK_BAD_RECORD, zk_witness(no_jobs, sizeof no_jobs, NULL, 0, false, (char *)line, sizeof line) },
        { "witness into NULL", ZK_SHORT_ROOM, zk_witness(no_jobs, sizeof no_jobs, entry, sizeof entry, false, NULL, sizeof line) },
        { "refute of NULL", ZK_BAD_LENGTH, zk_refute(NULL, 4, entry, sizeof entry, (char *)line, sizeof line) },
        { "refute of NULL without a length", ZK_BAD_TRACE, zk_refute(NULL, 0, entry, sizeof entry, (char *)line, sizeof line) },
        { "refute by NULL", ZK_BAD_LENGTH, zk_refute(no_jobs, sizeof no_jobs, NULL, 4, (char *)line, sizeof line) },
        { "refute by NULL without a length", ZK_BAD_CONTRADICTION, zk_refute(no_jobs, sizeof no_jobs, NULL, 0, (char *)line, sizeof line) },
        { "refute into NULL", ZK_SHORT_ROOM, zk_refute(no_jobs, sizeof no_jobs, entry, sizeof entry, NULL, sizeof line) },
        { "record of NULL", ZK_OTHER_PORTS, zk_record(NULL, PORTS, block, BLOCK, &length) },
        { "record into NULL", ZK_BAD_LENGTH, zk_record(ports, PORTS, NULL, BLOCK, &length) },
        { "record with NULL for its length", ZK_BAD_LENGTH, zk_record(ports, PORTS, block, BLOCK, NULL) },
        { "record into NULL without room", ZK_SHORT_ROOM, zk_record(ports, PORTS, NULL, 0, &length) },
        { "a piece of the record of NULL", ZK_OTHER_PORTS, zk_record_part(NULL, PORTS, 0, block, BLOCK, &length) },
        { "a piece into NULL", ZK_BAD_LENGTH, zk_record_part(ports, PORTS, 0, NULL, BLOCK, &length) },
        { "a piece with NULL for the length", ZK_BAD_LENGTH, zk_record_part(ports, PORTS, 0, block, BLOCK, NULL) },
        { "a piece into NULL without room", ZK_DONE, zk_record_part(ports, PORTS, 0, NULL, 0, &length) },
    };
    bool right = length > 0;
    for (size_t i = 0; i < sizeof calls / sizeof *calls; i++)
        if (calls[i].answer != calls[i].code) {
            fprintf(stderr, "misuses: %s: %d, and not %d\n", calls[i].misuse, calls[i].answer, calls[i].code);
            right = false;
        }
    close_all();
    return right;
}

/* Entries of a namespace, and how much data goes with them. */
struct carried {
    size_t length;
    const char *misuse;
    size_t count;
    uint32_t block_size;
    unsigned first, second; /* opcodes with their FUSE bits */
    uint32_t blocks; /* NLB + 1 of each */
};

static const struct carried lengths[] = {
    { ZK_NO_LENGTH, "data of no entry", 0, BLOCK, WRITE, WRITE, 1 },
    { ZK_NO_LENGTH, "data of three entries", 3, BLOCK, WRITE, WRITE, 1 },
    { ZK_NO_LENGTH, "data of blocks of 0 bytes", 1, 0, WRITE, 0, 1 },
    { ZK_NO_LENGTH, "data of blocks of 513 bytes", 1, 513, WRITE, 0, 1 },
    { ZK_NO_LENGTH, "no data of blocks of 1,024 bytes", 1, 1024, WRITE_ZEROES, 0, 1 },
    { BLOCK, "data of a Write", 1, BLOCK, WRITE, 0, 1 },
    { 3 * 4096, "data of a Write of three large blocks", 1, 4096, WRITE, 0, 3 },
    { 2 * BLOCK, "room of a Read", 1, BLOCK, READ, 0, 2 },
    { 65536 * BLOCK, "data of the longest Compare", 1, BLOCK, COMPARE, 0, 65536 },
    { 0, "data of Write Uncorrectable", 1, BLOCK, WRITE_UNCORRECTABLE, 0, 2 },
    { 0, "data of Write Zeroes", 1, BLOCK, WRITE_ZEROES, 0, 2 },
    { RANGE_BYTES, "ranges", 1, BLOCK, DATASET_MANAGEMENT, 0, 2 },
    { 0, "data of an unknown opcode", 1, BLOCK, 0x7f, 0, 2 },
    { 0, "data of Flush", 1, BLOCK, 0x00, 0, 2 },
    { 2 * BLOCK, "data of a first by itself", 1, BLOCK, FIRST(WRITE), 0, 2 },
    { 4 * BLOCK, "data of a pair", 2, BLOCK, FIRST(COMPARE), SECOND_OF(WRITE), 2 },
    { BLOCK, "data of a Read and a Write", 2, BLOCK, FIRST(READ), SECOND_OF(WRITE), 1 },
    { BLOCK + RANGE_BYTES, "data of two entries that aren't fused", 2, BLOCK, DATASET_MANAGEMENT, WRITE, 1 },
    { BLOCK, "data of an entry with an unknown opcode and a Write", 2, BLOCK, FIRST(0x7f), SECOND_OF(WRITE), 1 },
};

/* The call tells each length without memory, and zk_submit takes it and no other. */
static bool lengths_are_told(void)
{
    static uint8_t data[65536 * BLOCK + 1];
    bool right = true;
    for (size_t i = 0; i < sizeof lengths / sizeof *lengths; i++) {
        const struct carried *row = &lengths[i];
        uint8_t entries[3 * ZK_ENTRY_BYTES] = { 0 }, told[2 * ZK_COMPLETION_BYTES];
        entry_of(entries, (uint8_t)row->first, (uint8_t)(row->first >> 8), 1, 0, row->blocks);
        entry_of(entries + ZK_ENTRY_BYTES, (uint8_t)row->second, (uint8_t)(row->second >> 8), 2, 0, row->blocks);
        refuses = true;
        size_t length = zk_data_length(entries, row->count, row->block_size);
        refuses = false;
        bool holds = length == row->length;
        const struct zk_namespace ns = { 64, row->block_size, 7, 0, 7, 7 };
        if (length != ZK_NO_LENGTH) {
            size_t bytes = row->count * ZK_ENTRY_BYTES, room = row->count * ZK_COMPLETION_BYTES;
            holds &= zk_open(ports, 1, &ns, ZK_NO_LIMIT, false) == ZK_DONE;
            holds &= zk_submit(ports, entries, bytes, data, length + 1, told, room) == ZK_BAD_LENGTH;
            holds &= length == 0 || zk_submit(ports, entries, bytes, data, length - 1, told, room) == ZK_BAD_LENGTH;
            int code = zk_submit(ports, entries, bytes, data, length, told, room);
            holds &= code == ZK_DONE || code == ZK_NO_PAIR;
            close_all();
        }
        if (!holds)
            fprintf(stderr, "misuses: %s: %zu, and not %zu, or zk_submit takes another\n", row->misuse, length, row->length);
        right &= holds;
    }
    return right;
}

/* Where memory is refused at the nth time, a command ends by its code or with 0/06, and the port goes on working. */
static bool starved_in_the_midst(bool versions)
{
    uint8_t entry[ZK_ENTRY_BYTES], block[BLOCK], told[ZK_COMPLETION_BYTES];
    entry_of(entry, WRITE, 0, 1, 0, 1);
    for (unsigned nth = 0; nth < 8; nth++) {
        memset(block, 7, sizeof block);
        if (!open_all(versions))
            return false;
        refuses_from = nth + 1;
        int code = zk_submit(ports, entry, sizeof entry, block, sizeof block, told, sizeof told);
        bool was_refused = refuses_from == 0;
        refuses_from = 0;
        refuses = false;
        bool full = code == ZK_DONE && status_of(told) == 0x006;
        bool done = code == ZK_DONE && status_of(told) == 0x000;
        if (was_refused ? !full && code != ZK_NO_MEMORY : !done)
            return false;
        memset(block, 9, sizeof block);
        entry[0] = READ;
        code = zk_submit(ports, entry, sizeof entry, block, sizeof block, told, sizeof told);
        entry[0] = WRITE;
        if (code != ZK_DONE || status_of(told) != 0 || block[0] != (was_refused ? 0 : 7))
            return false;
        close_all();
    }
    return true;
}

/* Does one command of the first port on `blocks` blocks from LBA `slba`, and answers its status, or -1 where the call itself is refused. */
static int status_after(uint8_t opcode, uint64_t slba, uint32_t blocks, uint8_t *data, size_t length)
{
    uint8_t entry[ZK_ENTRY_BYTES], told[ZK_COMPLETION_BYTES];
    entry_of(entry, opcode, 0, 1, slba, blocks);
    return zk_submit(ports, entry, sizeof entry, data, length, told, sizeof told) == ZK_DONE ? status_of(told) : -1;
}

/* In a unit whose blocks are in one piece of memory a mark, and a Deallocate of two runs, are done or refused as a whole, wherever memory is refused. */
static bool one_piece_starved(bool marks)
{
    enum { UNIT = 8 };
    static uint8_t data[UNIT * BLOCK], read[UNIT * BLOCK], ranges[2 * RANGE_BYTES];
    bool all_done = false;
    for (unsigned nth = 1; !all_done; nth++) {
        memset(data, 7, sizeof data);
        if (nth > 64 || !open_all(false) || status_after(WRITE, 0, UNIT, data, sizeof data) != 0)
            return false;
        range_of(ranges, 0, 1);
        range_of(ranges + RANGE_BYTES, 3, 1);
        uint8_t entry[ZK_ENTRY_BYTES], told[ZK_COMPLETION_BYTES];
        if (marks)
            entry_of(entry, WRITE_UNCORRECTABLE, 0, 1, 0, 1);
        else
            deallocate_of(entry, 1, 2);
        refuses_from = nth;
        int code = zk_submit(ports, entry, sizeof entry, ranges, marks ? 0 : sizeof ranges, told, sizeof told);
        all_done = refuses_from != 0;
        refuses_from = 0;
        refuses = false;
        bool done = code == ZK_DONE && status_of(told) == 0;
        if (all_done ? !done : code != ZK_NO_MEMORY && (code != ZK_DONE || status_of(told) != 0x006))
            return false;
        if (done && marks && status_after(READ, 0, UNIT, read, sizeof read) != 0x281)
            return false;
        size_t from = done && marks ? 1 : 0;
        if (status_after(READ, from, (uint32_t)(UNIT - from), read + from * BLOCK, (UNIT - from) * BLOCK) != 0)
            return false;
        if (done && !marks) {
            memset(data, 0, BLOCK);
            memset(data + 3 * BLOCK, 0, BLOCK);
        }
        if (memcmp(read + from * BLOCK, data + from * BLOCK, (UNIT - from) * BLOCK) != 0)
            return false;
        close_all();
    }
    return true;
}

/* Once a unit was written, and a port had data as long, commands in the unit take no memory, whatever their length. Reads and Compares still
 * take none once one of its blocks was marked, so that they are in several pieces. */
static bool whole_units_settle(void)
{
    enum { UNIT = 8 };
    static uint8_t data[2 * UNIT * BLOCK], read[UNIT * BLOCK];
    uint8_t pair[2 * ZK_ENTRY_BYTES], told[2 * ZK_COMPLETION_BYTES];
    entry_of(pair, COMPARE, FUSED_FIRST, 1, 0, UNIT);
    entry_of(pair + ZK_ENTRY_BYTES, WRITE, FUSED_SECOND, 2, 0, UNIT);
    memset(data, 5, sizeof data);
    recorded = false;
    if (!open_all(false))
        return false;
    bool right = true;
    for (int turn = 0; turn < 3; turn++) {
        refuses = turn > 0;
        right &= status_after(WRITE, 0, UNIT, data, UNIT * BLOCK) == 0;
        right &= zk_submit(ports, pair, sizeof pair, data, sizeof data, told, sizeof told) == ZK_DONE && status_of(told + ZK_COMPLETION_BYTES) == 0;
        right &= status_after(COMPARE, 0, UNIT, data, UNIT * BLOCK) == 0;
        memset(read, 0, sizeof read);
        right &= status_after(READ, 0, UNIT, read, sizeof read) == 0 && memcmp(read, data, sizeof read) == 0;
        right &= status_after(WRITE_ZEROES, 2, 4, data, 0) == 0;
        /* What has no data leaves the port what it keeps: a Read above the last block, an opcode that isn't served, a Read of two units. */
        right &= status_after(READ, usual.nsze, 1, read, BLOCK) == 0x080 && status_after(0, 0, 1, data, 0) == 0x001;
        right &= status_after(READ, UNIT - 1, 2, read, 2 * BLOCK) == (turn > 0 ? 0x006 : 0);
    }
    refuses = false;
    right &= status_after(WRITE_UNCORRECTABLE, 0, 1, data, 0) == 0;
    refuses = true;
    memset(data + BLOCK, 0, 4 * BLOCK);
    right &= status_after(READ, 0, UNIT, read, sizeof read) == 0x281;
    right &= status_after(READ, 2, UNIT - 2, read, (UNIT - 2) * BLOCK) == 0 && memcmp(read, data + BLOCK, (UNIT - 2) * BLOCK) == 0;
    right &= status_after(COMPARE, 2, UNIT - 2, data + BLOCK, (UNIT - 2) * BLOCK) == 0;
    refuses = false;
    close_all();
    return right;
}

/* Has memory refused at the nth time, until the command is done without. Each time before, the `all` blocks from LBA `first` on are as they were. */
static bool done_or_as_before(uint8_t opcode, uint64_t slba, uint32_t blocks, uint8_t *data, uint64_t first, uint32_t all, uint8_t *before)
{
    for (unsigned nth = 1; nth < 64; nth++) {
        refuses_from = nth;
        int status = status_after(opcode, slba, blocks, data, data ? blocks * BLOCK : 0);
        bool done = refuses_from != 0;
        refuses_from = 0;
        refuses = false;
        if (done)
            return status == 0;
        if ((status != 0x006 && status != -1) || status_after(COMPARE, first, all, before, all * BLOCK) != 0)
            return false;
    }
    return false;
}

/* In a unit of more than 65,536 bytes a block that was written alone is written again, read and compared without memory, and what nobody has written is
 * zeroed without. Where memory is refused at the nth time to a Write of several blocks, all of them are as they were. */
static bool large_units(void)
{
    enum { BLOCKS = 256, SOME = 20 };
    static const struct zk_namespace large = { BLOCKS, BLOCK, BLOCKS - 1, 0, BLOCKS - 1, BLOCKS - 1 };
    static uint8_t data[SOME * BLOCK], read[SOME * BLOCK];
    if (zk_open(ports, 1, &large, ZK_NO_LIMIT, false) != ZK_DONE)
        return false;
    memset(data, 4, sizeof data);
    bool right = status_after(WRITE, 3, SOME, data, sizeof data) == 0 && status_after(WRITE, 5, 1, data, BLOCK) == 0;
    refuses = true;
    memset(data, 5, BLOCK);
    right &= status_after(WRITE, 5, 1, data, BLOCK) == 0 && status_after(COMPARE, 5, 1, data, BLOCK) == 0;
    memset(data, 4, BLOCK);
    memset(data + 2 * BLOCK, 5, BLOCK);
    right &= status_after(READ, 3, SOME, read, sizeof read) == 0 && memcmp(read, data, sizeof read) == 0;
    right &= status_after(WRITE_ZEROES, 3 + SOME, BLOCKS - 3 - SOME, NULL, 0) == 0 && status_after(WRITE_ZEROES, 100, 1, NULL, 0) == 0;
    refuses = false;
    memset(read, 6, sizeof read);
    right &= done_or_as_before(WRITE, 3, SOME, read, 3, SOME, data) && status_after(COMPARE, 3, SOME, read, sizeof read) == 0;
    zk_close(ports);
    return right;
}

/* A unit of more bytes keeps pages of eight blocks. Once one of a page was written or marked, no command in it takes memory, also one in several pages, and
 * also after some of it was zeroed; the first Write in a page is refused without. A page of which all was zeroed is another's then, which takes none, and once none is
 * left the unit has no memory. Where memory is refused at the nth time to a Write or a mark in pages of which some weren't written, all blocks are as they were. */
static bool pages(void)
{
    enum { BLOCKS = 256, PAGE = 8 };
    static const struct zk_namespace large = { BLOCKS, BLOCK, BLOCKS - 1, 0, BLOCKS - 1, BLOCKS - 1 };
    static uint8_t data[4 * PAGE * BLOCK], read[4 * PAGE * BLOCK], before[4 * PAGE * BLOCK];
    if (zk_open(ports, 1, &large, ZK_NO_LIMIT, false) != ZK_DONE)
        return false;
    memset(data, 7, sizeof data);
    bool right = done_or_as_before(WRITE, PAGE + 5, 2 * PAGE, data, PAGE, 4 * PAGE, before);
    memcpy(before + 5 * BLOCK, data, 2 * PAGE * BLOCK);
    refuses = true;
    memset(before + 2 * BLOCK, 5, 12 * BLOCK);
    right &= status_after(WRITE, PAGE + 2, 12, before + 2 * BLOCK, 12 * BLOCK) == 0 && status_after(COMPARE, PAGE, 3 * PAGE, before, 3 * PAGE * BLOCK) == 0;
    right &= status_after(WRITE_UNCORRECTABLE, PAGE + 7, 2, NULL, 0) == 0 && status_after(READ, PAGE, PAGE, read, PAGE * BLOCK) == 0x281;
    right &= status_after(READ, PAGE + 9, 15, read, 15 * BLOCK) == 0 && memcmp(read, before + 9 * BLOCK, 15 * BLOCK) == 0;
    right &= status_after(WRITE, PAGE + 7, 2, before + 7 * BLOCK, 2 * BLOCK) == 0 && status_after(READ, PAGE, 3 * PAGE, read, 3 * PAGE * BLOCK) == 0;
    right &= memcmp(read, before, 3 * PAGE * BLOCK) == 0;
    right &= status_after(WRITE_ZEROES, PAGE + 6, 4, NULL, 0) == 0 && status_after(WRITE_ZEROES, 3 * PAGE + 5, 2, NULL, 0) == 0;
    memset(before + 6 * BLOCK, 0, 4 * BLOCK);
    memset(before + 21 * BLOCK, 0, 2 * BLOCK);
    right &= status_after(READ, PAGE, 4 * PAGE, read, sizeof read) == 0 && memcmp(read, before, sizeof read) == 0;
    right &= status_after(WRITE, 4 * PAGE, 1, data, BLOCK) == 0x006 && status_after(WRITE_UNCORRECTABLE, 4 * PAGE, 1, NULL, 0) == 0x006;
    right &= status_after(WRITE_ZEROES, 2 * PAGE, PAGE, NULL, 0) == 0 && status_after(WRITE, 9 * PAGE, PAGE, data, PAGE * BLOCK) == 0;
    memset(before + PAGE * BLOCK, 0, PAGE * BLOCK);
    right &= status_after(COMPARE, PAGE, 4 * PAGE, before, sizeof before) == 0 && status_after(COMPARE, 9 * PAGE, PAGE, data, PAGE * BLOCK) == 0;
    refuses = false;
    right &= done_or_as_before(WRITE_UNCORRECTABLE, 3 * PAGE + 7, 2, NULL, PAGE, 4 * PAGE, before) && status_after(READ, 4 * PAGE, 1, read, BLOCK) == 0x281;
    right &= status_after(WRITE_ZEROES, 0, BLOCKS / 2, NULL, 0) == 0 && status_after(WRITE_ZEROES, BLOCKS / 2, BLOCKS / 2, NULL, 0) == 0;
    refuses = true;
    right &= status_after(WRITE, PAGE, PAGE, data, PAGE * BLOCK) == 0x006 && status_after(WRITE_ZEROES, 0, BLOCKS, NULL, 0) == 0;
    memset(before, 0, sizeof before);
    right &= status_after(READ, PAGE, 4 * PAGE, read, sizeof read) == 0 && memcmp(read, before, sizeof read) == 0;
    refuses = false;
    zk_close(ports);
    return right;
}

/* A Write and a pair that have to wait keep their data, whatever becomes of the caller's. */
static bool waiting_keeps_its_data(void)
{
    uint8_t entries[2 * ZK_ENTRY_BYTES], data[2 * BLOCK], told[2 * ZK_COMPLETION_BYTES], read[BLOCK], kept[BLOCK];
    bool right = true;
    recorded = false;
    for (int turn = 0; right && turn < 4; turn++) {
        bool is_pair = turn % 2;
        struct holder holder = { 0 };
        if (!hold_unit(&holder))
            return false;
        /* What the other's Write leaves there. */
        memset(data, 0, sizeof data);
        data[0] = is_pair;
        memset(is_pair ? data + BLOCK : data, 9, BLOCK);
        memset(kept, 9, sizeof kept);
        entry_of(entries, is_pair ? COMPARE : WRITE, is_pair ? FUSED_FIRST : 0, 1, 0, 1);
        entry_of(entries + ZK_ENTRY_BYTES, WRITE, FUSED_SECOND, 2, 0, 1);
        size_t count = is_pair ? 2 : 1;
        right = zk_submit(ports, entries, count * ZK_ENTRY_BYTES, data, count * BLOCK, told, count * ZK_COMPLETION_BYTES) == ZK_PENDING;
        memset(data, 0xee, sizeof data);
        let_go(&holder);
        right &= zk_poll(ports, data, count * BLOCK, told, count * ZK_COMPLETION_BYTES) == ZK_DONE && status_of(told) == 0;
        right &= status_after(READ, 0, 1, read, BLOCK) == 0 && memcmp(read, kept, BLOCK) == 0;
    }
    close_all();
    return right;
}

/* A Read that had to wait is written into the front of the buffer that it is polled with, and where its block was marked meanwhile nothing is. */
static bool waiting_reads_what_is_there(void)
{
    uint8_t entry[ZK_ENTRY_BYTES], data[3 * BLOCK], due[3 * BLOCK], told[ZK_COMPLETION_BYTES];
    recorded = false;
    for (int is_marked = 0; is_marked < 2; is_marked++) {
        struct holder holder = { 0 };
        if (!hold_unit(&holder))
            return false;
        entry_of(entry, READ, 0, 1, 0, 1);
        bool right = zk_submit(ports, entry, sizeof entry, data, BLOCK, told, sizeof told) == ZK_PENDING;
        let_go(&holder);
        if (is_marked) {
            entry_of(entry, WRITE_UNCORRECTABLE, 0, 2, 0, 1);
            right &= zk_submit(&ports[1], entry, sizeof entry, NULL, 0, told, sizeof told) == ZK_DONE && status_of(told) == 0;
        }
        memset(data, 0xee, sizeof data);
        memcpy(due, data, sizeof due);
        if (!is_marked) {
            memset(due, 0, BLOCK);
            due[0] = 1;
        }
        right &= zk_poll(ports, data, sizeof data, told, sizeof told) == ZK_DONE && status_of(told) == (is_marked ? 0x281 : 0);
        if (!right || memcmp(data, due, sizeof data) != 0)
            return false;
    }
    close_all();
    return true;
}

/* Where memory is refused at the nth time, a record is refused too, and a piece of it, and nothing is written. It can be asked for again: then it is there whole. */
static bool record_starved(bool in_part)
{
    static uint8_t bytes[2][ROOM], before[ROOM];
    size_t length[2] = { 0, 0 };
    recorded = true;
    memset(bytes[1], FILL, ROOM);
    memset(before, FILL, ROOM);
    if (!open_all(true) || submit(&ports[0], WRITE, 1) != ZK_DONE || submit(&ports[1], READ, 2) != ZK_DONE
        || submit(&ports[2], WRITE_ZEROES, 0) != ZK_DONE)
        return false;
    for (unsigned nth = 1; nth < 256; nth++) {
        refuses_from = nth;
        int code = in_part ? zk_record_part(ports, PORTS, 0, bytes[1], ROOM, &length[1]) : zk_record(ports, PORTS, bytes[1], ROOM, &length[1]);
        bool was_refused = refuses_from == 0;
        refuses_from = 0;
        refuses = false;
        if (!was_refused) {
            bool right = nth > 8 && code == ZK_DONE && zk_record(ports, PORTS, bytes[0], ROOM, &length[0]) == ZK_DONE;
            close_all();
            return right && length[1] == length[0] && memcmp(bytes[0], bytes[1], length[0]) == 0;
        }
        if (code != ZK_NO_MEMORY || length[1] != 0 || memcmp(bytes[1], before, ROOM) != 0)
            return false;
    }
    return false;
}

/* Pieces put together are the file that zk_record gives, and each tells its length. From its end on nothing is written. */
static bool pieces_make_the_record(void)
{
    static const size_t rooms[] = { 1, 7, 4096 };
    static uint8_t whole[4 * ROOM], bytes[sizeof whole + 4096];
    size_t length = 0, told = 0;
    recorded = true;
    bool right = open_all(true);
    for (int i = 0; i < 3 * PORTS; i++)
        right &= submit(&ports[i % PORTS], i % 2 ? READ : WRITE, 2) == ZK_DONE;
    right &= zk_record(ports, PORTS, whole, sizeof whole, &length) == ZK_DONE && length > 2 * 4096;
    for (size_t i = 0; right && i < sizeof rooms / sizeof *rooms; i++) {
        memset(bytes, FILL, sizeof bytes);
        for (size_t from = 0; right && from < length; from += rooms[i])
            right = zk_record_part(ports, PORTS, from, bytes + from, rooms[i], &told) == ZK_DONE && told == length;
        right &= memcmp(bytes, whole, length) == 0 && bytes[length] == FILL;
    }
    static const uint64_t past[] = { 0, 1, UINT64_MAX };
    for (size_t i = 0; right && i < sizeof past / sizeof *past; i++) {
        uint64_t from = past[i] == UINT64_MAX ? past[i] : length + past[i];
        uint8_t byte = FILL;
        told = 0;
        right = zk_record_part(ports, PORTS, from, &byte, 1, &told) == ZK_DONE && told == length && byte == FILL;
    }
    close_all();
    return right;
}

/* Where memory is refused at the nth time, an audit says so and writes nothing. */
static bool audit_starved(void)
{
    static const char said[] = "record: truncated at 4\n";
    for (unsigned nth = 1; nth < 64; nth++) {
        uint8_t line[ZK_LINE_BYTES], before[ZK_LINE_BYTES];
        memset(line, 0xa5, sizeof line);
        memcpy(before, line, sizeof line);
        refuses_from = nth;
        int code = zk_audit((const uint8_t *)"NVR2", 4, (char *)line, sizeof line);
        bool was_refused = refuses_from == 0;
        refuses_from = 0;
        refuses = false;
        if (!was_refused)
            return nth > 1 && code == ZK_BAD_RECORD && memcmp(line, said, sizeof said) == 0 && line[sizeof said] == 0xa5;
        if (code != ZK_NO_MEMORY || memcmp(line, before, sizeof line) != 0)
            return false;
    }
    return false;
}

/* The bytes of two files to be judged, how long the room is, and what is answered: the code, and the line with it. */
struct judged {
    int code;
    int (*call)(const uint8_t *, size_t, const uint8_t *, size_t, char *, size_t);
    const char *misuse;
    const uint8_t *trace;
    size_t trace_length;
    const uint8_t *other;
    size_t other_length, room;
    const char *line;
};

/* A record or an order judges the trace, and not strictly; or it does so strictly. */
static int witness(const uint8_t *trace, size_t trace_length, const uint8_t *evidence, size_t evidence_length, char *line, size_t room)
{
    return zk_witness(trace, trace_length, evidence, evidence_length, false, line, room);
}

static int witness_strictly(const uint8_t *trace, size_t trace_length, const uint8_t *evidence, size_t evidence_length, char *line, size_t room)
{
    return zk_witness(trace, trace_length, evidence, evidence_length, true, line, room);
}

/* Whether the call answers its code, and writes its line with a byte of 0 and nothing else. */
static bool is_judged(const struct judged *row)
{
    char line[ZK_LINE_BYTES], due[ZK_LINE_BYTES];
    memset(line, 0x5a, sizeof line);
    memset(due, 0x5a, sizeof due);
    if (row->line)
        memcpy(due, row->line, strlen(row->line) + 1);
    int code = row->call(row->trace, row->trace_length, row->other, row->other_length, line, row->room);
    if (code == row->code && memcmp(line, due, sizeof line) == 0)
        return true;
    fprintf(stderr, "misuses: %s: %d, and not %d, or another line\n", row->misuse, code, row->code);
    return false;
}

/* Where memory is refused at the nth time, nothing is judged and nothing written. In the end the row is answered as ever. */
static bool judged_starved(const struct judged *row)
{
    for (unsigned nth = 1; nth < 256; nth++) {
        refuses_from = nth;
        char line[ZK_LINE_BYTES], due[ZK_LINE_BYTES];
        memset(line, 0x5a, sizeof line);
        memset(due, 0x5a, sizeof due);
        int code = row->call(row->trace, row->trace_length, row->other, row->other_length, line, row->room);
        bool was_refused = refuses_from == 0;
        refuses_from = 0;
        refuses = false;
        if (!was_refused)
            return nth > 1 && is_judged(row);
        if (code != ZK_NO_MEMORY || memcmp(line, due, sizeof line) != 0)
            return false;
    }
    return false;
}

/* Traces without commands, by the record of a namespace in which nothing was done, by an order of nothing, and by a contradiction without facts. */
static bool judges_are_answered(size_t *count)
{
    static const char explained[] = "explained jobs 0 units 8 steps 0 excused 0 preparations 0\n";
    static const char unrefuted[] = "unrefuted NothingContradicted fact -\n";
    static uint8_t bytes[ROOM], other[sizeof no_jobs];
    size_t length = 0;
    recorded = true;
    if (!open_all(true) || zk_record(ports, PORTS, bytes, sizeof bytes, &length) != ZK_DONE)
        return false;
    close_all();
    memcpy(other, no_jobs, sizeof no_jobs);
    other[4] = 56; /* NSZE */
    const struct judged calls[] = {
        { ZK_DONE, witness, "witness", no_jobs, sizeof no_jobs, bytes, length, ZK_LINE_BYTES, explained },
        { ZK_DONE, witness, "witness into exactly enough room", no_jobs, sizeof no_jobs, bytes, length, sizeof explained, explained },
        { ZK_SHORT_ROOM, witness, "witness without room for the byte of 0", no_jobs, sizeof no_jobs, bytes, length, sizeof explained - 1, NULL },
        { ZK_SHORT_ROOM, witness, "witness without room", no_jobs, sizeof no_jobs, bytes, length, 0, NULL },
        { ZK_UNEXPLAINED, witness, "witness by a record of another namespace", other, sizeof other, bytes, length, ZK_LINE_BYTES,
          "unexplained NamespaceDiffers job - unit - place -\n" },
        { ZK_BAD_TRACE, witness, "witness of a record", bytes, length, other, sizeof other, ZK_LINE_BYTES, "trace: bad name\n" },
        { ZK_BAD_TRACE, witness, "witness of what is cut", no_jobs, sizeof no_jobs - 1, bytes, length, ZK_LINE_BYTES, "trace: truncated at 34\n" },
        { ZK_BAD_RECORD, witness, "witness by a trace", no_jobs, sizeof no_jobs, other, sizeof other, ZK_LINE_BYTES, "record: bad name\n" },
        { ZK_DONE, witness, "witness by an order", no_jobs, sizeof no_jobs, no_points, sizeof no_points, ZK_LINE_BYTES,
          "explained jobs 0 points 0 reads atomic deallocated either\n" },
        { ZK_BAD_RECORD, witness, "witness by an order that is cut", no_jobs, sizeof no_jobs, no_points, sizeof no_points - 1, ZK_LINE_BYTES, "order: truncated at 15\n" },
        { ZK_BAD_RECORD, witness, "witness by a contradiction", no_jobs, sizeof no_jobs, no_facts, sizeof no_facts, ZK_LINE_BYTES, "order: bad value at 4\n" },
        { ZK_BAD_RECORD, witness_strictly, "witness strictly by an order", no_jobs, sizeof no_jobs, no_points, sizeof no_points, ZK_LINE_BYTES, "record: bad name\n" },
        { ZK_UNREFUTED, zk_refute, "refute", no_jobs, sizeof no_jobs, no_facts, sizeof no_facts, ZK_LINE_BYTES, unrefuted },
        { ZK_SHORT_ROOM, zk_refute, "refute without room for the byte of 0", no_jobs, sizeof no_jobs, no_facts, sizeof no_facts, sizeof unrefuted - 1, NULL },
        { ZK_BAD_TRACE, zk_refute, "refute of a contradiction", no_facts, sizeof no_facts, other, sizeof other, ZK_LINE_BYTES, "trace: bad name\n" },
        { ZK_BAD_CONTRADICTION, zk_refute, "refute by a trace", no_jobs, sizeof no_jobs, other, sizeof other, ZK_LINE_BYTES, "contradiction: bad name\n" },
        { ZK_BAD_CONTRADICTION, zk_refute, "refute by an order", no_jobs, sizeof no_jobs, no_points, sizeof no_points, ZK_LINE_BYTES, "contradiction: bad value at 4\n" },
        { ZK_BAD_CONTRADICTION, zk_refute, "refute by what is cut", no_jobs, sizeof no_jobs, no_facts, sizeof no_facts - 1, ZK_LINE_BYTES,
          "contradiction: truncated at 8\n" },
    };
    bool right = true;
    *count = sizeof calls / sizeof *calls;
    for (size_t i = 0; i < *count; i++) {
        right &= is_judged(&calls[i]);
        if (!judged_starved(&calls[i])) {
            fprintf(stderr, "misuses: %s, to which memory is refused\n", calls[i].misuse);
            right = false;
        }
    }
    return right;
}

int main(int words, char **word)
{
    static const char *const codes[] = { "ZK_DONE", "ZK_PENDING", "ZK_NOT_OPEN", "ZK_IS_OPEN", "ZK_NO_MEMORY",
                                         "ZK_BAD_NAMESPACE", "ZK_BAD_PORTS", "ZK_BAD_LIMIT", "ZK_BAD_LENGTH", "ZK_NO_PAIR",
                                         "ZK_BUSY", "ZK_IDLE", "ZK_NEWER", "ZK_OUT_OF_RANGE", "ZK_CROSSES", "ZK_NO_VERSIONS",
                                         /* Of what is judged, and of a record that is full: no row. */
                                         NULL, NULL, "ZK_SHORT_ROOM", "ZK_OTHER_PORTS", "ZK_NO_RECORD", NULL };
    bool right = true, answered[sizeof codes / sizeof *codes] = { false };
    size_t count = sizeof rows / sizeof *rows;
    sem_init(&stopped, 0, 0);
    sem_init(&go_on, 0, 0);
    for (size_t i = 0; i < count; i++) {
        if (words > 1 && strcmp(word[1], "list") == 0)
            printf("%-16s %s\n", codes[rows[i].code], rows[i].misuse);
        right &= holds(&rows[i]);
        answered[rows[i].code] = true;
    }
    if (!nulls_are_answered()) {
        fprintf(stderr, "misuses: NULL\n");
        right = false;
    }
    if (!lengths_are_told())
        right = false;
    if (!starved_in_the_midst(true) || !starved_in_the_midst(false)) {
        fprintf(stderr, "misuses: a Write to which memory is refused in the midst\n");
        right = false;
    }
    if (!one_piece_starved(true) || !one_piece_starved(false)) {
        fprintf(stderr, "misuses: a unit in one piece, of which a mark or a Deallocate is refused memory\n");
        right = false;
    }
    if (!whole_units_settle()) {
        fprintf(stderr, "misuses: a command of a whole unit that takes memory\n");
        right = false;
    }
    if (!large_units()) {
        fprintf(stderr, "misuses: a unit of more than 65,536 bytes that takes memory, or leaves half a Write\n");
        right = false;
    }
    if (!pages()) {
        fprintf(stderr, "misuses: blocks in one piece of memory in a unit of more than 65,536 bytes that take memory, or of which half is written\n");
        right = false;
    }
    if (!waiting_keeps_its_data()) {
        fprintf(stderr, "misuses: a command that has to wait loses its data\n");
        right = false;
    }
    if (!waiting_reads_what_is_there()) {
        fprintf(stderr, "misuses: a Read that has to wait isn't answered with what is there then\n");
        right = false;
    }
    if (!record_starved(false) || !record_starved(true)) {
        fprintf(stderr, "misuses: a record to which memory is refused\n");
        right = false;
    }
    if (!pieces_make_the_record()) {
        fprintf(stderr, "misuses: pieces of a record that aren't its file\n");
        right = false;
    }
    if (!audit_starved()) {
        fprintf(stderr, "misuses: an audit to which memory is refused\n");
        right = false;
    }
    size_t judged = 0;
    if (!judges_are_answered(&judged)) {
        fprintf(stderr, "misuses: a trace that is judged\n");
        right = false;
    }
    for (size_t i = 0; i < sizeof codes / sizeof *codes; i++)
        if (codes[i] && !answered[i]) {
            fprintf(stderr, "misuses: no row answers %s\n", codes[i]);
            right = false;
        }
    count += sizeof lengths / sizeof *lengths;
    if (right)
        printf("%zu calls, each answered as the table says, and no port or buffer written but with ZK_DONE; %zu judged, each with its line\n",
               count, judged);
    return right ? 0 : 1;
}
