/* The media side of an NVM Express controller: a namespace in memory, which threads read and change through up to ZK_MOST_PORTS
 * ports. And judges: zk_audit of the record of a run, zk_witness and zk_refute of what the hosts of any device saw. Little-endian
 * 64-bit machines. Link libzalkvorn, or libnvm_c.a and, for malloc and free, the toolchain's liblibc_c.a.
 *
 * A port has one command at a time. No call waits, blocks or starts a thread: where another port has the region that a command
 * needs (see zk_open), the answer is ZK_PENDING, and zk_poll goes on later. No port has a region between two calls, so where one
 * thread works with all ports, none finds one taken. Open one port for each thread, queue or reactor, all by one zk_open. Where
 * there are more queues than ports, take a free port for each command, and give it back after ZK_DONE.
 *
 * What is proved of this library rests on C for four things.
 *   1. A port is in one call at a time, is handed from thread to thread by a lock, a thread's start or join, or a seq_cst atomic
 *      (not by acquire and release alone), and is never copied while it is open: a queue keeps a pointer to its port.
 *   2. A port is bytes of 0 before it is opened, and nothing but these calls writes to it.
 *   3. Each pointer is good for the length that is passed with it. No two pointers of a call lead to bytes in common, but for
 *      the two pieces of zk_submit_pair, and nobody else writes to these bytes while the call runs: copy entries and data out of
 *      a guest's memory first, and a Read's blocks into it afterward.
 *   4. malloc, realloc and free are a usual allocator's, and no call is made from a signal handler, or from the forked child of a
 *      process with threads.
 *
 * Commands: Write (01h), Read (02h), Write Uncorrectable (04h), Compare (05h), Write Zeroes (08h) and Dataset Management (09h),
 * and Compare and Write as a fused pair: bits 3:0 of ONCS, and bit 0 of FUSES. NSID is 1: write that into the entry where your
 * namespace has another. Any other opcode, Flush too, ends with status 0/01: answer Flush yourself, with 0/00 where its NSID is
 * your namespace's or FFFFFFFFh, since nothing is cached here. Answer an Abort that nothing was aborted: a command is done by
 * zk_submit or by a later zk_poll. PRINFO, PSDT, FUA, LR and DEAC are not looked at.
 * A status is written T/CC, status code type and status code: 0/00 is Successful Completion, 0/06 is Internal Error, 2/81 is
 * Unrecovered Read Error.
 */
#ifndef ZALKVORN_H
#define ZALKVORN_H

#include <stdbool.h>
#include <stddef.h>
#include <stdint.h>

#ifdef __cplusplus
extern "C" {
#endif

/* The version of this header, and the number behind libzalkvorn.so. The library's, zk_version(), must be equal. */
#define ZK_VERSION 7

/* The most blocks of a namespace, and of one that is recorded. */
#define ZK_MOST_BLOCKS (UINT64_C(1) << 40)
#define ZK_MOST_RECORDED_BLOCKS 65536

/* The most ports of a namespace: the proofs and the record's file count so far. The most changes of an atomic unit in a record. */
#define ZK_MOST_PORTS 64
#define ZK_MOST_CHANGES 4194304

/* The `limit` of zk_open for a namespace that is not recorded: nothing of its past is kept. */
#define ZK_NO_LIMIT 0

/* The most jobs of a record. A job is a command by itself or a fused pair. */
#define ZK_MOST_JOBS 4194304

/* The bytes of a submission queue entry and of a completion queue entry. */
#define ZK_ENTRY_BYTES 64
#define ZK_COMPLETION_BYTES 16

/* The bytes of an Identify Namespace data structure. */
#define ZK_IDENTIFY_BYTES 4096

/* What zk_data_length answers where no length is right. */
#define ZK_NO_LENGTH SIZE_MAX

/* What a call answers. Only with ZK_DONE and ZK_PENDING was anything done, and only with ZK_DONE is anything written, but for
 * zk_record's length and the line of zk_audit, zk_witness and zk_refute. This is not said again below. */
enum zk_code {
    ZK_DONE = 0,          /* It was done. */
    ZK_PENDING = 1,       /* The command is not done yet: call zk_poll. */
    ZK_NOT_OPEN = 2,      /* The port is not open. */
    ZK_IS_OPEN = 3,       /* One of the ports is open. */
    ZK_NO_MEMORY = 4,     /* malloc refused before anything was done. */
    ZK_BAD_NAMESPACE = 5, /* There is no namespace of these numbers: see struct zk_namespace. */
    ZK_BAD_PORTS = 6,     /* There are no ports, or more than ZK_MOST_PORTS. */
    ZK_BAD_LIMIT = 7,     /* The limit is above ZK_MOST_CHANGES. */
    ZK_BAD_LENGTH = 8,    /* Entries, data or completions of another length than the command calls for. */
    ZK_NO_PAIR = 9,       /* Two entries of which the first hasn't FUSE 01b, the second hasn't 10b, or an opcode isn't served. */
    ZK_BUSY = 10,         /* A command is pending in the port. */
    ZK_IDLE = 11,         /* No command is pending in the port. */
    ZK_NEWER = 12,        /* Another port has changed the unit, or another of its region, since this one has seen it. */
    ZK_OUT_OF_RANGE = 13, /* The range ends above the namespace. */
    ZK_CROSSES = 14,      /* The range lies in more than one atomic unit. */
    ZK_NO_VERSIONS = 15,  /* The namespace was opened without versions. */
    ZK_UNLAWFUL = 16,     /* The record is not lawful. */
    ZK_BAD_RECORD = 17,   /* The bytes are not those of a record file, nor of an order file where one is taken. */
    ZK_SHORT_ROOM = 18,   /* The line with its byte of 0, or the record's file, is longer than its room. */
    ZK_OTHER_PORTS = 19,  /* These are not all ports of one namespace, in the order of zk_open. */
    ZK_NO_RECORD = 20,    /* The namespace was opened with ZK_NO_LIMIT. */
    ZK_RECORD_FULL = 21,  /* There were more than ZK_MOST_JOBS commands or pairs, which no record has. */
    ZK_UNEXPLAINED = 22,  /* The record or the order does not explain the trace. */
    ZK_UNREFUTED = 23,    /* The contradiction does not show that nothing explains the trace. */
    ZK_BAD_TRACE = 24,    /* The bytes are not those of a trace file. */
    ZK_BAD_CONTRADICTION = 25 /* The bytes are not those of a contradiction file. */
};

/* A port: 64 bytes of the library's own, so that neighbors in an array, which threads use at the same time, share no cache line. */
struct zk_port {
    uint64_t opaque[8];
};

/* A port that is not open. */
#define ZK_PORT_INIT { { 0 } }

/* What a namespace advertises: 1 to ZK_MOST_BLOCKS blocks of 512 or 4,096 bytes. NABSN, NAWUN and NACWU are 0's based values, as
 * in Identify Namespace. A NABSN of 0 is no boundary, and then NABO is 0 and nsze below 2^32; else NABO, NAWUN and NACWU are at
 * most NABSN. One that is recorded has at most ZK_MOST_RECORDED_BLOCKS, and at most 4,096 atomic units. */
struct zk_namespace {
    uint64_t nsze;       /* blocks */
    uint32_t block_size; /* bytes of a block */
    uint16_t nabsn;      /* blocks from one atomic boundary to the next */
    uint16_t nabo;       /* the LBA of the first boundary */
    uint16_t nawun;      /* blocks of an atomic write */
    uint16_t nacwu;      /* blocks of an atomic fused pair */
};

/* The library's version. Any thread, any time. */
uint32_t zk_version(void);

/* Opens `count` ports on a new namespace whose blocks are zero bytes. Several namespaces may be open at once.
 *
 * An atomic unit is the blocks from one boundary to the next, and without a boundary all blocks. A command is one step in each
 * unit that it touches, in ascending order, up to the first in which it fails; steps of other ports may come in between. Where
 * memory is refused in the midst it ends with status 0/06, and what it did in other units stays done.
 * Units are kept in at most 4,096 regions: one in each where there are no more units, and else as few in each as that takes. One
 * port at a time works in a region, so advertise boundaries where several ports are to work at once.
 * No call is broken off. A Dataset Management of 256 ranges may name all blocks, and walks over its ranges for each unit that
 * they are in. To bound that, look at NR and the ranges before you submit it.
 *
 * A `limit` of ZK_NO_LIMIT: the namespace keeps its blocks and nothing of its past, so it can run for as long as you like.
 * A `limit` of 1 to ZK_MOST_CHANGES: it is recorded, for zk_record. Each port keeps each command that it did, with its data, what
 * it read and how it ended, so memory grows with each; a large limit reserves nothing. A unit can be changed `limit` times, where
 * a command counts once in each unit that it changes. A change beyond that ends with status 0/06, and the unit stays as it was.
 * After ZK_MOST_JOBS of all ports together no more is kept, and zk_record answers ZK_RECORD_FULL.
 * `versions`: each port keeps, of each region, the data as it last saw it, for zk_read_now, until it works there again.
 *
 * Memory, beside what records and versions keep:
 *   - Opening takes up to 7 KiB for each region, and some 70 bytes for each region and port. Blocks that nobody has written take
 *     none.
 *   - Without `versions` a region of at most 65,536 bytes is one piece of memory, which its first Write or Write Uncorrectable
 *     takes, and a Write Zeroes or Deallocate of all its blocks gives back.
 *   - Without `versions` a larger one of blocks of 512 bytes is pages of eight blocks: the first Write or Write Uncorrectable in a
 *     page takes its 4 KiB, also where it is of one block, and a Write Zeroes, or one range of a Deallocate, of all eight gives
 *     them back. Beside its pages, of 12 bytes more each, a region takes 4 KiB, 4 bytes for each 512 blocks that it has, and 256
 *     for each 512 of which one had a page; all of that is given back once none of its pages is left. Its pages are one piece of
 *     memory, with room for up to a quarter more, which may move when it grows, and has up to four times what they need after many
 *     were given back.
 *   - Any other region is a tree, by eight blocks from its first on. The data of a Write stays until each of its blocks was changed
 *     again: at worst each block holds the longest Write that you submit. A Write Zeroes or Deallocate takes no memory for eight
 *     of which it changes none that was written, and leaves some 50 bytes a block where one was. A command that changes several
 *     blocks makes some 50 bytes for each anew, and copies up to 7 KiB of the tree; with `versions` one that changes a block may,
 *     too.
 *   - With ZK_NO_LIMIT a port keeps, until zk_close, room for the longest data of a Write or Compare in one unit that it was
 *     given, and of a pair's Compare too: a command that has to wait for its region keeps its data there.
 *   - With ZK_NO_LIMIT and without `versions`, these take none beyond that if they lie in one unit: a Read, whose blocks go
 *     straight into `data`, and a Compare; any change in a region's one piece, or in its pages, that are there; and in a tree one
 *     of one block, where that holds the data of a Write of one block. A command in several units takes some, and one with data
 *     that a check refuses.
 *
 * ZK_DONE; or ZK_IS_OPEN, ZK_BAD_PORTS, ZK_BAD_NAMESPACE, ZK_BAD_LIMIT or ZK_NO_MEMORY, tried in this order.
 * Threads: nobody else uses these ports during the call. */
int zk_open(struct zk_port *ports, size_t count, const struct zk_namespace *ns, uint32_t limit, bool versions);

/* Closes the port, and forgets a pending command, whose parts that were done stay done. The namespace is freed with
 * its last port, and takes no port later: to end a queue, poll until ZK_DONE and keep the port for the next one.
 * ZK_DONE or ZK_NOT_OPEN: a second close does nothing.
 * Threads: nobody else uses this port; other ports of the namespace may be in use. */
int zk_close(struct zk_port *port);

/* Does a command, or as much of it as can be done without waiting.
 *
 * `entries` is one submission queue entry of 64 bytes, or two that are a fused Compare and Write, and `completions` is room for
 * 16 bytes for each. `data` is one piece of memory, of the length that zk_data_length gives: what the command carries, gathered
 * from the host's PRPs or SGL, for a pair that of the first entry and then that of the second; for a Read, room for its blocks.
 * Without data it is NULL or any pointer, of length 0. The length is looked at before the command is checked, so apply your
 * controller's transfer limit first.
 *
 * ZK_DONE: the completions are written, and after a Read of status 0/00 its blocks. How the command ended, an unknown opcode or
 * an LBA out of range included, is the status there. The SQ identifier is the port's place in zk_open, from 1, and the SQ head
 * pointer, the phase tag and DNR are 0: set your own. The first of a pair by itself ends with status 0/0a.
 * ZK_PENDING: the command stays in the port, and some of its steps may be done. The entries and data may be reused.
 * ZK_BAD_LENGTH: answer a guest 0/02. ZK_NO_PAIR: submit each of the two by itself; whatever else is wrong with a pair is in its
 * statuses. ZK_NO_MEMORY: answer 0/06. ZK_NOT_OPEN, ZK_BUSY.
 * Threads: one call at a time on a port; ports of one namespace may be used at the same time. */
int zk_submit(struct zk_port *port, const uint8_t *entries, size_t entries_length, uint8_t *data, size_t data_length,
              uint8_t *completions, size_t completions_length);

/* As zk_submit with two entries, whose data comes in two pieces, each as long as zk_data_length gives for its entry alone: so the
 * buffers of a fused Compare and Write need not be copied behind each other. Neither is written, and they may overlap. A Read's
 * piece, which makes it no pair, has no bytes.
 * Answers as zk_submit does of the two pieces behind each other, and ZK_BAD_LENGTH for anything but two entries.
 * Threads: as zk_submit. */
int zk_submit_pair(struct zk_port *port, const uint8_t *entries, size_t entries_length, const uint8_t *compared,
                   size_t compared_length, const uint8_t *written, size_t written_length, uint8_t *completions,
                   size_t completions_length);

/* The one length of `data` that zk_submit takes with `count` entries, 1 or 2, in a namespace of blocks of `block_size` bytes: NLB
 * + 1 blocks for a Write, Compare or Read, 16 bytes for each of the NR + 1 ranges of a Dataset Management, and 0 for any other
 * opcode. Of two entries it is the sum, in which a Read has nothing. It is the same where the command is refused later. Linux's
 * host sends more with a Dataset Management: pass on its front.
 * ZK_NO_LENGTH: there is no namespace of such blocks, or `count` is neither 1 nor 2.
 * It takes no memory.
 * Threads: any thread, any time. It uses no port. */
size_t zk_data_length(const uint8_t *entries, size_t count, uint32_t block_size);

/* Goes on with the command that is pending in the port. `completions` is as in zk_submit. `data` is at least room for a Read's
 * blocks; with any other command it is not looked at. A thread that has nothing else to do calls sched_yield() before it polls
 * again: the port that has the region may not be running. It isn't promised that a pending command ever ends: others may have its
 * region at each poll.
 * ZK_DONE and ZK_PENDING as in zk_submit. ZK_NOT_OPEN, ZK_IDLE, ZK_BAD_LENGTH: a pending command is still pending.
 * Threads: as zk_submit. */
int zk_poll(struct zk_port *port, uint8_t *data, size_t data_length, uint8_t *completions, size_t completions_length);

/* Writes the Identify Namespace data structure of the port's namespace into `data`, of ZK_IDENTIFY_BYTES: NSZE, NAWUN, NACWU,
 * NABSN and NABO, bit 1 of NSFEAT, which says that the namespace has atomic limits of its own, and else bytes of 0. It never
 * changes. Yours to set:
 *   - NCAP and NUSE (bytes 8 and 16): NSZE. LBADS of LBA format 0 (byte 130): 9 or 12.
 *   - Bits 2:0 of DLFEAT (byte 33): 001b, since deallocated blocks read as 0.
 *   - Bit 0 of NMIC (byte 30), where several controllers have it.
 *   - NGUID or EUI64 (bytes 104 and 120), where you have them: bytes that no other namespace has.
 *   - AWUN or ACWU of Identify Controller: 0 where NAWUN or NACWU is 0, which stands for it.
 *   - NAWUPF and NABSPF: 0, since nothing outlives a power failure. Where you write nothing back to a disk they can be NAWUN and
 *     NABSN, since a guest that is killed tears nothing and all blocks are gone with this process; that is your promise, not the
 *     library's.
 * Linux 6.1's host was tried with the pages of clients/nvme-tcp (target-pages.c, target-media.c), which name the namespace by a
 * UUID in the list of CNS 03h. From memory of its source, and not tried: its atomic writes go by NAWUPF and NABSPF, where NABO is
 * 0, and by AWUPF where NAWUPF is 0, and with 0 there too a single block is atomic; with bit 3 of DLFEAT beside 001b it sets
 * DEAC, which changes nothing here; by NGUID or EUI64 it names the disk in /dev/disk/by-id, and knows it on another path or after
 * a reset.
 * ZK_DONE. ZK_NOT_OPEN, ZK_BAD_LENGTH.
 * Threads: as zk_submit. */
int zk_identify(struct zk_port *port, uint8_t *data, size_t data_length);

/* Writes the same bytes from the numbers of a namespace, for an admin queue, which has no port. It takes no memory.
 * ZK_DONE. ZK_BAD_NAMESPACE or ZK_BAD_LENGTH, tried in this order.
 * Threads: any thread, any time. It uses no port. */
int zk_identify_namespace(const struct zk_namespace *ns, uint8_t *data, size_t data_length);

/* How a Read ended that zk_read_now answers: 0/00 with its blocks, or 2/81 without. */
struct zk_status {
    uint8_t type;
    uint8_t code;
};

/* Answers a Read of `nlb` + 1 blocks inside one atomic unit from what the port keeps, without taking the unit: even
 * while another port has it. The port has to have seen the last change of the unit's region; a command of its own on the unit makes it
 * current. `data` is room for exactly these blocks.
 * ZK_DONE: the status is written, and with 0/00 the blocks. ZK_NOT_OPEN, ZK_BUSY, ZK_NO_VERSIONS, ZK_BAD_LENGTH, ZK_OUT_OF_RANGE,
 * ZK_CROSSES, ZK_NEWER, ZK_NO_MEMORY.
 * Threads: as zk_submit. */
int zk_read_now(struct zk_port *port, uint64_t slba, uint16_t nlb, uint8_t *data, size_t data_length,
                struct zk_status *status);

/* Room for any line that zk_audit, zk_witness and zk_refute write. */
#define ZK_LINE_BYTES 128

/* Judges the record of a run by its file: whether in each atomic unit all answers together are those of a store that does one
 * command at a time. A job that ended with 0/06 is excused: look at the number after `refused`. `bytes` is the whole file, NVR1
 * or NVR2, as `nvmu run` or zk_record writes it; docs/FORMATS.md has its fields. `line` is room for a line of ASCII with a
 * newline and a byte of 0, ZK_LINE_BYTES at most. A line is never cut.
 * ZK_DONE: the record is lawful, and the line says what was in it, as `nvmu audit` does:
 *     lawful jobs 7 units 2 changes 12 refused 0
 * ZK_UNLAWFUL: the line has its first fault, as `nvmu audit` prints it:
 *     unlawful DataWrong job 0 unit 1 place 8
 * ZK_BAD_RECORD: there is no record in these bytes, and the line says why, as `nvmu` does after its name:
 *     record: truncated at 100
 * ZK_SHORT_ROOM, ZK_NO_MEMORY. It takes some memory for each byte of the file, and gives it back.
 * Threads: any thread, any time. It uses no port. */
int zk_audit(const uint8_t *bytes, size_t length, char *line, size_t room);

/* Judges a trace, which is what the hosts of any device sent and saw, by what the device may have done inside. `trace` is the
 * whole file, as `nvq trace` or a test bench of yours writes it. `evidence` is that of a record, as in zk_audit, or, without
 * `strict`, that of an order, as `nvq certify --evidence` writes it. docs/FORMATS.md has the fields of each. `line` is as in
 * zk_audit.
 * Where a record explains the trace, each atomic unit can have behaved as a store that does one step at a time, each between the
 * beginning and the end of its command. With `strict` each command is one step in each unit, as those of this library are;
 * without it, a Write that the standard lets a device tear may be. A deallocated block is zeroes in each record.
 * Where an order explains it, docs/STANDARD.md explains what the hosts saw, held to what stands in the order; `by-blocks` asks
 * less than the standard.
 * ZK_DONE: it explains the trace, and the line has the numbers, as `nvmu witness` prints them. Of a record look at the number
 * after `excused`, of jobs that never ended, or whose reply does not say what was done:
 *     explained jobs 3 units 1 steps 4 excused 0 preparations 0
 *     explained jobs 3 points 4 reads atomic deallocated either
 * ZK_UNEXPLAINED: this record or order does not explain it, and the line has a fault. Another may:
 *     unexplained ReplyDiffers job 0 unit - place -
 *     unexplained FindsOther position 1
 * ZK_BAD_TRACE, and if that is a trace ZK_BAD_RECORD: the bytes are no such file, and the line says why, as `nvmu` does after its
 * name:
 *     trace: truncated at 100
 *     order: bad value at 4
 * ZK_SHORT_ROOM, ZK_NO_MEMORY, memory and threads: as in zk_audit. It keeps no pointer. */
int zk_witness(const uint8_t *trace, size_t trace_length, const uint8_t *evidence, size_t evidence_length, bool strict, char *line, size_t room);

/* Judges a trace by a contradiction: a list of facts, each of which follows from the trace and those before it, and a conclusion
 * that can't be. `trace` and `line` are as in zk_witness, and `contradiction` is the whole file, as `nvq certify --evidence`
 * writes it. It says what the device is held to.
 * ZK_DONE: held to that, nothing that docs/STANDARD.md lets a device do explains the trace. With `atomic` or `by-blocks`, and
 * `either` or what DLFEAT promises, the device is wrong, or the trace is not what its hosts saw; `whole`, `atomic-all`, and
 * `zeroes` or `ones` without DLFEAT ask more than the standard. The line has the numbers of the contradiction's commands and
 * facts, as `nvmu refute` prints them; or, where a pair's two statuses contradict each other, whatever the contradiction says,
 * the number of that job:
 *     refuted commands 2 facts 2 reads atomic deallocated either
 *     refuted job 0
 * ZK_UNREFUTED: the contradiction does not show that, and the line says why. Nothing is known of the trace:
 *     unrefuted FactWrong fact 2
 * ZK_BAD_TRACE, and if that is a trace ZK_BAD_CONTRADICTION: the bytes are no such file, and the line says why:
 *     contradiction: truncated at 4
 * ZK_SHORT_ROOM, ZK_NO_MEMORY, memory and threads: as in zk_witness. */
int zk_refute(const uint8_t *trace, size_t trace_length, const uint8_t *contradiction, size_t contradiction_length, char *line, size_t room);

/* Gives the record of all that the ports of a namespace did since zk_open, as the bytes of a record file, which `nvmu audit`,
 * `nvq explain` and `nvq-view` read. A command that a check refused is in it, and what zk_read_now answered is not. `ports` are
 * all ports of one namespace, open, in the order of zk_open, none with a command pending. They stay as they are: the run may go
 * on, and be recorded again. A port that was closed is missing, and what it did is lost: close the ports after the record. It is
 * audited, as by zk_audit, before it is given.
 * ZK_DONE: the file stands in the front of `bytes`, and `*length` is how long it is.
 * ZK_SHORT_ROOM: the room is shorter than the file, which has `*length` bytes. So a first call with a `room` of 0 asks for the
 * length; it takes the time of an audit, and no memory for the file.
 * ZK_NOT_OPEN, ZK_NO_RECORD, ZK_BUSY, ZK_RECORD_FULL: so it is with one of the ports. ZK_OTHER_PORTS: a port is missing, comes
 * twice, stands at another's place, or is of another namespace. ZK_NO_MEMORY: malloc refused. ZK_UNLAWFUL: what was gathered is
 * no lawful record, which no run should come to. After each of these nothing is lost, and it can be called again.
 * While it runs it takes some memory for each command, the data of one Read, and up to three times the bytes of the file that fit
 * the room. Of a long run take the file by zk_record_part.
 * Threads: nobody else uses these ports during the call. */
int zk_record(struct zk_port *ports, size_t count, uint8_t *bytes, size_t room, size_t *length);

/* Gives a piece of the same file: its bytes from place `from` on, as many as there are and as there is room for.
 * ZK_DONE: the piece stands in the front of `bytes`, and `*length` is how long the whole file is. With a `room` of 0, and from
 * the end of the file on, only the length is written. Else it answers as zk_record, but never ZK_SHORT_ROOM.
 * Each call gathers and audits the record anew, so take large pieces, such as 16 MiB. They are pieces of one file where no port
 * did anything in between. The memory is that of zk_record with the piece for the file: it grows with the number of commands, and
 * not with their data.
 * Threads: as zk_record. */
int zk_record_part(struct zk_port *ports, size_t count, uint64_t from, uint8_t *bytes, size_t room, size_t *length);

/* The library's own functions take no NULL: it is answered here, so a caller by dlsym or another language checks that itself. A
 * port that is NULL is not open; ports that are NULL are none. A buffer that is NULL has no room: where its length is above 0, or
 * the call has to write to it, the answer is ZK_BAD_LENGTH, and for the line of zk_audit, zk_witness and zk_refute ZK_SHORT_ROOM.
 * A namespace that is NULL has no numbers, and entries that are NULL are none. */
static inline int zk_open_or_null(struct zk_port *ports, size_t count, const struct zk_namespace *ns, uint32_t limit, bool versions)
{
    return !ports ? ZK_BAD_PORTS : !ns ? ZK_BAD_NAMESPACE : zk_open(ports, count, ns, limit, versions);
}

static inline int zk_close_or_null(struct zk_port *port)
{
    return !port ? ZK_NOT_OPEN : zk_close(port);
}

static inline int zk_submit_or_null(struct zk_port *port, const uint8_t *entries, size_t entries_length, uint8_t *data,
                                    size_t data_length, uint8_t *completions, size_t completions_length)
{
    uint8_t none;
    if (!port)
        return ZK_NOT_OPEN;
    if (!entries || !completions || (!data && data_length))
        return ZK_BAD_LENGTH;
    return zk_submit(port, entries, entries_length, data ? data : &none, data_length, completions, completions_length);
}

static inline int zk_submit_pair_or_null(struct zk_port *port, const uint8_t *entries, size_t entries_length, const uint8_t *compared,
                                         size_t compared_length, const uint8_t *written, size_t written_length,
                                         uint8_t *completions, size_t completions_length)
{
    static const uint8_t none[1] = { 0 };
    if (!port)
        return ZK_NOT_OPEN;
    if (!entries || !completions || (!compared && compared_length) || (!written && written_length))
        return ZK_BAD_LENGTH;
    return zk_submit_pair(port, entries, entries_length, compared ? compared : none, compared_length, written ? written : none,
                          written_length, completions, completions_length);
}

static inline size_t zk_data_length_or_null(const uint8_t *entries, size_t count, uint32_t block_size)
{
    return !entries ? ZK_NO_LENGTH : zk_data_length(entries, count, block_size);
}

static inline int zk_poll_or_null(struct zk_port *port, uint8_t *data, size_t data_length, uint8_t *completions,
                                  size_t completions_length)
{
    uint8_t none;
    if (!port)
        return ZK_NOT_OPEN;
    if (!completions || (!data && data_length))
        return ZK_BAD_LENGTH;
    return zk_poll(port, data ? data : &none, data_length, completions, completions_length);
}

static inline int zk_identify_or_null(struct zk_port *port, uint8_t *data, size_t data_length)
{
    return !port ? ZK_NOT_OPEN : !data ? ZK_BAD_LENGTH : zk_identify(port, data, data_length);
}

static inline int zk_identify_namespace_or_null(const struct zk_namespace *ns, uint8_t *data, size_t data_length)
{
    return !ns ? ZK_BAD_NAMESPACE : !data ? ZK_BAD_LENGTH : zk_identify_namespace(ns, data, data_length);
}

static inline int zk_read_now_or_null(struct zk_port *port, uint64_t slba, uint16_t nlb, uint8_t *data, size_t data_length,
                                      struct zk_status *status)
{
    return !port ? ZK_NOT_OPEN : !data || !status ? ZK_BAD_LENGTH : zk_read_now(port, slba, nlb, data, data_length, status);
}

static inline int zk_audit_or_null(const uint8_t *bytes, size_t length, char *line, size_t room)
{
    static const uint8_t none[1] = { 0 };
    return !bytes && length ? ZK_BAD_LENGTH : !line ? ZK_SHORT_ROOM : zk_audit(bytes ? bytes : none, length, line, room);
}

static inline int zk_witness_or_null(const uint8_t *trace, size_t trace_length, const uint8_t *evidence, size_t evidence_length,
                                     bool strict, char *line, size_t room)
{
    static const uint8_t none[1] = { 0 };
    if ((!trace && trace_length) || (!evidence && evidence_length))
        return ZK_BAD_LENGTH;
    return !line ? ZK_SHORT_ROOM
                 : zk_witness(trace ? trace : none, trace_length, evidence ? evidence : none, evidence_length, strict, line, room);
}

static inline int zk_refute_or_null(const uint8_t *trace, size_t trace_length, const uint8_t *contradiction,
                                    size_t contradiction_length, char *line, size_t room)
{
    static const uint8_t none[1] = { 0 };
    if ((!trace && trace_length) || (!contradiction && contradiction_length))
        return ZK_BAD_LENGTH;
    return !line ? ZK_SHORT_ROOM
                 : zk_refute(trace ? trace : none, trace_length, contradiction ? contradiction : none, contradiction_length, line, room);
}

static inline int zk_record_or_null(struct zk_port *ports, size_t count, uint8_t *bytes, size_t room, size_t *length)
{
    uint8_t none;
    if (!ports)
        return ZK_OTHER_PORTS;
    if (!length || (!bytes && room))
        return ZK_BAD_LENGTH;
    return zk_record(ports, count, bytes ? bytes : &none, room, length);
}

static inline int zk_record_part_or_null(struct zk_port *ports, size_t count, uint64_t from, uint8_t *bytes, size_t room, size_t *length)
{
    uint8_t none;
    if (!ports)
        return ZK_OTHER_PORTS;
    if (!length || (!bytes && room))
        return ZK_BAD_LENGTH;
    return zk_record_part(ports, count, from, bytes ? bytes : &none, room, length);
}

#define zk_open zk_open_or_null
#define zk_close zk_close_or_null
#define zk_submit zk_submit_or_null
#define zk_submit_pair zk_submit_pair_or_null
#define zk_data_length zk_data_length_or_null
#define zk_poll zk_poll_or_null
#define zk_identify zk_identify_or_null
#define zk_identify_namespace zk_identify_namespace_or_null
#define zk_read_now zk_read_now_or_null
#define zk_audit zk_audit_or_null
#define zk_witness zk_witness_or_null
#define zk_refute zk_refute_or_null
#define zk_record zk_record_or_null
#define zk_record_part zk_record_part_or_null

/* The command identifier, the status code type and the status code of a completion queue entry. */
static inline uint16_t zk_cid(const uint8_t *completion)
{
    return (uint16_t)(completion[12] | completion[13] << 8);
}

static inline uint8_t zk_status_type(const uint8_t *completion)
{
    return (uint8_t)(completion[15] >> 1 & 7);
}

static inline uint8_t zk_status_code(const uint8_t *completion)
{
    return (uint8_t)((completion[14] | completion[15] << 8) >> 1 & 0xff);
}

/* What a status means, in the standard's words (Base Specification, "Status Field"; NVM Command Set, "Status Codes"): for 2/85
 * "Compare Failure". "Unknown status" where no command that is answered here ends so. Any thread, any time. */
static inline const char *zk_status_name(uint8_t type, uint8_t code)
{
    switch (type << 8 | code) {
    case 0x000:
        return "Successful Completion";
    case 0x001:
        return "Invalid Command Opcode";
    case 0x002:
        return "Invalid Field in Command";
    case 0x006:
        return "Internal Error";
    case 0x009:
        return "Command Aborted due to Failed Fused Command";
    case 0x00a:
        return "Command Aborted due to Missing Fused Command";
    case 0x00b:
        return "Invalid Namespace or Format";
    case 0x014:
        return "Atomic Write Unit Exceeded";
    case 0x080:
        return "LBA Out of Range";
    case 0x281:
        return "Unrecovered Read Error";
    case 0x285:
        return "Compare Failure";
    default:
        return "Unknown status";
    }
}

/* The name of what a call answered, as it stands in zk_code: for 5 "ZK_BAD_NAMESPACE". "unknown code" where no call answers that. Any thread, any
 * time. */
static inline const char *zk_code_name(int code)
{
    switch (code) {
    case ZK_DONE:
        return "ZK_DONE";
    case ZK_PENDING:
        return "ZK_PENDING";
    case ZK_NOT_OPEN:
        return "ZK_NOT_OPEN";
    case ZK_IS_OPEN:
        return "ZK_IS_OPEN";
    case ZK_NO_MEMORY:
        return "ZK_NO_MEMORY";
    case ZK_BAD_NAMESPACE:
        return "ZK_BAD_NAMESPACE";
    case ZK_BAD_PORTS:
        return "ZK_BAD_PORTS";
    case ZK_BAD_LIMIT:
        return "ZK_BAD_LIMIT";
    case ZK_BAD_LENGTH:
        return "ZK_BAD_LENGTH";
    case ZK_NO_PAIR:
        return "ZK_NO_PAIR";
    case ZK_BUSY:
        return "ZK_BUSY";
    case ZK_IDLE:
        return "ZK_IDLE";
    case ZK_NEWER:
        return "ZK_NEWER";
    case ZK_OUT_OF_RANGE:
        return "ZK_OUT_OF_RANGE";
    case ZK_CROSSES:
        return "ZK_CROSSES";
    case ZK_NO_VERSIONS:
        return "ZK_NO_VERSIONS";
    case ZK_UNLAWFUL:
        return "ZK_UNLAWFUL";
    case ZK_BAD_RECORD:
        return "ZK_BAD_RECORD";
    case ZK_SHORT_ROOM:
        return "ZK_SHORT_ROOM";
    case ZK_OTHER_PORTS:
        return "ZK_OTHER_PORTS";
    case ZK_NO_RECORD:
        return "ZK_NO_RECORD";
    case ZK_RECORD_FULL:
        return "ZK_RECORD_FULL";
    case ZK_UNEXPLAINED:
        return "ZK_UNEXPLAINED";
    case ZK_UNREFUTED:
        return "ZK_UNREFUTED";
    case ZK_BAD_TRACE:
        return "ZK_BAD_TRACE";
    case ZK_BAD_CONTRADICTION:
        return "ZK_BAD_CONTRADICTION";
    default:
        return "unknown code";
    }
}

#ifndef __cplusplus
_Static_assert(sizeof(void *) == 8 && sizeof(struct zk_port) == 64, "a port has 64 bytes");
_Static_assert(sizeof(struct zk_namespace) == 24 && sizeof(struct zk_status) == 2, "no other padding than at the ends");
#endif

#ifdef __cplusplus
}
#endif

#endif
