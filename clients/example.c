/* Four threads add to one counter, which stands in the first bytes of a block: each reads the block and writes it
 * back one higher by a fused Compare and Write, again and again until the Compare holds. No addition is lost.
 *
 * The namespace is recorded. At the end the record of all that the threads did is audited, and written to the file that is named. */
#include <pthread.h>
#include <sched.h>
#include <stdio.h>
#include <stdlib.h>
#include <string.h>

#include "zalkvorn.h"

enum { THREADS = 4, ADDITIONS = 5000, BLOCK = 512 };

enum { WRITE = 0x01, READ = 0x02, COMPARE = 0x05 };
enum { FUSED_FIRST = 1, FUSED_SECOND = 2 };

/* A command on the block at LBA `slba` of namespace 1. */
static void entry_of(uint8_t *entry, uint8_t opcode, uint8_t fuse, uint16_t cid, uint8_t slba)
{
    memset(entry, 0, ZK_ENTRY_BYTES);
    entry[0] = opcode;
    entry[1] = fuse;
    entry[2] = (uint8_t)cid;
    entry[3] = (uint8_t)(cid >> 8);
    entry[4] = 1;
    entry[40] = slba;
}

/* Submits, and polls until the command is done. */
static int done(struct zk_port *port, const uint8_t *entries, size_t count, uint8_t *data, size_t length, uint8_t *told)
{
    int code = zk_submit(port, entries, count * ZK_ENTRY_BYTES, data, length, told, count * ZK_COMPLETION_BYTES);
    while (code == ZK_PENDING) {
        sched_yield();
        code = zk_poll(port, data, length, told, count * ZK_COMPLETION_BYTES);
    }
    return code;
}

static int succeeded(const uint8_t *completion)
{
    return zk_status_type(completion) == 0 && zk_status_code(completion) == 0;
}

static int read_block(struct zk_port *port, uint8_t *block)
{
    uint8_t entry[ZK_ENTRY_BYTES], told[ZK_COMPLETION_BYTES];
    entry_of(entry, READ, 0, 7, 0);
    return done(port, entry, 1, block, BLOCK, told) == ZK_DONE && succeeded(told) && zk_cid(told) == 7;
}

static uint32_t number_in(const uint8_t *block)
{
    return block[0] | (uint32_t)block[1] << 8 | (uint32_t)block[2] << 16 | (uint32_t)block[3] << 24;
}

static void put_number(uint8_t *block, uint32_t number)
{
    for (int i = 0; i < 4; i++)
        block[i] = (uint8_t)(number >> 8 * i);
}

/* Adds one. 1 if it was added, 0 if another thread was quicker, -1 at a fault. */
static int add(struct zk_port *port)
{
    uint8_t entries[2 * ZK_ENTRY_BYTES], told[2 * ZK_COMPLETION_BYTES], blocks[2 * BLOCK];
    if (!read_block(port, blocks))
        return -1;
    memcpy(blocks + BLOCK, blocks, BLOCK);
    put_number(blocks + BLOCK, number_in(blocks) + 1);
    entry_of(entries, COMPARE, FUSED_FIRST, 8, 0);
    entry_of(entries + ZK_ENTRY_BYTES, WRITE, FUSED_SECOND, 9, 0);
    if (done(port, entries, 2, blocks, sizeof blocks, told) != ZK_DONE)
        return -1;
    if (zk_status_type(told) == 2 && zk_status_code(told) == 0x85)
        return 0;
    return succeeded(told) && succeeded(told + ZK_COMPLETION_BYTES) ? 1 : -1;
}

static void *work(void *port)
{
    for (int i = 0; i < ADDITIONS;) {
        int added = add(port);
        if (added < 0)
            return port;
        i += added;
    }
    return NULL;
}

/* What is refused, each by its code. */
static int refusals(void)
{
    struct zk_namespace ns = { 64, BLOCK, 7, 0, 7, 7 }, none = { 0, BLOCK, 0, 0, 0, 0 };
    struct zk_port ports[2] = { ZK_PORT_INIT, ZK_PORT_INIT };
    uint8_t entries[2 * ZK_ENTRY_BYTES], told[2 * ZK_COMPLETION_BYTES], block[BLOCK] = { 0 }, blocks[2 * BLOCK];
    static uint8_t identity[ZK_IDENTIFY_BYTES], again[ZK_IDENTIFY_BYTES];
    struct zk_port *port = &ports[0];
    entry_of(entries, READ, 0, 1, 0);
    entry_of(entries + ZK_ENTRY_BYTES, READ, 0, 2, 0);
#define MUST(call, code) do { int got = (call); if (got != (code)) { \
        fprintf(stderr, "%s: %d, not %d\n", #call, got, (int)(code)); return 1; } } while (0)
    MUST(zk_close(port), ZK_NOT_OPEN);
    MUST(zk_identify(port, block, BLOCK), ZK_NOT_OPEN);
    MUST(zk_identify_namespace(&none, identity, sizeof identity), ZK_BAD_NAMESPACE);
    MUST(zk_identify_namespace(&ns, identity, sizeof identity), ZK_DONE);
    MUST(zk_data_length(entries, 1, ns.block_size) == BLOCK, 1);
    MUST(zk_data_length(entries, 1, BLOCK + 1) == ZK_NO_LENGTH, 1);
    MUST(zk_submit(port, entries, 64, block, BLOCK, told, 16), ZK_NOT_OPEN);
    MUST(zk_poll(port, block, BLOCK, told, 16), ZK_NOT_OPEN);
    MUST(zk_open(ports, 0, &ns, ZK_NO_LIMIT, true), ZK_BAD_PORTS);
    MUST(zk_open(ports, 2, &none, ZK_NO_LIMIT, true), ZK_BAD_NAMESPACE);
    MUST(zk_open(ports, 2, &ns, ZK_MOST_CHANGES + 1, true), ZK_BAD_LIMIT);
    MUST(zk_open(ports, 2, &ns, ZK_NO_LIMIT, true), ZK_DONE);
    MUST(zk_open(ports, 2, &ns, ZK_NO_LIMIT, true), ZK_IS_OPEN);
    MUST(zk_poll(port, block, BLOCK, told, 16), ZK_IDLE);
    MUST(zk_submit(port, entries, 63, block, BLOCK, told, 16), ZK_BAD_LENGTH);
    MUST(zk_submit(port, entries, 64, block, BLOCK - 1, told, 16), ZK_BAD_LENGTH);
    MUST(zk_submit(port, entries, 64, block, BLOCK, told, 15), ZK_BAD_LENGTH);
    MUST(zk_submit(port, entries, 128, block, 0, told, 32), ZK_NO_PAIR);
    MUST(zk_submit(port, entries, 64, block, BLOCK, told, 16), ZK_DONE);
    MUST(succeeded(told), 1);
    entries[0] = 0x7f;
    MUST(zk_submit(port, entries, 64, block, 0, told, 16), ZK_DONE);
    MUST(zk_status_code(told), 0x01);
    entry_of(entries, READ, 0, 1, 64);
    MUST(zk_submit(port, entries, 64, block, BLOCK, told, 16), ZK_DONE);
    MUST(zk_status_code(told), 0x80);
    MUST(zk_identify(port, again, sizeof again - 1), ZK_BAD_LENGTH);
    memset(again, 0xff, sizeof again);
    MUST(zk_identify(port, again, sizeof again), ZK_DONE);
    MUST(memcmp(again, identity, sizeof again), 0);
    MUST(identity[0], 64);
    MUST(identity[24], 2);
    MUST(identity[34] + identity[38] + identity[40] + identity[42], 7 + 7 + 7 + 0);
    MUST(identity[ZK_IDENTIFY_BYTES - 1], 0);
    struct zk_status status;
    MUST(zk_read_now(port, 0, 0, block, BLOCK, &status), ZK_DONE);
    MUST(status.type + status.code, 0);
    MUST(zk_read_now(port, 0, 0, block, BLOCK - 1, &status), ZK_BAD_LENGTH);
    MUST(zk_read_now(port, 64, 0, block, BLOCK, &status), ZK_OUT_OF_RANGE);
    MUST(zk_read_now(port, 7, 1, blocks, sizeof blocks, &status), ZK_CROSSES);
    entry_of(entries, WRITE, 0, 3, 0);
    block[0] = 0xa5;
    MUST(zk_submit(&ports[1], entries, 64, block, BLOCK, told, 16), ZK_DONE);
    MUST(zk_read_now(port, 0, 0, block, BLOCK, &status), ZK_NEWER);
    block[0] = 0;
    MUST(zk_read_now(&ports[1], 0, 0, block, BLOCK, &status), ZK_DONE);
    MUST(block[0], 0xa5);
    size_t size;
    MUST(zk_record(ports, 2, block, BLOCK, &size), ZK_NO_RECORD);
    MUST(zk_close(port), ZK_DONE);
    MUST(zk_close(port), ZK_NOT_OPEN);
    MUST(zk_record(ports, 2, block, BLOCK, &size), ZK_NOT_OPEN);
    MUST(zk_read_now(port, 0, 0, block, BLOCK, &status), ZK_NOT_OPEN);
    MUST(zk_close(&ports[1]), ZK_DONE);
    MUST(zk_open(ports, 1, &ns, ZK_NO_LIMIT, false), ZK_DONE);
    MUST(zk_read_now(port, 0, 0, block, BLOCK, &status), ZK_NO_VERSIONS);
    MUST(zk_close(port), ZK_DONE);
    return 0;
}

/* Takes the record of what the ports did, has it judged, and writes it to the file. */
static int judged(struct zk_port *ports, const char *path)
{
    size_t length;
    char line[ZK_LINE_BYTES];
    if (zk_record(ports, THREADS, (uint8_t[1]) { 0 }, 0, &length) != ZK_SHORT_ROOM)
        return 0;
    uint8_t *bytes = malloc(length);
    int right = bytes && zk_record(ports, THREADS, bytes, length, &length) == ZK_DONE
        && zk_audit(bytes, length, line, sizeof line) == ZK_DONE;
    if (right)
        fputs(line, stdout);
    if (right && path) {
        FILE *file = fopen(path, "wb");
        right = file && fwrite(bytes, 1, length, file) == length;
        right = file && fclose(file) == 0 && right;
    }
    free(bytes);
    return right;
}

int main(int words, char **word)
{
    if (zk_version() != ZK_VERSION)
        return 1;
    if (refusals())
        return 1;
    struct zk_namespace ns = { 64, BLOCK, 7, 0, 7, 7 };
    struct zk_port ports[THREADS] = { ZK_PORT_INIT, ZK_PORT_INIT, ZK_PORT_INIT, ZK_PORT_INIT };
    if (zk_open(ports, THREADS, &ns, ZK_MOST_CHANGES, true) != ZK_DONE)
        return 1;
    pthread_t threads[THREADS];
    for (int i = 0; i < THREADS; i++)
        if (pthread_create(&threads[i], NULL, work, &ports[i]))
            return 1;
    void *failed = NULL;
    for (int i = 0; i < THREADS; i++) {
        void *end;
        pthread_join(threads[i], &end);
        if (end)
            failed = end;
    }
    uint8_t block[BLOCK];
    if (failed || !read_block(&ports[0], block))
        return 1;
    printf("%d threads added %d each: %u\n", THREADS, ADDITIONS, number_in(block));
    if (!judged(ports, words > 1 ? word[1] : NULL))
        return 1;
    for (int i = 0; i < THREADS; i++)
        if (zk_close(&ports[i]) != ZK_DONE)
            return 1;
    return number_in(block) == THREADS * ADDITIONS ? 0 : 1;
}
