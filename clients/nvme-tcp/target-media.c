#include "target-media.h"

#include <errno.h>
#include <stdio.h>
#include <stdlib.h>

/* Offsets in the Identify Namespace page that only this file writes. */
enum { NAMESPACE_NCAP = 8, NAMESPACE_NUSE = 16, NAMESPACE_NMIC = 30 };

static struct zk_namespace space;
static struct zk_port ports[ZK_MOST_PORTS];
static bool taken[ZK_MOST_PORTS];
static uint8_t page[ZK_IDENTIFY_BYTES];

/* What zk_identify_namespace leaves: the sizes that a namespace has beside NSZE, that several controllers share it, what a deallocated block reads as, and the format. */
static void complete_page(void)
{
    memcpy(page + NAMESPACE_NCAP, page + NAMESPACE_NSZE, 8);
    memcpy(page + NAMESPACE_NUSE, page + NAMESPACE_NSZE, 8);
    page[NAMESPACE_NMIC] = 1;
    page[NAMESPACE_DLFEAT] = 1;
    page[NAMESPACE_LBAF + 2] = space.block_size == 512 ? 9 : 12;
}

int media_open(const struct zk_namespace *numbers, bool is_recorded)
{
    space = *numbers;
    int code = zk_open(ports, ZK_MOST_PORTS, &space, is_recorded ? ZK_MOST_CHANGES : ZK_NO_LIMIT, false);
    if (code == ZK_DONE) {
        code = zk_identify_namespace(&space, page, sizeof page);
        complete_page();
    }
    return code;
}

uint32_t media_block_size(void)
{
    return space.block_size;
}

const uint8_t *media_page(void)
{
    return page;
}

struct zk_port *media_take_port(void)
{
    for (size_t place = 0; place < ZK_MOST_PORTS; place++) {
        if (!taken[place]) {
            taken[place] = true;
            return &ports[place];
        }
    }
    return NULL;
}

void media_give_port(struct zk_port *port)
{
    taken[port - ports] = false;
}

bool media_serves(uint8_t opcode)
{
    switch (opcode) {
    case WRITE:
    case READ:
    case WRITE_UNCORRECTABLE:
    case COMPARE:
    case WRITE_ZEROES:
    case DATASET_MANAGEMENT:
        return true;
    default:
        return false;
    }
}

/* Gives the statuses of what was answered, if it is done. */
static bool ended(int code, const uint8_t *completions, unsigned count, uint16_t *statuses)
{
    for (unsigned place = 0; code != ZK_PENDING && place < count; place++) {
        statuses[place] = code == ZK_DONE ? status_of(completions + place * ZK_COMPLETION_BYTES) : STATUS_INTERNAL_ERROR;
    }
    return code != ZK_PENDING;
}

bool media_submit(struct zk_port *port, const uint8_t *entry, uint8_t *data, size_t length, uint16_t *status)
{
    uint8_t completion[ZK_COMPLETION_BYTES];
    int code = zk_submit(port, entry, ZK_ENTRY_BYTES, data, length, completion, sizeof completion);
    return ended(code, completion, 1, status);
}

bool media_submit_pair(struct zk_port *port, const uint8_t *entries, const uint8_t *compared, size_t compared_length, const uint8_t *written, size_t written_length,
                       uint16_t *statuses)
{
    uint8_t completions[2 * ZK_COMPLETION_BYTES];
    int code = zk_submit_pair(port, entries, 2 * ZK_ENTRY_BYTES, compared, compared_length, written, written_length, completions, sizeof completions);
    return ended(code, completions, 2, statuses);
}

bool media_poll(struct zk_port *port, unsigned count, uint8_t *data, size_t length, uint16_t *statuses)
{
    uint8_t completions[2 * ZK_COMPLETION_BYTES];
    int code = zk_poll(port, data, length, completions, count * ZK_COMPLETION_BYTES);
    return ended(code, completions, count, statuses);
}

/* Writes the bytes to the file by way of a neighboring one, so that it is there whole or not at all. */
static bool written(const char *path, const uint8_t *bytes, size_t length)
{
    char beside[4096];
    if (snprintf(beside, sizeof beside, "%s.new", path) >= (int)sizeof beside) {
        errno = ENAMETOOLONG;
        return false;
    }
    FILE *file = fopen(beside, "wb");
    if (!file) {
        return false;
    }
    bool is_whole = fwrite(bytes, 1, length, file) == length;
    is_whole = fclose(file) == 0 && is_whole;
    if (is_whole && rename(beside, path) == 0) {
        return true;
    }
    int fault = errno;
    remove(beside);
    errno = fault;
    return false;
}

int media_record(const char *path)
{
    size_t length = 0;
    char line[ZK_LINE_BYTES] = "";
    uint8_t none;
    int code = zk_record(ports, ZK_MOST_PORTS, &none, 0, &length);
    uint8_t *bytes = code == ZK_SHORT_ROOM ? malloc(length) : NULL;
    if (code == ZK_SHORT_ROOM) {
        code = bytes ? zk_record(ports, ZK_MOST_PORTS, bytes, length, &length) : ZK_NO_MEMORY;
    }
    int audit = code == ZK_DONE ? zk_audit(bytes, length, line, sizeof line) : code;
    bool is_written = code == ZK_DONE && written(path, bytes, length);
    if (code == ZK_DONE && !is_written) {
        fprintf(stderr, "zalkvorn-target: %s: %s\n", path, strerror(errno));
    } else if (!line[0]) {
        fprintf(stderr, "zalkvorn-target: there is no record: %s\n", zk_code_name(audit));
    } else {
        fputs(line, stdout);
    }
    free(bytes);
    return audit == ZK_UNLAWFUL ? 2 : !is_written || audit != ZK_DONE;
}
