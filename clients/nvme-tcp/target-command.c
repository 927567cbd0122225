#include "target-command.h"

#include <stdlib.h>

#include "target-admin.h"
#include "target-answer.h"
#include "target-media.h"

enum { ALL_NAMESPACES = 0xffffffff, FUSE_BITS = 3 };

static struct pdu_fault at_fault(enum pdu_fatal status, uint32_t information, const char *told)
{
    return (struct pdu_fault){status, information, told};
}

static uint16_t cid_of(const struct command *command)
{
    return (uint16_t)little(command->entry + 2, 2);
}

static bool cid_is_used(const struct connection *it, uint16_t cid)
{
    return it->cids[cid / 8] >> cid % 8 & 1;
}

/* A command for an entry, or NULL where the queue has as many as it has entries. */
static struct command *new_command(struct connection *it, const uint8_t *entry)
{
    struct command *command = it->used < (it->entries ? it->entries : QUEUE_ENTRIES) ? it->free : NULL;
    if (command) {
        it->free = command->next;
        it->used++;
        *command = (struct command){.is_used = true};
        memcpy(command->entry, entry, ZK_ENTRY_BYTES);
        it->cids[cid_of(command) / 8] |= (uint8_t)(1 << cid_of(command) % 8);
    }
    return command;
}

static void release(struct connection *it, struct command *command)
{
    it->cids[cid_of(command) / 8] &= (uint8_t)~(1 << cid_of(command) % 8);
    free(command->own);
    *command = (struct command){.next = it->free};
    it->free = command;
    it->used--;
}

void connection_drop_event_requests(struct connection *it)
{
    for (size_t place = 0; place < QUEUE_ENTRIES; place++) {
        if (it->commands[place].is_used && it->commands[place].entry[0] == ASYNCHRONOUS_EVENT_REQUEST) {
            release(it, &it->commands[place]);
        }
    }
    it->event_requests = 0;
}

/* Has the command's data in memory of its own. False where memory is refused: then it is refused, too. */
static bool keep_data(struct command *command)
{
    bool is_own = command->data && command->data == command->own;
    if (command->own_room < command->length) {
        uint8_t *own = realloc(command->own, command->length);
        if (!own) {
            command->refusal = STATUS_INTERNAL_ERROR;
            return false;
        }
        command->own = own;
        command->own_room = command->length;
    }
    if (command->data && !is_own && command->length) {
        memcpy(command->own, command->data, command->length);
    }
    command->data = command->own;
    return true;
}

/* Bytes that go from the host to the controller with a command. */
static size_t sent_length(const struct command *command)
{
    return data_direction(command->entry) == HOST_TO_CONTROLLER ? command->length : 0;
}

/* Takes a command whose data is there, or the pair that it is one of, as the next to be done, behind those that already are. */
static void be_ready(struct connection *it, struct command *command)
{
    command->next = NULL;
    if (it->first_ready) {
        it->last_ready->next = command;
    } else {
        it->first_ready = command;
    }
    it->last_ready = command;
}

/* Sees to a command that came or whose data did: it is done next, or it waits for data or for its partner. */
static void settle(struct connection *it, struct command *command)
{
    struct command *partner = command->partner;
    if (command->awaits_data) {
        return;
    }
    if (command->is_held) {
        if (command->data) {
            keep_data(command);
        }
    } else if (!partner) {
        be_ready(it, command);
    } else if (!partner->awaits_data) {
        be_ready(it, (command->entry[1] & FUSE_BITS) == FUSED_FIRST ? command : partner);
    } else if (command->data) {
        keep_data(command);
    }
}

/* Finds the partner of a command that just came: the first of a pair is held until the next command comes. */
static void pair_up(struct connection *it, struct command *command)
{
    unsigned fuse = it->number ? command->entry[1] & FUSE_BITS : 0;
    struct command *held = it->held;
    it->held = NULL;
    if (held) {
        held->is_held = false;
        if (fuse == FUSED_SECOND && media_serves(command->entry[0])) {
            held->partner = command;
            command->partner = held;
        } else {
            settle(it, held);
        }
    }
    if (fuse == FUSED_FIRST && media_serves(command->entry[0])) {
        command->is_held = true;
        it->held = command;
    }
}

/* Does an admin command. */
static void do_admin(struct connection *it, struct command *command)
{
    uint32_t length = data_direction(command->entry) == CONTROLLER_TO_HOST && command->entry[0] != FABRICS ? command->length : 0;
    struct answer answer = {command->refusal, 0, false};
    uint8_t *page = length && !command->refusal ? begin_data(it, command->entry, length) : NULL;
    if (page) {
        memset(page, 0, length);
    }
    if (!command->refusal) {
        answer = administer(it, command->entry, command->data, page, length);
    }
    if (answer.is_held) {
        return;
    }
    if (page && answer.status == STATUS_SUCCESS) {
        send_data(it, command->entry, page, length);
    } else {
        respond(it, command->entry, answer.status, answer.result);
    }
    release(it, command);
}

/* Does an I/O command by itself, or goes on with it. False while it is pending. */
static bool do_single(struct connection *it, struct command *command)
{
    const uint8_t *entry = command->entry;
    bool reads = entry[0] == READ;
    uint16_t status = command->refusal;
    if (!status && entry[0] == FLUSH && !(entry[1] & FUSE_BITS)) {
        uint32_t nsid = (uint32_t)little(entry + 4, 4);
        respond(it, entry, nsid == 1 || nsid == ALL_NAMESPACES ? STATUS_SUCCESS : STATUS_INVALID_NAMESPACE, 0);
    } else if (status) {
        respond(it, entry, status, 0);
    } else {
        uint8_t *data = reads ? begin_data(it, entry, command->length) : command->data;
        bool is_done = it->is_pending ? media_poll(it->port, 1, data, command->length, &status) : media_submit(it->port, entry, data, command->length, &status);
        if (!is_done) {
            return false;
        }
        if (reads && status == STATUS_SUCCESS) {
            send_data(it, entry, data, command->length);
        } else {
            respond(it, entry, status, 0);
        }
    }
    release(it, command);
    return true;
}

/* Does a fused pair, or goes on with it. Where the one is refused, the other isn't done. False while it is pending. */
static bool do_pair(struct connection *it, struct command *first)
{
    struct command *second = first->partner;
    uint16_t statuses[2];
    if (first->refusal || second->refusal) {
        statuses[0] = first->refusal ? first->refusal : STATUS_FAILED_FUSED;
        statuses[1] = second->refusal ? second->refusal : STATUS_FAILED_FUSED;
    } else {
        uint8_t entries[2 * ZK_ENTRY_BYTES];
        memcpy(entries, first->entry, ZK_ENTRY_BYTES);
        memcpy(entries + ZK_ENTRY_BYTES, second->entry, ZK_ENTRY_BYTES);
        bool is_done = it->is_pending ? media_poll(it->port, 2, NULL, 0, statuses)
                                      : media_submit_pair(it->port, entries, first->data, sent_length(first), second->data, sent_length(second), statuses);
        if (!is_done) {
            return false;
        }
    }
    respond(it, first->entry, statuses[0], 0);
    respond(it, second->entry, statuses[1], 0);
    release(it, second);
    release(it, first);
    return true;
}

void go_on(struct connection *it)
{
    struct command *command = it->first_ready, *next = command->next;
    bool is_done = true;
    if (!it->number) {
        do_admin(it, command);
    } else {
        is_done = command->partner ? do_pair(it, command) : do_single(it, command);
    }
    it->is_pending = !is_done;
    if (is_done) {
        it->first_ready = next;
    }
}

/* The bytes of data that a command carries, in either direction, as far as it is known here. */
static uint64_t carried(const struct connection *it, const uint8_t *entry)
{
    if (!it->number || entry[0] == FABRICS) {
        return admin_data_length(entry);
    }
    return zk_data_length(entry, 1, media_block_size());
}

/* Why a command isn't to be done, as far as that is seen before its data is there; or STATUS_SUCCESS. */
static uint16_t refusal_of(const struct connection *it, const uint8_t *entry, uint64_t length)
{
    bool is_in_capsule = entry[SGL_TYPE] == SGL_IN_CAPSULE && data_direction(entry) == HOST_TO_CONTROLLER;
    if (!it->controller && (entry[0] != FABRICS || entry[4] != CONNECT)) {
        return STATUS_SEQUENCE_ERROR;
    }
    if (it->number && entry[0] == FABRICS) {
        return entry[4] == CONNECT ? STATUS_SEQUENCE_ERROR : STATUS_INVALID_OPCODE;
    }
    if (length > MOST_TRANSFER) {
        return STATUS_INVALID_FIELD;
    }
    if (length && entry[SGL_TYPE] != SGL_TRANSPORT && !is_in_capsule) {
        return STATUS_SGL_TYPE;
    }
    return length > little(entry + SGL_LENGTH, 4) ? STATUS_SGL_LENGTH : STATUS_SUCCESS;
}

/* Sees to the data that a command sends: it came in the capsule, or is asked for. */
static void take_data(struct connection *it, struct command *command, const struct pdu *pdu)
{
    const uint8_t *entry = command->entry;
    if (entry[SGL_TYPE] != SGL_IN_CAPSULE) {
        command->awaits_data = true;
        send_r2t(it, command);
        return;
    }
    uint64_t offset = little(entry + SGL_AT, 8), length = little(entry + SGL_LENGTH, 4);
    if (offset > pdu->data_length || length > pdu->data_length - offset) {
        command->refusal = STATUS_SGL_OFFSET;
    } else if (pdu->data_spoiled) {
        command->refusal = STATUS_TRANSIENT_TRANSPORT_ERROR;
    } else {
        command->data = it->in + (pdu->data - it->in) + offset;
    }
}

void take_command(struct connection *it, const struct pdu *pdu)
{
    const uint8_t *entry = pdu->header + COMMAND_ENTRY;
    if (pdu->data_length > (it->number ? IO_IN_CAPSULE : ADMIN_IN_CAPSULE)) {
        connection_terminate(it, at_fault(PDU_LIMIT_EXCEEDED, 0, "a capsule with more data than was agreed on"));
        return;
    }
    if (pdu->data_length && (entry[SGL_TYPE] != SGL_IN_CAPSULE || !(data_direction(entry) & HOST_TO_CONTROLLER))) {
        connection_terminate(it, at_fault(PDU_INVALID_FIELD, 4, "a capsule with data that its command doesn't send"));
        return;
    }
    if (cid_is_used(it, (uint16_t)little(entry + 2, 2))) {
        connection_terminate(it, at_fault(PDU_INVALID_FIELD, COMMAND_ENTRY + 2, "a command with the identifier of another that isn't answered yet"));
        return;
    }
    struct command *command = new_command(it, entry);
    if (!command) {
        connection_terminate(it, at_fault(PDU_SEQUENCE_ERROR, 0, "more commands than the queue has entries"));
        return;
    }
    it->head = it->entries ? (uint16_t)((it->head + 1) % it->entries) : 0;
    uint64_t length = carried(it, entry);
    command->refusal = refusal_of(it, entry, length);
    command->length = command->refusal ? 0 : (uint32_t)length;
    if (sent_length(command)) {
        take_data(it, command, pdu);
    }
    pair_up(it, command);
    settle(it, command);
}

/* What is wrong with an H2CData, or a fault without a status. */
static struct pdu_fault fault_of(const struct command *command, const struct pdu *pdu)
{
    uint32_t offset = (uint32_t)little(pdu->header + DATA_OFFSET, 4);
    if (!command || !command->awaits_data) {
        return at_fault(PDU_INVALID_FIELD, DATA_TAG, "H2CData for no R2T");
    }
    if (little(pdu->header + DATA_CID, 2) != cid_of(command)) {
        return at_fault(PDU_INVALID_FIELD, DATA_CID, "H2CData for another command than its R2T");
    }
    if (offset != command->received || pdu->data_length > command->length - command->received) {
        return at_fault(PDU_DATA_OUT_OF_RANGE, 0, "H2CData of other bytes than are due");
    }
    if (!pdu->data_length) {
        return at_fault(PDU_INVALID_FIELD, DATA_LENGTH, "H2CData without data");
    }
    if (((pdu->flags & PDU_LAST) != 0) != (pdu->data_length == command->length - command->received)) {
        return at_fault(PDU_INVALID_FIELD, 1, "H2CData whose flag of the last isn't right");
    }
    return (struct pdu_fault){0};
}

void take_more(struct connection *it, const struct pdu *pdu)
{
    size_t tag = little(pdu->header + DATA_TAG, 2);
    struct command *command = tag < QUEUE_ENTRIES ? &it->commands[tag] : NULL;
    struct pdu_fault fault = fault_of(command, pdu);
    if (fault.status) {
        connection_terminate(it, fault);
        return;
    }
    if (pdu->data_spoiled) {
        command->refusal = STATUS_TRANSIENT_TRANSPORT_ERROR;
    }
    if (pdu->data_length == command->length) {
        command->data = it->in + (pdu->data - it->in);
    } else if (keep_data(command)) {
        memcpy(command->own + command->received, pdu->data, pdu->data_length);
    }
    command->received += pdu->data_length;
    command->awaits_data = command->received < command->length;
    settle(it, command);
}
