#include "queue.h"

#include <errno.h>
#include <fcntl.h>
#include <netinet/in.h>
#include <netinet/tcp.h>
#include <poll.h>
#include <stdarg.h>
#include <stdio.h>
#include <stdlib.h>
#include <sys/socket.h>
#include <time.h>
#include <unistd.h>

/* What a connection's buffers hold at least, and the most padding before data. */
enum { ROOM = 256 << 10, MOST_PADDING = 128, CIDS = 65536 };

enum { FROM_CONTROLLER = 1 << PDU_C2H_TERM | 1 << PDU_RESPONSE | 1 << PDU_C2H_DATA | 1 << PDU_R2T };

/* Bits of ICReq and ICResp for digests; the bit of Connect that asks for no flow control, so that C2HData may end a command. */
enum { IC_HEADER_DIGEST = 1, IC_DATA_DIGEST = 2, CONNECT_NO_FLOW_CONTROL = 4 };

uint64_t now(void)
{
    struct timespec at;
    clock_gettime(CLOCK_MONOTONIC, &at);
    return (uint64_t)at.tv_sec * 1000000000u + (uint64_t)at.tv_nsec;
}

static bool wrong(struct queue *queue, const char *told, ...) __attribute__((format(printf, 2, 3)));

/* Notes why the queue is of no use any more, once. */
static bool wrong(struct queue *queue, const char *told, ...)
{
    if (!*queue->fault) {
        va_list more;
        va_start(more, told);
        vsnprintf(queue->fault, sizeof queue->fault, told, more);
        va_end(more);
    }
    return false;
}

/* Room at the end of what is to be sent, or NULL. */
static uint8_t *append(struct queue *queue, size_t length)
{
    if (queue->out_begin == queue->out_end) {
        queue->out_begin = queue->out_end = 0;
    }
    if (length > queue->out_room - queue->out_end) {
        size_t room = 2 * (queue->out_end + length);
        uint8_t *out = realloc(queue->out, room);
        if (!out) {
            wrong(queue, "no memory");
            return NULL;
        }
        queue->out = out;
        queue->out_room = room;
    }
    queue->out_end += length;
    return queue->out + queue->out_end - length;
}

/* Appends a PDU. `fields` are the bytes of its header behind the common ones. */
static bool append_pdu(struct queue *queue, enum pdu_type type, uint8_t flags, const uint8_t *fields, size_t field_bytes, const uint8_t *data, uint32_t length)
{
    uint8_t head[PDU_MOST_HEADER + MOST_PADDING], digest[PDU_DIGEST];
    uint32_t begin = pdu_begin(head, type, flags, &queue->sending, length);
    memcpy(head + PDU_COMMON, fields, field_bytes);
    pdu_seal(head);
    uint32_t behind = length ? pdu_data_digest(head, data, length, digest) : 0;
    uint8_t *pdu = append(queue, (size_t)begin + length + behind);
    if (!pdu) {
        return false;
    }
    memcpy(pdu, head, begin);
    if (length) {
        memcpy(pdu + begin, data, length);
        memcpy(pdu + begin + length, digest, behind);
    }
    return true;
}

bool queue_takes(const struct queue *queue, uint16_t cid)
{
    return queue->used < queue->depth && !queue->by_cid[cid];
}

struct request *queue_submit(struct queue *queue, const uint8_t *entry, uint8_t *data, uint32_t length)
{
    uint16_t cid = (uint16_t)little(entry + 2, 2);
    if (*queue->fault || !queue_takes(queue, cid)) {
        return NULL;
    }
    bool sends = data_direction(entry) == HOST_TO_CONTROLLER, is_in_capsule = sends && length && length <= queue->in_capsule;
    uint8_t sent[ZK_ENTRY_BYTES];
    memcpy(sent, entry, sizeof sent);
    sent[1] |= ENTRY_BY_SGL;
    memset(sent + SGL_AT, 0, 16);
    put_little(sent + SGL_LENGTH, 4, length);
    sent[SGL_TYPE] = is_in_capsule ? SGL_IN_CAPSULE : SGL_TRANSPORT;
    struct request *request = queue->requests;
    while (request->is_used) {
        request++;
    }
    *request = (struct request){.is_used = true, .sends = sends, .cid = cid, .data = data, .length = length, .began = now()};
    request->moved = is_in_capsule ? length : 0;
    if (!append_pdu(queue, PDU_COMMAND, 0, sent, sizeof sent, data, is_in_capsule ? length : 0)) {
        request->is_used = false;
        return NULL;
    }
    queue->by_cid[cid] = request;
    queue->used++;
    return request;
}

void queue_release(struct queue *queue, struct request *request)
{
    queue->by_cid[request->cid] = NULL;
    queue->used--;
    *request = (struct request){0};
}

static void end(struct request *request, uint16_t status, uint64_t result, uint64_t at)
{
    request->is_done = true;
    request->status = status;
    request->result = result;
    request->ended = at;
}

/* Says that the connection ends for a fault of the controller's, as far as the socket takes it. */
static bool terminate(struct queue *queue, const struct pdu_fault *fault, const uint8_t *header, size_t count)
{
    uint8_t pdu[PDU_TERM_BYTES + PDU_TERM_REPEATS];
    uint32_t length = pdu_terminate(pdu, PDU_H2C_TERM, fault, header, count);
    if (queue->out_begin == queue->out_end) {
        (void)!send(queue->socket, pdu, length, MSG_NOSIGNAL);
    }
    return wrong(queue, "the controller sent %s", fault->told);
}

/* What is wrong with a PDU for a command, or NULL. */
static const char *unfit(const struct request *request, const struct pdu *pdu)
{
    uint64_t offset = little(pdu->header + DATA_OFFSET, 4), length = little(pdu->header + DATA_LENGTH, 4);
    if (!request || request->is_done) {
        return "a PDU for a command that isn't under way";
    }
    if (pdu->type == PDU_RESPONSE) {
        return NULL;
    }
    if (request->sends != (pdu->type == PDU_R2T) || !length || offset != request->moved || length > request->length - request->moved) {
        return pdu->type == PDU_R2T ? "an R2T for other data than is due" : "C2HData of other bytes than are due";
    }
    return pdu->data_spoiled ? "data with a wrong digest" : NULL;
}

/* Sends the data that the controller asks for. */
static bool send_data(struct queue *queue, struct request *request, uint16_t tag, uint32_t length)
{
    for (uint32_t part; length; request->moved += part, length -= part) {
        part = length < queue->part ? length : queue->part;
        uint8_t fields[PDU_DATA_BYTES - PDU_COMMON] = {0};
        put_little(fields + DATA_CID - PDU_COMMON, 2, request->cid);
        put_little(fields + DATA_TAG - PDU_COMMON, 2, tag);
        put_little(fields + DATA_OFFSET - PDU_COMMON, 4, request->moved);
        put_little(fields + DATA_LENGTH - PDU_COMMON, 4, part);
        if (!append_pdu(queue, PDU_H2C_DATA, part == length ? PDU_LAST : 0, fields, sizeof fields, request->data + request->moved, part)) {
            return false;
        }
    }
    return true;
}

/* Takes a whole PDU that came before `at`. */
static bool take(struct queue *queue, const struct pdu *pdu, uint64_t at)
{
    if (pdu->type == PDU_C2H_TERM) {
        return wrong(queue, "the controller ended the connection for a fault of this host's: fatal error status %u, information %u",
                     (unsigned)little(pdu->header + TERM_STATUS, 2), (unsigned)little(pdu->header + TERM_INFORMATION, 4));
    }
    const uint8_t *completion = pdu->header + RESPONSE_COMPLETION;
    uint16_t cid = (uint16_t)little(pdu->type == PDU_RESPONSE ? completion + 12 : pdu->header + DATA_CID, 2);
    struct request *request = queue->by_cid[cid];
    const char *told = unfit(request, pdu);
    if (told) {
        struct pdu_fault fault = {PDU_DATA_OUT_OF_RANGE, 0, told};
        return terminate(queue, &fault, pdu->header, PDU_RESPONSE_BYTES);
    }
    switch (pdu->type) {
    case PDU_RESPONSE:
        end(request, (uint16_t)(little(completion + 14, 2) >> 1 & 0x7ff), little(completion, 8), at);
        return true;
    case PDU_R2T:
        return send_data(queue, request, (uint16_t)little(pdu->header + DATA_TAG, 2), (uint32_t)little(pdu->header + DATA_LENGTH, 4));
    default:
        memcpy(request->data + request->moved, pdu->data, pdu->data_length);
        request->moved += pdu->data_length;
        if ((pdu->flags & (PDU_LAST | PDU_SUCCESS)) == (PDU_LAST | PDU_SUCCESS)) {
            end(request, 0, 0, at);
        }
        return true;
    }
}

/* Sends what the socket takes. */
static bool push(struct queue *queue)
{
    while (queue->out_begin < queue->out_end) {
        ssize_t sent = send(queue->socket, queue->out + queue->out_begin, queue->out_end - queue->out_begin, MSG_NOSIGNAL);
        if (sent < 0 && (errno == EAGAIN || errno == EWOULDBLOCK)) {
            return true;
        }
        if (sent < 0 && errno != EINTR) {
            return wrong(queue, "the connection is lost: %s", strerror(errno));
        }
        queue->out_begin += sent > 0 ? (size_t)sent : 0;
    }
    return true;
}

/* Waits until bytes come, and sends meanwhile. */
static bool receive(struct queue *queue)
{
    uint64_t until = now() + queue->seconds * 1000000000ull;
    for (;;) {
        if (!push(queue)) {
            return false;
        }
        struct pollfd what = {.fd = queue->socket, .events = (short)(POLLIN | (queue->out_begin < queue->out_end ? POLLOUT : 0))};
        uint64_t at = now();
        int ready = at < until ? poll(&what, 1, (int)((until - at) / 1000000u) + 1) : 0;
        if (ready == 0) {
            return wrong(queue, "nothing came for %u seconds", queue->seconds);
        }
        if (ready < 0 || !(what.revents & ~POLLOUT)) {
            continue;
        }
        ssize_t got = recv(queue->socket, queue->in + queue->in_end, queue->in_room - queue->in_end, 0);
        if (got > 0) {
            queue->in_end += (size_t)got;
            return true;
        }
        if (got == 0) {
            return wrong(queue, "the controller closed the connection");
        }
        if (errno != EAGAIN && errno != EWOULDBLOCK && errno != EINTR) {
            return wrong(queue, "the connection is lost: %s", strerror(errno));
        }
    }
}

bool queue_turn(struct queue *queue)
{
    if (*queue->fault || !receive(queue)) {
        return false;
    }
    uint64_t at = now();
    size_t begin = 0;
    struct pdu pdu;
    struct pdu_fault fault;
    enum pdu_found found;
    while ((found = pdu_find(queue->in + begin, queue->in_end - begin, FROM_CONTROLLER, &queue->receiving, queue->most, &pdu, &fault)) == PDU_WHOLE) {
        if (!take(queue, &pdu, at)) {
            return false;
        }
        begin += pdu.bytes;
    }
    if (found == PDU_BAD) {
        return terminate(queue, &fault, queue->in + begin, queue->in_end - begin);
    }
    memmove(queue->in, queue->in + begin, queue->in_end - begin);
    queue->in_end -= begin;
    return true;
}

int queue_do(struct queue *queue, const uint8_t *entry, uint8_t *data, uint32_t length, uint64_t *result)
{
    struct request *request = queue_submit(queue, entry, data, length);
    if (!request) {
        return -1;
    }
    while (!request->is_done && queue_turn(queue)) {
        continue;
    }
    int status = request->is_done ? request->status : -1;
    if (result) {
        *result = request->result;
    }
    queue_release(queue, request);
    return status;
}

/* A socket that is connected to one of the addresses, or -1. */
static int connected(struct queue *queue, const struct addrinfo *at)
{
    const char *told = "no address";
    for (; at; at = at->ai_next) {
        int it = socket(at->ai_family, SOCK_STREAM, 0), error = 0, yes = 1;
        socklen_t length = sizeof error;
        if (it < 0 || fcntl(it, F_SETFL, O_NONBLOCK) != 0) {
            error = errno;
        } else if (connect(it, at->ai_addr, at->ai_addrlen) != 0) {
            struct pollfd what = {.fd = it, .events = POLLOUT};
            error = errno;
            if (error == EINPROGRESS) {
                int ready = poll(&what, 1, (int)queue->seconds * 1000);
                error = ready == 0 ? ETIMEDOUT : ready < 0 ? errno : getsockopt(it, SOL_SOCKET, SO_ERROR, &error, &length) != 0 ? errno : error;
            }
        }
        if (!error) {
            setsockopt(it, IPPROTO_TCP, TCP_NODELAY, &yes, sizeof yes);
            return it;
        }
        told = strerror(error);
        if (it >= 0) {
            close(it);
        }
    }
    wrong(queue, "it can't be connected to: %s", told);
    return -1;
}

/* Takes the terms that the controller answers with. */
static bool agree(struct queue *queue, const struct connecting *asked, const uint8_t *answer)
{
    uint8_t digests = answer[IC_DIGESTS], wanted = (uint8_t)((asked->header_digest ? IC_HEADER_DIGEST : 0) | (asked->data_digest ? IC_DATA_DIGEST : 0));
    queue->part = (uint32_t)little(answer + IC_MAXH2CDATA, 4);
    if (little(answer + IC_VERSION, 2) != 0 || answer[IC_ALIGNMENT] > 31 || (digests & 3 & ~wanted) || queue->part < 4 || queue->part % 4) {
        return wrong(queue, "the controller answers with terms that aren't possible");
    }
    queue->receiving = (struct pdu_terms){.header_digest = digests & IC_HEADER_DIGEST, .data_digest = digests & IC_DATA_DIGEST};
    queue->sending = queue->receiving;
    queue->sending.alignment = answer[IC_ALIGNMENT];
    return true;
}

/* Sends ICReq, and waits for ICResp. */
static bool greet(struct queue *queue, const struct connecting *asked)
{
    uint8_t fields[PDU_IC_BYTES - PDU_COMMON] = {0}; /* version 0, data at any multiple of four, one R2T at a time */
    fields[IC_DIGESTS - PDU_COMMON] = (uint8_t)((asked->header_digest ? IC_HEADER_DIGEST : 0) | (asked->data_digest ? IC_DATA_DIGEST : 0));
    if (!append_pdu(queue, PDU_ICREQ, 0, fields, sizeof fields, NULL, 0)) {
        return false;
    }
    struct pdu pdu;
    struct pdu_fault fault;
    enum pdu_found found;
    while ((found = pdu_find(queue->in, queue->in_end, 1 << PDU_ICRESP | 1 << PDU_C2H_TERM, &queue->receiving, PDU_IC_BYTES + PDU_TERM_BYTES, &pdu, &fault)) == PDU_INCOMPLETE) {
        if (!receive(queue)) {
            return false;
        }
    }
    if (found == PDU_BAD || pdu.type != PDU_ICRESP) {
        return wrong(queue, "it doesn't answer as an NVMe/TCP controller");
    }
    if (queue->in_end > pdu.bytes) {
        return wrong(queue, "the controller sent more than was asked for");
    }
    queue->in_end = 0;
    return agree(queue, asked, pdu.header);
}

struct queue *queue_open(const struct connecting *asked, unsigned depth, uint32_t in_capsule, uint32_t data)
{
    struct queue *queue = calloc(1, sizeof *queue);
    if (!queue) {
        return NULL;
    }
    *queue = (struct queue){.socket = -1, .depth = depth, .in_capsule = in_capsule, .seconds = asked->seconds};
    queue->most = data < UINT32_MAX - ROOM ? data + PDU_MOST_HEADER + MOST_PADDING + PDU_DIGEST : UINT32_MAX;
    queue->in_room = (size_t)queue->most + ROOM;
    queue->requests = calloc(depth, sizeof *queue->requests);
    queue->by_cid = calloc(CIDS, sizeof *queue->by_cid);
    queue->in = malloc(queue->in_room);
    if (!queue->requests || !queue->by_cid || !queue->in) {
        queue_close(queue);
        return NULL;
    }
    queue->socket = connected(queue, asked->addresses);
    if (queue->socket >= 0) {
        greet(queue, asked);
    }
    return queue;
}

bool queue_connect(struct queue *queue, const struct connecting *asked, uint16_t number, uint16_t *controller)
{
    uint8_t entry[ZK_ENTRY_BYTES] = {FABRICS}, data[CONNECT_BYTES] = {0};
    uint64_t result;
    entry[4] = CONNECT;
    put_little(entry + 42, 2, number);
    put_little(entry + 44, 2, queue->depth); /* entries less one: a queue with one more than can be under way is never full */
    entry[46] = number ? CONNECT_NO_FLOW_CONTROL : 0;
    memcpy(data + CONNECT_HOST_ID, asked->host_id, sizeof asked->host_id);
    put_little(data + CONNECT_CNTLID, 2, number ? *controller : ANY_CONTROLLER);
    snprintf((char *)data + CONNECT_SUBSYSTEM, NQN_BYTES, "%s", asked->subsystem);
    snprintf((char *)data + CONNECT_HOST, NQN_BYTES, "%s", asked->host);
    int status = queue_do(queue, entry, data, sizeof data, &result);
    if (status != 0) {
        return wrong(queue, "it answers Connect of queue %u with %d/%02x", number, status >> 8, (unsigned)status & 255);
    }
    if (result >> 16 & 3) {
        return wrong(queue, "it wants authentication, which this host doesn't have");
    }
    if (!number) {
        *controller = (uint16_t)result;
    }
    return true;
}

void queue_close(struct queue *queue)
{
    if (queue->socket >= 0) {
        close(queue->socket);
    }
    free(queue->requests);
    free(queue->by_cid);
    free(queue->in);
    free(queue->out);
    free(queue);
}
