#include "target-connection.h"

#include <errno.h>
#include <stdio.h>
#include <stdlib.h>
#include <sys/socket.h>
#include <time.h>
#include <unistd.h>

#include "target-command.h"
#include "target-controller.h"

enum { MOST_PADDING = 128, MOST_PDU = PDU_MOST_HEADER + MOST_PADDING + MOST_TRANSFER + PDU_DIGEST };
/* Room for what comes, and for what is to be sent; and the most that one PDU from the host brings about: data, and three responses. */
enum { IN_ROOM = 2 * MOST_PDU, MOST_ANSWER = MOST_PDU + 3 * (PDU_RESPONSE_BYTES + PDU_DIGEST), OUT_ROOM = 3 * MOST_ANSWER };
/* How often a turn reads before others have theirs. */
enum { READS_A_TURN = 16 };
/* In milliseconds: until Connect was done, and until the host has closed after a terminating PDU. */
enum { CONNECT_WITHIN = 10000, CLOSE_WITHIN = 1000 };
/* Bits of ICReq and ICResp that agree on digests, and the most that ICReq asks for alignment. */
enum { IC_HEADER_DIGEST = 1, IC_DATA_DIGEST = 2, MOST_ALIGNMENT = 31 };

static const struct pdu_terms NO_TERMS;

uint64_t now_in_ms(void)
{
    struct timespec at;
    clock_gettime(CLOCK_MONOTONIC, &at);
    return (uint64_t)at.tv_sec * 1000u + (uint64_t)at.tv_nsec / 1000000u;
}

struct connection *connection_new(int socket, const char *peer)
{
    struct connection *it = calloc(1, sizeof *it);
    uint8_t *in = malloc(IN_ROOM), *out = malloc(OUT_ROOM);
    if (!it || !in || !out) {
        free(it);
        free(in);
        free(out);
        close(socket);
        return NULL;
    }
    it->socket = socket;
    it->in = in;
    it->out = out;
    it->may_read = it->may_write = it->has_flow_control = true;
    it->deadline = now_in_ms() + CONNECT_WITHIN;
    snprintf(it->peer, sizeof it->peer, "%s", peer);
    for (size_t place = QUEUE_ENTRIES; place-- > 0;) {
        it->commands[place].next = it->free;
        it->free = &it->commands[place];
    }
    return it;
}

void connection_free(struct connection *it)
{
    for (size_t place = 0; place < QUEUE_ENTRIES; place++) {
        free(it->commands[place].own);
    }
    free(it->in);
    free(it->out);
    free(it);
}

/* Sends what the socket takes. False where the connection is lost. */
static bool push(struct connection *it)
{
    while (it->may_write && it->out_begin < it->out_end) {
        ssize_t sent = send(it->socket, it->out + it->out_begin, it->out_end - it->out_begin, MSG_NOSIGNAL);
        if (sent > 0) {
            it->out_begin += (size_t)sent;
        } else if (errno == EAGAIN || errno == EWOULDBLOCK) {
            it->may_write = false;
        } else if (errno != EINTR) {
            return false;
        }
    }
    if (it->out_begin == it->out_end) {
        it->out_begin = it->out_end = 0;
    }
    return true;
}

/* Whether there is room for all that one more PDU from the host brings about. */
static bool has_room(struct connection *it)
{
    if (OUT_ROOM - it->out_end < MOST_ANSWER && it->out_begin) {
        memmove(it->out, it->out + it->out_begin, it->out_end - it->out_begin);
        it->out_end -= it->out_begin;
        it->out_begin = 0;
    }
    return OUT_ROOM - it->out_end >= MOST_ANSWER;
}

void connection_terminate(struct connection *it, struct pdu_fault fault)
{
    const uint8_t *header = it->in + it->in_begin;
    size_t came = it->in_end - it->in_begin, bytes = came > 2 && header[2] > PDU_COMMON ? header[2] : PDU_COMMON;
    if (identity.is_told) {
        fprintf(stderr, "zalkvorn-target: %s sent %s: fatal error status %u, information %u\n", it->peer, fault.told, (unsigned)fault.status, fault.information);
    }
    it->out_end += pdu_terminate(it->out + it->out_end, PDU_C2H_TERM, &fault, header, bytes < came ? bytes : came);
    it->is_closing = true;
    it->first_ready = it->held = NULL;
    it->in_begin = it->in_end = 0;
    it->deadline = now_in_ms() + CLOSE_WITHIN;
    controller_leave(it);
}

/* Answers ICReq. */
static void greet(struct connection *it, const struct pdu *pdu)
{
    const uint8_t *asked = pdu->header;
    if (little(asked + IC_VERSION, 2) != 0) {
        connection_terminate(it, (struct pdu_fault){PDU_UNSUPPORTED_PARAMETER, IC_VERSION, "ICReq of an unknown version"});
        return;
    }
    if (asked[IC_ALIGNMENT] > MOST_ALIGNMENT) {
        connection_terminate(it, (struct pdu_fault){PDU_INVALID_FIELD, IC_ALIGNMENT, "ICReq with an alignment that isn't possible"});
        return;
    }
    uint8_t *answer = it->out + it->out_end;
    it->out_end += pdu_begin(answer, PDU_ICRESP, 0, &NO_TERMS, 0);
    answer[IC_DIGESTS] = asked[IC_DIGESTS] & (IC_HEADER_DIGEST | IC_DATA_DIGEST);
    put_little(answer + IC_MAXH2CDATA, 4, MOST_TRANSFER);
    it->is_greeted = true;
    it->receiving = (struct pdu_terms){.header_digest = asked[IC_DIGESTS] & IC_HEADER_DIGEST, .data_digest = asked[IC_DIGESTS] & IC_DATA_DIGEST};
    it->sending = it->receiving;
    it->sending.alignment = asked[IC_ALIGNMENT];
}

static void take(struct connection *it, const struct pdu *pdu)
{
    switch (pdu->type) {
    case PDU_ICREQ:
        greet(it, pdu);
        break;
    case PDU_COMMAND:
        take_command(it, pdu);
        break;
    default:
        take_more(it, pdu);
    }
}

/* Does what is ready and takes what came, until a command is pending, there is no room for answers, or no whole PDU is there. False where the host ended the connection. */
static bool work(struct connection *it)
{
    struct pdu pdu;
    struct pdu_fault fault;
    while (has_room(it) || (push(it) && has_room(it))) {
        if (it->first_ready) {
            go_on(it);
            if (it->is_pending) {
                return true;
            }
            continue;
        }
        if (it->is_closing) {
            it->in_begin = it->in_end = 0;
            return true;
        }
        uint32_t types = it->is_greeted ? 1 << PDU_COMMAND | 1 << PDU_H2C_DATA | 1 << PDU_H2C_TERM : 1 << PDU_ICREQ | 1 << PDU_H2C_TERM;
        switch (pdu_find(it->in + it->in_begin, it->in_end - it->in_begin, types, &it->receiving, MOST_PDU, &pdu, &fault)) {
        case PDU_INCOMPLETE:
            return true;
        case PDU_BAD:
            connection_terminate(it, fault);
            break;
        case PDU_WHOLE:
            if (pdu.type == PDU_H2C_TERM) {
                return false;
            }
            take(it, &pdu);
            it->in_begin += it->is_closing ? 0 : pdu.bytes;
        }
    }
    return true;
}

/* Reads what came. False where the connection is lost or the host has closed it. */
static bool receive(struct connection *it)
{
    if (it->in_begin == it->in_end) {
        it->in_begin = it->in_end = 0;
    } else if (IN_ROOM - it->in_end < MOST_PDU) {
        memmove(it->in, it->in + it->in_begin, it->in_end - it->in_begin);
        it->in_end -= it->in_begin;
        it->in_begin = 0;
    }
    size_t room = IN_ROOM - it->in_end;
    ssize_t got = recv(it->socket, it->in + it->in_end, room, 0);
    if (got > 0) {
        it->in_end += (size_t)got;
        it->may_read = (size_t)got == room || it->hangs_up;
        return true;
    }
    if (got < 0 && (errno == EAGAIN || errno == EWOULDBLOCK)) {
        it->may_read = false;
        return true;
    }
    return got < 0 && errno == EINTR;
}

enum turn connection_turn(struct connection *it)
{
    for (int reads = 0; reads < READS_A_TURN; reads++) {
        bool goes = !it->has_ended && work(it) && push(it);
        if (!goes) {
            return connection_end(it) ? TURN_ENDED : TURN_PENDS;
        }
        if (it->is_closing && it->out_begin == it->out_end) {
            shutdown(it->socket, SHUT_WR);
        }
        if (it->is_pending) {
            return TURN_PENDS;
        }
        if (it->first_ready || !has_room(it) || !it->may_read) {
            return TURN_WAITS;
        }
        if (!receive(it)) {
            return connection_end(it) ? TURN_ENDED : TURN_PENDS;
        }
    }
    return TURN_GOES_ON;
}

bool connection_end(struct connection *it)
{
    it->has_ended = true;
    it->deadline = 0;
    shutdown(it->socket, SHUT_RDWR);
    if (it->is_pending) {
        it->out_begin = it->out_end = 0; /* there is room for what it reads */
        go_on(it);
    }
    if (it->is_pending) {
        return false;
    }
    controller_leave(it);
    close(it->socket);
    return true;
}
