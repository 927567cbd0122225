/* A queue of an NVMe/TCP host: a connection to a controller, with up to `depth` commands under way. One thread uses it at a time. */
#ifndef QUEUE_H
#define QUEUE_H

#include <netdb.h>

#include "pdu.h"

/* What is asked of each connection to a controller. */
struct connecting {
    const struct addrinfo *addresses; /* tried in turn */
    const char *subsystem, *host;     /* NQNs, of less than NQN_BYTES bytes */
    uint8_t host_id[16];
    bool header_digest, data_digest;
    unsigned seconds;                 /* after that without an answer it is given up */
};

/* A command under way, or just ended. */
struct request {
    bool is_used, is_done;
    bool sends;            /* its data goes to the controller; else it comes */
    uint16_t cid;
    uint8_t *data;         /* what goes to the controller, or room for what comes */
    uint32_t length, moved; /* bytes of data, and how many of them were asked for or came */
    uint16_t status;       /* type * 256 + code */
    uint64_t result;       /* dwords 0 and 1 of the completion */
    uint64_t began, ended; /* `now`: before the first byte was sent, and after the last was read */
    const void *of;        /* the caller's */
    struct request *partner; /* the caller's */
};

struct queue {
    int socket;
    unsigned depth, used;
    struct pdu_terms sending, receiving;
    uint32_t in_capsule; /* the most bytes of data in a capsule */
    uint32_t part;       /* the most bytes of data in an H2CData */
    uint32_t most;       /* the most bytes of a PDU that comes */
    unsigned seconds;
    struct request *requests, **by_cid;
    uint8_t *in, *out;
    size_t in_room, in_end, out_begin, out_end, out_room;
    char fault[160];     /* why it is of no use any more; empty while it is */
};

/* CLOCK_MONOTONIC in nanoseconds. */
uint64_t now(void);

/* Opens a connection and agrees on its terms. Commands have at most `data` bytes each. Never NULL, but where memory is refused: whoever finds a fault in it closes it. */
struct queue *queue_open(const struct connecting *asked, unsigned depth, uint32_t in_capsule, uint32_t data);

/* Whether a command with this CID may be submitted: less than `depth` are under way, and none of them has its CID. */
bool queue_takes(const struct queue *queue, uint16_t cid);

/* Has a command sent by the next turn, behind those before it. Its CID is the entry's, and its SGL is set. The data stays until the request is done.
   NULL where memory is refused, or the queue doesn't take it. */
struct request *queue_submit(struct queue *queue, const uint8_t *entry, uint8_t *data, uint32_t length);

/* Sends what the connection takes, waits until something comes, and takes it. False where nothing came in time, or the queue has a fault. */
bool queue_turn(struct queue *queue);

/* Gives a request back, done or not. */
void queue_release(struct queue *queue, struct request *request);

/* Submits a command and waits for its end. Gives its status, or -1 where the queue has a fault then. `result` may be NULL. */
int queue_do(struct queue *queue, const uint8_t *entry, uint8_t *data, uint32_t length, uint64_t *result);

/* Sends Connect: of the admin queue, which is number 0, or of an I/O queue. `controller` is written for the admin queue. */
bool queue_connect(struct queue *queue, const struct connecting *asked, uint16_t number, uint16_t *controller);

void queue_close(struct queue *queue);

#endif
