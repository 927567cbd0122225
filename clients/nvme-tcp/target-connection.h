/* A connection of the target, which is a queue once a Connect command came over it. One thread uses it, but for the socket, which the controller's own may shut down. */
#ifndef TARGET_CONNECTION_H
#define TARGET_CONNECTION_H

#include "pdu.h"

struct controller;

/* What hosts are held to: entries of a queue; the shift of the largest transfer in pages, and its bytes, which an H2CData may have, too; bytes of data in an I/O capsule. */
enum { QUEUE_ENTRIES = 128, TRANSFER_SHIFT = 5, MOST_TRANSFER = PAGE_BYTES << TRANSFER_SHIFT, IO_IN_CAPSULE = 16384, MOST_EVENT_REQUESTS = 4 };

/* A command that came and isn't answered. */
struct command {
    uint8_t entry[ZK_ENTRY_BYTES];
    uint32_t length;        /* bytes of data that it carries, in either direction */
    uint32_t received;      /* of the data that an R2T asked for */
    uint8_t *data;          /* what came, in a PDU that stands in `in`, or in `own` */
    uint8_t *own;           /* memory for data that waits, or NULL */
    size_t own_room;
    uint16_t refusal;       /* the status with which it ends without being done; 0 where it is to be done */
    bool is_used, awaits_data, is_held;
    struct command *partner; /* the other of a fused pair; of the first the second, and of the second the first */
    struct command *next;    /* of a list */
};

struct connection {
    int socket;
    struct connection *next, *previous; /* of its loop's list */
    struct connection *next_busy;
    bool is_busy, may_read, may_write, hangs_up;
    char peer[64];

    bool is_greeted;
    bool is_closing; /* it was terminated, and what comes is dropped until the host closes */
    bool has_ended;  /* and is there only while a command is pending */
    struct pdu_terms sending, receiving;
    uint8_t *in, *out;
    size_t in_begin, in_end, out_begin, out_end;

    struct controller *controller;      /* NULL before Connect */
    uint16_t number, entries, head;     /* of the queue; number 0 is an admin queue's */
    bool is_discovery, has_flow_control;
    struct zk_port *port;
    uint64_t deadline;                  /* of `now_in_ms`, after which it is closed; 0 where there is none */
    uint32_t keep_alive;                /* ms */
    uint32_t events;                    /* of which it would be told */
    unsigned event_requests;

    struct command commands[QUEUE_ENTRIES], *free, *held, *first_ready, *last_ready;
    unsigned used;                      /* commands */
    uint8_t cids[65536 / 8];            /* a bit for each CID that is in use */
    bool is_pending;                    /* the first that is ready is in the port */
};

/* What a turn of a connection leaves. */
enum turn {
    TURN_WAITS,   /* It has nothing to do until its socket has. */
    TURN_GOES_ON, /* There is more to do now, after others had their turns. */
    TURN_PENDS,   /* The command in its port waits for a unit that another has. */
    TURN_ENDED    /* It has ended. */
};

/* A connection of an accepted socket, which it closes at its end; or NULL, and the socket is closed. */
struct connection *connection_new(int socket, const char *peer);

/* Takes what came, does it, and sends what is to be sent, without a wait. */
enum turn connection_turn(struct connection *connection);

/* Ends it, at any time. False while a command is pending in its port: then its turns go on until TURN_ENDED. */
bool connection_end(struct connection *connection);

/* Ends its queue for a fault of the host's: what is ready is dropped, and a terminating PDU is the last that is sent. */
void connection_terminate(struct connection *connection, struct pdu_fault fault);

/* Forgets requests for asynchronous events, which a reset of the controller ends. */
void connection_drop_event_requests(struct connection *connection);

void connection_free(struct connection *connection);

/* CLOCK_MONOTONIC in milliseconds. */
uint64_t now_in_ms(void);

#endif
