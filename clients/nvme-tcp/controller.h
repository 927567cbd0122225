/* An NVMe/TCP controller as its host knows it: its admin queue, and what Identify tells of it and of a namespace. */
#ifndef CONTROLLER_H
#define CONTROLLER_H

#include "../identify.h"
#include "queue.h"

/* What a controller says of itself and of a namespace. */
struct identity {
    char model[41];
    struct identified space;
    uint32_t block;      /* bytes of one; 0 where there is metadata, or no such size */
    uint32_t most;       /* bytes of a command's data */
    uint32_t in_capsule; /* bytes of data in the capsule of an I/O queue */
    uint32_t entries;    /* of a queue at most */
    uint32_t queues;     /* I/O queues that it gives */
    bool has_compare, has_zeroes, has_dataset, has_uncorrectable, has_pairs;
};

struct controller {
    struct queue *admin;
    uint16_t number;
    uint64_t configuration; /* what was written to CC */
    struct identity identity;
};

/* Connects an admin queue, enables the controller, identifies it and its namespace, and asks for `queues` I/O queues. False with the reason in `fault`. */
bool controller_open(struct controller *controller, const struct connecting *asked, uint32_t namespace_id, unsigned queues, char *fault, size_t room);

/* Connects I/O queue `number`, from 1. Commands have at most `data` bytes each. NULL with the reason in `fault`. */
struct queue *controller_queue(const struct controller *controller, const struct connecting *asked, uint16_t number, unsigned depth, uint32_t data, char *fault, size_t room);

/* Shuts the controller down, where it still answers, and ends the admin queue. */
void controller_close(struct controller *controller);

#endif
