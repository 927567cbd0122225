/* The controllers of the subsystem. Connect of an admin queue makes one, and it ends with that queue; Connect of an I/O queue joins one. What is here may be called by the
   threads of all connections. */
#ifndef TARGET_CONTROLLER_H
#define TARGET_CONTROLLER_H

#include "target-connection.h"

/* What this program is to all hosts; written before the first connection, and only read then. */
struct identity {
    char subsystem[NQN_BYTES]; /* NQN */
    char serial[21];
    uint8_t uuid[16];          /* of the namespace */
    bool is_told;              /* faults of hosts are told on standard error */
};
extern struct identity identity;

#define DISCOVERY_SUBSYSTEM "nqn.2014-08.org.nvmexpress.discovery"

/* Controllers there may be at a time. */
enum { MOST_CONTROLLERS = 128 };

/* Does a Connect command whose data is there. Gives its status, and with success the controller's number as its result, else where the wrong parameter is. */
uint16_t controller_connect(struct connection *connection, const uint8_t *entry, const uint8_t *data, uint64_t *result);

/* Ends the connection's queue, if it has one: of an admin queue its controller and the connections of its I/O queues, too; of an I/O queue its port is given back. */
void controller_leave(struct connection *connection);

/* Whether the connection's controller takes other commands than those of Fabrics. */
bool controller_is_ready(const struct connection *connection);

/* The number that the controller of a connected queue has. */
uint16_t controller_id(const struct connection *connection);

uint16_t controller_get_property(const struct connection *connection, const uint8_t *entry, uint64_t *result);
uint16_t controller_set_property(struct connection *connection, const uint8_t *entry);

/* Lets the controller have up to `asked` I/O queues, as many as there are ports now; gives how many, in `granted`. A port is taken by Connect alone, so that a host which
   asks for more queues than it has leaves them to others. */
uint16_t controller_grant_queues(struct connection *connection, unsigned asked, unsigned *granted);

/* How many I/O queues the controller may have. */
unsigned controller_queues(const struct connection *connection);

#endif
