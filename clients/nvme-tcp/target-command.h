/* The commands of a connection: as they come, as their data does, and as they are done, one after another. */
#ifndef TARGET_COMMAND_H
#define TARGET_COMMAND_H

#include "target-connection.h"

/* Takes a capsule, or data that an R2T asked for. What the host must not send ends the connection. */
void take_command(struct connection *connection, const struct pdu *pdu);
void take_more(struct connection *connection, const struct pdu *pdu);

/* Does the first command that is ready, or goes on with it, as far as that goes without a wait. */
void go_on(struct connection *connection);

#endif
