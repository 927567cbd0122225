/* The threads that connections are served by: each waits for the sockets of its own, and gives those that have something to do a turn. */
#ifndef TARGET_LOOP_H
#define TARGET_LOOP_H

#include "target-connection.h"

enum { MOST_LOOPS = 64 };

/* Starts the threads. False, with errno, where that can't be done. */
bool loops_start(unsigned count);

/* Hands a connection to the thread whose turn it is to have one more. */
void loops_take(struct connection *connection);

/* Connections that there are. */
unsigned loops_connections(void);

/* Ends all connections and the threads: each command that was begun is done. */
void loops_stop(void);

#endif
