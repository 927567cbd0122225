/* The PDUs that a connection sends for its commands, behind those that wait to be sent. There is room for them. */
#ifndef TARGET_ANSWER_H
#define TARGET_ANSWER_H

#include "target-connection.h"

/* Ends a command. */
void respond(struct connection *connection, const uint8_t *entry, uint16_t status, uint64_t result);

/* Begins the PDU that has the data of a command, and gives where that is to be written. Nothing is sent of it without `send_data`. */
uint8_t *begin_data(struct connection *connection, const uint8_t *entry, uint32_t length);

/* Sends the data that was written, and the response, which goes without saying where the host doesn't want to know the head of the queue. */
void send_data(struct connection *connection, const uint8_t *entry, const uint8_t *data, uint32_t length);

/* Asks for the data of a command. */
void send_r2t(struct connection *connection, const struct command *command);

#endif
