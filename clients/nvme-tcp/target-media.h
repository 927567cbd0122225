/* The namespace of the target, and the ports through which I/O queues read and change it. */
#ifndef TARGET_MEDIA_H
#define TARGET_MEDIA_H

#include <stdbool.h>

#include "nvme_tcp.h"

/* Statuses that this program itself answers with, as type * 256 + code. */
enum status {
    STATUS_SUCCESS = 0x000,
    STATUS_INVALID_OPCODE = 0x001,
    STATUS_INVALID_FIELD = 0x002,
    STATUS_INTERNAL_ERROR = 0x006,
    STATUS_FAILED_FUSED = 0x009,
    STATUS_INVALID_NAMESPACE = 0x00b,
    STATUS_SEQUENCE_ERROR = 0x00c,
    STATUS_SGL_LENGTH = 0x00f,
    STATUS_SGL_TYPE = 0x011,
    STATUS_SGL_OFFSET = 0x016,
    STATUS_TRANSIENT_TRANSPORT_ERROR = 0x022,
    STATUS_TOO_MANY_EVENT_REQUESTS = 0x105,
    STATUS_INVALID_LOG_PAGE = 0x109,
    STATUS_NOT_SAVEABLE = 0x10d,
    STATUS_CONNECT_FORMAT = 0x180,
    STATUS_CONNECT_BUSY = 0x181,
    STATUS_CONNECT_PARAMETERS = 0x182
};

/* Opens the namespace. With `is_recorded` all that is done is kept for media_record. Gives a code of zalkvorn.h. */
int media_open(const struct zk_namespace *numbers, bool is_recorded);

/* The bytes of a block. */
uint32_t media_block_size(void);

/* The Identify Namespace page, with what zk_identify_namespace leaves to a controller. */
const uint8_t *media_page(void);

/* Takes a port that no queue has, or gives NULL. One that is given back has no command pending. The caller sees to it that one thread at a time calls these. */
struct zk_port *media_take_port(void);
void media_give_port(struct zk_port *port);

/* Whether the opcode is one of an I/O command that the namespace serves. */
bool media_serves(uint8_t opcode);

/* Begins a command, or a fused pair of two entries with the data of each, which has the length that zk_data_length gives. True once it is done, with a status for
   each entry; false while it is pending, and then media_poll goes on. */
bool media_submit(struct zk_port *port, const uint8_t *entry, uint8_t *data, size_t length, uint16_t *status);
bool media_submit_pair(struct zk_port *port, const uint8_t *entries, const uint8_t *compared, size_t compared_length, const uint8_t *written, size_t written_length,
                       uint16_t *statuses);
bool media_poll(struct zk_port *port, unsigned count, uint8_t *data, size_t length, uint16_t *statuses);

/* Writes the record of all that was done to the file, whole or not at all, and audits it. Says on standard output what the audit says, and on standard error why there is
   no record. No port has a command pending, and no other thread uses one. 0; 2 where the record isn't lawful; 1 where there is none. */
int media_record(const char *path);

#endif
