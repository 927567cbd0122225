/* Admin and Fabrics commands, but for the bytes of their PDUs. */
#ifndef TARGET_ADMIN_H
#define TARGET_ADMIN_H

#include "target-connection.h"

/* What an admin command comes to. */
struct answer {
    uint16_t status;
    uint64_t result;
    bool is_held; /* it is answered later, or never */
};

/* The bytes of data that the command carries, in either direction. */
uint64_t admin_data_length(const uint8_t *entry);

/* Does a command whose data came, or whose data is to be written to `page`, which has as many bytes of 0. */
struct answer administer(struct connection *connection, const uint8_t *entry, const uint8_t *data, uint8_t *page, uint32_t length);

#endif
