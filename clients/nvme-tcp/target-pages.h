/* The pages of Identify and of Get Log Page as bytes. `page` has bytes of 0 before. */
#ifndef TARGET_PAGES_H
#define TARGET_PAGES_H

#include "target-connection.h"

/* Writes a page of Identify, PAGE_BYTES long. Gives a status. */
uint16_t identify_page(const struct connection *connection, const uint8_t *entry, uint8_t *page);

/* Writes `length` bytes of a log page from the offset that the entry has. Gives a status. */
uint16_t log_page(const struct connection *connection, const uint8_t *entry, uint8_t *page, uint32_t length);

#endif
