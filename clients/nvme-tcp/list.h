/* Lists of commands as text (docs/FORMATS.md, "Command list"), as entries for a window of a namespace. */
#ifndef LIST_H
#define LIST_H

#include "nvme_tcp.h"

/* The blocks on which lists have their LBAs: LBA 0 of a list is LBA `first` of the device. */
struct window {
    uint64_t first, blocks;
    uint32_t block;        /* bytes of a block */
    uint32_t most;         /* bytes of a command's data */
    uint32_t namespace_id; /* the device's, for the lists' 1 */
};

struct command {
    const char *text; /* the line without its comment and what it expects */
    const char *data; /* in the text: runs of a Write or a Compare, ranges of a Dataset Management; else NULL */
    uint8_t entry[ZK_ENTRY_BYTES];
    uint32_t length;  /* bytes of data, in either direction */
    uint16_t cid;
    bool is_paired;   /* with the next one */
};

struct list {
    char *text;
    struct command *commands;
    size_t count;
    uint32_t longest;  /* bytes of data of a command at most */
    uint64_t end;      /* behind the last LBA that a command has */
    unsigned end_line; /* where that is */
    bool has_pairs, changes, deallocates;
};

/* Reads a list; of `window` `blocks` isn't looked at. False with what is wrong in `fault`: the file, or the first line that is no command, or one that isn't sent: longer than the device
   takes, on another namespace, or with an opcode of which nobody here knows what it changes. */
bool list_read(struct list *list, const char *path, const struct window *window, char *fault, size_t room);

/* Writes the data that a command sends, `length` bytes. */
void command_data(const struct command *command, const struct window *window, uint8_t *data);

#endif
