/* A program of Rattle that is called again and again in one process, with files that it holds in memory in the place of the system's. */
#ifndef FILES_H
#define FILES_H

#include <stdbool.h>
#include <stddef.h>
#include <stdint.h>

enum { MOST_FILES = 16, NAME_BYTES = 64 };

struct file {
    char name[NAME_BYTES];  /* empty where there is no file */
    uint8_t *bytes;
    size_t size, room;
    unsigned mode;
};

/* How a call ended, and what it wrote. Both end with a byte of 0 that isn't counted, and stand until the next call. */
struct ended {
    int status;
    const char *out, *err;
    size_t out_size, err_size;
};

/* All places for files. */
const struct file *all_files(void);

/* The file of this name, or NULL. */
struct file *file_of(const char *name);

/* Writes a file of this name. */
void put_file(const char *name, const void *bytes, size_t size);

/* Takes the file away, if it is there. */
void remove_file(const char *name);

/* Calls the program with these words behind its own name, up to NULL; words that are empty are left out. It stops the process where a file is left open. */
struct ended ran(const char *word, ...);

/* Stops the process, and says what isn't so and what was called last. */
void hold(bool it, const char *what);

#endif
