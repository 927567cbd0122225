#define _GNU_SOURCE
#include "files.h"

#include <errno.h>
#include <fcntl.h>
#include <pthread.h>
#include <setjmp.h>
#include <stdarg.h>
#include <stdio.h>
#include <stdlib.h>
#include <string.h>
#include <sys/stat.h>
#include <unistd.h>

enum { MOST_OPEN = 16, FIRST_OPEN = 1000, MOST_WORDS = 32, PLACES = 4096 };

struct open {
    struct file *file;
    size_t at;
};

struct stream {
    char *bytes;
    size_t size, room;
};

/* Memory that the program has. */
struct taken {
    void *at;
    struct taken *next;
};

/* What the kit's calls that take memory return. */
struct tried {
    bool ok;
    void *at;
};

static struct taken *taken[PLACES];
static pthread_mutex_t taking = PTHREAD_MUTEX_INITIALIZER;
static struct file files[MOST_FILES];
static struct open opened[MOST_OPEN];
static struct stream streams[2];    /* standard output and standard error */
static const char *words[MOST_WORDS];
static size_t word_count;
static jmp_buf leaving;

int own_main(void);
struct tried rattle_alloc(size_t size, size_t align);
struct tried rattle_realloc(void *at, size_t kept, size_t size, size_t align);
void rattle_dealloc(void *at);

void hold(bool it, const char *what)
{
    if (it)
        return;
    fprintf(stderr, "not so: %s\n", what);
    for (size_t i = 0; i < word_count; i++)
        fprintf(stderr, "%s%c", words[i], i + 1 < word_count ? ' ' : '\n');
    fprintf(stderr, "%s%.1000s\n", streams[1].size ? streams[1].bytes : "", streams[0].size ? streams[0].bytes : "");
    abort();
}

struct file *file_of(const char *name)
{
    for (int i = 0; i < MOST_FILES; i++)
        if (*name && strcmp(files[i].name, name) == 0)
            return &files[i];
    return NULL;
}

void remove_file(const char *name)
{
    struct file *file = file_of(name);
    if (file) {
        free(file->bytes);
        memset(file, 0, sizeof *file);
    }
}

const struct file *all_files(void)
{
    return files;
}

static struct file *made(const char *name)
{
    for (int i = 0; i < MOST_FILES; i++)
        if (!files[i].name[0]) {
            hold(strlen(name) < NAME_BYTES, "a name is short");
            strcpy(files[i].name, name);
            files[i].mode = 0644;
            return &files[i];
        }
    hold(false, "there is room for another file");
    return NULL;
}

static void write_at(struct file *file, size_t at, const void *bytes, size_t size)
{
    if (at + size > file->room) {
        file->room = 2 * (at + size);
        file->bytes = realloc(file->bytes, file->room);
        if (!file->bytes)
            abort();
    }
    if (at > file->size)
        memset(file->bytes + file->size, 0, at - file->size);
    if (size)
        memcpy(file->bytes + at, bytes, size);
    if (at + size > file->size)
        file->size = at + size;
}

void put_file(const char *name, const void *bytes, size_t size)
{
    remove_file(name);
    write_at(made(name), 0, bytes, size);
}

static struct open *open_of(int number)
{
    bool is_open = number >= FIRST_OPEN && number < FIRST_OPEN + MOST_OPEN && opened[number - FIRST_OPEN].file;
    hold(is_open, "a file that is used is open");
    return &opened[number - FIRST_OPEN];
}

/* The calls that the program's module makes, under these names. */

int own_open(const char *path, int flags, ...)
{
    struct file *file = file_of(path);
    if (!file && !(flags & O_CREAT)) {
        errno = ENOENT;
        return -1;
    }
    if (file && (flags & O_CREAT) && (flags & O_EXCL)) {
        errno = EEXIST;
        return -1;
    }
    if (!file)
        file = made(path);
    if (flags & O_TRUNC)
        file->size = 0;
    for (int i = 0; i < MOST_OPEN; i++)
        if (!opened[i].file) {
            opened[i] = (struct open) { file, 0 };
            return FIRST_OPEN + i;
        }
    errno = EMFILE;
    return -1;
}

ssize_t own_read(int number, void *to, size_t size)
{
    if (number == STDIN_FILENO)
        return 0;
    struct open *it = open_of(number);
    size_t left = it->at < it->file->size ? it->file->size - it->at : 0;
    if (size > left)
        size = left;
    if (size)
        memcpy(to, it->file->bytes + it->at, size);
    it->at += size;
    return (ssize_t)size;
}

ssize_t own_write(int number, const void *from, size_t size)
{
    if (number == STDOUT_FILENO || number == STDERR_FILENO) {
        struct stream *stream = &streams[number - STDOUT_FILENO];
        if (stream->size + size + 1 > stream->room) {
            stream->room = 2 * (stream->size + size + 1);
            stream->bytes = realloc(stream->bytes, stream->room);
            if (!stream->bytes)
                abort();
        }
        memcpy(stream->bytes + stream->size, from, size);
        stream->size += size;
        stream->bytes[stream->size] = 0;
        return (ssize_t)size;
    }
    struct open *it = open_of(number);
    write_at(it->file, it->at, from, size);
    it->at += size;
    return (ssize_t)size;
}

int own_close(int number)
{
    open_of(number)->file = NULL;
    return 0;
}

int64_t own_lseek(int number, int64_t by, int from)
{
    struct open *it = open_of(number);
    it->at = (size_t)(by + (from == SEEK_SET ? 0 : from == SEEK_CUR ? (int64_t)it->at : (int64_t)it->file->size));
    return (int64_t)it->at;
}

int own_statx(int number, const char *path, int flags, unsigned wanted, struct statx *told)
{
    (void)flags;
    (void)wanted;
    memset(told, 0, sizeof *told);
    told->stx_mask = STATX_BASIC_STATS;
    told->stx_nlink = 1;
    bool is_stream = *path ? strncmp(path, "/dev/std", 8) == 0 : number <= STDERR_FILENO;
    struct file *file = is_stream ? NULL : *path ? file_of(path) : open_of(number)->file;
    if (!is_stream && !file) {
        errno = ENOENT;
        return -1;
    }
    told->stx_mode = (uint16_t)(is_stream ? S_IFIFO | 0600 : S_IFREG | file->mode);
    told->stx_size = file ? file->size : 0;
    told->stx_ino = file ? (uint64_t)(file - files) + 1000 : (uint64_t)number + 1;
    return 0;
}

int own_rename(const char *from, const char *to)
{
    struct file *file = file_of(from);
    if (!file) {
        errno = ENOENT;
        return -1;
    }
    if (strcmp(from, to) != 0)
        remove_file(to);
    strcpy(file->name, to);
    return 0;
}

int own_unlink(const char *path)
{
    remove_file(path);
    return 0;
}

int own_ftruncate(int number, int64_t size)
{
    struct file *file = open_of(number)->file;
    if ((size_t)size < file->size)
        file->size = (size_t)size;
    return 0;
}

int own_fchmod(int number, unsigned mode)
{
    open_of(number)->file->mode = mode & 07777;
    return 0;
}

int own_lchown(const char *path, unsigned user, unsigned group)
{
    (void)path;
    (void)user;
    (void)group;
    return 0;
}

int own_fsync(int number)
{
    (void)number;
    return 0;
}

int own_fdatasync(int number)
{
    (void)number;
    return 0;
}

int own_flock(int number, int operation)
{
    (void)number;
    (void)operation;
    return 0;
}

int own_isatty(int number)
{
    (void)number;
    errno = ENOTTY;
    return 0;
}

/* One processor, so that the same input does the same. */
int own_sched_getaffinity(int process, size_t size, void *processors)
{
    (void)process;
    memset(processors, 0, size);
    *(uint8_t *)processors = 1;
    return 0;
}

int64_t own_sysconf(int name)
{
    return name == _SC_NPROCESSORS_ONLN || name == _SC_NPROCESSORS_CONF ? 1 : sysconf(name);
}

int64_t own_rattle_arg(size_t place, char *to, size_t room)
{
    if (place >= word_count)
        return -1;
    size_t length = strlen(words[place]);
    hold(length <= room, "a word is short");
    memcpy(to, words[place], length);
    return (int64_t)length;
}

void own__exit(int status)
{
    longjmp(leaving, status + 1);
}

/* A command of the program that succeeds leaves what it was about to its process's end. Here the process goes on, so what the program takes is noted, and freed when the command has ended. */

static struct taken **place_of(const void *at)
{
    return &taken[(uintptr_t)at / 16 % PLACES];
}

static struct tried noted(struct tried tried)
{
    if (tried.ok) {
        struct taken *it = malloc(sizeof *it);
        if (!it)
            abort();
        pthread_mutex_lock(&taking);
        struct taken **place = place_of(tried.at);
        *it = (struct taken){ .at = tried.at, .next = *place };
        *place = it;
        pthread_mutex_unlock(&taking);
    }
    return tried;
}

static void forget(const void *at)
{
    pthread_mutex_lock(&taking);
    struct taken **place = place_of(at);
    while (*place && (*place)->at != at)
        place = &(*place)->next;
    struct taken *it = *place;
    hold(it, "memory that is given back was taken");
    *place = it->next;
    pthread_mutex_unlock(&taking);
    free(it);
}

struct tried own_rattle_alloc(size_t size, size_t align)
{
    return noted(rattle_alloc(size, align));
}

struct tried own_rattle_realloc(void *at, size_t kept, size_t size, size_t align)
{
    forget(at);
    struct tried tried = rattle_realloc(at, kept, size, align);
    if (!tried.ok)
        noted((struct tried){ .ok = true, .at = at });
    return noted(tried);
}

void own_rattle_dealloc(void *at)
{
    forget(at);
    rattle_dealloc(at);
}

static void free_taken(void)
{
    for (size_t i = 0; i < PLACES; i++)
        while (taken[i])
            own_rattle_dealloc(taken[i]->at);
}

struct ended ran(const char *word, ...)
{
    va_list rest;
    va_start(rest, word);
    word_count = 0;
    words[word_count++] = PROGRAM;
    for (; word && word_count < MOST_WORDS; word = va_arg(rest, const char *))
        if (*word)
            words[word_count++] = word;
    va_end(rest);
    for (int i = 0; i < 2; i++)
        streams[i].size = 0;
    own_write(STDOUT_FILENO, "", 0);
    own_write(STDERR_FILENO, "", 0);
    int left = setjmp(leaving);
    struct ended ended = { .status = left ? left - 1 : own_main() };
    free_taken();
    for (int i = 0; i < MOST_OPEN; i++)
        hold(!opened[i].file, "no file is left open");
    ended.out = streams[0].bytes;
    ended.out_size = streams[0].size;
    ended.err = streams[1].bytes;
    ended.err_size = streams[1].size;
    return ended;
}
