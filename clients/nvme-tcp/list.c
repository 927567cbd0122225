#include "list.h"

#include <ctype.h>
#include <errno.h>
#include <stdio.h>
#include <stdlib.h>

enum { MOST_COMMANDS = 65536, MOST_RANGES = 256, RESERVED_FUSE = 3 };

static const struct {
    const char *name;
    uint8_t opcode;
    bool has_data, changes;
} KINDS[] = {
    {"write", WRITE, true, true},
    {"read", READ, false, false},
    {"compare", COMPARE, true, false},
    {"zeroes", WRITE_ZEROES, false, true},
    {"uncorrectable", WRITE_UNCORRECTABLE, false, true},
    {"dataset", DATASET_MANAGEMENT, false, false},
    {"op-00", FLUSH, false, false},
};
enum { KIND_COUNT = sizeof KINDS / sizeof *KINDS };

static bool is_blank(char it)
{
    return it == ' ' || it == '\t' || it == '\r';
}

static bool is_word_end(const char *at)
{
    return !*at || is_blank(*at);
}

/* Takes the blanks behind a text off. */
static void trim(char *text)
{
    for (size_t length = strlen(text); length && is_blank(text[length - 1]); length--) {
        text[length - 1] = 0;
    }
}

static const char *next_word(const char *at)
{
    while (!is_word_end(at)) {
        at++;
    }
    while (is_blank(*at)) {
        at++;
    }
    return at;
}

static bool is_word(const char *at, const char *word)
{
    size_t length = strlen(word);
    return strncmp(at, word, length) == 0 && is_word_end(at + length);
}

/* Reads a decimal number up to `most`, and moves `at` behind it. */
static bool number(const char **at, uint64_t most, uint64_t *value)
{
    *value = 0;
    if (!isdigit((unsigned char)**at)) {
        return false;
    }
    for (; isdigit((unsigned char)**at); ++*at) {
        uint64_t digit = (uint64_t)(**at - '0');
        if (*value > (UINT64_MAX - digit) / 10) {
            return false;
        }
        *value = *value * 10 + digit;
    }
    return *value <= most;
}

static int hex_digit(char it)
{
    const char *digits = "0123456789abcdef", *at = it ? strchr(digits, tolower((unsigned char)it)) : NULL;
    return at ? (int)(at - digits) : -1;
}

/* Reads two hexadecimal digits, and moves `at` behind them. */
static bool byte(const char **at, uint8_t *value)
{
    int high = hex_digit(**at), low = high < 0 ? -1 : hex_digit((*at)[1]);
    if (low < 0) {
        return false;
    }
    *value = (uint8_t)(high << 4 | low);
    *at += 2;
    return true;
}

/* Reads runs that add up to `length` bytes, or a byte that fills them; writes them where `data` isn't NULL. */
static bool runs(const char *at, uint32_t length, uint8_t *data)
{
    const char *alone = at;
    uint8_t value;
    if (byte(&alone, &value) && is_word_end(alone)) {
        if (data) {
            memset(data, value, length);
        }
        return true;
    }
    for (uint64_t place = 0, count;; place += count) {
        if (!number(&at, length - place, &count) || !count || *at++ != '*' || !byte(&at, &value)) {
            return false;
        }
        if (data) {
            memset(data + place, value, count);
        }
        if (is_word_end(at)) {
            return place + count == length;
        }
        if (*at++ != ',') {
            return false;
        }
    }
}

/* Reads a range, with the comma behind it, if there is one. */
static bool range(const char **at, uint64_t *first, uint64_t *blocks)
{
    if (!number(at, UINT64_MAX, first) || *(*at)++ != '+' || !number(at, UINT32_MAX, blocks)) {
        return false;
    }
    if (**at == ',') {
        ++*at;
        return isdigit((unsigned char)**at);
    }
    return is_word_end(*at);
}

void command_data(const struct command *command, const struct window *window, uint8_t *data)
{
    const char *at = command->data;
    if (command->entry[0] != DATASET_MANAGEMENT) {
        runs(at, command->length, data);
        return;
    }
    for (uint32_t place = 0; place < command->length; place += RANGE_BYTES) {
        uint64_t first, blocks;
        range(&at, &first, &blocks);
        range_of(data + place, window->first + first, (uint32_t)blocks);
    }
}

/* Notes that a command has these blocks. False where the device has no such LBA. */
static bool reach(struct list *list, const struct window *window, unsigned line, uint64_t first, uint64_t blocks)
{
    if (first > UINT64_MAX - blocks || first + blocks > UINT64_MAX - window->first) {
        return false;
    }
    if (first + blocks > list->end) {
        list->end = first + blocks;
        list->end_line = line;
    }
    return true;
}

/* Reads the options of a command and ends its text before what it expects. NULL, or what is wrong. */
static const char *options(struct command *command, char *text, const char *at, const struct window *window)
{
    enum { FUSE = 1, CID = 2, NSID = 4, DEALLOCATED = 8 };
    unsigned had = 0, option;
    uint8_t *entry = command->entry;
    for (; *at && !is_word(at, "expect"); at = next_word(at), had |= option) {
        const char *value = at;
        uint64_t it;
        if (is_word(at, "first") || is_word(at, "second") || is_word(at, "reserved")) {
            option = FUSE;
            entry[1] = *at == 'f' ? FUSED_FIRST : *at == 's' ? FUSED_SECOND : RESERVED_FUSE;
        } else if (strncmp(at, "cid=", 4) == 0 && (value += 4, number(&value, 65535, &it)) && is_word_end(value)) {
            option = CID;
            command->cid = (uint16_t)it;
        } else if (strncmp(at, "nsid=", 5) == 0 && (value += 5, number(&value, UINT32_MAX, &it)) && is_word_end(value)) {
            option = NSID;
            if (it != 1) {
                return "isn't sent, since it is for another namespace";
            }
        } else if (is_word(at, "deallocate") && entry[0] == DATASET_MANAGEMENT) {
            option = DEALLOCATED;
            entry[44] = DEALLOCATE;
        } else {
            return "is no command: it has a word that is no option";
        }
        if (had & option) {
            return "is no command: it has an option twice";
        }
    }
    text[at - text] = 0;
    trim(text);
    put_little(entry + 2, 2, command->cid);
    put_little(entry + 4, 4, window->namespace_id);
    return NULL;
}

/* Reads a line's words into a command. NULL, or what is wrong. */
static const char *read_command(struct list *list, struct command *command, char *text, unsigned line, const struct window *window)
{
    size_t kind = 0;
    while (kind < KIND_COUNT && !is_word(text, KINDS[kind].name)) {
        kind++;
    }
    if (kind == KIND_COUNT) {
        return strncmp(text, "op-", 3) == 0 ? "isn't sent, since nobody here knows what its opcode changes" : "is no command";
    }
    command->text = text;
    command->entry[0] = KINDS[kind].opcode;
    const char *at = next_word(text);
    uint64_t first, blocks, ranges = 0;
    if (command->entry[0] == DATASET_MANAGEMENT) {
        command->data = at;
        do {
            if (ranges == MOST_RANGES || !range(&at, &first, &blocks)) {
                return "is no command: it has no ranges";
            }
            ranges++;
            if (!reach(list, window, line, first, blocks)) {
                return "isn't sent, since no device has such LBAs";
            }
        } while (!is_word_end(at));
        command->entry[40] = (uint8_t)(ranges - 1);
        command->length = (uint32_t)ranges * RANGE_BYTES;
    } else {
        if (!number(&at, UINT64_MAX, &first) || !is_word_end(at) || (at = next_word(at), !number(&at, 65536, &blocks)) || !is_word_end(at) || !blocks) {
            return "is no command: it has no LBA and number of blocks from 1 to 65536";
        }
        if (command->entry[0] != FLUSH) {
            if (!reach(list, window, line, first, blocks)) {
                return "isn't sent, since no device has such LBAs";
            }
            put_little(command->entry + 40, 8, window->first + first);
            put_little(command->entry + 48, 2, blocks - 1);
        }
        command->length = KINDS[kind].has_data || KINDS[kind].opcode == READ ? (uint32_t)blocks * window->block : 0;
        if (KINDS[kind].has_data) {
            command->data = at = next_word(at);
            if (!runs(at, command->length, NULL)) {
                return "is no command: it has no data of as many bytes";
            }
        }
    }
    if (command->length > window->most) {
        return "isn't sent, since the device takes no command of so many bytes";
    }
    list->longest = command->length > list->longest ? command->length : list->longest;
    const char *wrong = options(command, text, next_word(at), window);
    bool deallocates = command->entry[0] == DATASET_MANAGEMENT && command->entry[44];
    list->changes = list->changes || KINDS[kind].changes || deallocates;
    list->deallocates = list->deallocates || deallocates;
    return wrong;
}

/* Says which neighbours are fused pairs. NULL, or what is wrong. */
static const char *pair_up(struct list *list)
{
    for (size_t place = 0; place + 1 < list->count; place++) {
        struct command *one = &list->commands[place], *other = one + 1;
        one->is_paired = one->entry[1] == FUSED_FIRST && other->entry[1] == FUSED_SECOND && one->entry[0] != FLUSH && other->entry[0] != FLUSH;
        if (one->is_paired && one->cid == other->cid) {
            return "has a pair of two commands with one CID";
        }
        if (one->is_paired) {
            list->has_pairs = true;
            place++;
        }
    }
    return NULL;
}

/* All of a file with a 0 behind it, or NULL. */
static char *contents(const char *path)
{
    FILE *file = strcmp(path, "-") ? fopen(path, "rb") : stdin;
    char *text = NULL;
    size_t length = 0, space = 0;
    bool is_whole = false;
    while (file && !is_whole) {
        if (space - length < 2) {
            space = space ? 2 * space : 65536;
            char *longer = realloc(text, space);
            if (!longer) {
                break;
            }
            text = longer;
        }
        size_t got = fread(text + length, 1, space - length - 1, file);
        length += got;
        is_whole = got == 0 && !ferror(file);
        if (got == 0 && !is_whole) {
            break;
        }
    }
    if (file && file != stdin) {
        int error = errno;
        fclose(file);
        errno = error;
    }
    if (!is_whole) {
        free(text);
        return NULL;
    }
    text[length] = 0;
    if (strlen(text) != length) {
        errno = EILSEQ;
        free(text);
        return NULL;
    }
    return text;
}

/* The words of the line that begins at `at`, without blanks around them. `next` is where the next one begins, or NULL. */
static char *words_of_line(char *at, char **next)
{
    char *end = strchr(at, '\n'), *comment;
    *next = end ? end + 1 : NULL;
    if (end) {
        *end = 0;
    }
    if ((comment = strchr(at, '#')) != NULL) {
        *comment = 0;
    }
    while (is_blank(*at)) {
        at++;
    }
    trim(at);
    return at;
}

/* Reads a line, where it has words. NULL, or what is wrong. */
static const char *read_line(struct list *list, char *words, unsigned line, const struct window *window)
{
    if (!*words) {
        return NULL;
    }
    if (list->count == MOST_COMMANDS) {
        return "is one command too many";
    }
    struct command *command = &list->commands[list->count++];
    command->cid = (uint16_t)list->count;
    return read_command(list, command, words, line, window);
}

bool list_read(struct list *list, const char *path, const struct window *window, char *fault, size_t room)
{
    *list = (struct list){.text = contents(path)};
    if (!list->text) {
        snprintf(fault, room, "%s can't be read: %s", path, strerror(errno));
        return false;
    }
    size_t space = 1;
    for (const char *at = list->text; (at = strchr(at, '\n')) != NULL; at++) {
        space++;
    }
    list->commands = calloc(space, sizeof *list->commands);
    if (!list->commands) {
        snprintf(fault, room, "%s can't be read: no memory", path);
        return false;
    }
    unsigned line = 1;
    for (char *at = list->text, *next; at; at = next, line++) {
        const char *wrong = read_line(list, words_of_line(at, &next), line, window);
        if (wrong) {
            snprintf(fault, room, "%s: line %u %s", path, line, wrong);
            return false;
        }
    }
    const char *wrong = pair_up(list);
    if (wrong) {
        snprintf(fault, room, "%s %s", path, wrong);
    }
    return !wrong;
}
