/* zk_audit, zk_witness and zk_refute with bytes of any kind as files. An input's first byte is whether a witness is strict and which call, and then come the lengths and
 * bytes of one file or two. Held is what zalkvorn.h says: which codes are answered, what the line is like and where it stands, that a room that is short by a byte takes none, and that the
 * same is answered twice. */
#include <stdio.h>
#include <stdlib.h>
#include <string.h>

#include "entries.h"
#include "input.h"

enum { AUDIT, WITNESS, REFUTE, CALLS };

struct asked {
    int call;
    bool strict;
    const uint8_t *first, *second;
    size_t first_length, second_length;
};

static const char *const fronts[CALLS][2] = { { "lawful ", "unlawful " }, { "explained ", "unexplained " }, { "refuted ", "unrefuted " } };

static void must(bool it, const char *what)
{
    if (!it) {
        fprintf(stderr, "not so: %s\n", what);
        abort();
    }
}

static int answered(const struct asked *asked, char *line, size_t room)
{
    switch (asked->call) {
    case AUDIT:
        return zk_audit(asked->first, asked->first_length, line, room);
    case WITNESS:
        return zk_witness(asked->first, asked->first_length, asked->second, asked->second_length, asked->strict, line, room);
    default:
        return zk_refute(asked->first, asked->first_length, asked->second, asked->second_length, line, room);
    }
}

static bool begins(const char *line, const char *front)
{
    return strncmp(line, front, strlen(front)) == 0;
}

static void judge(const struct asked *asked)
{
    static const int otherwise[CALLS] = { ZK_UNLAWFUL, ZK_UNEXPLAINED, ZK_UNREFUTED };
    char line[ZK_LINE_BYTES], again[ZK_LINE_BYTES];
    memset(line, 0x55, sizeof line);
    int code = answered(asked, line, sizeof line);
    const char *end = memchr(line, 0, sizeof line);
    must(end && end > line && end[-1] == '\n', "a line ends with a newline and a byte of 0");
    for (const char *it = end + 1; it < line + sizeof line; it++)
        must(*it == 0x55, "nothing is written behind the line");
    must(code == ZK_DONE ? begins(line, fronts[asked->call][0])
         : code == otherwise[asked->call] ? begins(line, fronts[asked->call][1])
         : code == ZK_BAD_RECORD ? (asked->call != REFUTE && begins(line, "record: ")) || (asked->call == WITNESS && !asked->strict && begins(line, "order: "))
         : code == ZK_BAD_TRACE ? asked->call != AUDIT && begins(line, "trace: ")
         : code == ZK_BAD_CONTRADICTION && asked->call == REFUTE && begins(line, "contradiction: "), "the code and the line agree");
    size_t length = (size_t)(end - line);
    memset(again, 0x55, sizeof again);
    must(answered(asked, again, length) == ZK_SHORT_ROOM && again[0] == 0x55 && memcmp(again, again + 1, sizeof again - 1) == 0, "a room that is short by a byte takes nothing");
    must(answered(asked, again, length + 1) == code && memcmp(again, line, length + 1) == 0, "the same is answered twice");
}

int LLVMFuzzerTestOneInput(const uint8_t *bytes, size_t size)
{
    if (size < 1)
        return 0;
    size_t length;
    uint8_t *all = expanded(bytes + 1, size - 1, &length);
    struct asked asked = { .call = bytes[0] >> 1 & 3, .strict = bytes[0] & 1, .first_length = length };
    size_t at = 0;
    if (asked.call == AUDIT || asked.call == CALLS) {
        asked.call = AUDIT;
    } else if (length >= 3) {
        asked.first_length = little(all, 3);
        at = 3;
        if (asked.first_length > length - at)
            asked.first_length = length - at;
    }
    /* What is behind a file isn't its own: each has a room that ends with it. */
    asked.second_length = length - at - asked.first_length;
    uint8_t *first = malloc(asked.first_length + 1), *second = malloc(asked.second_length + 1);
    if (!first || !second)
        abort();
    first++, second++;
    memcpy(first, all + at, asked.first_length);
    memcpy(second, all + at + asked.first_length, asked.second_length);
    free(all);
    asked.first = first;
    asked.second = second;
    judge(&asked);
    free(first - 1);
    free(second - 1);
    return 0;
}
