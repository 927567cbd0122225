/* Flips each bit of a file in turn, and cuts the file at each byte, and writes what a call of the library answers to each: a byte a bit and a byte a cut.
 *
 *     flips audit RECORD
 *     flips witness TRACE RECORD PLACE     the file of place 0 or 1 is flipped
 *     flips order TRACE ORDER PLACE
 *     flips refute TRACE CONTRADICTION PLACE
 *
 * The witness of a record is strict. A file lies in a room that ends with it. */
#include <stdio.h>
#include <stdlib.h>
#include <string.h>

#include "zalkvorn.h"

struct file {
    uint8_t *bytes;
    size_t size;
};

static struct file file_at(const char *path)
{
    struct file file = { malloc(1 << 20), 0 };
    FILE *from = fopen(path, "rb");
    if (!file.bytes || !from)
        exit(1);
    file.size = fread(file.bytes, 1, 1 << 20, from);
    fclose(from);
    return file;
}

/* What the call answers, where the files are cut to their own sizes. */
static int answered(char call, const struct file *files)
{
    char line[ZK_LINE_BYTES];
    uint8_t *own[2] = { NULL, NULL };
    for (int i = 0; i < 2; i++) {
        own[i] = malloc(files[i].size + 1);
        if (!own[i])
            exit(1);
        memcpy(own[i] + 1, files[i].bytes ? files[i].bytes : own[i], files[i].size);
    }
    int code = call == 'a' ? zk_audit(own[0] + 1, files[0].size, line, sizeof line)
        : call == 'w' || call == 'o' ? zk_witness(own[0] + 1, files[0].size, own[1] + 1, files[1].size, call == 'w', line, sizeof line)
        : zk_refute(own[0] + 1, files[0].size, own[1] + 1, files[1].size, line, sizeof line);
    free(own[0]);
    free(own[1]);
    return code;
}

int main(int words, char **word)
{
    if (words != 3 && words != 5)
        return 1;
    char call = word[1][0];
    struct file files[2] = { file_at(word[2]), { NULL, 0 } };
    if (words == 5)
        files[1] = file_at(word[3]);
    struct file *flipped = &files[words == 5 && word[4][0] == '1'];
    if (answered(call, files) != ZK_DONE)
        return 2;
    for (size_t bit = 0; bit < 8 * flipped->size; bit++) {
        flipped->bytes[bit / 8] ^= (uint8_t)(1 << bit % 8);
        putchar(answered(call, files));
        flipped->bytes[bit / 8] ^= (uint8_t)(1 << bit % 8);
    }
    size_t whole = flipped->size;
    for (flipped->size = 0; flipped->size < whole; flipped->size++)
        putchar(answered(call, files));
    free(files[0].bytes);
    free(files[1].bytes);
    return 0;
}
