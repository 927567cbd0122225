/* What the bytes that a fuzzer makes stand for. */
#ifndef INPUT_H
#define INPUT_H

#include <stddef.h>
#include <stdint.h>
#include <stdlib.h>
#include <string.h>

/* The bytes of an input, of which this is a copy: FEh, a byte and two bytes of a number are a run of that byte, FDh and a byte are that byte, and any other
 * byte is itself. So blocks of one byte are short, and the corpus is small. */
static inline uint8_t *expanded(const uint8_t *bytes, size_t size, size_t *length)
{
    enum { MOST = 1 << 20 };
    uint8_t *to = NULL;
    size_t made = 0;
    /* They are counted first, so that the copy has as much room as they need. */
    for (int turn = 0; turn < 2; turn++) {
        if (turn && !(to = malloc(made + 1)))
            abort();
        made = 0;
        for (size_t i = 0; i < size && made < MOST; i++) {
            size_t run = 1;
            uint8_t byte = bytes[i];
            if (byte == 0xfe && i + 3 < size) {
                byte = bytes[i + 1];
                run = bytes[i + 2] | (size_t)bytes[i + 3] << 8;
                i += 3;
            } else if (byte == 0xfd && i + 1 < size) {
                byte = bytes[++i];
            }
            if (to)
                memset(to + made, byte, run);
            made += run;
        }
    }
    *length = made;
    return to;
}

#endif
