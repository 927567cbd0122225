/* Calls of the library with entries, lengths and numbers that an input chooses, each answer held to the model of zalkvorn.h that clients/fuzz.c has. */
#define main fuzz_main
/* Bytes of data at most: less, so that an input takes less time. */
#define FUZZ_ROOM (1 << 16)
#include "../clients/fuzz.c"
#undef main

int LLVMFuzzerTestOneInput(const uint8_t *bytes, size_t size)
{
    static unsigned long calls[CODES];
    static const uint8_t none[1];
    choices = size ? bytes : none;
    choices_end = choices + size;
    if (!round_of(0, 1, calls))
        abort();
    return 0;
}
