/* Reads the pages of Identify Namespace and Identify Controller, and prints what identify.h takes from them: the namespace's blocks,
   their size and metadata, DLFEAT with its words, and the head of a trace of the blocks from the first word on, as many as the second. */
#include <inttypes.h>
#include <stdio.h>
#include <stdlib.h>

#include "identify.h"

int main(int words, char **word)
{
    static uint8_t pages[2 * PAGE];
    if (words != 3 || fread(pages, 1, sizeof pages, stdin) != sizeof pages)
        return 1;
    struct identified it = identified_by(pages, pages + PAGE);
    struct head head = head_of(&it, strtoull(word[1], NULL, 10), (uint32_t)strtoul(word[2], NULL, 10));
    printf("blocks %" PRIu64 " shift %u metadata %u dlfeat %u nabsn %u nabo %u nawun %u nacwu %u units %u%s\n", it.blocks, it.shift, it.metadata, it.dlfeat, head.nabsn,
           head.nabo, head.nawun, head.nacwu, head.units, deallocated_words(it.dlfeat));
    return 0;
}
