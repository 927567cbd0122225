/* Mistakes that a sanitizer has to report: who runs this knows that it sees into the library.
 *
 *     controls short    a Write of a block with a byte less than its length says: the library reads behind the data
 *     controls crooked  a namespace that lies at an odd address: a check of the library's traps
 *     controls sum      a sum of this program's own that is too large */
#include <limits.h>
#include <stdio.h>
#include <stdlib.h>
#include <string.h>

#include "entries.h"

enum { BLOCK = 512 };

int main(int words, char **word)
{
    const char *asked = words == 2 ? word[1] : "";
    struct zk_namespace ns = { 8, BLOCK, 0, 0, 0, 0 };
    struct zk_port port = ZK_PORT_INIT;
    if (strcmp(asked, "short") == 0) {
        uint8_t entry[ZK_ENTRY_BYTES], told[ZK_COMPLETION_BYTES], *data = calloc(1, BLOCK - 1);
        entry_of(entry, WRITE, 0, 1, 0, 1);
        if (data && zk_open(&port, 1, &ns, ZK_NO_LIMIT, false) == ZK_DONE)
            printf("answered %d\n", zk_submit(&port, entry, sizeof entry, data, BLOCK, told, sizeof told));
    } else if (strcmp(asked, "crooked") == 0) {
        uint8_t bytes[sizeof ns + 8];
        uint8_t *odd = bytes + 1 + ((uintptr_t)bytes & 1);
        memcpy(odd, &ns, sizeof ns);
        printf("answered %d\n", zk_open(&port, 1, (const struct zk_namespace *)(const void *)odd, ZK_NO_LIMIT, false));
    } else if (strcmp(asked, "sum") == 0) {
        printf("the sum is %d\n", INT_MAX - 1 + words);
    }
    return 0;
}
