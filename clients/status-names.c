/* Prints what zk_status_name says of every status code type and status code, a line for each. */
#include <stdio.h>

#include "zalkvorn.h"

int main(void)
{
    for (int type = 0; type < 256; type++)
        for (int code = 0; code < 256; code++)
            printf("%d/%02x %s\n", type, code, zk_status_name((uint8_t)type, (uint8_t)code));
    return 0;
}
