/* Prints what zk_code_name says of each code from -256 to 255, a line for each. */
#include <stdio.h>

#include "zalkvorn.h"

int main(void)
{
    for (int code = -256; code < 256; code++)
        printf("%d %s\n", code, zk_code_name(code));
    return 0;
}
