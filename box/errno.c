/*
 * What std asks of the kit's own C code in the program `standing`: why a call
 * of the C library failed. The kit has that code for x86-64 alone, so the
 * program for the box is linked with this in its place.
 */
#include <errno.h>

int rattle_errno(void);

int rattle_errno(void)
{
    return errno;
}
