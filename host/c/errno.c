/*
 * The one function of C that the program calls beside the C library: why the last call failed. The toolchain has it for x86-64, in c/libos_c.a; this is for other
 * processors.
 */
#include <errno.h>

int rattle_errno(void);

int rattle_errno(void)
{
    return errno;
}
