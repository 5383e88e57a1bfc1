/*
 * The program's function over a read and a write of its own, as a system may answer: every other call is interrupted by a signal before it moves a byte, and a call that
 * moves some moves one. The function goes on with both, so it prints what it prints over the system's own.
 */
#define _GNU_SOURCE
#include <errno.h>
#include <stdint.h>
#include <sys/syscall.h>
#include <sys/types.h>
#include <unistd.h>

uint32_t dates_main(uint8_t *text, size_t length);

static unsigned calls;
static uint8_t text[65537];

/* Makes every other call, with one byte at most. */
static ssize_t some(long call, int fd, const void *bytes, size_t length)
{
    if (calls++ % 2 == 0) {
        errno = EINTR;
        return -1;
    }
    return syscall(call, fd, bytes, length < 1 ? length : 1);
}

ssize_t read(int fd, void *bytes, size_t length)
{
    return some(SYS_read, fd, bytes, length);
}

ssize_t write(int fd, const void *bytes, size_t length)
{
    return some(SYS_write, fd, bytes, length);
}

int main(void)
{
    return (int)dates_main(text, sizeof text);
}
