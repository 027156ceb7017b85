/* read and write as a system may answer them, in the place of the C library's: loaded before it (LD_PRELOAD), and told by the
 * variable EDGE what to do. A signal that comes before a byte moves (EINTR), a byte at a time, and a failure behind some bytes. */
#define _GNU_SOURCE
#include <errno.h>
#include <stdlib.h>
#include <string.h>
#include <sys/syscall.h>
#include <unistd.h>

static int is(const char *edge)
{
    const char *set = getenv("EDGE");
    return set != NULL && strcmp(set, edge) == 0;
}

static long refuse(int error)
{
    errno = error;
    return -1;
}

/* How many bytes the call is to move: one, or none where it is refused. Every other call is interrupted. */
static long room(unsigned calls, size_t length, const char *failing, int error)
{
    if (is("interrupted") && calls % 2 == 1)
        return refuse(EINTR);
    if (is(failing) && calls > 5)
        return refuse(error);
    return length < 1 ? 0 : 1;
}

ssize_t read(int file, void *bytes, size_t length)
{
    static unsigned calls;
    long moves = room(++calls, length, "read fails", EIO);
    return moves < 0 ? moves : syscall(SYS_read, file, bytes, moves);
}

ssize_t write(int file, const void *bytes, size_t length)
{
    static unsigned calls;
    if (file == STDERR_FILENO)
        return syscall(SYS_write, file, bytes, length);
    long moves = room(++calls, length, "write fails", ENOSPC);
    return moves < 0 ? moves : syscall(SYS_write, file, bytes, moves);
}
