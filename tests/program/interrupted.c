// Preloaded into the program: of each call that reads or writes, the first try is ended by a signal, the second finds nothing to move, the third, if it is a
// write, moves nothing and says no error, with an older errno in place, and the last moves at most five bytes.
#define _GNU_SOURCE
#include <errno.h>
#include <sys/syscall.h>
#include <unistd.h>

static ssize_t fails(int error)
{
    errno = error;
    return -1;
}

static size_t few(size_t count)
{
    return count < 5 ? count : 5;
}

ssize_t read(int fd, void *bytes, size_t count)
{
    static unsigned tries;
    switch (tries++ % 3) {
    case 0: return fails(EINTR);
    case 1: return fails(EAGAIN);
    default: return syscall(SYS_read, fd, bytes, few(count));
    }
}

ssize_t write(int fd, const void *bytes, size_t count)
{
    static unsigned tries;
    switch (tries++ % 4) {
    case 0: return fails(EINTR);
    case 1: return fails(EAGAIN);
    case 2: return fails(EIO) + 1;
    default: return syscall(SYS_write, fd, bytes, few(count));
    }
}
