/* Loaded before the C library, it makes a program's streams as bad as they can be: every other read and write is interrupted or
   not ready, in turn, the others move at most SHORT bytes. By environment variables:
     FULL_AFTER=N    standard output takes N bytes and no more
     TORN_AFTER=N    standard input gives N bytes and then an error
     LOST=1          closing standard output, or having a file kept, says that what was written is lost */
#define _GNU_SOURCE
#include <errno.h>
#include <stdlib.h>
#include <sys/syscall.h>
#include <unistd.h>

enum { SHORT = 7 };

/* Bytes moved on the standard streams so far, and calls of read and write. */
static long moved[3];
static unsigned calls;

static long limit(const char *name)
{
    const char *word = getenv(name);
    return word == 0 ? -1 : atol(word);
}

static int failed(int error)
{
    errno = error;
    return -1;
}

/* One call: a passing fault, the lasting one once its limit is reached, or a few bytes. */
static ssize_t move(long number, int fd, void *bytes, size_t size, long most, int error)
{
    if (++calls % 2 == 1)
        return failed(calls % 4 == 1 ? EINTR : EAGAIN);
    if (most >= 0 && moved[fd] >= most)
        return failed(error);
    if (most >= 0 && (long)size > most - moved[fd])
        size = (size_t)(most - moved[fd]);
    ssize_t n = syscall(number, fd, bytes, size < SHORT ? size : SHORT);
    if (n > 0)
        moved[fd] += n;
    return n;
}

ssize_t read(int fd, void *bytes, size_t size)
{
    if (fd != STDIN_FILENO)
        return syscall(SYS_read, fd, bytes, size);
    return move(SYS_read, fd, bytes, size, limit("TORN_AFTER"), EIO);
}

ssize_t write(int fd, const void *bytes, size_t size)
{
    if (fd != STDOUT_FILENO)
        return syscall(SYS_write, fd, bytes, size);
    return move(SYS_write, fd, (void *)bytes, size, limit("FULL_AFTER"), ENOSPC);
}

int close(int fd)
{
    if (fd == STDOUT_FILENO && limit("LOST") == 1)
        return failed(EIO);
    return (int)syscall(SYS_close, fd);
}

/* A program opens its standard output once more to have it kept, so that is another descriptor. */
int fsync(int fd)
{
    if (limit("LOST") == 1)
        return failed(EIO);
    return (int)syscall(SYS_fsync, fd);
}
