// Loaded before a program (LD_PRELOAD), it makes a disk of which a kill takes all that was not synced: what the
// program appends to a file opened to append is kept in memory, and written where the program has the file synced. A
// sync takes some time, as one of a disk does, in which at first none, then a front and at its end all of it is
// written, so that a kill leaves a front of it now and then. Nothing is synced besides: a kill does not need it. One
// such file at a time.

#define _GNU_SOURCE
#include <fcntl.h>
#include <stdlib.h>
#include <string.h>
#include <sys/stat.h>
#include <sys/syscall.h>
#include <unistd.h>

enum { MOST_PAUSE = 1000 };  // microseconds

static char *kept;
static size_t len;

// Whether the file is a plain one, opened to append.
static int appends(int fd)
{
    struct stat found;
    int flags = fcntl(fd, F_GETFL);
    return flags >= 0 && flags & O_APPEND && fstat(fd, &found) == 0 && S_ISREG(found.st_mode);
}

ssize_t write(int fd, const void *octets, size_t count)
{
    char *more = appends(fd) ? realloc(kept, len + count) : NULL;
    if (!more) return syscall(SYS_write, fd, octets, count);
    memcpy(more + len, octets, count);
    kept = more;
    len += count;
    return (ssize_t)count;
}

static int put(int fd, size_t from, size_t to)
{
    usleep((useconds_t)(random() % MOST_PAUSE));
    return syscall(SYS_write, fd, kept + from, to - from) == (ssize_t)(to - from) ? 0 : -1;
}

// Writes what is kept.
static int sync_kept(int fd)
{
    if (len == 0) return 0;
    size_t front = (size_t)random() % len;
    if (put(fd, 0, front) || put(fd, front, len)) return -1;
    len = 0;
    return 0;
}

int fdatasync(int fd)
{
    return appends(fd) ? sync_kept(fd) : (int)syscall(SYS_fdatasync, fd);
}

int fsync(int fd)
{
    return appends(fd) ? sync_kept(fd) : (int)syscall(SYS_fsync, fd);
}
