/* Stands before the C library's read and write (LD_PRELOAD), for standard input and standard output: at most READ_MOST or
   WRITE_MOST bytes a call, and after READ_FAILS or WRITE_FAILS bytes each call fails, as if a signal had come. */
#define _GNU_SOURCE
#include <errno.h>
#include <stdlib.h>
#include <sys/syscall.h>
#include <unistd.h>

static size_t setting(const char *name)
{
    const char *value = getenv(name);
    return value ? strtoul(value, NULL, 10) : (size_t)-1;
}

static ssize_t moved(long call, int fd, void *buf, size_t n, const char *most, const char *fails, size_t *done)
{
    if (setting(fails) <= *done) {
        errno = EINTR;
        return -1;
    }
    if (setting(most) < n)
        n = setting(most);
    if (setting(fails) - *done < n)
        n = setting(fails) - *done;
    ssize_t got = syscall(call, fd, buf, n);
    if (got > 0)
        *done += (size_t)got;
    return got;
}

ssize_t read(int fd, void *buf, size_t n)
{
    static size_t done;
    return fd == 0 ? moved(SYS_read, fd, buf, n, "READ_MOST", "READ_FAILS", &done) : syscall(SYS_read, fd, buf, n);
}

ssize_t write(int fd, const void *buf, size_t n)
{
    static size_t done;
    return fd == 1 ? moved(SYS_write, fd, (void *)buf, n, "WRITE_MOST", "WRITE_FAILS", &done) : syscall(SYS_write, fd, buf, n);
}
