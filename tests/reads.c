/* A read() and an fstatat() for the example worker, linked with --wrap=read,--wrap=fstatat, that do what a bad night does. READS
 * says what:
 *
 *     slowly     each byte alone, and before it an interruption
 *     fails      one byte of the file READS_OF, and then an error
 *     grows      the file READS_OF gets a byte more as soon as it is read
 *     rewrites   the first byte of the file READS_OF is written anew as soon as it is read
 *     hidden     the folder READS_OF does not say whether it has the file that is asked for
 *     moves      the folder READS_OF gets another name, with '-moved' at its end, as soon as a file is read
 */
#define _POSIX_C_SOURCE 200809L

#include <errno.h>
#include <fcntl.h>
#include <stdio.h>
#include <stdlib.h>
#include <string.h>
#include <sys/stat.h>
#include <unistd.h>

ssize_t __real_read(int file, void *bytes, size_t room);
ssize_t __wrap_read(int file, void *bytes, size_t room);
int __real_fstatat(int folder, const char *name, struct stat *entry, int flags);
int __wrap_fstatat(int folder, const char *name, struct stat *entry, int flags);

static int is_file(int file, const char *path) {
    struct stat a, b;
    return fstat(file, &a) == 0 && stat(path, &b) == 0 && a.st_dev == b.st_dev && a.st_ino == b.st_ino;
}

/* What READS does is done once, but slowly. */
static int first(void) {
    static int calls;
    return calls++ == 0;
}

static void put_byte(const char *path, int where) {
    int file = open(path, O_WRONLY | where);
    if (file < 0 || write(file, "\1", 1) != 1 || close(file))
        abort();
}

static void move(const char *path) {
    char moved[256];
    snprintf(moved, sizeof moved, "%s-moved", path);
    if (rename(path, moved))
        abort();
}

ssize_t __wrap_read(int file, void *bytes, size_t room) {
    static int interrupted;
    const char *reads = getenv("READS"), *of = getenv("READS_OF");
    if (strcmp(reads, "slowly") == 0) {
        interrupted = !interrupted;
        errno = EINTR;
        return interrupted ? -1 : __real_read(file, bytes, 1);
    }
    if (strcmp(reads, "moves") == 0 && first())
        move(of);
    if (!is_file(file, of))
        return __real_read(file, bytes, room);
    if (strcmp(reads, "fails") == 0) {
        errno = EIO;
        return first() ? __real_read(file, bytes, 1) : -1;
    }
    ssize_t got = __real_read(file, bytes, room);
    if (strcmp(reads, "grows") == 0 && first())
        put_byte(of, O_APPEND);
    if (strcmp(reads, "rewrites") == 0 && first())
        put_byte(of, 0);
    return got;
}

int __wrap_fstatat(int folder, const char *name, struct stat *entry, int flags) {
    if (strcmp(getenv("READS"), "hidden") == 0 && is_file(folder, getenv("READS_OF"))) {
        errno = EIO;
        return -1;
    }
    return __real_fstatat(folder, name, entry, flags);
}
