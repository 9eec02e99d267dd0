/* Put before a program by LD_PRELOAD, so that its reads bring less than they might: no more than READ_AT_MOST bytes each, and from
   the file BROKEN_FILE no more than BROKEN_AFTER bytes in all, after which they fail. */
#define _GNU_SOURCE
#include <errno.h>
#include <limits.h>
#include <stdio.h>
#include <stdlib.h>
#include <string.h>
#include <sys/syscall.h>
#include <unistd.h>

static int is_broken(int fd)
{
    char link[64], path[PATH_MAX + 1] = {0};
    const char *broken = getenv("BROKEN_FILE");
    snprintf(link, sizeof link, "/proc/self/fd/%d", fd);
    if (!broken || readlink(link, path, PATH_MAX) < 0)
        return 0;
    const char *name = strrchr(path, '/');
    return name && strcmp(name + 1, broken) == 0;
}

static size_t least(size_t count, long most)
{
    return count > (size_t)most ? (size_t)most : count;
}

ssize_t read(int fd, void *buffer, size_t count)
{
    if (getenv("READ_AT_MOST"))
        count = least(count, atol(getenv("READ_AT_MOST")));
    if (is_broken(fd)) {
        long left = atol(getenv("BROKEN_AFTER")) - (long)lseek(fd, 0, SEEK_CUR);
        if (left <= 0) {
            errno = EIO;
            return -1;
        }
        count = least(count, left);
    }
    return syscall(SYS_read, fd, buffer, count);
}
