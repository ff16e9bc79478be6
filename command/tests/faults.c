/*
 * Preloaded into tmb by its tests. Of the calls that change a file, the one whose number is in
 * FAULT_AT, counted from 1, fails with "Input/output error"; where FAULT_KILLS is set the program dies
 * there instead, as by SIGKILL.
 */
#define _GNU_SOURCE
#include <dlfcn.h>
#include <errno.h>
#include <fcntl.h>
#include <signal.h>
#include <stdarg.h>
#include <stdio.h>
#include <stdlib.h>
#include <sys/stat.h>
#include <unistd.h>

static int hit(void)
{
    static int calls;
    const char *at = getenv("FAULT_AT");
    if (at == NULL || ++calls != atoi(at))
        return 0;
    if (getenv("FAULT_KILLS") != NULL)
        kill(getpid(), SIGKILL);
    errno = EIO;
    return 1;
}

#define NEXT(name) ((__typeof__(&name))dlsym(RTLD_NEXT, #name))

ssize_t write(int file, const void *bytes, size_t count)
{
    /* What is said on standard error changes no file. */
    return file != 2 && hit() ? -1 : NEXT(write)(file, bytes, count);
}

int fsync(int file)
{
    return hit() ? -1 : NEXT(fsync)(file);
}

int fchmod(int file, mode_t mode)
{
    return hit() ? -1 : NEXT(fchmod)(file, mode);
}

int rename(const char *from, const char *to)
{
    return hit() ? -1 : NEXT(rename)(from, to);
}

int open64(const char *path, int flags, ...)
{
    va_list rest;
    va_start(rest, flags);
    mode_t mode = flags & O_CREAT ? va_arg(rest, mode_t) : 0;
    va_end(rest);
    return (flags & O_ACCMODE) != O_RDONLY && hit() ? -1 : NEXT(open64)(path, flags, mode);
}
