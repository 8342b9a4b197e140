/* Makes one call of a program fail, which runs with it by LD_PRELOAD. Calls of a kind are counted from 1.

   GROWTH=N    the Nth malloc or realloc finds no memory
   TRANSFER=N  the Nth open, read or write fails (EIO)
   SHORT=N     the Nth read or write moves one octet at most, where it is of more
   COUNTS=FILE at the end the numbers of growths and of transfers are written there */
#define _GNU_SOURCE
#include <errno.h>
#include <fcntl.h>
#include <stdarg.h>
#include <stdio.h>
#include <stdlib.h>
#include <sys/syscall.h>
#include <unistd.h>

extern void *__libc_malloc(size_t);
extern void *__libc_realloc(void *, size_t);

static unsigned long growths, transfers, growth, transfer, shortened;

static unsigned long number_of(const char *name)
{
    const char *digits = getenv(name);
    return digits ? strtoul(digits, NULL, 10) : 0;
}

__attribute__((constructor)) static void begin(void)
{
    growth = number_of("GROWTH");
    transfer = number_of("TRANSFER");
    shortened = number_of("SHORT");
    growths = transfers = 0;
}

__attribute__((destructor)) static void end(void)
{
    const char *name = getenv("COUNTS");
    char line[64];
    if (!name)
        return;
    int length = snprintf(line, sizeof line, "%lu %lu\n", growths, transfers);
    long file = syscall(SYS_openat, AT_FDCWD, name, O_WRONLY | O_CREAT | O_TRUNC, 0600);
    if (file >= 0)
        syscall(SYS_write, file, line, length);
}

void *malloc(size_t size)
{
    return ++growths == growth ? NULL : __libc_malloc(size);
}

void *realloc(void *held, size_t size)
{
    return ++growths == growth ? NULL : __libc_realloc(held, size);
}

static int fails(void)
{
    if (++transfers != transfer)
        return 0;
    errno = EIO;
    return 1;
}

int open(const char *name, int flags, ...)
{
    va_list rest;
    va_start(rest, flags);
    int mode = va_arg(rest, int);
    va_end(rest);
    return fails() ? -1 : (int)syscall(SYS_openat, AT_FDCWD, name, flags, mode);
}

static size_t moved(size_t size)
{
    return transfers == shortened && size > 1 ? 1 : size;
}

ssize_t read(int file, void *to, size_t size)
{
    return fails() ? -1 : syscall(SYS_read, file, to, moved(size));
}

ssize_t write(int file, const void *from, size_t size)
{
    return fails() ? -1 : syscall(SYS_write, file, from, moved(size));
}

ssize_t __write(int file, const void *from, size_t size)
{
    return write(file, from, size);
}
