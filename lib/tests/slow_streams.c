/* Makes a program's standard input and output slow, which runs with it by LD_PRELOAD: a read gives one octet, and a
 * write takes three. Not proved.
 *
 *   READS="INTERRUPTIONS FAILING"   each read is interrupted (EINTR) so often before, and that of this number, from 0,
 * fails (EIO); -1 for none WRITES="INTERRUPTIONS FAILING"  the same of the writes */
#define _GNU_SOURCE
#include <errno.h>
#include <stdio.h>
#include <stdlib.h>
#include <sys/syscall.h>
#include <unistd.h>

struct troubles {
    long interruptions, failing, left, calls;
};
static struct troubles of_reads, of_writes;

static void begin_one(const char *name, struct troubles *it) {
    const char *text = getenv(name);
    it->failing = -1;
    if (text) sscanf(text, "%ld %ld", &it->interruptions, &it->failing);
    it->left = it->interruptions;
}

__attribute__((constructor)) static void begin(void) {
    begin_one("READS", &of_reads);
    begin_one("WRITES", &of_writes);
}

/* Whether a call becomes nothing. */
static int fails(struct troubles *it) {
    if (it->left > 0) {
        it->left--;
        errno = EINTR;
        return 1;
    }
    it->left = it->interruptions;
    if (it->calls++ != it->failing) return 0;
    errno = EIO;
    return 1;
}

ssize_t read(int file, void *to, size_t size) {
    if (file == STDIN_FILENO && fails(&of_reads)) return -1;
    return syscall(SYS_read, file, to, file == STDIN_FILENO && size > 1 ? 1 : size);
}

ssize_t write(int file, const void *from, size_t size) {
    if (file == STDOUT_FILENO && fails(&of_writes)) return -1;
    return syscall(SYS_write, file, from, file == STDOUT_FILENO && size > 3 ? 3 : size);
}

ssize_t __write(int file, const void *from, size_t size) { return write(file, from, size); }
