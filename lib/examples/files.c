#define _GNU_SOURCE
#include "files.h"
#include <dirent.h>
#include <errno.h>
#include <fcntl.h>
#include <libgen.h>
#include <stdio.h>
#include <stdlib.h>
#include <string.h>
#include <sys/file.h>
#include <sys/prctl.h>
#include <sys/stat.h>
#include <time.h>
#include <unistd.h>

/* from one try of a lock to the next, in nanoseconds */
#define LOCK_PAUSE 10000000L

static int told(const char *path, const char *why) {
    fprintf(stderr, "%s: %s\n", path, why);
    return -1;
}

/* The leak sanitizer looks at the process as a debugger does. */
#if defined(__SANITIZE_ADDRESS__)
#define IS_SANITIZED 1
#elif defined(__has_feature)
#if __has_feature(address_sanitizer)
#define IS_SANITIZED 1
#endif
#endif

void keep_secrets(void) {
    umask(077);
#ifndef IS_SANITIZED
    if (prctl(PR_SET_DUMPABLE, 0)) perror("PR_SET_DUMPABLE");
#endif
}

static int told_errno(const char *path) { return told(path, strerror(errno)); }

/* PATH with an ending, in a block of its own */
static char *with_ending(const char *path, const char *ending) {
    char *name = NULL;
    return asprintf(&name, "%s%s", path, ending) < 0 ? NULL : name;
}

static ssize_t read_all(int file, uint8_t *octets, size_t most) {
    size_t len = 0;
    while (len < most) {
        ssize_t got = read(file, octets + len, most - len);
        if (got < 0 && errno == EINTR) continue;
        if (got < 0) return -1;
        if (got == 0) break;
        len += (size_t)got;
    }
    return (ssize_t)len;
}

static bool is_of_other(const struct stat *stat) { return stat->st_uid && stat->st_uid != geteuid(); }

/* One octet more than is allowed is asked for: a file may grow while it is read. */
static int read_checked(const char *path, bool is_own, size_t most, uint8_t **octets, size_t *octets_len) {
    struct stat stat;
    int file = open(path, O_RDONLY | O_CLOEXEC | O_NONBLOCK | O_NOCTTY), answer = -1;
    *octets = NULL;
    if (file < 0) return told_errno(path);
    if (fstat(file, &stat)) told_errno(path);
    else if (!S_ISREG(stat.st_mode)) told(path, "not a regular file");
    else if (is_own && is_of_other(&stat)) told(path, "the file is another user's");
    else if ((uint64_t)stat.st_size > most) told(path, "too long");
    else if (!(*octets = malloc(most + 1))) told_errno(path);
    else {
        ssize_t len = read_all(file, *octets, most + 1);
        if (len < 0) told_errno(path);
        else if ((size_t)len > most) told(path, "too long");
        else { (*octets)[len] = 0; *octets_len = (size_t)len; answer = 0; }
    }
    close(file);
    if (answer && *octets) { file_free(*octets, most + 1); *octets = NULL; }
    return answer;
}

int file_read(const char *path, size_t most, uint8_t **octets, size_t *octets_len) {
    return read_checked(path, false, most, octets, octets_len);
}

int file_read_own(const char *path, size_t most, uint8_t **octets, size_t *octets_len) {
    return read_checked(path, true, most, octets, octets_len);
}

void file_free(uint8_t *octets, size_t octets_len) {
    if (octets) explicit_bzero(octets, octets_len);
    free(octets);
}

static int write_all(int file, const uint8_t *octets, size_t octets_len) {
    while (octets_len) {
        ssize_t put = write(file, octets, octets_len);
        if (put < 0 && errno == EINTR) continue;
        if (put < 0) return -1;
        octets += put;
        octets_len -= (size_t)put;
    }
    return 0;
}

/* what mkostemp replaces: a name that nobody can know before */
static const char new_ending[] = ".new.XXXXXX";

static int write_new(char *name, const void *octets, size_t octets_len) {
    int file = mkostemp(name, O_CLOEXEC);
    if (file < 0) return -1;
    int bad = fchmod(file, 0600) || write_all(file, octets, octets_len) || fsync(file), why = errno;
    if (close(file) && !bad) return -1;
    errno = why;
    return bad ? -1 : 0;
}

/* The folder that the file is in, in a block of its own. */
static char *folder_of(const char *path) {
    char *name = strdup(path), *folder = name ? strdup(dirname(name)) : NULL;
    free(name);
    return folder;
}

/* The name's folder is synced: without that a crash of the machine could undo the rename. */
static int sync_folder_of(const char *path) {
    char *name = folder_of(path);
    if (!name) return -1;
    int folder = open(name, O_RDONLY | O_DIRECTORY | O_CLOEXEC);
    free(name);
    if (folder < 0) return -1;
    int bad = fsync(folder), why = errno;
    close(folder);
    errno = why;
    return bad;
}

int file_replace(const char *path, const void *octets, size_t octets_len) {
    char *name = with_ending(path, new_ending);
    if (!name) return told(path, "out of memory");
    int bad = 0;
    if (write_new(name, octets, octets_len) || rename(name, path)) {
        bad = told_errno(path);
        unlink(name);
    } else if (sync_folder_of(path)) bad = told_errno(path);
    free(name);
    return bad;
}

/* Whether nobody but this user, and root, may put files into the folder, rename them or remove them. */
static int check_folder(int folder, const char *name) {
    struct stat stat;
    if (fstat(folder, &stat)) return told_errno(name);
    if (is_of_other(&stat)) return told(name, "the folder is another user's: name a file in a folder of your own");
    if (stat.st_mode & (S_IWGRP | S_IWOTH))
        return told(name, "other users may write to the folder: chmod go-w it, or name a file in a folder that only "
                          "you may write to");
    return 0;
}

/* Whether an entry of the file's folder is a new file of file_replace, which a process that was killed left. */
static bool is_left_over(const char *entry, const char *base) {
    size_t base_len = strlen(base);
    return strlen(entry) == base_len + sizeof new_ending - 1 && !strncmp(entry, base, base_len)
        && !strncmp(entry + base_len, new_ending, 5);
}

static void remove_left_over(int folder, const char *base) {
    int again = dup(folder);
    DIR *entries = again < 0 ? NULL : fdopendir(again);
    if (!entries) { if (again >= 0) close(again); return; }
    for (struct dirent *entry; (entry = readdir(entries));)
        if (is_left_over(entry->d_name, base)) unlinkat(folder, entry->d_name, 0);
    closedir(entries);
}

/* Locks a file, which another process may have for a while. */
static int wait_for_lock(int file) {
    const struct timespec pause = {.tv_nsec = LOCK_PAUSE};
    for (long left = LOCK_SECONDS * (1000000000L / LOCK_PAUSE); flock(file, LOCK_EX | LOCK_NB); left--) {
        if (errno != EINTR && (errno != EWOULDBLOCK || left <= 0)) return -1;
        nanosleep(&pause, NULL);
    }
    return 0;
}

/* The lock's file stays: one that is unlinked could be locked twice. An older one may be open to all, who could hold
 * it. */
static int lock_name(const char *path, const char *name, int *lock) {
    int file = open(name, O_RDWR | O_CREAT | O_NOFOLLOW | O_NONBLOCK | O_CLOEXEC, 0600);
    if (file < 0) return told_errno(name);
    int bad = fchmod(file, 0600) && errno != EPERM;
    if (!bad && !wait_for_lock(file)) { if (lock) *lock = file; return 0; }
    bad = told(path, errno == EWOULDBLOCK ? "another process uses it" : strerror(errno));
    close(file);
    return bad;
}

/* Locks the file in its folder, which is checked before; what other processes left is removed. */
static int lock_in(const char *path, const char *folder_name, const char *name, int *lock) {
    int folder = open(folder_name, O_RDONLY | O_DIRECTORY | O_CLOEXEC);
    if (folder < 0) return told_errno(folder_name);
    int bad = check_folder(folder, folder_name) || lock_name(path, name, lock);
    if (!bad) {
        const char *slash = strrchr(path, '/');
        remove_left_over(folder, slash ? slash + 1 : path);
    }
    close(folder);
    return bad ? -1 : 0;
}

int file_lock(const char *path, int *lock) {
    char *folder = folder_of(path), *name = with_ending(path, ".lock");
    int bad = folder && name ? lock_in(path, folder, name, lock) : told(path, "out of memory");
    free(folder);
    free(name);
    return bad;
}

/* A number from 0 to BOOTS_LATCHED in decimal and a line feed, or -1. */
static int64_t boots_of(const uint8_t *text, size_t text_len) {
    int64_t boots = 0;
    if (text_len < 2 || text_len > 11 || text[text_len - 1] != '\n') return -1;
    for (size_t i = 0; i < text_len - 1; i++) {
        if (text[i] < '0' || text[i] > '9') return -1;
        boots = boots * 10 + (text[i] - '0');
    }
    return boots <= BOOTS_LATCHED ? boots : -1;
}

bool file_is_absent(const char *path) {
    struct stat stat;
    return lstat(path, &stat) && errno == ENOENT;
}

/* The boots of the last start: 0 where there is no file. */
static int boots_before(const char *path, bool must_exist, uint32_t *boots) {
    uint8_t *text;
    size_t text_len;
    *boots = 0;
    if (!must_exist && file_is_absent(path)) return 0;
    if (file_read_own(path, 64, &text, &text_len)) return -1;
    int64_t before = boots_of(text, text_len);
    file_free(text, text_len);
    if (before < 0)
        return told(path, "no number from 0 to 2147483647. If the greatest boots that the engine had are known, write "
                          "them there; else give the "
                          "engine another ID, or all its users other passwords, and remove the file");
    *boots = (uint32_t)before;
    return 0;
}

int boots_next(const char *path, bool must_exist, uint32_t *boots) {
    if (file_lock(path, NULL) || boots_before(path, must_exist, boots)) return -1;
    if (*boots != BOOTS_LATCHED) ++*boots;
    return 0;
}

int boots_keep(const char *path, uint32_t boots) {
    char text[16];
    int len = snprintf(text, sizeof text, "%u\n", boots);
    return file_replace(path, text, (size_t)len);
}
