#define _GNU_SOURCE
#include "lines.h"
#include <errno.h>
#include <fcntl.h>
#include <inttypes.h>
#include <poll.h>
#include <stdarg.h>
#include <stdio.h>
#include <stdlib.h>
#include <sys/socket.h>
#include <unistd.h>

enum { MOST_A_SECOND = 10 };
static const char *const kinds[LINE_KINDS] = {"refused", "unhandled", "set", "given up", "device", "status", "dropped",
                                              "unanswered", "misfit", "rounds", "file",
                                              "notified", "acknowledged", "not notified", "receiver", "lost"};
static struct { uint64_t second, written, left_out; } of_kind[LINE_KINDS];
/* standard error as an open file of our own, which doesn't wait, or -1; lines that nobody read, since the last line and
 * in all; and whether the last line is cut */
static int own = -1;
static uint64_t dropped, dropped_in_all;
static bool is_cut;

/* Writes without waiting: whether all of it is written. */
static bool put(const char *text, size_t len) {
    struct pollfd ready = {.fd = STDERR_FILENO, .events = POLLOUT};
    ssize_t done = own < 0 ? send(STDERR_FILENO, text, len, MSG_DONTWAIT | MSG_NOSIGNAL) : write(own, text, len);
    if (done < 0 && own < 0 && errno == ENOTSOCK && poll(&ready, 1, 0) == 1) done = write(STDERR_FILENO, text, len);
    if (done > 0 && done < (ssize_t)len) is_cut = true;
    return done == (ssize_t)len;
}

static void say_dropped(void) {
    char words[100];
    if (!dropped) return;
    int len = snprintf(words, sizeof words, "%s%" PRIu64 " lines were dropped, since nobody read them\n",
                       is_cut ? "\n" : "", dropped);
    if (!put(words, (size_t)len)) return;
    dropped = 0;
    is_cut = false;
}

/* What is written on standard error: lines, which are dropped and counted if they can't be written at once. */
static ssize_t write_lines(void *cookie, const char *text, size_t len) {
    (void)cookie;
    int fault = errno;
    uint64_t lines = 0;
    for (size_t i = 0; i < len; i++) lines += text[i] == '\n';
    say_dropped();
    if (dropped || !put(text, len)) {
        dropped += lines;
        dropped_in_all += lines;
    }
    errno = fault;
    return (ssize_t)len;
}

static FILE *given; /* standard error as the process was given it */

static void lines_end(void) {
    FILE *to = stderr;
    stderr = given;
    fclose(to);
}

void lines_begin(void) {
    static char room[BUFSIZ];
    own = open("/proc/self/fd/2", O_WRONLY | O_APPEND | O_NONBLOCK | O_CLOEXEC | O_NOCTTY);
    FILE *to = fopencookie(NULL, "w", (cookie_io_functions_t){.write = write_lines});
    if (!to) return;
    setvbuf(to, room, _IOLBF, sizeof room);
    given = stderr;
    stderr = to;
    atexit(lines_end);
}

uint64_t lines_dropped(void) { return dropped_in_all; }

static void begin_second(enum line_kind kind, uint64_t second) {
    if (of_kind[kind].second == second) return;
    if (of_kind[kind].left_out)
        fprintf(stderr, "%" PRIu64 " more lines of the kind \"%s\" were left out\n", of_kind[kind].left_out,
                kinds[kind]);
    of_kind[kind].second = second;
    of_kind[kind].written = of_kind[kind].left_out = 0;
}

bool line_has_room(enum line_kind kind, uint64_t now) {
    begin_second(kind, now / 1000);
    if (of_kind[kind].written == MOST_A_SECOND) { of_kind[kind].left_out++; return false; }
    of_kind[kind].written++;
    return true;
}

void line(const char *format, ...) {
    va_list words;
    va_start(words, format);
    vfprintf(stderr, format, words);
    va_end(words);
    fputc('\n', stderr);
}

void lines_left_out(uint64_t now) {
    for (int kind = 0; kind < LINE_KINDS; kind++)
        if (of_kind[kind].left_out) begin_second((enum line_kind)kind, now / 1000);
    say_dropped();
}

void shown(const uint8_t *octets, size_t len, char *words, size_t most) {
    size_t at = 0;
    for (size_t i = 0; i < len && at + 5 < most; i++) {
        if (octets[i] > 0x20 && octets[i] < 0x7f && octets[i] != '\\') words[at++] = (char)octets[i];
        else at += (size_t)snprintf(words + at, most - at, "\\x%02x", octets[i]);
    }
    words[at] = 0;
}
