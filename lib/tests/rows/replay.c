/* Rows on logs of datagrams that the program replays without users, and on captures and pasted texts, from a standard
 * input and to a standard output that are slow, interrupted or fail. Not proved. */
#define _GNU_SOURCE
#include "rows.h"
#include <stdio.h>
#include <stdlib.h>
#include <string.h>
#include <sys/wait.h>
#include <unistd.h>

/* A file without a name that has these octets. */
static FILE *holding(snmpsec_octets of) {
    FILE *file = tmpfile();
    if (!file || fwrite(of.at, 1, of.len, file) != of.len || fflush(file)) fail("a file can't be written");
    rewind(file);
    return file;
}

static struct growing text_in(FILE *file) {
    struct growing text = {0};
    char room[4096];
    size_t len;
    empty(&text);
    rewind(file);
    while ((len = fread(room, 1, sizeof room, file))) add_octets(&text, room, len);
    fclose(file);
    return text;
}

/* How often each call is interrupted, and which fails: two words, of which the second is `-` for none. */
static const char *troubles(void) {
    static struct growing all[2];
    static int turn;
    struct growing *text = &all[turn ^= 1];
    const char *interruptions = word();
    empty(text);
    add(text, "%s %s", interruptions, is_next("-") ? "-1" : word());
    return text->at;
}

/* The library of slow_streams.c, which is beside this program. */
static const char *slow_streams(void) {
    static char path[4096];
    ssize_t len = readlink("/proc/self/exe", path, sizeof path - 32);
    if (len < 0) fail("this program has no path");
    path[len] = 0;
    strcpy(strrchr(path, '/') + 1, "slow_streams.so");
    return path;
}

static void run_in_child(const char *words[], const char *reads, const char *writes, FILE *log, FILE *out, FILE *err) {
    const char *program = getenv("SNMPSEC_PROGRAM"), *slow = slow_streams();
    dup2(fileno(log), 0);
    dup2(fileno(out), 1);
    dup2(fileno(err), 2);
    unsetenv("LD_PRELOAD");
    if (!program
        || (reads && (setenv("LD_PRELOAD", slow, 1) || setenv("READS", reads, 1) || setenv("WRITES", writes, 1))))
        _exit(127);
    unsetenv("GROWTH");
    words[0] = program;
    execv(program, (char **)words);
    _exit(127);
}

/* Runs the program with this standard input, by slow streams if their troubles are given: what it wrote, and what it
 * reported on standard error. */
static void run(const char *words[], snmpsec_octets octets, const char *reads, const char *writes,
                struct growing *written, struct growing *told) {
    FILE *log = holding(octets), *out = tmpfile(), *err = tmpfile();
    int status;
    fflush(stdout);
    pid_t child = fork();
    if (!child) run_in_child(words, reads, writes, log, out, err);
    if (child < 0 || waitpid(child, &status, 0) < 0 || !WIFEXITED(status) || WEXITSTATUS(status) > 2)
        fail("the program fails");
    fclose(log);
    *written = text_in(out);
    *told = text_in(err);
    if (strstr(told->at, "out of memory")) lack();
}

/* Replays a log: how it ended, and what was written. */
static void replay(snmpsec_octets octets, const char *reads, const char *writes, bool is_shown) {
    static const snmpsec_octets no_clocks_text = {(const uint8_t *)SNMPSEC_NO_CLOCKS, sizeof SNMPSEC_NO_CLOCKS - 1};
    struct growing written, told;
    const char *words[] = {NULL, "replay", "/dev/null", file_of(no_clocks_text), "-", NULL};
    run(words, octets, reads, writes, &written, &told);
    const char *line = strstr(told.at, "log line ");
    if (!*told.at) say("Ok(())");
    else if (line) say("log line %d", atoi(line + 9));
    else
        say("Err(%s)", strstr(told.at, "cannot read")    ? "CannotRead"
                       : strstr(told.at, "cannot write") ? "CannotWrite"
                                                         : "another");
    if (is_shown) {
        say(" ");
        show_text(octets_of(&written));
    }
    free(written.at);
    free(told.at);
}

/* `datagrams OCTETS INTERRUPTIONS FAILING_READ`, `show ..`: what is written of the datagrams of port 161, and what is
 * reported. */
static void of_capture(const char *kind) {
    snmpsec_octets octets_read = octets();
    struct growing written, told;
    const char *words[8] = {NULL, kind, "--port", "161"}, *reads = troubles();
    if (*kind == 's') {
        words[4] = "--from";
        words[5] = "-";
    } else {
        words[4] = "--moment";
        words[5] = "7";
        words[6] = "-";
    }
    run(words, octets_read, reads, "0 -1", &written, &told);
    show_text(octets_of(&written));
    say(" ");
    show_text(octets_of(&told));
    free(written.at);
    free(told.at);
}

/* `replay_longest NOW COUNT`: a log of one line with this timestamp and so many digits 0. */
static void longest(void) {
    struct growing log = {0};
    add(&log, "%s ", word());
    for (uint32_t count = number32(); count; count--) add(&log, "0");
    add(&log, "\n");
    replay(octets_of(&log), NULL, NULL, false);
    free(log.at);
}

/* `replay_endless LINE END`: a log of this line for ever, with this octet after it: more lines, or octets, than are
 * taken. */
static void endless(void) {
    enum { LINES = 1000002 };
    snmpsec_octets line = octets();
    char end = (char)octet();
    struct growing log = {0};
    for (int i = 0; i < LINES; i++) {
        add_octets(&log, line.at, line.len);
        add_octets(&log, &end, 1);
    }
    replay(octets_of(&log), NULL, NULL, false);
    free(log.at);
}

void replay_row(const char *kind) {
    if (!strcmp(kind, "replay")) {
        snmpsec_octets log = octets();
        const char *reads = troubles();
        replay(log, reads, troubles(), true);
    } else if (!strcmp(kind, "replay_longest")) longest();
    else if (!strcmp(kind, "replay_endless")) endless();
    else if (!strcmp(kind, "datagrams") || !strcmp(kind, "show")) of_capture(kind);
    else fail("no row is of this kind");
}
