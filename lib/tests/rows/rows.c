/* Compares what the library and the program answer with rows of data: rows FILE.. SNMPSEC_PROGRAM is the program;
 * rows.h has the form of a row.
 *
 * It prints each row that is answered in another way, and how many rows of each file passed. Its status is 1 if a row
 * failed, and 2 if a file can't be read, a row can't be understood or memory is wanting. Not proved. */
#define _GNU_SOURCE
#include "stations.h"
#include <errno.h>
#include <stdio.h>
#include <stdlib.h>
#include <string.h>
#include <sys/wait.h>
#include <unistd.h>

enum { MOST_WORDS = 4096 };

static struct {
    const char *file, *words[MOST_WORDS];
    size_t number, len, at;
} row;
static struct growing answer, kept_octets;
static const char *program;
static char written[] = "/tmp/rows-XXXXXX";

/* ---- ends */

_Noreturn static void end(const char *why) {
    fflush(stdout);
    fprintf(stderr, "%s:%zu: %s\n", row.file, row.number, why);
    exit(2);
}

_Noreturn void fail(const char *why) { end(why); }
_Noreturn void lack(void) { end("out of memory"); }

_Noreturn void fail_of(int given) {
    if (given == SNMPSEC_OUT_OF_MEMORY) lack();
    fail(snmpsec_strerror(given));
}

/* ---- memory */

static struct block { struct block *before; } * blocks;

void *kept(size_t size) {
    struct block *block = malloc(sizeof *block + size);
    if (!block) lack();
    block->before = blocks;
    blocks = block;
    return block + 1;
}

static void let_go(void) {
    for (struct block *before; blocks; blocks = before) {
        before = blocks->before;
        free(blocks);
    }
}

static void make_room(struct growing *text, size_t more) {
    if (text->room - text->len > more) return;
    size_t room = 2 * (text->len + more) + 64;
    char *at = realloc(text->at, room);
    if (!at) lack();
    text->at = at;
    text->room = room;
}

void add_octets(struct growing *text, const void *at, size_t len) {
    make_room(text, len);
    if (len) memcpy(text->at + text->len, at, len);
    text->len += len;
    text->at[text->len] = 0;
}

static void add_all(struct growing *text, const char *format, va_list words) {
    va_list again;
    va_copy(again, words);
    int len = vsnprintf(NULL, 0, format, again);
    va_end(again);
    make_room(text, (size_t)len);
    vsnprintf(text->at + text->len, (size_t)len + 1, format, words);
    text->len += (size_t)len;
}

void add(struct growing *text, const char *format, ...) {
    va_list words;
    va_start(words, format);
    add_all(text, format, words);
    va_end(words);
}

void add_name(struct growing *text, snmpsec_octets of) {
    add(text, "\"");
    for (size_t i = 0; i < of.len; i++)
        add(text, of.at[i] < ' ' || strchr("\"\\\x7f", of.at[i]) ? "\\u%04x" : "%c", of.at[i]);
    add(text, "\"");
}

void empty(struct growing *text) {
    text->len = 0;
    make_room(text, 0);
    *text->at = 0;
}

/* ---- words */

const char *word(void) {
    if (row.at == row.len) fail("a row of this kind has more words");
    return row.words[row.at++];
}

size_t left(void) { return row.len - row.at; }

bool is_at(const char *text) { return left() && !strcmp(row.words[row.at], text); }

bool is_next(const char *text) {
    bool is_it = is_at(text);
    row.at += is_it;
    return is_it;
}

static uint64_t number_of(const char *text, uint64_t most) {
    uint64_t found = 0;
    if (!*text) fail("a number");
    for (; *text; text++)
        if (*text < '0' || *text > '9' || __builtin_mul_overflow(found, 10u, &found)
            || __builtin_add_overflow(found, (uint64_t)(*text - '0'), &found))
            fail("a number");
    if (found > most) fail("a number");
    return found;
}

uint64_t number(void) { return number_of(word(), UINT64_MAX); }
uint32_t number32(void) { return (uint32_t)number_of(word(), UINT32_MAX); }

int32_t signed32(void) {
    const char *text = word();
    return *text == '-' ? (int32_t) - (int64_t)number_of(text + 1, 1u << 31) : (int32_t)number_of(text, INT32_MAX);
}

static uint8_t octet_of(const char *text) {
    char *end;
    unsigned long found = strtoul(text, &end, 16);
    if (end == text || *end || found > 255) fail("an octet");
    return (uint8_t)found;
}

uint8_t octet(void) { return octet_of(word()); }

snmpsec_octets name(void) {
    const char *text = word();
    return (snmpsec_octets){(const uint8_t *)text, strcmp(text, "-") ? strlen(text) : 0};
}

static snmpsec_octets repeated(char *text, char *star) {
    *star = 0;
    snmpsec_octets made = {.len = number_of(star + 1, 1000000)};
    made.at = memset(kept(made.len), octet_of(text), made.len);
    return made;
}

static snmpsec_octets of_text(const char *text) {
    size_t len = strlen(text);
    uint8_t *at = kept(len);
    for (size_t i = 0; i < len; i++) at[i] = (uint8_t)(text[i] == '_' ? ' ' : text[i] == '|' ? '\n' : text[i]);
    return (snmpsec_octets){at, len};
}

static snmpsec_octets part_of(char *text, char *dots) {
    *dots = 0;
    size_t from = number_of(text, kept_octets.len), to = number_of(dots + 2, kept_octets.len);
    if (from > to) fail("places of the octets");
    return (snmpsec_octets){(const uint8_t *)kept_octets.at + from, to - from};
}

static snmpsec_octets edited(char *edits) {
    char *dots = strstr(edits, ".."), *next, *is;
    if (dots) return part_of(edits, dots);
    uint8_t *at = kept(kept_octets.len);
    if (kept_octets.len) memcpy(at, kept_octets.at, kept_octets.len);
    while ((next = strsep(&edits, ",")) && *next) {
        if (!(is = strchr(next, '='))) fail("PLACE=OCTET");
        *is = 0;
        at[number_of(next, kept_octets.len - 1)] = octet_of(is + 1);
    }
    return (snmpsec_octets){at, kept_octets.len};
}

static snmpsec_octets decoded(const char *text) {
    size_t len = strlen(text) / 2;
    uint8_t *at = kept(len);
    if (strlen(text) % 2) fail("octets");
    for (size_t i = 0; i < len; i++) at[i] = octet_of((char[]){text[2 * i], text[2 * i + 1], 0});
    return (snmpsec_octets){at, len};
}

snmpsec_octets octets(void) {
    const char *given = word();
    if (!strcmp(given, "-")) return (snmpsec_octets){NULL, 0};
    if (*given == '\'') return of_text(given + 1);
    char *text = strcpy(kept(strlen(given) + 1), given), *star = strchr(text, '*');
    return *text == '@' ? edited(text + 1) : star ? repeated(text, star) : decoded(text);
}

const char *said(void) {
    snmpsec_octets of = octets();
    char *text = kept(of.len + 1);
    if (of.len) memcpy(text, of.at, of.len);
    text[of.len] = 0;
    return text;
}

snmpsec_level level(void) {
    static const char *const levels[] = {"noAuthNoPriv", "authNoPriv", "authPriv"};
    for (int i = 0; i < 3; i++)
        if (is_next(levels[i])) return (snmpsec_level)(i + 1);
    fail("a security level");
}

uint64_t salt(void) {
    snmpsec_octets of = octets();
    uint64_t made = 0;
    if (of.len != 8) fail("a salt has 8 octets");
    for (int i = 0; i < 8; i++) made = made << 8 | of.at[i];
    return made;
}

bool read_arcs(const char *text, struct arcs *out) {
    for (out->len = 0; out->len < SNMPSEC_MOST_ARCS; text++) {
        char *end;
        errno = 0;
        unsigned long long arc = strtoull(text, &end, 10);
        if (*text < '0' || *text > '9' || errno || arc > UINT32_MAX) return false;
        out->at[out->len++] = (uint32_t)arc;
        text = end;
        if (*text != '.') return !*text;
    }
    return false;
}

struct arcs arcs(void) {
    struct arcs found;
    if (!read_arcs(word(), &found)) fail("arcs");
    return found;
}

/* ---- answers */

void say(const char *format, ...) {
    va_list words;
    va_start(words, format);
    add_all(&answer, format, words);
    va_end(words);
}

void show(snmpsec_octets of) {
    if (!of.len) say("-");
    for (size_t i = 0; i < of.len; i++) say("%02x", of.at[i]);
}

void show_text(snmpsec_octets of) {
    say("'");
    for (size_t i = 0; i < of.len; i++) say("%c", of.at[i] == ' ' ? '_' : of.at[i] == '\n' ? '|' : of.at[i]);
}

void show_arcs(const struct arcs *of) {
    for (size_t i = 0; i < of->len; i++) say(i ? ".%u" : "%u", of->at[i]);
}

void say_refusal_name(int given) {
    const char *at = snmpsec_error_name(given);
    if (given == SNMPSEC_OUT_OF_MEMORY || !at) fail_of(given);
    for (bool is_first = true; *at; at++) {
        if (*at == '_') is_first = true;
        else {
            say("%c", is_first ? *at : *at + 32);
            is_first = false;
        }
    }
}

void say_refusal(int given) {
    say("%d ", given);
    say_refusal_name(given);
}

/* ---- the program */

const char *printed(const char *words[], int *status) {
    static struct growing out;
    int ends[2], ended;
    char room[4096];
    ssize_t len;
    if (!program) fail("SNMPSEC_PROGRAM names no program");
    words[0] = program;
    if (pipe(ends)) fail(strerror(errno));
    pid_t child = fork();
    if (!child) {
        unsetenv("LD_PRELOAD");
        dup2(ends[1], 1);
        dup2(ends[1], 2);
        close(ends[0]);
        execv(program, (char **)words);
        _exit(127);
    }
    close(ends[1]);
    empty(&out);
    while ((len = read(ends[0], room, sizeof room)) > 0) add_octets(&out, room, (size_t)len);
    close(ends[0]);
    if (child < 0 || waitpid(child, &ended, 0) < 0 || !WIFEXITED(ended) || WEXITSTATUS(ended) > 2)
        fail("the program fails");
    if (status) *status = WEXITSTATUS(ended);
    return out.at;
}

static pid_t writer;

static void remove_written(void) {
    if (writer == getpid()) unlink(written);
}

const char *file_of(snmpsec_octets of) {
    static FILE *file;
    if (!file) {
        file = fdopen(mkstemp(written), "w");
        writer = getpid();
        atexit(remove_written);
    }
    if (!file) fail(strerror(errno));
    rewind(file);
    if (fwrite(of.at, 1, of.len, file) != of.len || fflush(file) || ftruncate(fileno(file), (off_t)of.len))
        fail("a file can't be written");
    return written;
}

/* ---- files of rows */

/* The subject of a file. Rows from one of the kind `scene` to the next have nothing to do with the others: each such
 * scene is a process of its own, that begins with what was prepared. */
static const struct subject_of {
    const char *file;
    subject *of;
    const char *scene;
    void (*prepare)(void);
} subjects[] = {
    {"access.rows", access_row, NULL, NULL},
    {"agent.rows", stations_row, NULL, NULL},
    {"clocks.rows", clocks_row, "new", prepare_clocks},
    {"config.rows", config_row, NULL, NULL},
    {"exchange.rows", stations_row, NULL, NULL},
    {"gate.rows", gate_row, NULL, NULL},
    {"gate_config.rows", gate_config_row, NULL, NULL},
    {"gate_devices.rows", gate_row, NULL, NULL},
    {"keys.rows", keys_row, NULL, NULL},
    {"manager.rows", stations_row, "manager ", prepare_managers},
    {"message.rows", message_row, NULL, NULL},
    {"net_snmp.rows", stations_row, NULL, NULL},
    {"replay.rows", replay_row, NULL, NULL},
    {"usm.rows", usm_row, NULL, NULL},
    {"world.rows", world_row, "world ", prepare_managers},
};

static const struct subject_of *subject_of(const char *file) {
    const char *slash = strrchr(file, '/'), *base = slash ? slash + 1 : file;
    for (size_t i = 0; i < sizeof subjects / sizeof *subjects; i++)
        if (!strcmp(subjects[i].file, base)) return &subjects[i];
    fail("no subject has this name");
}

/* Answers a line. Its words are cut in their places. */
static void answer_line(subject *of, char *line) {
    char *inputs = line, *kind = strsep(&inputs, " "), *next;
    for (row.len = row.at = 0; (next = strsep(&inputs, " "));) {
        if (row.len == MOST_WORDS) fail("a row has fewer words");
        row.words[row.len++] = next;
    }
    empty(&answer);
    if (strcmp(kind, "octets")) of(kind);
    else {
        snmpsec_octets given = octets();
        empty(&kept_octets);
        add_octets(&kept_octets, given.at, given.len);
    }
    if (left()) fail("a row of this kind has fewer words");
    let_go();
}

/* Checks a line, and counts it if it passed or failed. */
static void check_line(subject *of, char *line, size_t counts[2]) {
    char *arrow = strstr(line, " -> ");
    const char *wanted = arrow ? arrow + 4 : "";
    if (!*line || *line == '#') return;
    if (arrow) *arrow = 0;
    answer_line(of, line);
    bool is_so = !strcmp(answer.at, wanted);
    if (!is_so) printf("%s:%zu: wanted %s, found %s\n", row.file, row.number, wanted, answer.at);
    counts[!is_so] += !is_so || *wanted;
}

/* The text of a file that is still to be read, and its next line, without its end. */
static char *rest;

static char *line_of(void) {
    char *line = strsep(&rest, "\n");
    if (!line || (!rest && !*line)) return NULL;
    row.number++;
    return line;
}

static char *text_of(const char *path) {
    struct growing text = {0};
    char room[65536];
    size_t len;
    FILE *file = fopen(path, "r");
    if (!file) fail(strerror(errno));
    empty(&text);
    while ((len = fread(room, 1, sizeof room, file))) add_octets(&text, room, len);
    fclose(file);
    return text.at;
}

static bool is_scene(const struct subject_of *it, const char *line) {
    return it->scene && !strncmp(line, it->scene, strlen(it->scene));
}

/* Checks the rows from this line on to the next scene. Returns the line that is next, or null. */
static char *checked(const struct subject_of *it, char *line, size_t counts[2]) {
    do check_line(it->of, line, counts);
    while ((line = line_of()) && !is_scene(it, line));
    return line;
}

/* A process of its own, which tells how many rows passed and failed. */
struct apart {
    int ends[2];
    pid_t child;
};

/* Begins one: the child's `child` is 0. */
static struct apart begin_apart(void) {
    struct apart it;
    fflush(stdout);
    if (pipe(it.ends) || (it.child = fork()) < 0) fail(strerror(errno));
    return it;
}

_Noreturn static void tell(const struct apart *it, const size_t counts[2]) {
    fflush(stdout);
    remove_written();
    _exit(write(it->ends[1], counts, 2 * sizeof *counts) == 2 * sizeof *counts ? 0 : 2);
}

static void hear(const struct apart *it, size_t counts[2]) {
    size_t own[2];
    int status;
    close(it->ends[1]);
    bool is_told = read(it->ends[0], own, sizeof own) == sizeof own;
    close(it->ends[0]);
    if (waitpid(it->child, &status, 0) < 0 || !is_told || status) exit(2);
    for (int i = 0; i < 2; i++) counts[i] += own[i];
}

/* The rows of a scene in a process of its own. */
static char *checked_apart(const struct subject_of *it, char *line, size_t counts[2]) {
    size_t own[2] = {0, 0};
    struct apart scene = begin_apart();
    if (!scene.child) {
        checked(it, line, own);
        tell(&scene, own);
    }
    hear(&scene, counts);
    while ((line = line_of()) && !is_scene(it, line)) {}
    return line;
}

static void check_file(const char *path, size_t counts[2]) {
    size_t own[2] = {0, 0};
    bool is_one = getenv("ROWS_IN_ONE_PROCESS");
    row.file = path;
    row.number = 0;
    char *text = rest = text_of(path);
    const struct subject_of *it = subject_of(path);
    char *line = line_of();
    while (line && !is_scene(it, line)) line = checked(it, line, own);
    if (line && !is_one) it->prepare();
    while (line) line = (is_one ? checked : checked_apart)(it, line, own);
    free(text);
    printf("%s %zu passed, %zu failed\n", path, own[0], own[1]);
    for (int i = 0; i < 2; i++) counts[i] += own[i];
}

/* A file in a process of its own, so that nothing is left of those before. */
static void check_file_apart(const char *path, size_t counts[2]) {
    size_t own[2] = {0, 0};
    struct apart file = begin_apart();
    if (!file.child) {
        check_file(path, own);
        tell(&file, own);
    }
    hear(&file, counts);
}

int main(int argc, char **argv) {
    size_t counts[2] = {0, 0};
    if (argc < 2) {
        fprintf(stderr, "usage: rows FILE..\n");
        return 2;
    }
    program = getenv("SNMPSEC_PROGRAM");
    for (int i = 1; i < argc; i++) (argc > 2 ? check_file_apart : check_file)(argv[i], counts);
    printf("%zu passed, %zu failed\n", counts[0], counts[1]);
    return counts[1] != 0;
}
