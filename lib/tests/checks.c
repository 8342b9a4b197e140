#define _GNU_SOURCE
#include "checks.h"
#include "words_of.h"
#include <stdio.h>
#include <stdlib.h>
#include <string.h>
#include <sys/mman.h>
#include <unistd.h>

static long passed, failed;

void check(const char *name, long long expected, long long found) {
    if (expected == found) { passed++; return; }
    failed++;
    printf("FAILED %s: expected %lld, found %lld\n", name, expected, found);
}

int checks_told(void) {
    printf("%ld calls checked, %ld wrong\n", passed, failed);
    return failed != 0;
}

long left = -1;

void *__real_malloc(size_t size);
void *__real_realloc(void *block, size_t size);
static int may_grow(void) { if (left < 0) return 1; if (!left) return 0; left--; return 1; }
void *__wrap_malloc(size_t size) { return may_grow() ? __real_malloc(size) : NULL; }
void *__wrap_realloc(void *block, size_t size) { return may_grow() ? __real_realloc(block, size) : NULL; }

uint8_t *fenced(const uint8_t *octets, size_t octets_len) {
    enum { ROOM = 1 << 16 };
    static uint8_t *fence;
    if (!fence) {
        long page = sysconf(_SC_PAGESIZE);
        uint8_t *room = mmap(NULL, ROOM + (size_t)page, PROT_READ | PROT_WRITE, MAP_PRIVATE | MAP_ANONYMOUS, -1, 0);
        if (room == MAP_FAILED || mprotect(room + ROOM, (size_t)page, PROT_NONE)) { perror("fence"); exit(2); }
        fence = room + ROOM;
    }
    if (octets_len > ROOM) exit(2);
    return memcpy(fence - octets_len, octets, octets_len);
}

uint8_t config[1 << 16];
size_t config_len;
const uint8_t engine[17] = {0x80, 0, 0x1f, 0x88, 0x80, 0xc9, 0x32, 0x47, 0x2d, 0x51, 0xb8, 0x03, 0x6b, 0, 0, 0, 0};
uint8_t datagrams[MOST_DATAGRAMS][MOST_OCTETS];
size_t lengths[MOST_DATAGRAMS], datagrams_len;

static FILE *opened(const char *path) {
    FILE *file = fopen(path, "rb");
    if (!file) { perror(path); exit(2); }
    return file;
}

static void read_log(const char *path) {
    char line[2 * MOST_OCTETS + 64], hex[2 * MOST_OCTETS + 1];
    FILE *file = opened(path);
    for (; datagrams_len < MOST_DATAGRAMS && fgets(line, sizeof line, file); datagrams_len++) {
        if (sscanf(line, "%*s %4096s", hex) == 1 && !octets_of(hex, 0, MOST_OCTETS, datagrams[datagrams_len], &lengths[datagrams_len])) continue;
        fprintf(stderr, "%s: line %zu\n", path, datagrams_len + 1);
        exit(2);
    }
    fclose(file);
}

void read_capture(int argc, char **argv) {
    if (argc < 3) { fprintf(stderr, "%s CONFIG CAPTURED-LOG\n", argv[0]); exit(2); }
    FILE *file = opened(argv[1]);
    config_len = fread(config, 1, sizeof config, file);
    fclose(file);
    read_log(argv[2]);
}

struct text message_of(snmpsec_manager *manager) {
    struct text text = {.len = 0};
    check("the message", 0, snmpsec_manager_message(manager, text.octets, sizeof text.octets, &text.len));
    return text;
}

struct text saved_of(snmpsec_manager *manager) {
    struct text text = {.len = 0};
    check("save", 0, snmpsec_manager_save(manager, text.octets, sizeof text.octets, &text.len));
    return text;
}

int is_same(const struct text *a, const struct text *b) { return a->len == b->len && !memcmp(a->octets, b->octets, a->len); }
