#include "config_told.h"
#include <snmpsec.h>
#include <stdio.h>
#include <string.h>

/* a key in a configuration may be long; of a longer text the front is reported */
enum { MOST_TOLD = 65536 };

/* Prints a line. Its keys are the file's own words: a control character in them would reach the terminal, so it is
 * printed as \xNN. */
static void print_line(const uint8_t *text, size_t len) {
    for (size_t i = 0; i < len; i++) {
        if (text[i] == 0xc2 && i + 1 < len && text[i + 1] < 0xa0) i++; /* U+0080 to U+009f in UTF-8 */
        else if (text[i] >= 0x20 && text[i] != 0x7f) { fputc(text[i], stderr); continue; }
        fprintf(stderr, "\\x%02x", text[i]);
    }
    fputc('\n', stderr);
}

/* Each line behind the program and the file. */
static void print_lines(const char *program, const char *path, const uint8_t *text, size_t len) {
    for (size_t at = 0; at < len;) {
        const uint8_t *end = memchr(text + at, '\n', len - at);
        size_t line = end ? (size_t)(end - text) - at : len - at;
        fprintf(stderr, "%s: %s: ", program, path);
        print_line(text + at, line);
        at += line + 1;
    }
}

/* Prints what a call told of the configuration, which the text has where it is refused. */
static void print_told(const char *program, const char *path, int answer, uint8_t *text, size_t len) {
    if (answer == SNMPSEC_BAD_CONFIGURATION) print_lines(program, path, text, len);
    else fprintf(stderr, "%s: %s: %s\n", program, path, snmpsec_strerror(answer == SNMPSEC_OUT_OF_MEMORY ? answer
        : SNMPSEC_BAD_CONFIGURATION));
    snmpsec_wipe(text, MOST_TOLD);
}

void config_told(const char *program, const char *path, const uint8_t *config, size_t config_len) {
    static uint8_t text[MOST_TOLD];
    snmpsec_config_place place;
    size_t len = 0;
    int answer = snmpsec_config_fault(config, config_len, &place, text, sizeof text, &len);
    print_told(program, path, answer, text, len);
}

void gate_config_told(const char *program, const char *path, const uint8_t *config, size_t config_len) {
    static uint8_t text[MOST_TOLD];
    size_t len = 0;
    int answer = snmpsec_gate_fault(config, config_len, text, sizeof text, &len);
    print_told(program, path, answer, text, len);
}
