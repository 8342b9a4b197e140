/* How deep a configuration is nested, looked at before the archive reads it: its parser's stack grows with each part of
 * a dotted key and each bracket, and a short text could nest thousands of tables. Not proved. */
#include "inside.h"

/* the most; one that is no deeper than its rows has three */
enum { MOST_DEEP = 16 };

/* The place behind a string that begins at this one (TOML 1.0, "String"); one of a line ends with the line at the
 * latest. One of several lines may have one or two quotes before the three that end it. */
static size_t after_string(const uint8_t *text, size_t len, size_t at) {
    uint8_t quote = text[at];
    bool is_long = at + 2 < len && text[at + 1] == quote && text[at + 2] == quote;
    for (at += is_long ? 3 : 1; at < len; at++) {
        if (text[at] == '\n' && !is_long) return at;
        if (text[at] == '\\' && quote == '"' && at + 1 < len && text[at + 1] != '\n') at++;
        else if (text[at] == quote && !is_long) return at + 1;
        else if (text[at] == quote && at + 2 < len && text[at + 1] == quote && text[at + 2] == quote) {
            size_t end = at + 3;
            while (end < len && end < at + 5 && text[end] == quote) end++;
            return end;
        }
    }
    return len;
}

static size_t after_comment(const uint8_t *text, size_t len, size_t at) {
    while (at < len && text[at] != '\n') at++;
    return at;
}

/* The place in the text: how deep it is, in all, in the header of its table, and behind each bracket that is open. */
struct place {
    size_t depth, header, open, before[MOST_DEEP + 1];
    bool is_line_begun, is_header;
};

static void begin_line(struct place *place) {
    if (place->is_header) place->open = 0;
    if (!place->open) place->depth = place->header;
    place->is_line_begun = place->is_header = false;
}

static void open_bracket(struct place *place, uint8_t bracket) {
    if (bracket == '[' && !place->open && !place->is_line_begun) {
        place->is_header = true;
        place->header = place->depth = 0;
    }
    place->before[place->open++] = place->depth++;
}

static void step(struct place *place, uint8_t octet) {
    switch (octet) {
    case '\n': begin_line(place); return;
    case ' ': case '\t': case '\r': return;
    case '[': case '{': open_bracket(place, octet); break;
    case ']': case '}': if (place->open) place->depth = place->before[--place->open]; break;
    case ',': if (place->open) place->depth = place->before[place->open - 1] + 1; break;
    case '.':
        place->depth++;
        if (place->is_header) place->header++;
        break;
    default: break;
    }
    place->is_line_begun = true;
}

bool snmpsec_inside_is_deep(const uint8_t *text, size_t len) {
    struct place place = {0};
    for (size_t at = 0; at < len;) {
        if (text[at] == '#') at = after_comment(text, len, at);
        else if (text[at] == '"' || text[at] == '\'') { at = after_string(text, len, at); place.is_line_begun = true; }
        else step(&place, text[at++]);
        if (place.depth > MOST_DEEP) return true;
    }
    return false;
}
