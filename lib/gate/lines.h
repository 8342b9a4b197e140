/* Lines on standard error, one for an event, at most 10 a second of a kind. Nothing waits for their reader.
 * Not proved. */
#ifndef LINES_H
#define LINES_H

#include <stdbool.h>
#include <stddef.h>
#include <stdint.h>

/* first those of snmpsec_line, by the numbers of their bits */
enum line_kind {
    LINE_REFUSED, LINE_UNHANDLED, LINE_SET, LINE_GIVEN_UP, LINE_DEVICE, LINE_STATUS, LINE_DROPPED, LINE_UNANSWERED,
    LINE_MISFIT, LINE_ROUNDS, LINE_FILE,
    LINE_NOTIFIED, LINE_ACKNOWLEDGED, LINE_NOT_NOTIFIED, LINE_RECEIVER, LINE_LOST, LINE_KINDS
};

/* From here on what is written on standard error isn't waited for: a line that can't be written at once is dropped, and
 * the next one that can be says before it how many were. It is called before `keep_secrets`, after which a process may
 * not open its own files again. */
void lines_begin(void);
/* How many lines were dropped. */
uint64_t lines_dropped(void);
/* Whether a line of this kind may be written now. Where 10 were written in this second it is counted as left out, which
 * is said once the second is over. So it is asked before the line's words are looked for. */
bool line_has_room(enum line_kind kind, uint64_t now);
/* Writes a line. */
void line(const char *format, ...) __attribute__((format(printf, 1, 2)));
/* Says what was left out, where its second is over, and what was dropped. */
void lines_left_out(uint64_t now);

/* The octets as words, at most `most` with the 0 at the end: what isn't a printable ASCII character is \xNN. */
void shown(const uint8_t *octets, size_t len, char *words, size_t most);

#endif
