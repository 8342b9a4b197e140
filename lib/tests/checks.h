/* What the tests in C share: checks that are counted, the captured datagrams, octets before a page that nobody may touch, and a heap
 * that refuses the Nth growth. To be linked with -Wl,--wrap=malloc,--wrap=realloc. Not proved. */
#ifndef CHECKS_H
#define CHECKS_H

#include "snmpsec.h"

void check(const char *name, long long expected, long long found);
/* Prints how many checks passed; the status of the test. */
int checks_told(void);

/* How many growths of memory are still granted; all are where it is below 0. */
extern long left;

/* The octets, laid so that the one behind them is on a page that can't be read or written. They stand until the next call. */
uint8_t *fenced(const uint8_t *octets, size_t octets_len);

/* The configuration and the datagrams of a capture, and its agent, at NOW three seconds after its start. */
enum { MOST_DATAGRAMS = 64, MOST_OCTETS = 2048, BOOTS = 1, NOW = 1000, TIME = 3 };
extern uint8_t config[1 << 16];
extern size_t config_len;
extern const uint8_t engine[17];
extern uint8_t datagrams[MOST_DATAGRAMS][MOST_OCTETS];
extern size_t lengths[MOST_DATAGRAMS], datagrams_len;

/* A manager's message, and its saved text. */
struct text { uint8_t octets[MOST_OCTETS]; size_t len; };
struct text message_of(snmpsec_manager *manager);
struct text saved_of(snmpsec_manager *manager);
int is_same(const struct text *a, const struct text *b);

/* Reads the first two words of a command line: the files of the configuration and of the log. */
void read_capture(int argc, char **argv);

#endif
