/* What rows answer of managers, and of a datagram that is refused. Not proved. */
#ifndef STATIONS_H
#define STATIONS_H

#include "rows.h"

/* A manager of the users that were loaded, which begins with these saved clocks. */
extern const snmpsec_octets no_clocks;
snmpsec_manager *fresh_manager(snmpsec_octets clocks, uint64_t now);
/* Makes managers that hold nothing before they are wanted: a password costs much. */
void prepare_managers(void);
/* The same for rows on clocks. */
void prepare_clocks(void);
/* A refusal of the datagram: its number and name, and its place if it has one, which the program says. */
void say_refused(int answer, snmpsec_octets datagram);
/* What the manager holds of an engine: its boots and time, and these with the moment at which they were seen; and its
 * time at a moment. */
void say_pair(snmpsec_manager *of, snmpsec_octets engine);
void say_mark(snmpsec_manager *of, snmpsec_octets engine);
void say_notion(snmpsec_manager *of, snmpsec_octets engine, uint64_t now);
/* `request_time ID ENGINE USER` */
void request_time(void);
/* The saved text of what it holds, until the next row. */
snmpsec_octets saved_of(snmpsec_manager *of);

#endif
