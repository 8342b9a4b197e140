/* Rows of users and of the tables of access, as the texts of a configuration. Not proved. */
#ifndef TABLES_H
#define TABLES_H

#include "rows.h"

/* Answers a row that is about users or tables, if it is one: user, users, context, group, access, family, load, turn,
 * new. */
bool is_table_row(const char *kind);

/* The users of the last row `users`, and the tables of the last row `load`; their lengths are 0 before. */
extern struct growing loaded_users, loaded_tables;
/* The rows of tables since the last row `new`, whether they can be loaded or not. */
void add_tables(struct growing *text);
/* Those tables without the contexts, which the configuration of a gateway doesn't have; and the users and all tables.
 */
snmpsec_octets loaded_without_contexts(void);
struct growing configuration(void);

/* A view, and isAccessAllowed's answer with its number, as AccessAllowed 0. */
snmpsec_view view(void);
void say_access(snmpsec_access access);
extern const char *const access_names[6];
/* What this command of the program answers to a question, MODEL NAME LEVEL VIEW CONTEXT ARCS, about a configuration. */
snmpsec_access access_printed(const char *command, snmpsec_octets tables);

#endif
