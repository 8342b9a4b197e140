/* Why a configuration is refused, told on standard error for the example programs. Not proved. */
#ifndef CONFIG_TOLD_H
#define CONFIG_TOLD_H

#include <stddef.h>
#include <stdint.h>

/* Tells why the octets of the file at this path are refused, in the two lines of snmpsec_config_fault, each behind the
 * program's name and the path. Control characters are printed as \xNN. */
void config_told(const char *program, const char *path, const uint8_t *config, size_t config_len);
/* The same of a gateway's configuration, in the two lines of snmpsec_gate_fault. */
void gate_config_told(const char *program, const char *path, const uint8_t *config, size_t config_len);

#endif
