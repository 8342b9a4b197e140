/* What the archive wants of the processor, looked at when the library is loaded: its code is for x86-64-v2, and would
 * end a program by SIGILL on an older one. Code for any x86-64 would look up AES's table by octets of keys
 * (docs/secrets.md). Not proved. */
#define _DEFAULT_SOURCE
#include <stddef.h>
#include <stdio.h>
#include <unistd.h>

#if defined(__x86_64__)
static void say(const char *text) { fputs(text, stderr); }

/* Ends the program as those of the prover's compiler end there. */
__attribute__((constructor)) static void look_at_processor(void) {
    __builtin_cpu_init();
    const struct { const char *name; int is_there; } wanted[] = {
        {"SSE3", __builtin_cpu_supports("sse3")}, {"SSSE3", __builtin_cpu_supports("ssse3")},
        {"SSE4.1", __builtin_cpu_supports("sse4.1")},
        {"SSE4.2", __builtin_cpu_supports("sse4.2")}, {"POPCNT", __builtin_cpu_supports("popcnt")}};
    int lacks = 0;
    for (size_t i = 0; i < sizeof wanted / sizeof *wanted; i++) {
        if (wanted[i].is_there) continue;
        say(lacks++ ? ", " : "libsnmpsec: the processor lacks ");
        say(wanted[i].name);
    }
    if (!lacks) return;
    say(": libsnmpsec needs an x86-64-v2 processor (since some 2009), or a virtual machine that shows one\n");
    _exit(127);
}
#else
typedef int nothing_is_looked_at;
#endif
