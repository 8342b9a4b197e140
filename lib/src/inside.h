/* What the library's own C shares and no program sees. Not proved. */
#ifndef SNMPSEC_INSIDE_H
#define SNMPSEC_INSIDE_H

#include <stdbool.h>
#include <stddef.h>
#include <stdint.h>

#define INSIDE __attribute__((visibility("hidden")))

/* More than the deepest call was seen to use, which tests/stack.c measures. */
#ifndef SNMPSEC_STACK
#define SNMPSEC_STACK 13312
#endif
#ifndef SNMPSEC_DEEP_STACK
#define SNMPSEC_DEEP_STACK 49152
#endif
#ifndef SNMPSEC_FREE_STACK
#define SNMPSEC_FREE_STACK 20480
#endif

INSIDE void snmpsec_inside_wipe(void *octets, size_t octets_len);
/* Wipes what a call may have left below the caller's frame, and in registers; the second after a configuration was
 * read, and the third after a handle was freed. */
INSIDE void snmpsec_inside_wipe_stack(void);
INSIDE void snmpsec_inside_wipe_deep_stack(void);
INSIDE void snmpsec_inside_wipe_free_stack(void);

/* Whether a configuration is nested deeper than the stack that is wiped allows. */
INSIDE bool snmpsec_inside_is_deep(const uint8_t *text, size_t len);

/* A block of the heap that the archive has too, or NULL; and its end, wiped. */
INSIDE void *snmpsec_inside_block(size_t size);
INSIDE void snmpsec_inside_free_block(void *block);
/* Frees a handle of the archive by its _clear, which gives back all that it holds. It wants no memory. */
INSIDE void snmpsec_inside_free_handle(void *handle, int32_t (*clear)(void *handle));
/* The same for a handle that has two tables of users. */
INSIDE void snmpsec_inside_free_large_handle(void *handle, int32_t (*clear)(void *handle));

#endif
