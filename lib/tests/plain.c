/* The heap without heads and wiping, and no wiping of the stack, instead of heap.c and wipe.c: against these cost.c and stack.c measure. */
#include "inside.h"
#include <stdlib.h>
#include <string.h>

struct tried { unsigned long ok; void *block; };

static char nothing[16] __attribute__((aligned(16)));

void snmpsec_inside_wipe(void *octets, size_t octets_len) { (void)octets; (void)octets_len; }
void snmpsec_inside_wipe_stack(void) {}
void snmpsec_inside_wipe_deep_stack(void) {}
void snmpsec_inside_wipe_free_stack(void) {}
void *snmpsec_inside_block(size_t size) { return malloc(size); }
void snmpsec_inside_free_block(void *block) { free(block); }

static struct tried tried(void *block) { return block ? (struct tried){1, block} : (struct tried){0, nothing}; }

INSIDE struct tried rattle_alloc(size_t size, size_t align) { return tried(malloc(size ? size : align)); }

INSIDE struct tried rattle_realloc(void *old, size_t kept, size_t size, size_t align) {
    (void)kept;
    return tried(realloc(old, size ? size : align));
}

INSIDE void rattle_dealloc(void *block) { free(block); }

void snmpsec_inside_free_handle(void *handle, int32_t (*clear)(void *handle)) {
    clear(handle);
    free(handle);
}

void snmpsec_inside_free_large_handle(void *handle, int32_t (*clear)(void *handle)) { snmpsec_inside_free_handle(handle, clear); }
