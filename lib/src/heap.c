/* The heap that the archive calls: the C library's, with each block wiped before it is given back. And the freeing of
 * handles. Not proved.
 *
 * Keys and passwords lie in these blocks. A block never grows by realloc, which could leave a copy behind: it grows in
 * the room that it was given, or its octets go to a new one, which has room to grow again. With SNMPSEC_SECURE_HEAP,
 * its size in octets, the blocks are of OpenSSL's secure heap, which is locked in memory and left out of cores; where
 * that can't be had there is no memory. */
#define _GNU_SOURCE
#include "inside.h"
#include <stdlib.h>
#include <string.h>

#ifdef SNMPSEC_SECURE_HEAP
#include <openssl/crypto.h>

static int is_secure;

/* A program's own secure heap is taken as it is. */
__attribute__((constructor)) static void begin(void) {
    int made = CRYPTO_secure_malloc_init(SNMPSEC_SECURE_HEAP, 64);
    is_secure = made == 1 || (!made && CRYPTO_secure_malloc_initialized());
}

static void *allocated(size_t size) { return is_secure ? OPENSSL_secure_malloc(size) : NULL; }
static void freed(void *block) { OPENSSL_secure_free(block); }
#else
static void *allocated(size_t size) { return malloc(size); }
static void freed(void *block) { free(block); }
#endif

/* what a growth gives, in two registers */
struct tried { unsigned long ok; void *block; };

/* A block is aligned to so many octets, as malloc's is. The handles want no more: crates/snmp_c has the alignment of
 * their types. A request for a greater one gets no block. */
enum { ALIGNED = 16 };
_Static_assert(_Alignof(max_align_t) >= ALIGNED, "malloc aligns its blocks to 16 octets");

static char nothing[ALIGNED] __attribute__((aligned(16)));

/* While a handle is emptied, blocks come from this room: the empty handle is made in it, so that freeing wants no
 * memory and leaves no block. It is NULL at other times. An empty table of users takes some 2,600 octets. */
enum { ROOM = 4096, LARGE_ROOM = 2 * ROOM };
static _Thread_local char *room;
static _Thread_local size_t room_size, room_used;

static int is_in_room(const void *block) { return room && (uintptr_t)block - (uintptr_t)room < room_size; }

static void *from_room(size_t size) {
    size_t begin = room_used;
    if (size > room_size - begin) return NULL;
    room_used += (size + ALIGNED - 1) / ALIGNED * ALIGNED;
    return room + begin;
}

/* Before each block stand how many of its octets were ever asked for, and how many it has, a multiple of 16. It is
 * aligned to 16. */
struct head { size_t used, size; } __attribute__((aligned(16)));
_Static_assert(sizeof(struct head) == ALIGNED, "the block after a head is aligned as the head is");

/* the least octets that a block has, the most for which one that grows gets as many again, and the most that are wiped
 * word by word */
enum { LEAST = 48, MOST_DOUBLED = 1 << 16, FEW = 256 };

static struct head *head_of(void *block) { return (struct head *)block - 1; }

static void *block_of(size_t used, size_t size) {
    if (size > SIZE_MAX / 2) return NULL;
    size = (size + ALIGNED - 1) / ALIGNED * ALIGNED;
    struct head *head = allocated(sizeof *head + size);
    if (!head) return NULL;
    *head = (struct head){used, size};
    return head + 1;
}

/* Most blocks are small, and a call of the C library's takes longer than these stores. */
static void wipe_block(void *block, size_t used) {
    volatile uint64_t *word = block;
    if (used > FEW) snmpsec_inside_wipe(block, used);
    else
        for (size_t i = 0; i < (used + 7) / 8; i++) word[i] = 0;
}

void *snmpsec_inside_block(size_t size) { return block_of(size, size < LEAST ? LEAST : size); }

void snmpsec_inside_free_block(void *block) {
    if (!block) return;
    wipe_block(block, head_of(block)->used);
    freed(head_of(block));
}

/* The block with this size, or NULL where there is no memory, and then it stays. */
static void *resized(void *old, size_t kept, size_t size) {
    if (size <= head_of(old)->size) {
        if (size > head_of(old)->used) head_of(old)->used = size;
        return old;
    }
    void *block = block_of(size, size <= MOST_DOUBLED ? 2 * size : size);
    if (!block) return NULL;
    memcpy(block, old, kept);
    snmpsec_inside_free_block(old);
    return block;
}

static struct tried tried(void *block) { return block ? (struct tried){1, block} : (struct tried){0, nothing}; }

INSIDE struct tried rattle_alloc(size_t size, size_t align) {
    size_t wanted = size ? size : align;
    if (align > ALIGNED) return tried(NULL);
    return tried(room ? from_room(wanted) : snmpsec_inside_block(wanted));
}

INSIDE struct tried rattle_realloc(void *old, size_t kept, size_t size, size_t align) {
    size_t wanted = size ? size : align;
    if (align > ALIGNED) return tried(NULL);
    if (!room) return tried(resized(old, kept < wanted ? kept : wanted, wanted));
    void *block = from_room(wanted);
    if (!block) return tried(NULL);
    memcpy(block, old, kept < wanted ? kept : wanted);
    if (!is_in_room(old)) snmpsec_inside_free_block(old);
    return tried(block);
}

INSIDE void rattle_dealloc(void *block) {
    if (!is_in_room(block)) snmpsec_inside_free_block(block);
}

static void free_in(char *empty, size_t size, void *handle, int32_t (*clear)(void *handle)) {
    room = empty;
    room_size = size;
    room_used = 0;
    int32_t answer = clear(handle);
    room = NULL;
    /* Where the room is too small nothing was given back. Then the empty handle is made in the heap, where its blocks
     * are left. */
    if (answer) (void)clear(handle);
    snmpsec_inside_free_block(handle);
    snmpsec_inside_wipe_free_stack();
}

void snmpsec_inside_free_handle(void *handle, int32_t (*clear)(void *handle)) {
    _Alignas(ALIGNED) char empty[ROOM];
    free_in(empty, sizeof empty, handle, clear);
}

void snmpsec_inside_free_large_handle(void *handle, int32_t (*clear)(void *handle)) {
    _Alignas(ALIGNED) char empty[LARGE_ROOM];
    free_in(empty, sizeof empty, handle, clear);
}
