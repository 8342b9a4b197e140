/* Octets that nobody reads again, overwritten all the same: blocks, the stack below a call, and registers. Not
 * proved. */
#define _DEFAULT_SOURCE
#include "inside.h"
#include <string.h>

void snmpsec_inside_wipe(void *octets, size_t octets_len) {
    if (octets_len) explicit_bzero(octets, octets_len);
}

#if defined(__has_attribute)
#if __has_attribute(zero_call_used_regs)
#define WITHOUT_REGISTERS __attribute__((zero_call_used_regs("all")))
#endif
#endif
#ifndef WITHOUT_REGISTERS
#define WITHOUT_REGISTERS
#endif

/* memcpy leaves what it moved in wide registers that no compiler's attribute clears where it compiles for plain x86-64,
 * and a core shows them. */
#if defined(__x86_64__)
static void wipe_wide_registers(void) {
    if (!__builtin_cpu_supports("avx")) return;
    __asm__ volatile("vzeroall" ::: "xmm0", "xmm1", "xmm2", "xmm3", "xmm4", "xmm5", "xmm6", "xmm7", "xmm8", "xmm9",
                     "xmm10", "xmm11", "xmm12",
                     "xmm13", "xmm14", "xmm15");
    if (!__builtin_cpu_supports("avx512vl")) return;
    /* the whole of zmm16 to zmm31, which no code of plain x86-64 has anything in */
    __asm__ volatile("vpxord %xmm16, %xmm16, %xmm16; vpxord %xmm17, %xmm17, %xmm17; vpxord %xmm18, %xmm18, %xmm18; "
                     "vpxord %xmm19, %xmm19, %xmm19\n\t"
                     "vpxord %xmm20, %xmm20, %xmm20; vpxord %xmm21, %xmm21, %xmm21; vpxord %xmm22, %xmm22, %xmm22; "
                     "vpxord %xmm23, %xmm23, %xmm23\n\t"
                     "vpxord %xmm24, %xmm24, %xmm24; vpxord %xmm25, %xmm25, %xmm25; vpxord %xmm26, %xmm26, %xmm26; "
                     "vpxord %xmm27, %xmm27, %xmm27\n\t"
                     "vpxord %xmm28, %xmm28, %xmm28; vpxord %xmm29, %xmm29, %xmm29; vpxord %xmm30, %xmm30, %xmm30; "
                     "vpxord %xmm31, %xmm31, %xmm31");
}
#else
static void wipe_wide_registers(void) {}
#endif

__attribute__((noinline)) WITHOUT_REGISTERS void snmpsec_inside_wipe_stack(void) {
    char room[SNMPSEC_STACK];
    explicit_bzero(room, sizeof room);
    wipe_wide_registers();
}

__attribute__((noinline)) WITHOUT_REGISTERS void snmpsec_inside_wipe_deep_stack(void) {
    char room[SNMPSEC_DEEP_STACK];
    explicit_bzero(room, sizeof room);
    wipe_wide_registers();
}

__attribute__((noinline)) WITHOUT_REGISTERS void snmpsec_inside_wipe_free_stack(void) {
    char room[SNMPSEC_FREE_STACK];
    explicit_bzero(room, sizeof room);
    wipe_wide_registers();
}
