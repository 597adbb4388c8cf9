/* Runs a call on a stack of its own that is painted before, so that a test sees how deep the call went and what it left there. */
#ifndef DOOR_LINK_PAINTED_H
#define DOOR_LINK_PAINTED_H

#include <stddef.h>
#include <stdint.h>
#include <string.h>

enum { PAINTED_BYTES = 65536 };

static _Alignas(16) uint8_t painted_stack[PAINTED_BYTES];

/* Paints the stack and runs the call on it. The call takes and gives nothing, and the stack is left as the call left it. */
static void run_painted(void (*call)(void), uint8_t paint) {
    memset(painted_stack, paint, sizeof painted_stack);
    __asm__ volatile("movq %%rsp, %%rbx\n\tmovq %[top], %%rsp\n\tcall *%[call]\n\tmovq %%rbx, %%rsp"
                     :
                     : [top] "r"(painted_stack + sizeof painted_stack), [call] "r"(call)
                     : "rax", "rbx", "rcx", "rdx", "rsi", "rdi", "r8", "r9", "r10", "r11", "xmm0", "xmm1", "xmm2", "xmm3", "xmm4", "xmm5", "xmm6", "xmm7",
                       "xmm8", "xmm9", "xmm10", "xmm11", "xmm12", "xmm13", "xmm14", "xmm15", "cc", "memory");
}

/* How deep the last run went: from the stack's top to the lowest eight bytes that are not as they were painted. */
static inline size_t painted_depth(uint8_t paint) {
    uint64_t all, here;
    size_t untouched = 0;
    memset(&all, paint, sizeof all);
    for (; untouched < sizeof painted_stack; untouched += sizeof here) {
        memcpy(&here, painted_stack + untouched, sizeof here);
        if (here != all) break;
    }
    return sizeof painted_stack - untouched;
}

#endif
