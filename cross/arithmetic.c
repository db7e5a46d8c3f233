/* 64-bit division, and 64-bit numbers to and from doubles, for targets that have no instruction for them: LLVM calls these by the
 * names below. arithmetic_test.c holds them to a compiler's own results. Weak, so that a firmware's own may take their place. */
#include <stdint.h>
#define WEAK __attribute__((weak))

/* Long division, bit by bit from the top: before each step rest < by, and n's bits above i are quotient * by + rest. So rest is no
 * more than those bits, at most 63 of them, and the shift loses none. by is not 0. */
static uint64_t divide(uint64_t n, uint64_t by, uint64_t *rest_out) {
    uint64_t quotient = 0, rest = 0;
    for (int i = 63; i >= 0; i--) {
        rest = rest << 1 | (n >> i & 1);
        if (rest >= by) {
            rest -= by;
            quotient |= (uint64_t)1 << i;
        }
    }
    *rest_out = rest;
    return quotient;
}

WEAK uint64_t __udivdi3(uint64_t n, uint64_t by) {
    uint64_t rest;
    return divide(n, by, &rest);
}

WEAK uint64_t __umoddi3(uint64_t n, uint64_t by) {
    uint64_t rest;
    divide(n, by, &rest);
    return rest;
}

/* Both halves are exact, and so is the product: the sum rounds once, to nearest. */
static double to_double(uint64_t n) { return (double)(uint32_t)(n >> 32) * 4294967296.0 + (double)(uint32_t)n; }

/* Towards zero, for 0 <= d < 2^64; what else d is, the answer is any number. The quotient by 2^32 is exact; the lower half is what
 * the upper one leaves, exact too. */
static uint64_t from_double(double d) {
    uint32_t upper = (uint32_t)(d / 4294967296.0);
    return (uint64_t)upper << 32 | (uint32_t)(d - (double)upper * 4294967296.0);
}

WEAK double __floatundidf(uint64_t n) { return to_double(n); }
WEAK uint64_t __fixunsdfdi(double d) { return from_double(d); }

#if defined(__arm__)
/* ARM's names. They pass doubles in integer registers, whatever the rest of the code does. */
WEAK __attribute__((pcs("aapcs"))) double __aeabi_ul2d(uint64_t n) { return to_double(n); }
WEAK __attribute__((pcs("aapcs"))) uint64_t __aeabi_d2ulz(double d) { return from_double(d); }

/* The quotient in r0 and r1, the rest in r2 and r3. */
__attribute__((used)) static uint64_t divide_arm(uint64_t n, uint64_t by, uint64_t *rest) { return divide(n, by, rest); }
WEAK __attribute__((naked)) void __aeabi_uldivmod(void) {
    __asm__ volatile("push {r6, lr}\n"
                     "sub sp, #16\n"
                     "add r6, sp, #8\n"
                     "str r6, [sp]\n"
                     "bl divide_arm\n"
                     "ldr r2, [sp, #8]\n"
                     "ldr r3, [sp, #12]\n"
                     "add sp, #16\n"
                     "pop {r6, pc}");
}
#endif
