/* A program (replay.c, painted.c) on a processor without a system: its start, and what it says to the emulator by semihosting. */
#include <stdint.h>

int work(void);

static void ask(uintptr_t operation, const void *argument) {
#if defined(__arm__)
    register uintptr_t a __asm__("r0") = operation;
    register const void *b __asm__("r1") = argument;
    __asm__ volatile("bkpt 0xab" : "+r"(a) : "r"(b) : "memory");
#elif defined(__aarch64__)
    register uintptr_t a __asm__("x0") = operation;
    register const void *b __asm__("x1") = argument;
    __asm__ volatile("hlt 0xf000" : "+r"(a) : "r"(b) : "memory");
#else
    register uintptr_t a __asm__("a0") = operation;
    register const void *b __asm__("a1") = argument;
    __asm__ volatile(".balign 16\n"
                     ".option push\n"
                     ".option norvc\n"
                     "slli zero, zero, 0x1f\n"
                     "ebreak\n"
                     "srai zero, zero, 7\n"
                     ".option pop" : "+r"(a) : "r"(b) : "memory");
#endif
}

void put(char c) { ask(3, &c); }

/* SYS_EXIT_EXTENDED: the reason "the application ended", and the status */
static void quit(int status) {
    uintptr_t how[2] = {0x20026, (uintptr_t)status};
    for (;;) ask(0x20, how);
}

#if defined(__arm__)
/* what a fault comes to */
static void fault(void) { quit(3); }

void start(void) {
    *(volatile uint32_t *)0xe000ed88 |= (uint32_t)0xf << 20; /* floating point on: coprocessors 10 and 11 */
    __asm__ volatile("dsb\nisb");
    quit(work());
}

extern char stack_top[];
__attribute__((section(".start"), used)) static const void *const vectors[8] = {
    stack_top, (void *)start, (void *)fault, (void *)fault, (void *)fault, (void *)fault, (void *)fault, (void *)fault};
#else
__attribute__((used)) static void go(void) { quit(work()); }
__attribute__((used)) static void fault(void) { quit(3); }
#if defined(__aarch64__)
__asm__(".section .start, \"ax\"\n"
        ".globl _start\n"
        "_start:\n"
        "ldr x0, =stack_top\n"
        "mov sp, x0\n"
        "mov x0, #(3 << 20)\n" /* floating point on */
        "msr cpacr_el1, x0\n"
        "adr x0, vectors\n"
        "msr vbar_el1, x0\n"
        "isb\n"
        "bl go\n"
        ".balign 2048\n"
        "vectors:\n"
        ".rept 16\n"
        "b fault\n"
        ".balign 128\n"
        ".endr\n");
#else
__asm__(".section .start, \"ax\"\n"
        ".globl _start\n"
        "_start:\n"
        "la sp, stack_top\n"
        "la t0, trap\n"
        "csrw mtvec, t0\n"
        "li t0, 0x6000\n" /* floating point on */
        "csrs mstatus, t0\n"
        "call go\n"
        ".balign 4\n"
        "trap:\n"
        "call fault\n");
#endif
#endif
