/* A program (replay.c, painted.c) on i386 under Linux, without a C library: system calls 4 (write) and 1 (exit). */
int work(void);

static long call(long number, long a, long b, long c) {
    long answer;
    __asm__ volatile("int $0x80" : "=a"(answer) : "a"(number), "b"(a), "c"(b), "d"(c) : "memory");
    return answer;
}

void put(char c) { call(4, 1, (long)&c, 1); }

__attribute__((used)) static void go(void) {
    for (int status = work();;) call(1, status, 0, 0);
}

__asm__(".globl _start\n"
        "_start:\n"
        "andl $-16, %esp\n"
        "call go\n");
