/* arithmetic.c's functions beside the compiler's own / and %, and its own conversions, on the machine that builds: every two of the
 * borders (around each power of two, and numbers that lie half way between two doubles), then numbers by seed of every length. */
#include <inttypes.h>
#include <stdio.h>

uint64_t __udivdi3(uint64_t n, uint64_t by);
uint64_t __umoddi3(uint64_t n, uint64_t by);
double __floatundidf(uint64_t n);
uint64_t __fixunsdfdi(double d);

static uint64_t seed = 1, tried, wrong;

static uint64_t next(void) {
    seed ^= seed << 13;
    seed ^= seed >> 7;
    return seed ^= seed << 17;
}

static void look(int right, const char *what, uint64_t n, uint64_t by) {
    tried++;
    if (!right && wrong++ < 10) printf("cross: %s of %" PRIu64 " and %" PRIu64 " is wrong\n", what, n, by);
}

static void two(uint64_t n, uint64_t by) {
    if (by == 0) return;
    look(__udivdi3(n, by) == n / by, "the quotient", n, by);
    look(__umoddi3(n, by) == n % by, "the remainder", n, by);
}

/* n as a double; that double, the two beside it and one with a fraction as numbers, where they are below 2^64. */
static void one(uint64_t n) {
    union { double d; uint64_t bits; } is = {__floatundidf(n)}, near;
    look(is.d == (double)n, "the double", n, 0);
    for (uint64_t step = 0; step < 5; step++) {
        near.bits = is.bits + step - 2;
        if (near.d >= 0 && near.d < 18446744073709551616.0)
            look(__fixunsdfdi(near.d) == (uint64_t)near.d, "the number", n, step);
    }
    near.d = is.d / 4096.0;
    look(__fixunsdfdi(near.d) == (uint64_t)near.d, "the number of a fraction", n, 0);
}

int main(void) {
    static uint64_t border[4096];
    unsigned count = 0;
    border[count++] = 0;
    for (int i = 0; i < 64; i++) {
        uint64_t bit = (uint64_t)1 << i;
        for (uint64_t near = 0; near < 7; near++) border[count++] = bit + near - 3;
        /* 53 bits are a double: half way up from the last one, and one to each side of it */
        if (i >= 53) for (uint64_t near = 0; near < 3; near++) {
            border[count++] = bit + (bit >> 53) + near - 1;
            border[count++] = bit + 3 * (bit >> 53) + near - 1;
        }
    }
    for (unsigned i = 0; i < count; i++) {
        one(border[i]);
        for (unsigned k = 0; k < count; k++) two(border[i], border[k]);
    }
    for (int i = 0; i < 500000; i++) {
        uint64_t n = next() >> (next() & 63), by = next() >> (next() & 63);
        two(n, by);
        one(n);
    }
    printf("cross: 64-bit division and conversions: %" PRIu64 " results, %" PRIu64 " wrong\n", tried, wrong);
    return wrong != 0;
}
