/* Bytes copied, set and compared: LLVM calls these by the names below, on a target without a C library too. Weak, so that a
 * firmware's own may take their place. */
#include <stddef.h>
#define WEAK __attribute__((weak))

WEAK void *memcpy(void *to, const void *from, size_t n) {
    unsigned char *t = to;
    const unsigned char *f = from;
    while (n--) *t++ = *f++;
    return to;
}

/* The two may overlap: from the end where the target lies behind. */
WEAK void *memmove(void *to, const void *from, size_t n) {
    unsigned char *t = to;
    const unsigned char *f = from;
    if (t < f) while (n--) *t++ = *f++;
    else while (n--) t[n] = f[n];
    return to;
}

WEAK void *memset(void *to, int byte, size_t n) {
    unsigned char *t = to;
    while (n--) *t++ = (unsigned char)byte;
    return to;
}

WEAK int memcmp(const void *a, const void *b, size_t n) {
    const unsigned char *x = a, *y = b;
    for (; n--; x++, y++) if (*x != *y) return *x - *y;
    return 0;
}

WEAK int bcmp(const void *a, const void *b, size_t n) { return memcmp(a, b, n); }

#if defined(__arm__)
/* ARM's names, with the alignment of the places; memset with its operands in another order. */
#define COPY(name, does) WEAK void name(void *to, const void *from, size_t n) { does(to, from, n); }
COPY(__aeabi_memcpy, memcpy)
COPY(__aeabi_memcpy4, memcpy)
COPY(__aeabi_memcpy8, memcpy)
COPY(__aeabi_memmove, memmove)
COPY(__aeabi_memmove4, memmove)
COPY(__aeabi_memmove8, memmove)
#define SET(name) WEAK void name(void *to, size_t n, int byte) { memset(to, byte, n); }
SET(__aeabi_memset)
SET(__aeabi_memset4)
SET(__aeabi_memset8)
#define CLEAR(name) WEAK void name(void *to, size_t n) { memset(to, 0, n); }
CLEAR(__aeabi_memclr)
CLEAR(__aeabi_memclr4)
CLEAR(__aeabi_memclr8)
#endif
