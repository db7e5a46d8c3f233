/* The toolchain's clang comes without headers: what is needed of this one, by the compiler's own words. */
#ifndef CROSS_STDINT_H
#define CROSS_STDINT_H
typedef __UINT8_TYPE__ uint8_t;
typedef __UINT32_TYPE__ uint32_t;
typedef __UINT64_TYPE__ uint64_t;
typedef __UINTPTR_TYPE__ uintptr_t;
#endif
