/* As stdint.h. */
#ifndef CROSS_STDDEF_H
#define CROSS_STDDEF_H
typedef __SIZE_TYPE__ size_t;
#endif
