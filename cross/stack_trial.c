/* Trials of compare/stack, by TRIAL: a function that takes much stack, and ones that may not be judged. */
#include <stdint.h>
#define NOINLINE __attribute__((noinline))
void elsewhere(uint8_t *at);

#if TRIAL == 1 || TRIAL == 2
/* 5,000 bytes, in a function that is called (1), or that is jumped to (2) */
static NOINLINE void large(void) {
    uint8_t at[5000];
    elsewhere(at);
}
void sif_lower(uint8_t *at) {
    if (TRIAL == 2) elsewhere(at);
    large();
    if (TRIAL == 1) elsewhere(at);
}
#elif TRIAL == 3
/* 200 bytes at each level of a recursion that is bounded by the tree's depth */
static void expr(uint8_t *at, int more) __asm__("expr::expr");
static NOINLINE void expr(uint8_t *at, int more) {
    uint8_t own[200];
    elsewhere(own);
    if (more) expr(own, more - 1);
    elsewhere(at);
}
void sif_lower(uint8_t *at) { expr(at, 30); }
#elif TRIAL == 4
/* the same, bounded by nothing that is known */
void sif_lower(uint8_t *at) {
    uint8_t own[200];
    elsewhere(own);
    if (*own) sif_lower(own);
    elsewhere(at);
}
#elif TRIAL == 5
/* a call of a function that is not named */
extern void (*volatile by)(uint8_t *at);
void sif_lower(uint8_t *at) {
    by(at);
    elsewhere(at);
}
#elif TRIAL == 6
/* a frame whose size is not known */
void sif_lower(uint8_t *at) {
    uint8_t own[1 + *at];
    elsewhere(own);
    elsewhere(at);
}
#endif
