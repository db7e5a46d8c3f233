/* How deep the stack gets: before each call the stack below it is painted, and after it the lowest byte that is no longer as painted
 * is looked for. sif_lower is given files of the shapes that nest deepest: chains of 24 to 33 levels of every kind of statement,
 * right side and expression, accepted ones, ones that are refused for their structure (4) or for want of a register (6), and ones
 * that are too large (7). All four calls are given the stored files and programs. Printed is the most that each call took, with its
 * return address where the processor puts that on the stack. */
#include "stored.h"

/* ---- a call on painted stack */

#define NOINLINE __attribute__((noinline))
#define ROOM 1024 /* what lies between the caller and the call: the frames of paint and scan have to fit in */
/* Where a call begins. Where it pushes its return address, and on wasm32: at the lowest byte that a function writes which takes no
 * stack of its own. Elsewhere at the stack pointer, which does not move before a call. */
#if defined(__x86_64__) || defined(__i386__)
#define RETURN_ADDRESS sizeof(void *)
#else
#define RETURN_ADDRESS 0
#endif
#if defined(__arm__) || defined(__aarch64__)
#define POINTER "mov %0, sp"
#elif defined(__riscv)
#define POINTER "mv %0, sp"
#endif

enum { LOWER, START, RUN, READ_NAME, CALLS };
static const char *const names[CALLS] = {"sif_lower", "sif_start", "sif_run", "sif_read_name"};
static const uint32_t painted[CALLS] = {65536, 16384, 16384, 16384}; /* bytes below the caller */

typedef struct {
    uint64_t (*lower)(const uint8_t *, uint64_t, uint8_t *, uint64_t);
    uint64_t (*start)(const uint8_t *, uint64_t, uint8_t *, uint64_t);
    uint64_t (*run)(const uint8_t *, uint64_t, uint8_t *, uint64_t, uint64_t, uint8_t *, uint64_t);
    uint64_t (*read_name)(const uint8_t *, uint64_t, uint64_t, uint8_t *, uint64_t);
} Calls;

#ifndef POINTER
/* functions of the same types that take no stack but for the return address */
static NOINLINE uint64_t no_lower(const uint8_t *a, uint64_t b, uint8_t *c, uint64_t d) { return (void)a, (void)b, (void)c, (void)d, 0; }
static NOINLINE uint64_t no_run(const uint8_t *a, uint64_t b, uint8_t *c, uint64_t d, uint64_t e, uint8_t *f, uint64_t g) {
    return (void)a, (void)b, (void)c, (void)d, (void)e, (void)f, (void)g, 0;
}
static NOINLINE uint64_t no_read_name(const uint8_t *a, uint64_t b, uint64_t c, uint8_t *d, uint64_t e) {
    return (void)a, (void)b, (void)c, (void)d, (void)e, 0;
}

static const Calls none = {no_lower, no_lower, no_run, no_read_name};
#endif
static const Calls engine = {sif_lower, sif_start, sif_run, sif_read_name};
static const Calls *volatile by;
static const uint8_t *file_at;
static uint32_t file_bytes;
static uint64_t number_given; /* steps, or the text */
static volatile uint32_t lowest;
static uintptr_t top; /* what lies below is painted */
#ifdef POINTER
static uintptr_t pointer;
#endif

static NOINLINE uint64_t call(int which) {
    volatile uint8_t room[ROOM];
    const Calls *c = by;
    uint64_t no;
    room[lowest] = 0; /* a place that the compiler does not know, so that all the room is there */
#ifdef POINTER
    __asm__ volatile(POINTER : "=r"(pointer));
#endif
    switch (which) {
    case LOWER: no = c->lower(file_at, file_bytes, program, sizeof program); break;
    case START: no = c->start(program, sizeof program, state, sizeof state); break;
    case RUN: no = c->run(program, sizeof program, state, sizeof state, number_given, report, sizeof report); break;
    default: no = c->read_name(state, sizeof state, number_given, value, sizeof value);
    }
    return no + room[lowest];
}

static uint32_t turned; /* 0, or every bit: two colours that have no byte in common at any place */

static uint32_t colour(uintptr_t at) { return ((uint32_t)at * 2654435761u + 0x5bd1e995u) ^ turned; }

static NOINLINE void paint(uint32_t bytes) {
    for (uintptr_t at = top - bytes; at < top; at += 4) *(volatile uint32_t *)at = colour(at);
}

/* how far below top the stack was written */
static NOINLINE uint32_t scan(uint32_t bytes) {
    uintptr_t at = top - bytes;
    while (at < top && *(volatile uint32_t *)at == colour(at)) at += 4;
    /* the word's lowest byte that is another; the order of a word's bytes is the same for both */
    uint32_t is = *(volatile uint32_t *)at ^ colour(at);
    while (at < top && (is & 0xff) == 0) at++, is >>= 8;
    return (uint32_t)(top - at);
}

static uint32_t most[CALLS];

static NOINLINE uint32_t depth(int which, uint64_t *no) {
    volatile uint8_t here = 0;
    top = ((uintptr_t)&here - ROOM / 2) & ~(uintptr_t)15;
    paint(painted[which]);
    *no = call(which);
    return scan(painted[which]);
}

/* what a call answers; how much it took */
static uint64_t measured(int which) {
    uint64_t no;
#ifndef POINTER
    /* on both colours: what is written may be as painted by chance, and what is taken off must not be too little */
    by = &none;
    uint32_t without = depth(which, &no);
    turned = ~turned;
    uint32_t again = depth(which, &no);
    turned = ~turned;
    if (again > without) without = again;
#endif
    by = &engine;
    uint32_t with = depth(which, &no);
#ifdef POINTER
    uint32_t without = (uint32_t)(top - pointer);
#endif
    uint32_t took = with - without + RETURN_ADDRESS;
    if (without == 0 || with >= painted[which]) took = painted[which]; /* not within the painted bytes */
    if (took > most[which]) most[which] = took;
    return no;
}

static void run_all(uint64_t steps) {
    clear(state, sizeof state);
    if (measured(START)) return;
    number_given = steps;
    measured(RUN);
    for (number_given = 0; number_given < SIF_TEXTS; number_given += 40) measured(READ_NAME);
}

/* ---- the stored records */

static void stored_file(const uint8_t *given, uint32_t length) {
    file_at = given;
    file_bytes = length;
    if (measured(LOWER) == 0) run_all(100000);
}

static void stored_program(const uint8_t *given, uint32_t length) {
    put_program(given, length);
    run_all(number(given, 8));
}

static uint32_t stored(const uint8_t *at, uint32_t bytes, void (*one)(const uint8_t *, uint32_t)) {
    uint32_t count = 0;
    for (const uint8_t *to = at + bytes; at < to; count++) {
        one(at + 4, (uint32_t)number(at, 4));
        at = sum_of(at) + 8;
    }
    return count;
}

/* ---- generated files: a chain of steps from the root to a leaf, each a node or some that stand around the next (docs/FORMATS.md) */

enum {
    /* around a statement */
    BLOCK, BLOCK3, THEN, THEN_ELIF, ELIF, ELSE, ELSE_ELIF, FOR, FN, STATEMENTS,
    /* a statement around an expression, or a right side */
    EXPR_STMT = STATEMENTS, VAR_DECL, RETURN, CONDITION, ELIF_CONDITION, FOR_CALL, TURNS,
    /* around an expression */
    ASSIGN = TURNS, LEFT, RIGHT, UNARY, INDEX, VALUE, CALL1, CALL2, TABLE, ACCESS, EXPRESSIONS,
    /* the last: a leaf */
    NUM = EXPRESSIONS, TEXT, NAME, TRUTH, ARRAY, STEPS
};
/* how many levels of the tree a step is */
static const uint8_t levels[STEPS] = {1, 1, 2, 2, 3, 1, 1, 2, 2, 1, 1, 1, 1, 2, 2, 1, 1, 1, 1, 1, 1, 1, 1, 3, 2, 1, 1, 1, 1, 3};

static uint8_t entries[2 * 1024], bodies[9 * 1024], file[16384];
static uint32_t nodes, body_bytes;
static uint8_t chain[40];
static int length;

static void node(int kind, int children) {
    entries[2 * nodes] = (uint8_t)kind;
    entries[2 * nodes++ + 1] = (uint8_t)children;
}
static void body(int byte) { bodies[body_bytes++] = (uint8_t)byte; }
static void leaf(int kind) {
    node(kind, 0);
    if (kind == 19) for (int i = 0; i < 8; i++) body(i == 0 ? 0x40 : 0);
    else if (kind < 22) body(1 + (int)(nodes & 3));
}
static void statement(void) { node(7, 1), leaf(19); }
static void condition(void) { leaf(21); }
static void empty(void) { node(2, 0); }
static void elif(void) { node(4, 2), condition(), empty(); }

static void build(int i) {
    int next = i + 1;
    switch (chain[i]) {
    case BLOCK: node(2, 1), build(next); break;
    case BLOCK3: node(2, 3), statement(), build(next), statement(); break;
    case THEN: node(3, 2), body(0), condition(), node(2, 1), build(next); break;
    case THEN_ELIF: node(3, 4), body(1), condition(), node(2, 1), build(next), elif(), statement(); break;
    case ELIF: node(3, 4), body(2), condition(), empty(), node(4, 2), condition(), node(2, 1), build(next), elif(); break;
    case ELSE: node(3, 3), body(0), condition(), empty(), build(next); break;
    case ELSE_ELIF: node(3, 4), body(1), condition(), empty(), elif(), build(next); break;
    case FOR: node(5, 2), body(1), body(2), leaf(21), node(2, 1), build(next); break;
    case FN: node(9, 2), body(3), leaf(21), node(2, 1), build(next); break;
    case EXPR_STMT: node(7, 1), build(next); break;
    case VAR_DECL: node(8, 1), body(1), build(next); break;
    case RETURN: node(6, 1), build(next); break;
    case CONDITION: node(3, 2), body(0), build(next), empty(); break;
    case ELIF_CONDITION: node(3, 3), body(1), condition(), empty(), node(4, 2), build(next), empty(); break;
    case FOR_CALL: node(5, 2), body(1), body(2), node(15, 1), body(3), build(next), empty(); break;
    case ASSIGN: node(16, 1), body(2), build(next); break;
    case LEFT: node(17, 2), body(1), build(next), leaf(19); break;
    case RIGHT: node(17, 2), body(3), leaf(19), build(next); break;
    case UNARY: node(18, 1), body(2), build(next); break;
    case INDEX: node(14, 2), body(1), build(next), leaf(19); break;
    case VALUE: node(14, 2), body(1), leaf(19), build(next); break;
    case CALL1: node(15, 1), body(3), build(next); break;
    case CALL2: node(15, 2), body(3), leaf(19), build(next); break;
    case TABLE: node(16, 1), body(2), node(10, 1), node(11, 1), body(4), build(next); break;
    case ACCESS: node(16, 1), body(2), node(13, 1), body(1), build(next); break;
    case NUM: leaf(19); break;
    case TEXT: leaf(20); break;
    case NAME: leaf(21); break;
    case TRUTH: leaf(22); break;
    case ARRAY: node(16, 1), body(2), node(12, 2), body(2), leaf(19), leaf(23);
    }
}

static uint32_t files, answered[64];

/* the chain, with so many statements before it and behind it; a function first, or none */
static void lower_chain(int before, int behind, int function) {
    static const char texts[] = "fortmpabcde";
    uint32_t n = 0;
    nodes = body_bytes = 0;
    node(1, function + before + 1 + behind);
    if (function) node(9, 1), body(3), empty();
    while (before--) statement();
    build(0);
    while (behind--) statement();
    file[n++] = (uint8_t)(nodes >> 8);
    file[n++] = (uint8_t)nodes;
    file[n++] = 6;
    file[n++] = 6;
    for (int i = 1; i < 6; i++) file[n++] = 1;
    for (uint32_t i = 0; i < 2 * nodes; i++) file[n++] = entries[i];
    for (const char *t = texts; *t; t++) file[n++] = (uint8_t)*t;
    for (uint32_t i = 0; i < body_bytes; i++) file[n++] = bodies[i];
    file_at = file;
    file_bytes = n;
    files++;
    uint64_t no = measured(LOWER);
    if (no < 64) answered[no]++;
}

static int deep;
static void begin(void) { length = 0, deep = 1; }
static void step(int is) { chain[length++] = (uint8_t)is, deep += levels[is]; }

/* steps of a pattern, one after the other, until the chain is so deep */
static void pattern(const int *of, int count, int to) { for (int i = 0; deep < to && length < 38; i = (i + 1) % count) step(of[i]); }

static uint32_t seed = 1;
static int below(int n) {
    seed ^= seed << 13;
    seed ^= seed >> 17;
    seed ^= seed << 5;
    return (int)(seed % (uint32_t)n);
}

/* what stands before and behind: mostly nothing; now and then 97 registers' worth of statements, too many */
static void lower_variant(int which) { lower_chain(which % 4 == 2 ? 97 : 0, which % 4 == 3 ? 97 : 0, which % 8 >= 4); }

static void generated(void) {
    int two[3];
    /* statements in one another, by twos, down to each depth */
    for (two[0] = 0; two[0] < STATEMENTS; two[0]++)
        for (two[1] = 0; two[1] < STATEMENTS; two[1]++)
            for (int to = 24; to <= 33; to++) {
                begin();
                pattern(two, 2, to - 2);
                step(EXPR_STMT), step(NUM);
                lower_variant(to % 2 ? 0 : (two[0] + to / 2) % 8);
            }
    /* expressions in one another, by twos, below each kind of statement that holds one */
    for (int turn = STATEMENTS; turn < TURNS; turn++)
        for (two[0] = TURNS; two[0] < EXPRESSIONS; two[0]++)
            for (two[1] = TURNS; two[1] < EXPRESSIONS; two[1]++)
                for (int to = 24; to <= 33; to++) {
                    begin();
                    step(turn);
                    pattern(two, 2, to - 1);
                    step(two[1] == ASSIGN ? TEXT : NUM);
                    lower_variant(to % 2 ? 0 : (two[0] + to / 2) % 8);
                }
    /* both, by seed: patterns of one to three steps, then any leaf */
    for (int i = 0; i < 14000; i++) {
        int three[3], to = i % 4 ? 32 : 24 + below(10);
        begin();
        for (int k = 0; k < 3; k++) three[k] = below(STATEMENTS);
        int period = 1 + below(3);
        pattern(three, period, below(to - 2));
        step(STATEMENTS + below(TURNS - STATEMENTS));
        for (int k = 0; k < 3; k++) three[k] = TURNS + below(EXPRESSIONS - TURNS);
        period = 1 + below(3);
        pattern(three, period, to - 1);
        step(EXPRESSIONS + below(STEPS - EXPRESSIONS));
        lower_variant(i % 3 ? 0 : below(8));
    }
}

/* on wasm32 a call may have all that it needs outside of the painted memory: cross/depths then holds it to a bound of 0 */
#ifdef __wasm__
#define LEAST 0
#else
#define LEAST (RETURN_ADDRESS + 1)
#endif

static void said(const char *what, uint32_t n) { say(what), say_number(n); }

int work(void) {
    generated();
    uint32_t others = files - answered[0] - answered[4] - answered[6] - answered[7];
    said("generated files: ", files);
    said(", accepted ", answered[0]);
    said(", refused with 4 ", answered[4]);
    said(", with 6 ", answered[6]);
    said(", with 7 ", answered[7]);
    said("\nstored files: ", stored(cases, cases_length, stored_file));
    said(", stored programs: ", stored(programs, programs_length, stored_program));
    say("\n");
    for (int i = 0; i < CALLS; i++) say(names[i]), said(" ", most[i] < painted[i] ? most[i] : 0), say("\n");
    /* files of each kind and of no other, and a depth for each call that the painted bytes can tell */
    int wrong = others != 0 || answered[0] == 0 || answered[4] == 0 || answered[6] == 0 || answered[7] == 0;
    for (int i = 0; i < CALLS; i++) wrong |= most[i] < LEAST || most[i] >= painted[i];
    return wrong;
}
