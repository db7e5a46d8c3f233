/* The page-script engine: four calls on lent bytes. C99 and C++.
 *
 * A tree file is lowered into a program buffer; a state buffer is started for that program; runs take steps of it; the names that
 * a run leaves behind are the page. docs/FORMATS.md has the formats. All numbers in buffers are big-endian. sif_read.h reads
 * texts, values and reports, and examples/page.c is a whole caller.
 *
 *   uint64_t no = sif_lower(file, file_len, program, SIF_PROGRAM_SIZE);
 *   if (no == 0) no = sif_start(program, SIF_PROGRAM_SIZE, state, SIF_STATE_SIZE);
 *   if (no == 0) no = sif_run(program, SIF_PROGRAM_SIZE, state, SIF_STATE_SIZE, 5000, report, SIF_REPORT_SIZE);
 *   if (no == 0) no = sif_read_name(state, SIF_STATE_SIZE, text, value, SIF_VALUE_SIZE);
 *
 * To link, with the library that `make install` brings; or in the repository, with the one that `install/build engine` makes. They
 * are the same. It calls no other library, C's neither:
 *
 *   cc -std=c99 -O2 -o page examples/page.c $(pkg-config --cflags --libs sif)
 *   cc -std=c99 -O2 -I include -o page examples/page.c target/staticlib/libengine.a
 *
 * What holds of every call:
 * - It answers 0, or the number of a refusal (below). After 8, 9 and 10 nothing is written.
 * - Lengths are the lengths of the lent buffers, 64 bits wide on every target. A buffer longer than its size is left as it is
 *   beyond that size; a shorter one is refused with 9.
 * - Pointers are not null, but for a buffer of length 0: a file is then refused with 1, any other buffer with 9.
 * - Buffers may lie at any address: no alignment is asked for.
 * - Two buffers lent to one call must not overlap.
 * - Nothing else is written or kept: no heap, no writable global data, no file. Every call ends: lower by the size of its file, run by the
 *   steps given.
 * - A file may have any length. One longer than SIF_FILE_LONGEST is always refused, so SIF_FILE_LONGEST + 1 bytes of room receive
 *   any file: one that fills them is refused, whether or not more bytes followed.
 * - Time: before its first step sif_run checks the whole program and the whole state, and plans the program. On the pages measured
 *   that takes as long as some 600 steps, on x86-64 and on a Cortex-M7. So give a call 5,000 steps or more: in portions of 500
 *   the heaviest page took 2.4 times as long as in one call on x86-64, and 2.4 times as many instructions on a Cortex-M7.
 *   sif_read_name checks the whole state, too: read a page from the state itself (SIF_STATE_NAMES).
 * - Saving: programs and states are plain bytes, without pointers. Copies that were made between calls may be lent in their place
 *   at any time, at any address, also after the power was off and on another processor. The first 34,948 bytes of a program and
 *   the first 47,360 of a state are enough: the bytes behind may be any, but the lengths lent are the whole sizes. A call
 *   that was cut off leaves the buffers that it writes half written: go on from copies. 8 and 10 tell bytes that are no program
 *   and no state at all; they do not tell a state of another program, nor bytes that changed into others that are allowed. So
 *   keep program and state together, with SIF_VERSION and a checksum.
 * - After an update: programs lowered before document 02's M-100, M-103 or M-104 are accepted and run as they did, but for M-103's
 *   rule: a step whose index is a fraction, negative, a NaN, infinite, or 2^64 or more stops with 38, unless a 27 of that step
 *   comes first, in states started before as well. A state goes on with the program that it was started for; a script that is
 *   lowered again is started again. Tree files queued before M-104 are read by its rule: one with a NaN or an infinity as a number
 *   is refused with 39, and is sent again by the desktop.
 * - Threads: calls on different buffers may run at the same time. A program that nobody writes may be lent to several calls at
 *   once, and a state that nobody writes to several sif_read_name; a state that is started or run is lent to that one call alone.
 * - Stack, for every file, program and state, as compare/stack and cross/stack read it from the object code.
 *   On x86-64: sif_lower under 22 KB, sif_run under 5 KB, sif_start under 3 KB, sif_read_name under 1 KB.
 *   On a Cortex-M7: sif_lower under 22 KB, sif_run under 5 KB, sif_start under 3 KB, sif_read_name under 1 KB, at -O3 and at -Os.
 *   docs/TARGETS.md has the other processors. */
#ifndef SIF_H
#define SIF_H

#include <stdint.h>

#ifdef __cplusplus
extern "C" {
#endif

/* The version of this header and of the library beside it; the library does not tell its own, so take both from one place. It
 * grows by 1 with each change that a caller can see: what a call answers to the same bytes, further refusals, stops, calls and
 * sizes. docs/FORMATS.md, "After an update", says for each change what becomes of files, programs and states from before. */
#define SIF_VERSION 1

/* Sizes of the lent buffers, in bytes. */
#define SIF_PROGRAM_SIZE 40960
#define SIF_STATE_SIZE 65536
#define SIF_REPORT_SIZE 48
#define SIF_VALUE_SIZE 256

/* A tree file has at most so many texts, and no accepted file is longer. */
#define SIF_TEXTS 64
#define SIF_FILE_LONGEST 12867

/* Refusals: the number that a call answers. */
enum {
    SIF_OK = 0,
    SIF_FILE_CUT = 1,           /* the file is under 3 bytes, its contents are cut off, or its bodies do not end with it */
    SIF_FILE_COUNTS = 2,        /* node count outside 1 to 1,024 or text count outside 1 to 64 */
    SIF_FILE_TEXTS = 3,         /* a text over 40 bytes, with a byte outside 32 to 126, out of order, or not fortmp where it must be */
    SIF_FILE_STRUCTURE = 4,     /* unknown kind, a node where it may not stand, wrong child counts, too deep, too many items, a key twice */
    SIF_FILE_NUMBERS = 5,       /* a text number not below the text count, or an unknown operator */
    SIF_NO_REGISTER = 6,        /* an operand without a register before it */
    SIF_SCRIPT_TOO_LARGE = 7,   /* more than 96 registers or 1,024 instructions */
    SIF_PROGRAM_REFUSED = 8,    /* the program buffer is not a program; sif_read_name: a text number over 63 */
    SIF_BUFFER_TOO_SHORT = 9,   /* a lent buffer is shorter than its size */
    SIF_STATE_REFUSED = 10,     /* the state buffer is not a state, or its count with the steps given would pass 2^64 - 1 */
    SIF_NUMBER_NOT_FINITE = 39  /* a NaN or an infinity as a number of the file; checked with 5: the first node at fault decides */
};

/* How a run ended: byte 0 of its report. */
enum {
    SIF_DONE = 0,               /* the program's end is reached */
    SIF_STOPPED = 1,            /* at an error: its number, line and details are in the report */
    SIF_SPENT = 2               /* all given steps were taken, and the program goes on */
};

/* Stops, 20 to 36 and 38: byte 1 of a report. A stopped step changes nothing, is not counted, and comes again if run again. */
enum {
    SIF_INVALID_NAME = 20,          /* a name that is not set; detail: text */
    SIF_INVALID_INCR = 21,          /* nothing to increment */
    SIF_INVALID_INCR_TY = 22,       /* not a number to increment */
    SIF_INVALID_DECR = 23,          /* nothing to decrement */
    SIF_INVALID_DECR_TY = 24,       /* not a number to decrement */
    SIF_INVALID_JUMP = 25,          /* a label that is not there */
    SIF_REG_NO_CONTENTS = 26,       /* an empty register; detail: register */
    SIF_TY_MISMATCH = 27,           /* an operator, a condition or an index: a value of the wrong kind, or an empty register */
    SIF_NOT_AN_ARRAY = 28,          /* detail: text */
    SIF_INVALID_FN_SYM = 29,        /* a function that is not declared; detail: text */
    SIF_EMPTY_CALL_STACK = 30,      /* a return outside a call */
    SIF_INDEX_OUT_OF_BOUNDS = 31,   /* details: text, index (at most 18446744073709549568), length */
    SIF_EMPTY_REGISTER = 32,        /* an empty register pushed or put into a table */
    SIF_KEY_ABSENT = 33,            /* a key that the table does not have */
    SIF_NESTED = 34,                /* an array or table put inside another */
    SIF_STACK_FULL = 35,            /* over 24 values or 24 calls */
    SIF_TABLE_FULL = 36,            /* a 17th key */
    SIF_NO_INDEX = 38               /* no index: a fraction, negative, a NaN, infinite, 2^64 or more; after every 27, before 20 */
};

/* A report, 48 bytes. */
enum {
    SIF_REPORT_ANSWER = 0,      /* 1 byte: SIF_DONE, SIF_STOPPED, SIF_SPENT */
    SIF_REPORT_STOP = 1,        /* 1 byte: the stop's number, else 0 */
    SIF_REPORT_LINE = 8,        /* 8 bytes, signed: the stop's line, else 0 */
    SIF_REPORT_DETAILS = 16,    /* 3 of 8 bytes: the stop's details, else 0 */
    SIF_REPORT_STEPS = 40       /* 8 bytes: steps taken in this run */
};

/* A state, 65,536 bytes. After a sif_start or sif_run that answered 0, and until it is written again, it holds each name's value
 * where this says: the very bytes that sif_read_name gives. */
enum {
    SIF_STATE_NAMES = 24576     /* 64 of 256 bytes: the value of each text's name, in the order of the texts */
};

/* A value, 256 bytes; bytes that a value does not use are zero. */
enum {
    SIF_VALUE_KIND = 0,         /* 1 byte, below */
    SIF_VALUE_LENGTH = 1,       /* 1 byte: items of an array, keys of a table */
    SIF_VALUE_NUMBER = 8,       /* 8 bytes: a single value's number */
    SIF_VALUE_ITEM_KINDS = 16,  /* 24 of 1 byte */
    SIF_VALUE_ITEMS = 40,       /* 24 of 8 bytes: the items' numbers */
    SIF_VALUE_KEYS = 232        /* 16 of 1 byte: a table's keys, text numbers, ascending */
};

/* Kinds of value. Items are of kinds 1 to 4. */
enum {
    SIF_UNSET = 0,              /* the name holds nothing */
    SIF_NUM = 1,                /* number: binary64; every NaN is 7ff8000000000000 */
    SIF_STR = 2,                /* number: a text number */
    SIF_BL = 3,                 /* number: 0 or 1 */
    SIF_NULL = 4,               /* number: 0 */
    SIF_ARR = 5,
    SIF_TAB = 6
};

/* Lowers a tree file into a program. Answers 0, or 9; 1 to 5 or 39; 6 or 7. After 1 to 7 and 39 the program buffer's first 40,960
 * bytes are zero. */
uint64_t sif_lower(const uint8_t *file, uint64_t file_len, uint8_t *program, uint64_t program_len);

/* Makes a fresh state for a program: no name set, count 0, at the code start. Answers 0, or 9, 8. */
uint64_t sif_start(const uint8_t *program, uint64_t program_len, uint8_t *state, uint64_t state_len);

/* Takes up to so many steps and writes a report. Answers 0, or 9, 8, 10. */
uint64_t sif_run(const uint8_t *program, uint64_t program_len, uint8_t *state, uint64_t state_len, uint64_t steps, uint8_t *report,
                 uint64_t report_len);

/* Reads the value of the name that is such a text; an unset name is 256 zeros. Answers 0, or 9, 8 (text over 63), 10. */
uint64_t sif_read_name(const uint8_t *state, uint64_t state_len, uint64_t text, uint8_t *out, uint64_t out_len);

#ifdef __cplusplus
}
#endif

#endif
