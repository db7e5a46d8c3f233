/* What replay.c and painted.c have in common: the buffers of the four calls, words to the platform, the stored records
 * (cases/README.md). Freestanding: the platform gives put() and calls work(), which answers 0 if all is right. */
#include <stdint.h>
#include "sif.h"

/* data.c */
extern const uint8_t cases[], programs[];
extern const uint32_t cases_length, programs_length;
void put(char c);

static uint8_t program[SIF_PROGRAM_SIZE], state[SIF_STATE_SIZE], report[SIF_REPORT_SIZE], value[SIF_VALUE_SIZE];

static void say(const char *s) { while (*s) put(*s++); }

static void say_number(uint32_t n) {
    char digits[11];
    int i = 10;
    digits[10] = 0;
    do digits[--i] = (char)('0' + n % 10);
    while (n /= 10);
    say(digits + i);
}

static void clear(uint8_t *at, uint32_t bytes) { while (bytes--) *at++ = 0; }

/* a number of so many bytes, big-endian */
static uint64_t number(const uint8_t *at, int bytes) {
    uint64_t n = 0;
    while (bytes--) n = n << 8 | *at++;
    return n;
}

/* a stored program, by its parts, over zeros; the steps stand before them */
static void put_program(const uint8_t *given, uint32_t length) {
    clear(program, sizeof program);
    for (const uint8_t *part = given + 8; part < given + length;) {
        uint32_t place = (uint32_t)number(part, 2), bytes = (uint32_t)number(part + 2, 2);
        part += 4;
        for (uint32_t i = 0; i < bytes; i++) program[place + i] = part[i];
        part += bytes;
    }
}

/* the checksum of the record at a byte of a list, behind the file or program and the answer in words */
static const uint8_t *sum_of(const uint8_t *record) {
    const uint8_t *words = record + 4 + number(record, 4);
    return words + 4 + number(words, 4);
}
