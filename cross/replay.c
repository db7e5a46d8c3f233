/* All stored files and programs (cases/README.md) through the four calls: the checksum of all that they leave has to be the one
 * that is stored, made by the original. */
#include "stored.h"

static uint64_t sum;

static void add(uint64_t word) {
    sum += word;
    sum ^= sum << 13;
    sum ^= sum >> 7;
    sum ^= sum << 17;
}

static void add_bytes(const uint8_t *at, uint32_t bytes) { for (uint32_t i = 0; i < bytes; i += 8) add(number(at + i, 8)); }

/* start, run and read_name of every text, on the program that lies in the buffer */
static void run(uint64_t steps) {
    clear(state, sizeof state);
    uint64_t no = sif_start(program, sizeof program, state, sizeof state);
    add(no);
    if (no) return;
    clear(report, sizeof report);
    add(sif_run(program, sizeof program, state, sizeof state, steps, report, sizeof report));
    add_bytes(report, sizeof report);
    add_bytes(state, sizeof state);
    for (uint64_t text = 0; text < SIF_TEXTS; text++) {
        clear(value, sizeof value);
        add(sif_read_name(state, sizeof state, text, value, sizeof value));
        add_bytes(value, sizeof value);
    }
}

static void lower_and_run(const uint8_t *file, uint32_t length) {
    clear(program, sizeof program);
    uint64_t no = sif_lower(file, length, program, sizeof program);
    add(no);
    add_bytes(program, sizeof program);
    if (no == 0) run(100000);
}

static void put_and_run(const uint8_t *given, uint32_t length) {
    put_program(given, length);
    run(number(given, 8));
}

/* the records of a list, one behind the other; answers 1 if one of them is wrong */
static int replay_list(const char *what, const uint8_t *at, uint32_t bytes, void (*one)(const uint8_t *, uint32_t)) {
    const uint8_t *to = at + bytes;
    uint32_t count = 0, right = 0, first = 0;
    while (at < to) {
        const uint8_t *stored = sum_of(at);
        count++;
        sum = 0;
        one(at + 4, (uint32_t)number(at, 4));
        if (sum == number(stored, 8)) right++;
        else if (!first) first = count;
        at = stored + 8;
    }
    say_number(right);
    say(" of ");
    say_number(count);
    say(what);
    if (first) {
        say(", the first that is not: ");
        say_number(first);
    }
    say("\n");
    return right != count || at != to;
}

int work(void) {
    int wrong = replay_list(" files as stored", cases, cases_length, lower_and_run);
    return replay_list(" programs as stored", programs, programs_length, put_and_run) | wrong;
}
