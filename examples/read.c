/* The test of sif_read.h and of what sif.h says beside the calls' contracts. C99 and C++.
 *
 *   read FOLDER [EACH]     FOLDER has cases.bin and programs.bin (cases/README.md); of their records one in EACH is taken
 *
 * Every stored file and program goes through the calls. What sif_read.h reads of report and names is written as the listing's last
 * lines (docs/FORMATS.md), which have to be the original's, and a file's texts are compared with a second reading. Then the
 * functions are given bytes of any kind, in blocks of the very size that is lent: under valgrind a byte read outside is an error.
 * The last line counts; at the first difference the status is 1. */
#include <inttypes.h>
#include <stdarg.h>
#include <stdio.h>
#include <stdlib.h>
#include <string.h>

#include "sif.h"
#include "sif_read.h"

enum { STEPS = 100000, PROGRAM_USED = 34948, STATE_USED = 47360 };

static uint8_t program[SIF_PROGRAM_SIZE];
static uint8_t state[SIF_STATE_SIZE];
static uint8_t report[SIF_REPORT_SIZE];
static uint8_t out[SIF_VALUE_SIZE];

static char where[64];
static struct { unsigned files, programs, texts, names, items, stops, blocks; } seen;

static void fail(const char *what) {
    printf("%s: %s\n", where, what);
    exit(1);
}

static void need(int holds, const char *what) {
    if (!holds) fail(what);
}

static uint64_t random_state = 1;

static uint64_t any(uint64_t below) {
    random_state ^= random_state << 13;
    random_state ^= random_state >> 7;
    random_state ^= random_state << 17;
    return (random_state >> 11) % below;
}

/* A block of the very size, so that valgrind knows its end. */
static uint8_t *block(const uint8_t *bytes, size_t length) {
    uint8_t *copy = (uint8_t *)malloc(length > 0 ? length : 1);
    if (copy == NULL) fail("no memory");
    if (bytes != NULL) memcpy(copy, bytes, length);
    else for (size_t i = 0; i < length; i++) copy[i] = (uint8_t)any(256);
    return copy;
}

/* ---- the listing's last lines, by sif_read.h */

static char text[65536];
static size_t text_len;

static void put(const char *form, ...) {
    va_list values;
    va_start(values, form);
    int written = vsnprintf(text + text_len, sizeof text - text_len, form, values);
    va_end(values);
    need(written >= 0 && (size_t)written < sizeof text - text_len, "no room for the text");
    text_len += (size_t)written;
}

static void put_single(sif_single single) {
    uint64_t bits = 0;
    double number = sif_single_number(single);
    memcpy(&bits, &number, sizeof bits);
    switch (single.kind) {
    case SIF_NUM:
        put("Num:%016" PRIx64, bits);
        break;
    case SIF_STR:
        put("Str:%" PRIu64, sif_single_text(single));
        break;
    case SIF_BL:
        put("Bl:%d", sif_single_yes(single));
        break;
    case SIF_NULL:
        put("Null");
        break;
    default:
        put("?");
    }
    need(single.kind == SIF_NUM || bits == 0, "a number of no number");
    need(single.kind == SIF_STR || sif_single_text(single) == SIF_NO_TEXT, "a text of no text");
    need(single.kind == SIF_BL || sif_single_yes(single) == 0, "a yes of no yes/no");
}

static void put_value(const uint8_t *value) {
    unsigned kind = sif_value_kind(value), length = sif_value_length(value);
    seen.items += length;
    if (kind != SIF_ARR && kind != SIF_TAB) {
        need(length == 0, "a length");
        put_single(sif_value_single(value));
        return;
    }
    need(sif_value_single(value).kind == SIF_UNSET, "an array or table is no single value");
    put(kind == SIF_ARR ? "Arr:[" : "Tab:[");
    for (unsigned i = 0; i < length; i++) {
        if (i > 0) put(",");
        uint64_t key = sif_value_key(value, i);
        sif_single item = sif_value_item(value, i), found = sif_value_of_key(value, key);
        if (kind == SIF_TAB) {
            put("%" PRIu64 "=", key);
            need(found.kind == item.kind && found.number == item.number, "the value of a key");
        } else {
            need(key == SIF_NO_TEXT && found.kind == SIF_UNSET, "an array has no keys");
        }
        put_single(item);
    }
    put("]");
    for (unsigned key = 0; key < SIF_TEXTS; key++) {
        unsigned there = 0;
        for (unsigned i = 0; kind == SIF_TAB && i < length; i++) there += value[SIF_VALUE_KEYS + i] == key;
        need((sif_value_of_key(value, key).kind != SIF_UNSET) == (there == 1), "a key that is there, or is not");
    }
    need(sif_value_item(value, length).kind == SIF_UNSET && sif_value_key(value, length) == SIF_NO_TEXT, "an item past the end");
}

static void put_end(void) {
    static const char *const words[] = {"done", "stopped", "spent"};
    unsigned answer = sif_report_answer(report);
    need(answer <= SIF_SPENT, "the answer");
    put("end %s %" PRIu64, words[answer], sif_report_steps(report));
    if (answer == SIF_STOPPED) {
        put(" %u %" PRId64, sif_report_stop(report), sif_report_line(report));
        for (unsigned i = 0; i < sif_report_detail_count(report); i++) put(" %" PRIu64, sif_report_detail(report, i));
        seen.stops++;
    } else {
        need(sif_report_stop(report) == 0 && sif_report_line(report) == 0, "a stop where none was");
    }
    for (unsigned i = sif_report_detail_count(report); i < 3; i++) need(sif_report_detail(report, i) == 0, "a detail too many");
    put("\n");
}

static void put_names(void) {
    unsigned held = 0;
    for (unsigned name = 0; name < SIF_TEXTS; name++) {
        const uint8_t *value = sif_state_name(state, name);
        need(value != NULL && sif_read_name(state, sizeof state, name, out, sizeof out) == 0, "sif_read_name");
        need(memcmp(value, out, sizeof out) == 0, "a name's bytes in the state are not those that sif_read_name gives");
        if (sif_value_kind(value) != SIF_UNSET) held++;
    }
    put("held %u\n", held);
    seen.names += held;
    for (unsigned name = 0; name < SIF_TEXTS; name++) {
        const uint8_t *value = sif_state_name(state, name);
        if (sif_value_kind(value) == SIF_UNSET) continue;
        put("name %u ", name);
        put_value(value);
        put("\n");
    }
    need(sif_state_name(state, SIF_TEXTS) == NULL && sif_state_name(state, SIF_NO_TEXT) == NULL, "a name 64");
    need(sif_state_name(state, UINT64_MAX) == NULL, "a name past all");
}

/* ---- a run, and the same run from copies in portions */

/* Bytes of a copy behind those that are said to be enough are any. */
static uint8_t *saved(const uint8_t *bytes, size_t size, size_t used) {
    uint8_t *copy = block(NULL, size);
    memcpy(copy, bytes, used);
    return copy;
}

static void run_from_copies(const uint8_t *lowered, uint64_t steps) {
    uint8_t *of_program = saved(lowered, SIF_PROGRAM_SIZE, PROGRAM_USED), *now = block(NULL, SIF_STATE_SIZE);
    uint8_t told[SIF_REPORT_SIZE];
    uint64_t taken = 0, most = 1 + any(20000);
    need(sif_start(of_program, SIF_PROGRAM_SIZE, now, SIF_STATE_SIZE) == 0, "start from a copy");
    do {
        uint8_t *next = saved(now, SIF_STATE_SIZE, STATE_USED);
        uint64_t given = steps - taken < most ? steps - taken : most;
        free(now);
        now = next;
        need(sif_run(of_program, SIF_PROGRAM_SIZE, now, SIF_STATE_SIZE, given, told, sizeof told) == 0, "run from a copy");
        taken += sif_report_steps(told);
    } while (sif_report_answer(told) == SIF_SPENT && taken < steps);
    need(memcmp(now, state, STATE_USED) == 0, "a run from copies leaves another state");
    need(taken == sif_report_steps(report), "a run from copies takes other steps");
    need(memcmp(told, report, SIF_REPORT_STEPS) == 0, "a run from copies ends otherwise");
    free(now);
    free(of_program);
}

/* Runs the program and compares the lines that follow; `whole`: nothing else follows. */
static void run_and_compare(uint64_t steps, const char *expected, size_t length, int whole) {
    memset(state, 0, sizeof state);
    need(sif_start(program, sizeof program, state, sizeof state) == 0, "start");
    need(sif_run(program, sizeof program, state, sizeof state, steps, report, sizeof report) == 0, "run");
    text_len = 0;
    put_end();
    put_names();
    need(whole ? text_len == length : text_len <= length, "the length of the last lines");
    need(memcmp(text, expected, text_len) == 0, "the last lines are not the stored ones");
    need(whole || text_len == length || memcmp(expected + text_len, "name ", 5) != 0, "a name that was not read");
    run_from_copies(program, steps);
}

/* ---- the texts of a file */

/* Whatever the bytes hold: a text lies inside them. */
static void texts_inside(const uint8_t *file, size_t length) {
    unsigned count = sif_text_count(file, length);
    need(count <= SIF_TEXTS, "too many texts");
    for (unsigned t = 0; t < SIF_TEXTS + 2; t++) {
        sif_bytes bytes = sif_text_bytes(file, length, t);
        if (bytes.at == NULL) {
            need(bytes.length == 0, "no text with a length");
            continue;
        }
        need(t < count && bytes.at >= file && bytes.length <= length, "a text outside");
        need((size_t)(bytes.at - file) <= length - bytes.length, "a text behind the end");
        for (uint64_t i = 0; i < bytes.length; i++) need(bytes.at[i] == file[(size_t)(bytes.at - file) + i], "a text's bytes");
        need(sif_text_number(file, length, (const char *)bytes.at, bytes.length) <= t, "a text that is not found");
    }
    need(sif_text_bytes(file, length, UINT64_MAX).at == NULL, "a text past all");
    need(sif_text_number(file, length, "no such text", 12) <= SIF_NO_TEXT, "a number past all");
}

/* An accepted file, once from its start to the end of its texts: byte by byte, no sums. */
static void texts_again(const uint8_t *file, size_t length) {
    const uint8_t *next = file + 3 + file[2];
    unsigned count = sif_text_count(file, length), nodes = file[0] * 256u + file[1];
    while (nodes-- > 0) next += 2;
    need(count == file[2], "the count of texts");
    for (unsigned t = 0; t < count; t++) {
        char own[64];
        unsigned n = 0;
        sif_bytes bytes = sif_text_bytes(file, length, t);
        need(bytes.at == next && bytes.length == file[3 + t], "a text is not where it is");
        while (n < file[3 + t]) own[n++] = (char)*next++;
        need(sif_text_number(file, length, own, n) == t, "a text is not found by its bytes");
        own[n] = '!';
        own[n + 1] = '!';
        uint64_t longer = sif_text_number(file, length, own, n + 2);
        need(longer == SIF_NO_TEXT || file[3 + longer] == n + 2, "a text that is longer");
        if (n > 0) {
            uint8_t *shorter = block((const uint8_t *)own, n - 1);
            uint64_t found = sif_text_number(file, length, (const char *)shorter, n - 1);
            need(found == SIF_NO_TEXT || file[3 + found] == n - 1, "a text that is shorter");
            free(shorter);
            own[n - 1] = '\n';
            need(sif_text_number(file, length, own, n) == SIF_NO_TEXT, "a text with another byte");
        }
        seen.texts++;
    }
    sif_bytes first = sif_text_bytes(file, length, 0);
    need(first.length == 6 && memcmp(first.at, "fortmp", 6) == 0, "text 0 is not fortmp");
    need(sif_text_bytes(file, length, count).at == NULL, "a text too many");
}

/* ---- stored records */

static uint8_t *read_whole(const char *folder, const char *name, size_t *length) {
    char path[4096];
    snprintf(path, sizeof path, "%s/%s", folder, name);
    FILE *in = fopen(path, "rb");
    if (in == NULL || fseek(in, 0, SEEK_END) != 0) fail("cannot be read");
    long size = ftell(in);
    if (size < 0 || fseek(in, 0, SEEK_SET) != 0) fail("cannot be read");
    *length = (size_t)size;
    uint8_t *bytes = (uint8_t *)malloc(*length);
    if (bytes == NULL || fread(bytes, 1, *length, in) != *length) fail("cannot be read");
    fclose(in);
    return bytes;
}

/* A part behind its length in 4 bytes. */
static const uint8_t *part(const uint8_t *bytes, size_t size, size_t *at, size_t *length) {
    need(size - *at >= 4, "a record that is cut off");
    const uint8_t *from = bytes + *at;
    *length = (size_t)from[0] << 24 | (size_t)from[1] << 16 | (size_t)from[2] << 8 | from[3];
    need(size - *at - 4 >= *length, "a record that is cut off");
    *at += 4 + *length;
    return from + 4;
}

static void stored_file(const uint8_t *given, size_t length, const char *answer, size_t answer_len) {
    uint8_t *file = block(given, length);
    uint64_t number = sif_lower(file, length, program, sizeof program);
    seen.files++;
    texts_inside(file, length);
    if (number != 0) {
        text_len = 0;
        put("refused %" PRIu64 "\n", number);
        need(text_len == answer_len && memcmp(text, answer, text_len) == 0, "another refusal");
    } else {
        size_t at = 0;
        while (at + 5 < answer_len && memcmp(answer + at, "\nend ", 5) != 0) at++;
        texts_again(file, length);
        run_and_compare(STEPS, answer + at + 1, answer_len - at - 1, 1);
        /* one byte more than the longest file has */
        uint8_t *longer = (uint8_t *)calloc(SIF_FILE_LONGEST + 1, 1);
        if (longer == NULL) fail("no memory");
        memcpy(longer, given, length);
        need(sif_lower(longer, SIF_FILE_LONGEST + 1, program, sizeof program) == SIF_FILE_CUT, "a file that is too long");
        free(longer);
    }
    /* the file cut off, in a block of its own */
    for (int i = 0; i < 4; i++) {
        size_t cut = (size_t)any(length + 1);
        uint8_t *less = block(given, cut);
        texts_inside(less, cut);
        free(less);
        seen.blocks++;
    }
    free(file);
}

static void stored_program(const uint8_t *given, size_t length, const char *answer, size_t answer_len) {
    need(length >= 8, "no steps");
    uint64_t steps = sif_read_8(given);
    memset(program, 0, sizeof program);
    for (size_t at = 8; at < length;) {
        need(length - at >= 4, "a part that is cut off");
        size_t place = (size_t)given[at] << 8 | given[at + 1], size = (size_t)given[at + 2] << 8 | given[at + 3];
        need(length - at - 4 >= size && place + size <= sizeof program, "a part that does not fit");
        memcpy(program + place, given + at + 4, size);
        at += 4 + size;
    }
    seen.programs++;
    if (answer_len == 10 && memcmp(answer, "refused 8\n", 10) == 0) {
        need(sif_start(program, sizeof program, state, sizeof state) == SIF_PROGRAM_REFUSED, "a program that is not refused");
        return;
    }
    run_and_compare(steps, answer, answer_len, 0);
}

static void stored(const char *folder, const char *name, unsigned each,
                   void (*take)(const uint8_t *, size_t, const char *, size_t)) {
    size_t size = 0, at = 0;
    snprintf(where, sizeof where, "%s", name);
    uint8_t *bytes = read_whole(folder, name, &size);
    for (unsigned n = 0; at < size; n++) {
        size_t length = 0, answer_len = 0;
        snprintf(where, sizeof where, "%s, record %u", name, n);
        const uint8_t *given = part(bytes, size, &at, &length);
        const uint8_t *answer = part(bytes, size, &at, &answer_len);
        need(size - at >= 8, "a record that is cut off");
        at += 8;
        if (n % each == 0) take(given, length, (const char *)answer, answer_len);
    }
    free(bytes);
}

/* ---- bytes of any kind */

static void any_value(const uint8_t *value) {
    static const uint64_t far_off[] = {24, 25, 255, 256, 1u << 31, UINT64_MAX / 8, UINT64_MAX};
    unsigned length = sif_value_length(value);
    need(sif_value_kind(value) <= SIF_TAB && length <= 24, "a value's kind or length");
    need(sif_value_kind(value) != SIF_TAB || length <= 16, "a table's length");
    need(sif_value_kind(value) >= SIF_ARR || length == 0, "a single value's length");
    need(sif_value_single(value).kind <= SIF_NULL, "a single value's kind");
    for (unsigned i = 0; i < 32; i++) {
        sif_single item = sif_value_item(value, i);
        need(item.kind <= SIF_NULL && (i < length || item.kind == SIF_UNSET), "an item's kind");
        need(sif_value_key(value, i) <= SIF_NO_TEXT && sif_single_text(item) <= SIF_NO_TEXT, "a text's number");
        need(sif_single_yes(item) == 0 || sif_single_yes(item) == 1, "yes or no");
    }
    for (size_t i = 0; i < sizeof far_off / sizeof far_off[0]; i++) {
        need(sif_value_item(value, far_off[i]).kind == SIF_UNSET, "an item past the end");
        need(sif_value_key(value, far_off[i]) == SIF_NO_TEXT, "a key past the end");
        need(far_off[i] < SIF_TEXTS || sif_value_of_key(value, far_off[i]).kind == SIF_UNSET, "a key past all texts");
    }
    for (unsigned key = 0; key <= SIF_TEXTS; key++) need(sif_value_of_key(value, key).kind <= SIF_NULL, "a key's value");
}

static void any_bytes(unsigned rounds) {
    for (unsigned n = 0; n < rounds; n++) {
        snprintf(where, sizeof where, "bytes of any kind, round %u", n);
        size_t length = (size_t)any(n % 4 == 0 ? 12 : 4096);
        uint8_t *file = block(NULL, length);
        if (length > 2 && n % 2 == 0) {
            file[0] = (uint8_t)any(5);
            file[2] = (uint8_t)any(80);
        }
        texts_inside(file, length);
        free(file);

        uint8_t *value = block(NULL, SIF_VALUE_SIZE);
        if (n % 8 != 0) value[SIF_VALUE_KIND] = (uint8_t)any(8);
        if (n % 2 == 0) for (unsigned i = 0; i < 24; i++) value[SIF_VALUE_ITEM_KINDS + i] = (uint8_t)any(6);
        if (n % 3 == 0) for (unsigned i = 0; i < 16; i++) value[SIF_VALUE_KEYS + i] = (uint8_t)any(66);
        any_value(value);
        free(value);

        uint8_t *told = block(NULL, SIF_REPORT_SIZE);
        if (n % 2 == 0) told[SIF_REPORT_STOP] = (uint8_t)any(48);
        uint64_t line = sif_read_8(told + SIF_REPORT_LINE);
        need((uint64_t)sif_report_line(told) == line && (sif_report_line(told) < 0) == (line >> 63 == 1), "a line");
        need(sif_report_detail_count(told) <= 3 && sif_report_detail(told, 3) == 0, "a report's details");
        need(sif_report_detail(told, UINT64_MAX) == 0 && sif_report_detail(told, UINT64_MAX / 8) == 0, "a detail past all");
        need(sif_report_detail(told, 2) == sif_read_8(told + 32), "the last detail");
        need(sif_report_steps(told) == sif_read_8(told + 40), "a report's steps");
        need(strlen(sif_stop_words(sif_report_stop(told))) > 0 && sif_report_answer(told) <= 255, "a report");
        free(told);

        if (n % 32 == 0) {
            uint8_t *machine = block(NULL, SIF_STATE_SIZE);
            for (unsigned name = 0; name < SIF_TEXTS; name++) {
                const uint8_t *at = sif_state_name(machine, name);
                need(at != NULL && at >= machine && at + SIF_VALUE_SIZE <= machine + SIF_STATE_SIZE, "a name outside");
                any_value(at);
            }
            free(machine);
        }
        seen.blocks += 3;
    }
}

/* ---- what sif.h says of null and of numbers */

static void empty_buffers(void) {
    snprintf(where, sizeof where, "null");
    memset(program, 0, sizeof program);
    need(sif_lower(NULL, 0, program, sizeof program) == SIF_FILE_CUT, "file");
    need(sif_lower(program, sizeof program, NULL, 0) == SIF_BUFFER_TOO_SHORT, "lower's program");
    need(sif_start(NULL, 0, state, sizeof state) == SIF_BUFFER_TOO_SHORT, "start's program");
    need(sif_start(program, sizeof program, NULL, 0) == SIF_BUFFER_TOO_SHORT, "start's state");
    need(sif_start(program, sizeof program, state, sizeof state) == 0, "start");
    need(sif_run(NULL, 0, state, sizeof state, 1, report, sizeof report) == SIF_BUFFER_TOO_SHORT, "run's program");
    need(sif_run(program, sizeof program, NULL, 0, 1, report, sizeof report) == SIF_BUFFER_TOO_SHORT, "run's state");
    need(sif_run(program, sizeof program, state, sizeof state, 1, NULL, 0) == SIF_BUFFER_TOO_SHORT, "run's report");
    need(sif_read_name(NULL, 0, 1, out, sizeof out) == SIF_BUFFER_TOO_SHORT, "read_name's state");
    need(sif_read_name(state, sizeof state, 1, NULL, 0) == SIF_BUFFER_TOO_SHORT, "read_name's value");
    texts_inside(NULL, 0);
    need(sif_text_number(NULL, 0, NULL, 0) == SIF_NO_TEXT, "a text of no file");
}

/* Words of its own for each number that there is; "unknown" for every other. */
static void words(void) {
    for (int stops = 0; stops < 2; stops++) {
        const char *(*of)(uint64_t) = stops ? sif_stop_words : sif_refusal_words;
        for (uint64_t number = 0; number < 300; number++) {
            int known = stops ? (number >= 20 && number <= 36) || number == 38 : number <= 10 || number == 39;
            snprintf(where, sizeof where, "%s %" PRIu64, stops ? "stop" : "refusal", number);
            need((strcmp(of(number), "unknown") != 0) == known, "its words");
            for (uint64_t other = 0; known && other < number; other++) need(strcmp(of(number), of(other)) != 0, "words twice");
        }
        need(strcmp(of(UINT64_MAX), "unknown") == 0, "words past all");
    }
}

int main(int argc, char **argv) {
    int each = argc > 2 ? atoi(argv[2]) : 1;
    if (argc < 2 || each < 1) return 2;
    words();
    empty_buffers();
    any_bytes(20000u / (unsigned)each);
    stored(argv[1], "cases.bin", (unsigned)each, stored_file);
    stored(argv[1], "programs.bin", (unsigned)each, stored_program);
    printf("sif_read.h: %u files and %u programs as stored: %u texts, %u names, %u items, %u stops; %u blocks of any bytes\n",
           seen.files, seen.programs, seen.texts, seen.names, seen.items, seen.stops, seen.blocks);
    return 0;
}
