/* Reading what the engine's calls leave: texts of a tree file, names and their values, reports, words for numbers. C99 and C++.
 * Functions over sif.h, nothing to link. They are tested (examples/check), not proved.
 *
 *   const uint8_t *value = sif_state_name(state, sif_text_number(file, file_len, "cells", 5));
 *   if (value != NULL)
 *       for (unsigned i = 0; i < sif_value_length(value); i++) emboss(sif_single_number(sif_value_item(value, i)));
 *
 * What holds of every function:
 * - It reads nothing but the bytes lent to it, whatever they hold: so many of a file as its length says, SIF_REPORT_SIZE of a
 *   report, SIF_VALUE_SIZE of a value, SIF_STATE_SIZE of a state. Pointers are not null, but for a file or a text of length 0.
 * - It asks for no alignment, writes nothing, calls no library, and ends: it goes over a file's texts once at most.
 * - Any number may be asked for. What is not there is told: each function says how.
 * - What it tells is right of a file that sif_lower accepted, a report of sif_run, a value of sif_read_name, and a state behind a
 *   sif_start or a sif_run that answered 0. Of other bytes it means nothing. */
#ifndef SIF_READ_H
#define SIF_READ_H

#include <stddef.h>

#include "sif.h"

/* Told in place of a text number: no such text. */
enum { SIF_NO_TEXT = SIF_TEXTS };

/* Bytes that are lent: a text is not ended by a zero byte. */
typedef struct sif_bytes {
    const uint8_t *at;
    uint64_t length;
} sif_bytes;

/* A value that is neither array nor table. */
typedef struct sif_single {
    unsigned kind;      /* SIF_NUM, SIF_STR, SIF_BL, SIF_NULL; SIF_UNSET: no such value */
    uint64_t number;    /* as sif.h says for each kind */
} sif_single;

/* The number in eight bytes. */
static inline uint64_t sif_read_8(const uint8_t *at) {
    uint64_t number = 0;
    for (unsigned i = 0; i < 8; i++) number = number << 8 | at[i];
    return number;
}

/* ---- the texts of a tree file */

/* How many there are, at most SIF_TEXTS; 0 where the file's counts and lengths are cut off. */
static inline unsigned sif_text_count(const uint8_t *file, uint64_t file_len) {
    if (file_len < 3 || file[2] > SIF_TEXTS || file_len - 3 < file[2]) return 0;
    return file[2];
}

/* Where the first of so many texts begins: behind node count, text count, the texts' lengths and the nodes. */
static inline uint32_t sif_texts_at(const uint8_t *file, unsigned count) {
    uint32_t nodes = (uint32_t)file[0] << 8 | file[1];
    return 3 + count + 2 * nodes;
}

/* The bytes of a text by its number. No such text: NULL and 0. */
static inline sif_bytes sif_text_bytes(const uint8_t *file, uint64_t file_len, uint64_t text) {
    sif_bytes bytes = {NULL, 0};
    unsigned count = sif_text_count(file, file_len);
    if (text >= count) return bytes;
    uint32_t at = sif_texts_at(file, count);
    for (unsigned t = 0; t < text; t++) at += file[3 + t];
    uint32_t length = file[3 + text];
    if (file_len < at + length) return bytes;
    bytes.at = file + at;
    bytes.length = length;
    return bytes;
}

/* The number of a text by its bytes: no two texts of a file are equal. No such text: SIF_NO_TEXT. */
static inline uint64_t sif_text_number(const uint8_t *file, uint64_t file_len, const char *text, uint64_t text_len) {
    unsigned count = sif_text_count(file, file_len);
    if (count == 0) return SIF_NO_TEXT;
    uint32_t at = sif_texts_at(file, count);
    for (unsigned t = 0; t < count; t++) {
        uint32_t length = file[3 + t];
        if (file_len < at + length) return SIF_NO_TEXT;
        uint32_t same = 0;
        while (same < length && length == text_len && file[at + same] == (uint8_t)text[same]) same++;
        if (same == length && length == text_len) return t;
        at += length;
    }
    return SIF_NO_TEXT;
}

/* ---- names: text numbers; a page's names are those texts that are set */

/* The value of a name in a state: the same 256 bytes that sif_read_name gives, without its check. A text over 63: NULL. */
static inline const uint8_t *sif_state_name(const uint8_t *state, uint64_t text) {
    return text < SIF_TEXTS ? state + SIF_STATE_NAMES + SIF_VALUE_SIZE * (unsigned)text : NULL;
}

/* ---- values */

/* SIF_UNSET to SIF_TAB; SIF_UNSET for anything else. */
static inline unsigned sif_value_kind(const uint8_t *value) {
    unsigned kind = value[SIF_VALUE_KIND];
    return kind <= SIF_TAB ? kind : (unsigned)SIF_UNSET;
}

/* The items of an array, at most 24, or the keys of a table, at most 16; 0 of other values. */
static inline unsigned sif_value_length(const uint8_t *value) {
    unsigned kind = sif_value_kind(value);
    unsigned most = kind == SIF_ARR ? 24 : kind == SIF_TAB ? 16 : 0;
    unsigned length = value[SIF_VALUE_LENGTH];
    return length < most ? length : most;
}

/* The value itself, where it is single. An array, a table or nothing set: SIF_UNSET. */
static inline sif_single sif_value_single(const uint8_t *value) {
    sif_single single = {SIF_UNSET, 0};
    unsigned kind = sif_value_kind(value);
    if (kind == SIF_UNSET || kind >= SIF_ARR) return single;
    single.kind = kind;
    single.number = sif_read_8(value + SIF_VALUE_NUMBER);
    return single;
}

/* Item i of an array, or the value of a table's key i, from 0. No such item: SIF_UNSET. */
static inline sif_single sif_value_item(const uint8_t *value, uint64_t i) {
    sif_single single = {SIF_UNSET, 0};
    if (i >= sif_value_length(value)) return single;
    unsigned kind = value[SIF_VALUE_ITEM_KINDS + i];
    if (kind == SIF_UNSET || kind >= SIF_ARR) return single;
    single.kind = kind;
    single.number = sif_read_8(value + SIF_VALUE_ITEMS + 8 * i);
    return single;
}

/* Key i of a table, a text number; keys ascend. No such key: SIF_NO_TEXT. */
static inline uint64_t sif_value_key(const uint8_t *value, uint64_t i) {
    if (sif_value_kind(value) != SIF_TAB || i >= sif_value_length(value)) return SIF_NO_TEXT;
    unsigned key = value[SIF_VALUE_KEYS + i];
    return key < SIF_TEXTS ? key : (unsigned)SIF_NO_TEXT;
}

/* The value that a table has under a key. No such key: SIF_UNSET. */
static inline sif_single sif_value_of_key(const uint8_t *value, uint64_t key) {
    sif_single single = {SIF_UNSET, 0};
    for (unsigned i = 0; key < SIF_TEXTS && i < sif_value_length(value); i++)
        if (sif_value_key(value, i) == key) return sif_value_item(value, i);
    return single;
}

/* ---- single values */

/* double is binary64 here, or this line does not compile: then use the pattern, `number`. */
typedef char sif_double_has_8_bytes[sizeof(double) == 8 ? 1 : -1];

/* A number; 0 of other kinds. */
static inline double sif_single_number(sif_single single) {
    double number = 0;
    const unsigned char *from = (const unsigned char *)&single.number;
    unsigned char *to = (unsigned char *)&number;
    for (unsigned i = 0; single.kind == SIF_NUM && i < 8; i++) to[i] = from[i];
    return number;
}

/* The number of a text value; SIF_NO_TEXT of other kinds. */
static inline uint64_t sif_single_text(sif_single single) {
    return single.kind == SIF_STR && single.number < SIF_TEXTS ? single.number : (uint64_t)SIF_NO_TEXT;
}

/* 1 for yes; 0 for no and of other kinds. */
static inline int sif_single_yes(sif_single single) {
    return single.kind == SIF_BL && single.number != 0;
}

/* ---- reports */

/* SIF_DONE, SIF_STOPPED or SIF_SPENT. */
static inline unsigned sif_report_answer(const uint8_t *report) {
    return report[SIF_REPORT_ANSWER];
}

/* The stop's number; 0 where the run did not stop. */
static inline unsigned sif_report_stop(const uint8_t *report) {
    return report[SIF_REPORT_STOP];
}

/* The stop's line, below zero in a declaration; 0 where the run did not stop. */
static inline int64_t sif_report_line(const uint8_t *report) {
    uint64_t line = sif_read_8(report + SIF_REPORT_LINE);
    return line >> 63 ? -(int64_t)~line - 1 : (int64_t)line;
}

/* How many details the stop has: 3 of SIF_INDEX_OUT_OF_BOUNDS, 1 where sif.h names one, else 0. */
static inline unsigned sif_report_detail_count(const uint8_t *report) {
    switch (sif_report_stop(report)) {
    case SIF_INDEX_OUT_OF_BOUNDS:
        return 3;
    case SIF_INVALID_NAME:
    case SIF_REG_NO_CONTENTS:
    case SIF_NOT_AN_ARRAY:
    case SIF_INVALID_FN_SYM:
        return 1;
    default:
        return 0;
    }
}

/* Detail i, 0 to 2: a text, a register, an index or a length, as sif.h says for each stop. No such detail: 0. */
static inline uint64_t sif_report_detail(const uint8_t *report, uint64_t i) {
    return i < 3 ? sif_read_8(report + SIF_REPORT_DETAILS + 8 * i) : 0;
}

/* Steps taken in this run. */
static inline uint64_t sif_report_steps(const uint8_t *report) {
    return sif_read_8(report + SIF_REPORT_STEPS);
}

/* ---- words, in English and ASCII; "unknown" for numbers that sif.h does not have */

/* What a call answered. */
static inline const char *sif_refusal_words(uint64_t number) {
    switch (number) {
    case SIF_OK: return "accepted";
    case SIF_FILE_CUT: return "the file is cut off, or goes on behind its last body";
    case SIF_FILE_COUNTS: return "the node count or the text count is out of range";
    case SIF_FILE_TEXTS: return "a text that is not allowed, or out of order";
    case SIF_FILE_STRUCTURE: return "the tree is not built by the rules";
    case SIF_FILE_NUMBERS: return "a text number or an operator that is not there";
    case SIF_NO_REGISTER: return "an operand without a value before it";
    case SIF_SCRIPT_TOO_LARGE: return "more than 96 registers or 1,024 instructions";
    case SIF_PROGRAM_REFUSED: return "not a program, or a text number over 63";
    case SIF_BUFFER_TOO_SHORT: return "a buffer is too short";
    case SIF_STATE_REFUSED: return "not a state of this program, or too many steps";
    case SIF_NUMBER_NOT_FINITE: return "a number that is a NaN or infinite";
    default: return "unknown";
    }
}

/* Why a run stopped. */
static inline const char *sif_stop_words(uint64_t number) {
    switch (number) {
    case SIF_INVALID_NAME: return "a name that is not set";
    case SIF_INVALID_INCR: return "nothing to increment";
    case SIF_INVALID_INCR_TY: return "not a number to increment";
    case SIF_INVALID_DECR: return "nothing to decrement";
    case SIF_INVALID_DECR_TY: return "not a number to decrement";
    case SIF_INVALID_JUMP: return "a label that is not there";
    case SIF_REG_NO_CONTENTS: return "an empty register";
    case SIF_TY_MISMATCH: return "an operator on a value of the wrong kind";
    case SIF_NOT_AN_ARRAY: return "not an array";
    case SIF_INVALID_FN_SYM: return "a function that is not declared";
    case SIF_EMPTY_CALL_STACK: return "a return outside a call";
    case SIF_INDEX_OUT_OF_BOUNDS: return "an index past the end";
    case SIF_EMPTY_REGISTER: return "an empty register pushed or put into a table";
    case SIF_KEY_ABSENT: return "a key that the table does not have";
    case SIF_NESTED: return "an array or table put inside another";
    case SIF_STACK_FULL: return "stack full";
    case SIF_TABLE_FULL: return "table full";
    case SIF_NO_INDEX: return "a number that is no index";
    default: return "unknown";
    }
}

#endif
