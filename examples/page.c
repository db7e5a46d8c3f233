/* Prints the page of a tree file: lowers it, starts it, runs it in portions, and reads the names that are left.
 *
 *   page [FILE]        the tree file, or standard input
 *
 * Each name that is set is a line `name = value`. Status: 0 done, 1 stopped at an error, 2 not done in time, 3 refused. */
#include <inttypes.h>
#include <stdio.h>

#include "sif.h"
#include "sif_read.h"

/* Between two portions firmware looks after its other work: shorter ones take longer in all (sif.h). */
enum { PORTION = 5000, STEPS = 100000 };

/* One byte more than the longest file has: a file that fills it is refused, whatever follows. */
static uint8_t file[SIF_FILE_LONGEST + 1];
static uint64_t file_len;
static uint8_t program[SIF_PROGRAM_SIZE];
static uint8_t state[SIF_STATE_SIZE];
static uint8_t report[SIF_REPORT_SIZE];

static void print_text(uint64_t text) {
    sif_bytes bytes = sif_text_bytes(file, file_len, text);
    if (bytes.at != NULL) printf("%.*s", (int)bytes.length, (const char *)bytes.at);
}

static void print_single(sif_single single) {
    double number;
    switch (single.kind) {
    case SIF_NUM:
        number = sif_single_number(single);
        if (number != number) printf("not a number");
        else printf("%.17g", number);
        break;
    case SIF_STR:
        printf("\"");
        print_text(sif_single_text(single));
        printf("\"");
        break;
    case SIF_BL:
        printf(sif_single_yes(single) ? "yes" : "no");
        break;
    default:
        printf("nothing");
    }
}

static void print_items(const uint8_t *value) {
    int table = sif_value_kind(value) == SIF_TAB;
    printf(table ? "{" : "[");
    for (unsigned i = 0; i < sif_value_length(value); i++) {
        if (i > 0) printf(", ");
        if (table) {
            print_text(sif_value_key(value, i));
            printf(": ");
        }
        print_single(sif_value_item(value, i));
    }
    printf(table ? "}" : "]");
}

/* The names stand in the state: no call, no check of 64 KB for each. */
static void print_names(void) {
    for (unsigned text = 0; text < sif_text_count(file, file_len); text++) {
        const uint8_t *value = sif_state_name(state, text);
        unsigned kind = sif_value_kind(value);
        if (kind == SIF_UNSET) continue;
        print_text(text);
        printf(" = ");
        if (kind == SIF_ARR || kind == SIF_TAB) print_items(value);
        else print_single(sif_value_single(value));
        printf("\n");
    }
}

/* The last line: how the run ended. */
static int print_end(uint64_t steps) {
    unsigned stop = sif_report_stop(report);
    switch (sif_report_answer(report)) {
    case SIF_DONE:
        printf("done after %" PRIu64 " steps\n", steps);
        return 0;
    case SIF_STOPPED:
        printf("stopped after %" PRIu64 " steps at line %" PRId64 ": %u, %s\n", steps, sif_report_line(report), stop,
               sif_stop_words(stop));
        return 1;
    default:
        printf("not done after %" PRIu64 " steps\n", steps);
        return 2;
    }
}

static int refused(const char *call, uint64_t number) {
    fprintf(stderr, "page: %s refused: %" PRIu64 ", %s\n", call, number, sif_refusal_words(number));
    return 3;
}

static void read_file(const char *path) {
    FILE *in = path ? fopen(path, "rb") : stdin;
    if (!in) return;
    file_len = fread(file, 1, sizeof file, in);
    if (path) fclose(in);
}

int main(int argc, char **argv) {
    read_file(argc > 1 ? argv[1] : NULL);
    uint64_t number = sif_lower(file, file_len, program, sizeof program);
    if (number != 0) return refused("lower", number);
    number = sif_start(program, sizeof program, state, sizeof state);
    if (number != 0) return refused("start", number);
    uint64_t steps = 0;
    do {
        number = sif_run(program, sizeof program, state, sizeof state, PORTION, report, sizeof report);
        if (number != 0) return refused("run", number);
        steps += sif_report_steps(report);
    } while (sif_report_answer(report) == SIF_SPENT && steps < STEPS);
    print_names();
    return print_end(steps);
}
