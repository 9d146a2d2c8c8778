/* Tests of the calls of glyph_label.h: labels with their runs and normal writings, refusals that must change nothing,
 * sizes one byte short, left-over bytes, picks, faults, halves, raw values, escaped writings, sheets, pairs left to the
 * font, well-formed UTF-8, and runs, labels, raw values and files from random bytes; the header's own functions and
 * structs, and all calls on a stack of 16 KiB. Every label that a test reads is also put into a sheet, and every run that
 * is tried is judged by a plain model too.
 *
 *     test_calls SHEET ANSWERS [ROUNDS]     a sheet's file and the answers that it must get; how many random cases of
 *                                           each kind: with fewer than 200,000 the exhaustive ones are thinned out
 *     test_calls large                      only raw values and files above 4 GiB, which takes about a minute
 *     test_calls causes                     prints each number with its cause
 *
 * Inputs are allocated at their exact sizes and outputs stand between guard bytes, so that valgrind or a compare sees
 * any byte read or written outside.
 *
 * Each call has a file test_*.c, and so have subjects of their own. They share support.c (checks, random numbers, buffers,
 * runs), calls.c (calls into guarded outputs, and what every run is tried with), sheets.c, label_rows.c, spelling.c, and
 * the models of models.h. All tests draw from the same random numbers: their order here decides which each gets. */
#include "sheets.h"
#include "tests.h"

/* Each label is read, and its run is written. */
static void test_rows(void) {
    for (size_t k = 0; k < label_row_count; k++) {
        test_row_read(&label_rows[k]);
        test_row_written(&label_rows[k]);
    }
}

/* Runs short and long, next to powers of two. */
static void test_sizes(void) {
    static const size_t sizes[] = {31, 32, 33, 100, 255, 256, 257, 1023, 1024, 1025, 4095, 4096};
    for (size_t k = 0; k < COUNT(sizes); k++) {
        test_size(sizes[k]);
        test_quotes(sizes[k]);
    }
}

/* All tests but the given sheet, the stack and the random ones. */
static void test_known(int full) {
    test_rows();
    test_empty_label();
    test_picks();
    test_fault();
    test_sizes();
    test_bad_sizes();
    test_rounding(full);
    test_resolve(full);
    test_write_escaped(full);
    test_sheet(full);
    test_tail_pairs(full);
    test_utf8(full);
    test_header(full);
}

static void print_counts(random_counts c, size_t stack) {
    printf("%lu checks, %lu failed; of %lu random runs %lu were sound, of as many from random bytes %lu, of as many labels %lu were accepted, "
           "of as many raw values %lu were resolved, of %lu files %lu were sheets",
           checks, failures, c.rounds, c.sound, c.wild_sound, c.accepted, c.resolved, c.files, c.sheets);
    if (stack > 0)
        printf("; the calls take %zu bytes of stack", stack);
    printf("\n");
}

static int run_all(const char *sheet_path, const char *answers_path, unsigned long rounds) {
    int full = rounds >= 200000;
    test_known(full);
    size_t stack = test_stack(full);
    test_given_sheet(sheet_path, answers_path, full);
    random_counts counts = test_random(rounds);
    try_gathered();
    print_counts(counts, stack);
    return failures != 0;
}

static int run_large(void) {
    test_large();
    printf("large: %lu checks, %lu failed\n", checks, failures);
    return failures != 0;
}

int main(int argc, char **argv) {
    if (argc == 2 && strcmp(argv[1], "large") == 0)
        return run_large();
    if (argc == 2 && strcmp(argv[1], "causes") == 0) {
        print_causes();
        return 0;
    }
    if (argc != 3 && argc != 4) {
        fprintf(stderr, "usage: test_calls SHEET ANSWERS [ROUNDS], test_calls large, or test_calls causes\n");
        return 2;
    }
    return run_all(argv[1], argv[2], argc == 3 ? 200000 : strtoul(argv[3], NULL, 10));
}
