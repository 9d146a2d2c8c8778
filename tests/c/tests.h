/* The tests that main.c runs, by file. `full` is 0 where exhaustive tests are thinned out, as under valgrind.
 *
 * One call more is one file more: test_CALL.c, with its model in model_CALL.c where it has one, its functions here and in
 * models.h, and its line in main.c. all_calls in test_stack.c makes every call once. */
#ifndef TESTS_H
#define TESTS_H

#include "label_rows.h"

/* test_read.c */
void test_row_read(const label_row *w);
void test_empty_label(void);
void test_size(size_t n);

/* test_write.c */
void test_row_written(const label_row *w);
void test_bad_sizes(void);

/* test_write_escaped.c */
void test_write_escaped(int full);
void test_quotes(size_t n);

/* test_picks.c, test_fault.c */
void test_picks(void);
void test_fault(void);

/* test_resolve.c, test_sheet.c */
void test_resolve(int full);
void test_sheet(int full);
void test_given_sheet(const char *sheet_path, const char *answers_path, int full);

/* test_rounding.c, test_tail_pairs.c, test_utf8.c: subjects of glyph_label_read */
void test_rounding(int full);
void test_tail_pairs(int full);
void test_utf8(int full);

/* test_header.c */
void test_header(int full);
void print_causes(void);

/* test_stack.c; gives the bytes of stack that the calls take at most, 0 where `full` is 0, as then they are not measured. */
size_t test_stack(int full);

/* test_random.c; `rounds` cases of each kind, but a tenth of them for files. Gives how many were good. */
typedef struct {
    unsigned long rounds, files, sound, wild_sound, accepted, resolved, sheets;
} random_counts;

random_counts test_random(unsigned long rounds);

/* test_large.c */
void test_large(void);

#endif
