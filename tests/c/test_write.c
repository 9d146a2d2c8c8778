/* glyph_label_write: the normal writings of the rows' runs, sizes one byte short, left-over bytes, and runs above the
 * largest. What every run is tried with, here and in all other tests, is try_run of calls.c. */
#include "calls.h"
#include "tests.h"

/* 20 and 21, each with one byte too few. */
static void test_short_outputs(const label_row *w, const run *r) {
    size_t t = strlen(w->normal_text), i = strlen(w->normal_indices);
    if (t > 0) {
        check(is_writing(write_into("20", r, t - 1, i, NULL, NULL), 20, (uint32_t)t, 0, 0), "20 of %s", w->normal_indices);
        check(is_writing(write_into("20", r, t - 1, 0, NULL, NULL), 20, (uint32_t)t, 0, 0), "20 before 21 of %s", w->normal_indices);
    }
    if (i > 0)
        check(is_writing(write_into("21", r, t, i - 1, NULL, NULL), 21, (uint32_t)i, 0, 0), "21 of %s", w->normal_indices);
}

void test_row_written(const label_row *w) {
    if (w->number != 0)
        return;
    run r = row_run(w);
    uint8_t *text, *indices;
    size_t t = strlen(w->normal_text), i = strlen(w->normal_indices);
    glyph_label_writing a = write_into("exact", &r, t, i, &text, &indices);
    check(is_writing(a, 0, 0, (uint32_t)t, (uint32_t)i) && same_bytes(text, w->normal_text, t) && same_bytes(indices, w->normal_indices, i),
          "%s is written", w->indices);
    a = write_into("large", &r, t + 50, i + 50, NULL, NULL);
    check(is_writing(a, 0, 0, (uint32_t)t, (uint32_t)i), "%s is written", w->indices);
    check(try_run("row", &r), "%s is sound", w->indices);
    test_short_outputs(w, &r);
    try_left_over(&r);
    free(text);
    free(indices);
    free_run(&r);
}

/* No run; then a glyph, a cluster or a unit more than a run may have, and as many of one as of the others. */
void test_bad_sizes(void) {
    static const size_t sizes[][3] = {{4097, 4097, 4097}, {4096, 4097, 4097}, {4096, 4096, 4097}, {4096, 4097, 4096},
                                      {4097, 4096, 4096}, {0, 4097, 1}, {8193, 1, 1}};
    check(is_writing(glyph_label_write(NULL, 0, NULL, 0, NULL, 0, NULL, 0, NULL, 0), 19, 0, 0, 0), "an empty run");
    for (size_t k = 0; k < COUNT(sizes); k++) {
        run r = new_run(2 * sizes[k][0], 8 * sizes[k][1], 16 * sizes[k][2]);
        for (size_t i = 0; i < sizes[k][0]; i++)
            r.units[2 * i] = 'A';
        for (size_t i = 0; i < 2 * sizes[k][1]; i++)
            put_number(r.clusters + 4 * i, 1);
        for (size_t i = 0; i < 4 * sizes[k][2]; i++)
            put_number(r.glyphs + 4 * i, i % 4 < 2 ? -1 : 0);
        check(!try_run("beyond", &r), "a run of %zu %zu %zu", sizes[k][0], sizes[k][1], sizes[k][2]);
        free_run(&r);
    }
}
