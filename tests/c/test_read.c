/* glyph_label_read: labels with their runs or refusals, sizes one byte short, and labels of many sizes up to the largest.
 * Rounding, pairs left to the font and UTF-8 have files of their own. */
#include "calls.h"
#include "tests.h"

/* ---- Labels of the rows ---- */

/* 16, 17, 18, each with one byte too few, and all others large enough or not. */
static void test_short_buffers(const label_row *w, const uint8_t *t, size_t tn, const uint8_t *i, size_t in, const run *r) {
    size_t u = r->units_len, c = r->clusters_len, g = r->glyphs_len;
    uint32_t un = (uint32_t)w->units, cn = (uint32_t)w->clusters, gn = (uint32_t)w->glyphs;
    if (u > 0) {
        check(is_reading(read_into("16", t, tn, i, in, u - 1, c, g, NULL), 16, un, 0, 0, 0), "16 of %s", w->indices);
        check(is_reading(read_into("16", t, tn, i, in, u - 1, 0, 0, NULL), 16, un, 0, 0, 0), "16 before 17 of %s", w->indices);
    }
    check(is_reading(read_into("17", t, tn, i, in, u, c - 1, g, NULL), 17, cn, 0, 0, 0), "17 of %s", w->indices);
    check(is_reading(read_into("17", t, tn, i, in, u, c - 4, 0, NULL), 17, cn, 0, 0, 0), "17 before 18 of %s", w->indices);
    check(is_reading(read_into("18", t, tn, i, in, u, c, g - 1, NULL), 18, gn, 0, 0, 0), "18 of %s", w->indices);
    check(is_reading(read_into("18", t, tn, i, in, u, c, g - 4, NULL), 18, gn, 0, 0, 0), "18 of %s", w->indices);
}

static void test_refused(const label_row *w, const uint8_t *t, size_t tn, const uint8_t *i, size_t in) {
    glyph_label_reading a = read_into("refused", t, tn, i, in, 64, 64, 64, NULL);
    check(is_reading(a, w->number, w->place, 0, 0, 0), "%s is refused", w->indices);
    a = read_into("refused", t, tn, i, in, 0, 0, 0, NULL);
    check(is_reading(a, w->number, w->place, 0, 0, 0), "%s is refused", w->indices);
}

static void test_accepted(const label_row *w, const uint8_t *t, size_t tn, const uint8_t *i, size_t in) {
    run r = row_run(w), got;
    glyph_label_reading a = read_into("exact", t, tn, i, in, r.units_len, r.clusters_len, r.glyphs_len, &got);
    check(is_reading(a, 0, 0, (uint32_t)w->units, (uint32_t)w->clusters, (uint32_t)w->glyphs) && same_run(&r, &got), "%s is read",
          w->indices);
    free_run(&got);
    a = read_into("odd sizes", t, tn, i, in, r.units_len + 1, r.clusters_len + 3, r.glyphs_len + 3, &got);
    check(a.number == 0 && same_run(&r, &got), "%s is read into odd sizes", w->indices);
    free_run(&got);
    a = read_into("large", t, tn, i, in, r.units_len + 99, r.clusters_len + 99, r.glyphs_len + 99, &got);
    check(a.number == 0 && same_run(&r, &got), "%s is read into large buffers", w->indices);
    free_run(&got);
    test_short_buffers(w, t, tn, i, in, &r);
    free_run(&r);
}

void test_row_read(const label_row *w) {
    size_t tn = strlen(w->text), in = strlen(w->indices);
    uint8_t *t = new_input(w->text, tn), *i = new_input(w->indices, in);
    if (w->number != 0)
        test_refused(w, t, tn, i, in);
    else
        test_accepted(w, t, tn, i, in);
    free(t);
    free(i);
}

void test_empty_label(void) {
    glyph_label_reading a = glyph_label_read(NULL, 0, NULL, 0, NULL, 0, NULL, 0, NULL, 0);
    check(is_reading(a, 6, 0, 0, 0, 0), "an empty label");
    a = glyph_label_read(NULL, 0, (const uint8_t *)"5", 1, NULL, 0, NULL, 0, NULL, 0);
    check(is_reading(a, 17, 1, 0, 0, 0), "no units, no buffers");
}

/* ---- Labels of n glyphs ---- */

/* A letter and an entry for each; gives the bytes of the indices. */
static size_t sized_label(size_t n, uint8_t *text, uint8_t *indices) {
    size_t length = 0;
    for (size_t k = 0; k < n; k++) {
        text[k] = (uint8_t)('a' + k % 26);
        length += (size_t)sprintf((char *)indices + length, "%s%u,%u", k ? ";" : "", (unsigned)(k % 10), (unsigned)(k % 100));
    }
    return length;
}

static int is_sized_run(size_t n, const run *r) {
    int equal = 1;
    for (size_t k = 0; equal && k < n; k++)
        equal = r->units[2 * k] == 'a' + k % 26 && r->units[2 * k + 1] == 0 && get_number(r->clusters + 8 * k) == 1
                && get_number(r->clusters + 8 * k + 4) == 1 && get_number(r->glyphs + 16 * k) == (int32_t)(k % 10)
                && get_number(r->glyphs + 16 * k + 4) == (int32_t)(1000 * (k % 100)) && get_number(r->glyphs + 16 * k + 8) == 0
                && get_number(r->glyphs + 16 * k + 12) == 0;
    return equal;
}

void test_size(size_t n) {
    uint8_t *text = new_bytes(n), *indices = new_bytes(8 * n);
    size_t length = sized_label(n, text, indices), u = 2 * n, c = 8 * n, g = 16 * n;
    uint32_t count = (uint32_t)n;
    run r;
    glyph_label_reading a = read_into("size", text, n, indices, length, u, c, g, &r);
    check(is_reading(a, 0, 0, count, count, count), "a label of %zu glyphs", n);
    check(a.number == 0 && is_sized_run(n, &r), "the run of %zu glyphs", n);
    check(try_run("size", &r), "a run of %zu glyphs is sound", n);
    try_pick(&r, n - 1, n);
    try_pick(&r, 0, n);
    try_pick(&r, n / 2, n / 2 + 1);
    check(is_reading(read_into("size", text, n, indices, length, u - 1, c, g, NULL), 16, count, 0, 0, 0), "16 of %zu", n);
    check(is_reading(read_into("size", text, n, indices, length, u, c - 1, g, NULL), 17, count, 0, 0, 0), "17 of %zu", n);
    check(is_reading(read_into("size", text, n, indices, length, u, c, g - 1, NULL), 18, count, 0, 0, 0), "18 of %zu", n);
    free(text);
    free(indices);
    free_run(&r);
}
