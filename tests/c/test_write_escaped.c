/* glyph_label_write_escaped: raw labels that are resolved, read and written back, all short runs of what is escaped and what
 * is not, and long runs. Every run that any test tries is written escaped too, by try_run of calls.c. */
#include "calls.h"
#include "tests.h"

/* ---- Raw labels ---- */

typedef struct {
    const char *text, *indices; /* raw */
    int where;                  /* the refusal is of the text (1), of the indices (2) or of the reading (3); or 0 and: */
    uint32_t number, place;
    const char *escaped_text, *normal_indices;
} page_row;

static const page_row page_rows[] = {
    {"a&amp;b", "5;6", 0, 0, 0, "a&amp;b", "5;6"},
    {"&lt;&gt;&quot;&apos;", "", 0, 0, 0, "&lt;>&quot;'", ""},
    {"&#x9;&#xA;&#xD;", "", 0, 0, 0, "&#9;&#10;&#13;", ""},
    {"a\tb\r\nc\n", "", 0, 0, 0, "a b c ", ""},
    {"\r&#10;", "", 0, 0, 0, " &#10;", ""},
    {"&amp;lt;", "", 0, 0, 0, "&amp;lt;", ""},
    {"f&#x6C;", "&#40;2:1)192", 0, 0, 0, "fl", "(2)192"},
    {"&#x1F600;", "(2)9", 0, 0, 0, GRIN, "(2)9"},
    {"&#x1F600;", "", 0, 0, 0, GRIN, ""},
    {"&lt;&#128512;&amp;" GRIN, "5,1;", 3, 13, 2, 0, 0},
    {"&lt;&#128512;&amp;" GRIN, "5,1&#x2C;", 0, 0, 0, "&lt;" GRIN "&amp;" GRIN, "5,1"},
    {"", "&#53;;6", 0, 0, 0, "", "5;6"},
    {"&#123;&#125;a", "5", 0, 0, 0, "a", "5"},
    {"{}&#123;&lt;", "", 0, 0, 0, "{}{&lt;", ""},
    {"{}{}&quot;", "", 0, 0, 0, "{}{}&quot;", ""},
    {"{}&quot;{", "", 0, 0, 0, "&quot;{", ""},
    {"&amp", "<", 1, 23, 0, 0, 0},
    {"a<", "&#0;", 1, 23, 1, 0, 0},
    {"a", "5;<", 2, 23, 2, 0, 0},
    {"{a", "5;&", 2, 23, 2, 0, 0},
    {"&#123;a", "5", 3, 4, 0, 0, 0},
    {"a", " 5", 3, 7, 0, 0, 0},
    {"a", "5\n", 3, 7, 0, 0, 0},
    {"A", "5&#59;6", 3, 12, 1, 0, 0},
    {"a\xFF", "", 3, 2, 1, 0, 0},
    {"a\x01", "", 3, 3, 1, 0, 0},
    {"&amp;\x01", "", 3, 3, 1, 0, 0},
    {"a&#1;", "", 1, 23, 1, 0, 0},
    {"", "", 3, 6, 0, 0, 0},
};

/* What resolved values read as, and how that is written back. */
static void test_resolved(const page_row *w, const uint8_t *text, size_t text_len, const uint8_t *indices, size_t indices_len) {
    run r;
    glyph_label_reading a = read_into("raw label", text, text_len, indices, indices_len, 64, 256, 512, &r);
    check((w->where == 0 || w->where == 3) && a.number == w->number && a.place == w->place, "%s %s: %u %u", w->text, w->indices,
          a.number, a.place);
    if (w->where == 0 && a.number == 0) {
        uint8_t *t, *i;
        size_t tn = strlen(w->escaped_text), in = strlen(w->normal_indices);
        glyph_label_writing e = escape_into("raw label", &r, tn, in, &t, &i);
        check(is_writing(e, 0, 0, (uint32_t)tn, (uint32_t)in) && same_bytes(t, w->escaped_text, tn) && same_bytes(i, w->normal_indices, in),
              "%s %s: escaped", w->text, w->indices);
        check(try_run("raw label", &r), "the run of %s is sound", w->text);
        free(t);
        free(i);
    }
    free_run(&r);
}

/* Text, then indices, then the reading of what comes out. */
static void test_page(const page_row *w) {
    size_t tn = strlen(w->text), in = strlen(w->indices);
    uint8_t *t = new_bytes(tn), *i = new_bytes(in);
    glyph_label_filled a = glyph_label_resolve((const uint8_t *)w->text, tn, t, tn);
    glyph_label_filled b = glyph_label_resolve((const uint8_t *)w->indices, in, i, in);
    if (a.number != 0)
        check(w->where == 1 && is_filled(a, w->number, w->place, 0), "%s: %u %zu", w->text, a.number, a.place);
    else if (b.number != 0)
        check(w->where == 2 && is_filled(b, w->number, w->place, 0), "%s: %u %zu", w->indices, b.number, b.place);
    else
        test_resolved(w, t, a.filled, i, b.filled);
    free(t);
    free(i);
}

/* ---- Runs ---- */

/* A run of these units, each with a glyph of the font. */
static run font_run(const uint8_t *units, size_t n) {
    run r = new_run(2 * n, 8 * n, 16 * n);
    for (size_t k = 0; k < n; k++) {
        r.units[2 * k] = units[k];
        for (size_t j = 0; j < 2; j++) {
            put_number(r.clusters + 8 * k + 4 * j, 1);
            put_number(r.glyphs + 16 * k + 4 * j, -1);
        }
    }
    return r;
}

/* Runs of all n units of these: the six, the other two that have names, the mark, a letter. */
static void test_all_escapes(size_t n) {
    static const uint8_t some[] = {'&', '<', '"', '\t', '\n', '\r', '>', '\'', '{', '}', 'a'};
    uint8_t units[8];
    for (size_t number = 0; number < string_count(sizeof some, n); number++) {
        put_string(units, some, sizeof some, n, number);
        run r = font_run(units, n);
        check(try_run("escapes", &r), "a run of %.*s is sound", (int)n, (const char *)units);
        free_run(&r);
    }
}

/* n units that are 6 bytes each when escaped; then the same with the mark before them. As raw text they may be longer than
 * a text may be. */
void test_quotes(size_t n) {
    uint8_t *units = new_bytes(n), *text, *indices, *out = new_bytes(n);
    memset(units, '"', n);
    run r = font_run(units, n), back;
    check(is_writing(escape_into("quotes", &r, 6 * n - 1, 0, NULL, NULL), 20, (uint32_t)(6 * n), 0, 0), "20 of %zu quotes", n);
    check(is_writing(escape_into("quotes", &r, 6 * n, 0, &text, &indices), 0, 0, (uint32_t)(6 * n), 0), "%zu quotes", n);
    check(text && is_filled(glyph_label_resolve(text, 6 * n, out, n), 0, 0, n) && memcmp(out, units, n) == 0, "%zu quotes resolved", n);
    glyph_label_reading a = read_into("quotes", out, n, NULL, 0, 2 * n, 8 * n, 16 * n, &back);
    check(a.number == 0 && same_run(&r, &back), "%zu quotes read back", n);
    check(try_run("quotes", &r), "a run of %zu quotes is sound", n);
    r.units[0] = '{';
    check(is_writing(escape_into("quotes", &r, 6 * n - 3, 0, NULL, NULL), 0, 0, (uint32_t)(6 * n - 3), 0), "the mark and %zu quotes", n);
    check(is_writing(escape_into("quotes", &r, 6 * n - 4, 0, NULL, NULL), 20, (uint32_t)(6 * n - 3), 0, 0),
          "20 of the mark and %zu quotes", n);
    check(try_run("quotes", &r), "a run of the mark and %zu quotes is sound", n);
    free(units);
    free(text);
    free(indices);
    free(out);
    free_run(&r);
    free_run(&back);
}

void test_write_escaped(int full) {
    check(is_writing(glyph_label_write_escaped(NULL, 0, NULL, 0, NULL, 0, NULL, 0, NULL, 0), 19, 0, 0, 0), "an empty run, escaped");
    for (size_t k = 0; k < COUNT(page_rows); k++)
        test_page(&page_rows[k]);
    for (size_t n = 1; n <= (full ? 4 : 2); n++)
        test_all_escapes(n);
}
