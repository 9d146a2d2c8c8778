/* Pairs left to the font, in labels and in runs: which runs with them are sound, how they are written and read, what is
 * picked from them, and where a cluster would end inside a pair. */
#include "calls.h"
#include "spelling.h"
#include "tests.h"

/* ---- Runs ---- */

/* Sound runs with their normal indices: font pairs at the end, behind anything. */
static const char *const sound_rows[][3] = {
    {"P", "2f", ""}, {"R", "2f", ""}, {"PQ", "2f 2f", ""}, {"PA", "2f 1f", ""}, {"PQRAB", "2f 2f 2f 1f 1f", ""}, {"PAQB", "2f 1f 2f 1f", ""},
    {"EQD", "1f 2f 1f", ""}, {"{P", "1f 2f", ""}, {"P{}", "2f 1f 1f", ""}, {"&P<", "1f 2f 1f", ""}, {"AP", "1f 2f", ""}, {"AP", "1n 2f", "9"},
    {"AP", "1z 2f", ",0"}, {"AP", "1a 2f", ",7"}, {"AP", "1U 2f", ",,-.001"}, {"AP", "1v 2f", ",,,.001"}, {"AP", "1N 2f", "65535,0,-1000000,1000000"},
    {"AP", "1nn 2f", "(1:2)9;9"}, {"ABP", "1f 1n 2f", ";9"}, {"ABP", "2n 2f", "(2)9"}, {"DEP", "2n 2f", "(2)9"}, {"PP", "2n 2f", "(2)9"},
    {"PP", "2nn 2f", "(2:2)9;9"}, {"PAP", "2n 1f 2f", "(2)9"}, {"PAQ", "3n 2f", "(3)9"}, {"PQR", "4n 2f", "(4)9"}, {"APQ", "1n 2n 2f", "9;(2)9"},
    {"APBQ", "1f 2n 1a 2f", ";(2)9;,7"},
};

static const char *const unsound_rows[][2] = {
    /* A font pair before something that is not wholly the font's. */
    {"PA", "2f 1n"}, {"PA", "2f 1z"}, {"PA", "2f 1a"}, {"PA", "2f 1u"}, {"PA", "2f 1U"}, {"PA", "2f 1v"}, {"PA", "2f 1V"}, {"PA", "2f 1N"},
    {"PA", "2f 1nn"}, {"PQ", "2f 2n"}, {"PQ", "2f 2nn"}, {"PAB", "2f 2n"}, {"PAB", "2f 1f 1n"}, {"PAB", "2f 1f 1V"}, {"PABC", "2f 1f 1f 1z"},
    {"PQR", "2f 2f 2n"}, {"PQR", "2n 2f 2n"}, {"PQA", "2f 2f 1u"}, {"PAQ", "2f 1n 2f"}, {"APBQ", "1f 2f 1a 2f"},
    /* With something of its own. */
    {"P", "2z"}, {"P", "2a"}, {"P", "2u"}, {"P", "2U"}, {"P", "2v"}, {"P", "2V"}, {"P", "2x"}, {"P", "2y"}, {"AP", "1n 2z"}, {"PQ", "2f 2a"}, {"PA", "2f 1x"},
    {"PA", "2f 1y"}, {"AP", "1x 2f"}, {"AP", "1y 2f"},
    /* Over units that are not one pair. */
    {"AB", "2f"}, {"DE", "2f"}, {"ED", "2f"}, {"ABP", "2f 2f"}, {"PAB", "2f 2f"}, {"APA", "1f 2f"}, {"AP", "2f 1f"}, {"PA", "1f 2f"}, {"PQ", "1f 2f 1f"},
    {"PQ", "1n 2f 1f"}, {"PQ", "1n 2n 1n"}, {"P", "1f 1f"}, {"P", "1n 1n"}, {"P", "1f"},
    /* Of other counts. */
    {"P", "2ff"}, {"P", "2nf"}, {"P", "2fn"}, {"PQ", "2ff 2f"}, {"PQ", "2f 2ff"}, {"A", "1ff"}, {"A", "1fn"}, {"A", "1nf"}, {"PA", "3f"}, {"AP", "3f"},
    {"ABC", "3f"}, {"PQ", "4f"}, {"PQ", "4ff"}, {"PQ", "3f 1f"}, {"PQ", "1f 3f"}, {"PAB", "4f"}, {"", "0f"}, {"P", "0f 2f"}, {"P", "2f 0f"}, {"P", "2f 0n"},
    {"P", "2"}, {"PQ", "2f 2"},
    /* Units or glyphs that are too few or left over. */
    {"", "2f"}, {"A", "2f"}, {"P", "3f"}, {"P", "4f"}, {"P", "2f 1f"}, {"P", "2f 2f"}, {"PQ", "2f"}, {"PA", "2f"}, {"AP", "1f"},
};

/* The label reads as the run into as much room and this much more, over units that were all this one before. */
static void test_stale_unit(const uint8_t *text, size_t text_len, const char *indices, const run *r, unsigned unit, size_t more) {
    output us = new_output(r->units_len + more), cs = new_output(r->clusters_len + 8 * more), gs = new_output(r->glyphs_len + 16 * more);
    for (size_t i = 0; i < us.size; i++)
        us.bytes[i] = us.before[GUARD + i] = (uint8_t)(i % 2 ? unit >> 8 : unit);
    glyph_label_reading a = glyph_label_read(text, text_len, (const uint8_t *)indices, strlen(indices), us.bytes, us.size, cs.bytes,
                                             cs.size, gs.bytes, gs.size);
    run got = {us.bytes, cs.bytes, gs.bytes, 2 * (size_t)a.units, 8 * (size_t)a.clusters, 16 * (size_t)a.glyphs};
    int stays = stays_behind(&us, r->units_len) && stays_behind(&cs, r->clusters_len) && stays_behind(&gs, r->glyphs_len);
    check(a.number == 0 && stays && same_run(r, &got), "%s %s read over %04X, %zu bytes more: %u %u", shown(text, text_len), indices,
          unit, more, a.number, a.place);
    free_output(&us);
    free_output(&cs);
    free_output(&gs);
}

/* Whatever the buffer of units holds: a half behind the run is no part of it. */
static void test_stale(const uint8_t *text, size_t text_len, const char *indices, const run *r) {
    static const unsigned stale[] = {0xDC00, 0xDE00, 0xDFFF, 0xD800, 0xD83D, 0xDBFF};
    for (size_t k = 0; k < COUNT(stale); k++)
        for (size_t more = 0; more < 6; more++)
            test_stale_unit(text, text_len, indices, r, stale[k], more);
}

/* A sound run: its writing, which has `{}` before a `{`, its reading, all its picks. */
static void test_sound_run(const char *letters, const char *normal, const run *r) {
    size_t tn, mark = *letters == '{' ? 2 : 0, in = strlen(normal), n = r->units_len / 2 + 2;
    uint8_t *want = spelled_text(letters, &tn), *text, *indices;
    glyph_label_writing w = write_into(letters, r, mark + tn, in, &text, &indices);
    int right = is_writing(w, 0, 0, (uint32_t)(mark + tn), (uint32_t)in) && text && same_bytes(text, "{}", mark)
                && same_bytes(text + mark, want, tn) && same_bytes(indices, normal, in);
    check(right, "%s is written with %s", letters, normal);
    if (right)
        test_stale(text, mark + tn, normal, r);
    for (size_t first = 0; first < n; first++)
        for (size_t end = 0; end < n; end++)
            try_pick(r, first, end);
    try_left_over(r);
    free(want);
    free(text);
    free(indices);
}

static void test_run_rows(void) {
    for (size_t k = 0; k < COUNT(sound_rows); k++) {
        run r = spelled_run(sound_rows[k][0], sound_rows[k][1]);
        check(try_run(sound_rows[k][1], &r), "%s %s is sound", sound_rows[k][0], sound_rows[k][1]);
        test_sound_run(sound_rows[k][0], sound_rows[k][2], &r);
        free_run(&r);
    }
    for (size_t k = 0; k < COUNT(unsound_rows); k++) {
        run r = spelled_run(unsound_rows[k][0], unsound_rows[k][1]);
        check(!try_run(unsound_rows[k][1], &r), "%s %s is not sound", unsound_rows[k][0], unsound_rows[k][1]);
        free_run(&r);
    }
}

/* All runs that begin like this one: every way to divide the units left into clusters, with every choice of glyphs for each. */
static void test_divisions(run *r, size_t at) {
    static const char *const glyphs[] = {"f", "n", "z", "u", "V", "nn", "ff"};
    size_t n = r->units_len / 2;
    if (at == n)
        try_run("division", r);
    for (size_t a = 1; a <= n - at; a++)
        for (size_t k = 0; k < COUNT(glyphs); k++) {
            size_t c = r->clusters_len, g = r->glyphs_len;
            add_cluster(r, (int32_t)a, glyphs[k]);
            test_divisions(r, at + a);
            r->clusters_len = c, r->glyphs_len = g;
        }
}

/* All texts of up to `left` more units. */
static void test_small_runs(char *letters, size_t n, size_t left) {
    static const char some[] = "AP";
    for (size_t k = 0; k < sizeof some - 1; k++) {
        if (letter_units(some[k]) > left)
            continue;
        letters[n] = some[k], letters[n + 1] = 0;
        run r = spelled_units(letters);
        test_divisions(&r, 0);
        free_run(&r);
        test_small_runs(letters, n + 1, left - letter_units(some[k]));
    }
}

/* ---- Labels of pieces ---- */

/* The entries of one cluster, in normal writing, and its spelling. */
typedef struct {
    const char *entries;
    int32_t a;
    const char *glyphs;
} piece;

static const piece some_pieces[] = {{"", 1, "f"}, {"9", 1, "n"}, {",7", 1, "a"}, {",,,-.001", 1, "V"}, {"(2)9", 2, "n"}, {"(1:2)9;9", 1, "nn"},
                                    {"(3)9", 3, "n"}};

enum { PIECES = COUNT(some_pieces) };

/* The first `count` pieces, joined. */
static void join_pieces(const size_t *which, size_t count, char *indices) {
    *indices = 0;
    for (size_t k = 0; k < count; k++) {
        strcat(indices, k ? ";" : "");
        strcat(indices, some_pieces[which[k]].entries);
    }
}

/* What a text with these pieces reads as: 12 or 13 of a piece; or its clusters, and behind them one of the font's for each
 * character left. */
static glyph_label_reading model_pieces(const char *letters, const size_t *which, size_t count, run *r) {
    size_t at = 0, unit = 0, n = r->units_len / 2;
    uint32_t entry = 0;
    for (size_t k = 0; k < count; k++) {
        const piece *p = &some_pieces[which[k]];
        if (at + (size_t)p->a > n)
            return (glyph_label_reading){12, entry, 0, 0, 0, 0};
        if (at + (size_t)p->a < n && is_low(unit_at(r, at + (size_t)p->a)))
            return (glyph_label_reading){13, (uint32_t)at + (uint32_t)p->a, 0, 0, 0, 0};
        add_cluster(r, p->a, p->glyphs);
        at += (size_t)p->a;
        entry += (uint32_t)strlen(p->glyphs);
    }
    for (; *letters; unit += letter_units(*letters++))
        if (unit >= at)
            add_cluster(r, (int32_t)letter_units(*letters), "f");
    return (glyph_label_reading){0, 0, (uint32_t)n, (uint32_t)(r->clusters_len / 8), (uint32_t)(r->glyphs_len / 16), 0};
}

/* The normal writing of an accepted label of pieces has all of them up to the last that has bytes; each glyph and each unit
 * is picked. */
static void test_piece_run(const char *letters, const size_t *which, size_t count, const run *r) {
    char normal[64];
    size_t tn, in;
    uint8_t *text = spelled_text(letters, &tn), *t, *i;
    while (count > 0 && which[count - 1] == 0)
        count--;
    join_pieces(which, count, normal);
    in = strlen(normal);
    glyph_label_writing w = write_into("pieces", r, tn, in, &t, &i);
    check(is_writing(w, 0, 0, (uint32_t)tn, (uint32_t)in) && same_bytes(t, text, tn) && same_bytes(i, normal, in),
          "%s is written with %s", letters, normal);
    check(try_run("pieces", r), "the run of %s %s is sound", letters, normal);
    for (size_t k = 0; 2 * k < r->units_len || 16 * k < r->glyphs_len; k++)
        try_pick(r, k, k + 1);
    free(text);
    free(t);
    free(i);
}

static void test_pieces(const char *letters, const size_t *which, size_t count) {
    char joined[64];
    size_t tn, in;
    run want = spelled_units(letters), got;
    glyph_label_reading m = model_pieces(letters, which, count, &want);
    join_pieces(which, count, joined);
    in = strlen(joined);
    uint8_t *text = spelled_text(letters, &tn), *indices = new_input(joined, in);
    glyph_label_reading a =
        read_into("pieces", text, tn, indices, in, 2 * (size_t)m.units, 8 * (size_t)m.clusters, 16 * (size_t)m.glyphs, &got);
    check(is_reading(a, m.number, m.place, m.units, m.clusters, m.glyphs), "%s %s: %u %u, not %u %u", letters, joined, a.number,
          a.place, m.number, m.place);
    if (m.number == 0) {
        check(same_run(&want, &got), "the run of %s %s", letters, joined);
        test_piece_run(letters, which, count, &want);
    }
    free(text);
    free(indices);
    free_run(&want);
    free_run(&got);
}

/* A text with up to n pieces. One piece without bytes is no entry, as none is. */
static void test_all_pieces(const char *letters, size_t n) {
    for (size_t count = 0, total = 1; count <= n; count++, total *= PIECES)
        for (size_t number = count == 1; number < total; number++) {
            size_t which[4], rest = number;
            for (size_t k = 0; k < count; k++, rest /= PIECES)
                which[k] = rest % PIECES;
            test_pieces(letters, which, count);
        }
}

/* All texts of up to `most` characters of an alphabet, each with up to n pieces. */
static void test_small_texts(const char *alphabet, size_t most, size_t n) {
    size_t count = strlen(alphabet);
    for (size_t size = 1; size <= most; size++)
        for (size_t number = 0; number < string_count(count, size); number++) {
            char letters[8] = "";
            put_string((uint8_t *)letters, alphabet, count, size, number);
            test_all_pieces(letters, n);
        }
}

/* ---- Many pairs ---- */

/* A run of n pairs, of which the first ones are named and the others are the font's. */
static run run_of_pairs(size_t n, size_t named) {
    run r = new_run(4 * n, 8 * n, 16 * n);
    for (size_t k = 0; k < n; k++) {
        memcpy(r.units + 4 * k, "\x3D\xD8\x00\xDE", 4);
        put_number(r.clusters + 8 * k, 2);
        put_number(r.clusters + 8 * k + 4, 1);
        put_number(r.glyphs + 16 * k, k < named ? 9 : -1);
        put_number(r.glyphs + 16 * k + 4, -1);
    }
    return r;
}

/* The label reads as the run, in exact room and in no less. */
static void test_pairs_read(const run *want, const uint8_t *text, size_t tn, const uint8_t *indices, size_t in) {
    size_t u = want->units_len, c = want->clusters_len, g = want->glyphs_len;
    uint32_t n = (uint32_t)(c / 8);
    run got;
    glyph_label_reading a = read_into("pairs", text, tn, indices, in, u, c, g, &got);
    check(is_reading(a, 0, 0, 2 * n, n, n) && same_run(want, &got), "%u pairs, %zu bytes of indices: %u %u", n, in, a.number, a.place);
    check(is_reading(read_into("pairs", text, tn, indices, in, u - 1, c, g, NULL), 16, 2 * n, 0, 0, 0), "16 of %u pairs", n);
    check(is_reading(read_into("pairs", text, tn, indices, in, u, c - 1, g, NULL), 17, n, 0, 0, 0), "17 of %u pairs", n);
    check(is_reading(read_into("pairs", text, tn, indices, in, u, c, g - 1, NULL), 18, n, 0, 0, 0), "18 of %u pairs", n);
    free_run(&got);
}

/* The run is written as the label. */
static void test_pairs_written(const run *r, const uint8_t *text, size_t tn, const uint8_t *indices, size_t in) {
    uint8_t *t, *i;
    glyph_label_writing w = write_into("pairs", r, tn, in, &t, &i);
    check(is_writing(w, 0, 0, (uint32_t)tn, (uint32_t)in) && same_bytes(t, text, tn) && same_bytes(i, indices, in),
          "%zu pairs, %zu bytes of indices, are written", r->clusters_len / 8, in);
    free(t);
    free(i);
}

/* n pairs, of which the first ones have an entry and the others none; then the same with an offset at the end. */
static void test_pairs(size_t n, size_t named) {
    size_t tn, in;
    uint8_t *text = repeated(GRIN, n, "", &tn), *indices = repeated("(2)9;", named ? named - 1 : 0, named ? "(2)9" : "", &in);
    run r = run_of_pairs(n, named);
    test_pairs_read(&r, text, tn, indices, in);
    test_pairs_written(&r, text, tn, indices, in);
    check(try_run("pairs", &r), "%zu pairs, %zu named, are sound", n, named);
    if (named == 0)
        test_stale(text, tn, "", &r);
    try_pick(&r, 0, n);
    try_pick(&r, n - 1, n);
    try_pick(&r, n / 2, n / 2 + 1);
    try_pick(&r, 2 * n - 1, 2 * n);
    put_number(r.glyphs + 16 * (n - 1) + 12, 1);
    check(try_run("pairs", &r) == (named == n), "%zu pairs, %zu named, and an offset at the end", n, named);
    free(text);
    free(indices);
    free_run(&r);
}

static void test_pair_sizes(void) {
    static const size_t sizes[] = {1, 15, 16, 17, 31, 32, 33, 127, 128, 129, 255, 256, 257, 511, 512, 513, 1023, 1024, 1025, 2047, 2048};
    for (size_t k = 0; k < COUNT(sizes); k++) {
        test_pairs(sizes[k], 0);
        test_pairs(sizes[k], 1);
        test_pairs(sizes[k], sizes[k] - 1);
        test_pairs(sizes[k], sizes[k]);
    }
    size_t tn;
    uint8_t *text = repeated(GRIN, 2049, "", &tn);
    check(is_reading(read_into("pairs", text, tn, NULL, 0, 4 * 2049, 8 * 2049, 16 * 2049, NULL), 5, 0, 0, 0, 0), "2,049 pairs");
    check(is_reading(read_into("pairs", text, tn, NULL, 0, 0, 0, 0, NULL), 5, 0, 0, 0, 0), "2,049 pairs, no room");
    free(text);
}

/* ---- Labels that read as the same run ---- */

/* Labels of the same kind read as the same run; no others do. */
typedef struct {
    int kind;
    const char *letters, *indices;
} kind_row;

static const kind_row kind_rows[] = {
    {0, "ABP", ""}, {0, "ABP", ";"}, {0, "ABP", ","}, {0, "ABP", ",,;,,,0"}, {0, "ABP", ",,-0,.0004;,,+.0"}, {1, "ABP", ";;(2)9"},
    {1, "ABP", ",;;(2:1)009,,0e5"}, {2, "ABP", "5"}, {2, "ABP", "5;"}, {2, "ABP", "(1)5;,,,"}, {3, "ABP", ";5"}, {3, "ABP", ",,0;(01:1)5"},
    {4, "ABP", "(2)9"}, {4, "ABP", "(2)9,,,-.0"}, {5, "ABP", "(4)9"}, {6, "ABP", ",0"}, {6, "ABP", ",0;"}, {7, "ABP", ";;(2)9,0"}, {8, "ABQ", ""},
    {8, "ABQ", ";"}, {9, "P", ""}, {9, "{}P", ""}, {10, "P", "(2)9"}, {10, "P", "(02)9"}, {11, "PP", ""}, {12, "PP", "(2)9"}, {12, "PP", "(2:1)09"},
    {13, "PP", "(2)9;(2)9"}, {14, "PP", "(4)9"}, {15, "PA", ""}, {16, "PA", "(2)9"}, {16, "PA", "(2)9;"}, {16, "PA", "(2)9;,"}, {17, "PA", "(2)9;,0"},
    {18, "PAP", "(2)9"}, {18, "PAP", "(2)9;"}, {19, "PAP", "(2)9;;(2)9"}, {20, "{}{P", ""}, {20, "{}{P", ","}, {21, "AP", ""}, {22, "AB", ""},
};

enum { KINDS = COUNT(kind_rows) };

/* The run of a row, and its normal writing. */
typedef struct {
    run r;
    glyph_label_writing writing;
    uint8_t *text, *indices;
} kind;

static kind read_kind(const kind_row *w) {
    kind k;
    size_t tn;
    uint8_t *t = spelled_text(w->letters, &tn);
    int read = read_into("kinds", t, tn, (const uint8_t *)w->indices, strlen(w->indices), 64, 64, 128, &k.r).number == 0;
    check(read && try_run("kinds", &k.r), "%s %s is read, and sound", w->letters, w->indices);
    k.writing = write_into("kinds", &k.r, 64, 64, &k.text, &k.indices);
    free(t);
    return k;
}

static void free_kind(kind *k) {
    free_run(&k->r);
    free(k->text);
    free(k->indices);
}

static int same_writing(const kind *a, const kind *b) {
    return a->writing.text == b->writing.text && a->writing.indices == b->writing.indices
           && same_bytes(a->text, b->text, a->writing.text) && same_bytes(a->indices, b->indices, a->writing.indices);
}

/* Equal runs and equal bytes of the normal writing go together. */
static void test_kinds(void) {
    kind kinds[KINDS];
    for (size_t k = 0; k < KINDS; k++)
        kinds[k] = read_kind(&kind_rows[k]);
    for (size_t k = 0; k < KINDS; k++)
        for (size_t j = 0; j < KINDS; j++) {
            const kind_row *a = &kind_rows[k], *b = &kind_rows[j];
            int same = a->kind == b->kind;
            check(same_run(&kinds[k].r, &kinds[j].r) == same && same_writing(&kinds[k], &kinds[j]) == same, "%s %s and %s %s", a->letters,
                  a->indices, b->letters, b->indices);
        }
    for (size_t k = 0; k < KINDS; k++)
        free_kind(&kinds[k]);
}

/* ---- All of them ---- */

void test_tail_pairs(int full) {
    char letters[16];
    test_run_rows();
    test_small_runs(letters, 0, full ? 5 : 3);
    test_small_texts("AePQ", full ? 4 : 2, full ? 3 : 2);
    test_small_texts("ADEQR", full ? 3 : 2, 1);
    test_pair_sizes();
    test_kinds();
}
