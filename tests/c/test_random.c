/* Runs, labels, raw values and files from random numbers, against the models. */
#include "calls.h"
#include "sheets.h"
#include "spelling.h"
#include "tests.h"

/* ---- Runs ---- */

/* One bit, somewhere in one of the buffers. */
static void change_bit(run *r) {
    uint32_t which = random_below(3);
    uint8_t *bytes = which == 0 ? r->units : which == 1 ? r->clusters : r->glyphs;
    size_t size = which == 0 ? r->units_len : which == 1 ? r->clusters_len : r->glyphs_len;
    uint8_t bit = (uint8_t)(1 << random_below(8));
    bytes[random_below((uint32_t)size)] ^= bit;
}

/* A run of a few characters with a cluster each, the last ones left to the font; half of them with a bit changed. */
static run random_pairs(void) {
    static const char *const glyphs[] = {"f", "n", "n", "nn", "a", "z", "u", "V"};
    char letters[8] = "";
    size_t n = 1 + random_below(5), first = random_below(2) ? 0 : random_below((uint32_t)n);
    for (size_t k = 0; k < n; k++)
        letters[k] = "APQ"[random_below(3)];
    run r = spelled_units(letters);
    for (size_t k = 0; k < n; k++)
        add_cluster(&r, (int32_t)letter_units(letters[k]), k < first ? glyphs[random_below(COUNT(glyphs))] : "f");
    if (random_below(2))
        change_bit(&r);
    return r;
}

/* A count of a cluster, mostly 1; where it must be 0, mostly that. */
static int32_t random_count(int must_be_0) {
    if (random_below(40) == 0)
        return (int32_t)random_below(0x7fffffff) - 5;
    if (must_be_0)
        return 0;
    return random_below(8) == 0 ? 2 : 1;
}

/* A run of small numbers, most of them plausible, some of them any. */
static run random_run(void) {
    if (random_below(3) == 0)
        return random_pairs();
    size_t u = random_below(6), c = random_below(5), g = random_below(6);
    static const uint16_t some[] = {0x41, 0x7B, 0x7D, 0xE33, 0xD83D, 0xDE00, 0x20, 0xFFFD, 0x9, 0x26, 0x3C, 0x22, 0xD};
    if (random_below(4))
        c = g, u = random_below(4) ? g : u;
    run r = new_run(2 * u, 8 * c, 16 * g);
    for (size_t k = 0; k < u; k++) {
        unsigned v = random_below(30) == 0 ? random_below(65536) : random_below(3) ? 0x41 : some[random_below(COUNT(some))];
        r.units[2 * k] = (uint8_t)v, r.units[2 * k + 1] = (uint8_t)(v >> 8);
    }
    for (size_t k = 0; k < 2 * c; k++)
        put_number(r.clusters + 4 * k, random_count(u == 0 && k % 2 == 0));
    for (size_t k = 0; k < 4 * g; k++) {
        int32_t v = k % 4 < 2 ? (int32_t)random_below(7) - 1 : random_below(2) ? 0 : (int32_t)random_below(2000001) - 1000000;
        if (random_below(60) == 0)
            v = (int32_t)random_below(0x7fffffff) - 0x3fffffff;
        put_number(r.glyphs + 4 * k, v);
    }
    return r;
}

/* The last of n clusters are pairs left to the font; a few bytes of their glyphs are any. */
static void put_font_pairs(run *r, size_t n, size_t pairs) {
    for (size_t k = n - pairs; k < n; k++) {
        memcpy(r->units + 2 * (2 * k - (n - pairs)), "\x3D\xD8\x00\xDE", 4);
        memcpy(r->clusters + 8 * k, "\2\0\0\0\1\0\0\0", 8);
        for (size_t i = 0; i < 16; i++)
            r->glyphs[16 * k + i] = (uint8_t)(random_below(200) == 0 ? random_below(256) : i < 8 ? 255 : 0);
    }
}

/* A run from random bytes, many of them 0, of sizes that need not be whole; some of them end in pairs left to the font. */
static run wild_run(void) {
    size_t n = 1 + random_below(3), more = random_below(3) ? 0 : 1, pairs = random_below(2) ? 0 : random_below((uint32_t)n + 1);
    size_t g = 16 * n + more * random_below(17), c = 8 * n + more * random_below(9), u = 2 * (n + pairs) + more * random_below(4);
    run r = new_run(u, c, g);
    for (size_t k = 0; k < r.units_len; k++)
        r.units[k] = (uint8_t)(random_below(20) == 0 ? random_below(256) : k % 2 == 0 ? 0x20 + random_below(90) : 0);
    for (size_t k = 0; k < r.clusters_len; k++)
        r.clusters[k] = (uint8_t)(random_below(60) == 0 ? random_below(256) : k % 4 == 0);
    for (size_t k = 0; k < r.glyphs_len; k++)
        r.glyphs[k] = (uint8_t)(random_below(3) == 0 && k % 4 != 3 ? random_below(256) : 0);
    put_font_pairs(&r, n, pairs);
    return r;
}

/* ---- Labels, raw values and files ---- */

/* A label from pieces, a text of up to 63 bytes and indices of up to 255. */
static void random_pieces(char *text, char *indices) {
    static const char *const texts[] = {"", "A", "AB", "{}", "{}{", "{", GRIN, "\xF0\x90\x80\x80", "AB" GRIN "C", "AB" GRIN GRIN,
                                        "fl", "ow", "\xE0\xB8\xB3", "\xC3", "\x01", "ABCDEFGH"};
    static const char *const pieces[] = {"5", ";", ";", ";", ",", "(2)", "(1:2)", "(2:3)7;8;9", "65535", "70000", ".5", "-1", "12.25",
                                         "1e3", "1e-4", ".00050", "e", "(0)", "6,1,2,3", "x"};
    *text = *indices = 0;
    for (uint32_t k = random_below(4); k > 0; k--)
        strcat(text, texts[random_below(COUNT(texts))]);
    for (uint32_t k = random_below(8); k > 0; k--)
        strcat(indices, pieces[random_below(COUNT(pieces))]);
}

/* It is refused and nothing changes, or its run is sound. */
static int random_label(void) {
    char text[64], indices[256];
    run r;
    random_pieces(text, indices);
    size_t tn = strlen(text), in = strlen(indices);
    uint8_t *t = new_input(text, tn), *i = new_input(indices, in);
    glyph_label_reading a = read_into("random label", t, tn, i, in, 100, 400, 800, &r);
    if (a.number == 0)
        check(try_run("random label", &r), "a label's run is sound: %s %s", text, indices);
    else
        check(a.number <= 18, "random label refused with %u", a.number);
    free_run(&r);
    free(t);
    free(i);
    return a.number == 0;
}

/* A raw value from pieces, against the model. */
static int random_raw(void) {
    static const char *const pieces[] = {"a", "flow", " ", "\r", "\n", "\t", "&amp;", "&lt;", "&gt;", "&quot;", "&apos;", "&#65;",
                                         "&#x1f600;", "&#0013;", "&#xA;", "\xE0\xB8\xB3", "\xFF", ";", "#", "x41;", "&", "<", "&#",
                                         "&#x", "&#xD800;", "&lt", "&nbsp;"};
    char raw[256] = "";
    uint32_t left_out = random_below(2) ? 7 : 0; /* the last seven are bad, most of them */
    for (uint32_t k = random_below(12); k > 0; k--)
        strcat(raw, pieces[random_below((uint32_t)COUNT(pieces) - left_out)]);
    return try_any_raw((const uint8_t *)raw, strlen(raw)).number == 0;
}

/* A sheet of labels from pieces, whole or with a byte changed or bytes taken off, against the model. */
static int random_file(void) {
    sheet s = new_sheet();
    for (uint32_t k = random_below(6); k > 0; k--) {
        char text[64], indices[256];
        random_pieces(text, indices);
        add_label(&s, text, strlen(text), indices, strlen(indices), 0, 0);
    }
    if (random_below(2)) {
        uint8_t byte = (uint8_t)random_below(random_below(2) ? 8 : 256);
        s.bytes[random_below((uint32_t)s.size)] = byte;
    }
    size_t off = random_below(3) ? 0 : random_below((uint32_t)s.size);
    glyph_label_filled f = try_any_file("random file", s.bytes, s.size - off);
    free_sheet(&s);
    return f.number == 0;
}

/* ---- Rounds ---- */

random_counts test_random(unsigned long rounds) {
    random_counts c = {rounds, (rounds + 9) / 10, 0, 0, 0, 0, 0};
    for (unsigned long k = 0; k < rounds; k++) {
        run r = random_run(), w = wild_run();
        c.sound += (unsigned long)try_run("random run", &r);
        c.wild_sound += (unsigned long)try_run("run from random bytes", &w);
        c.accepted += (unsigned long)random_label();
        c.resolved += (unsigned long)random_raw();
        c.sheets += (unsigned long)(k % 10 == 0 && random_file());
        free_run(&r);
        free_run(&w);
    }
    check(c.sound > 0 && c.sound < rounds && c.accepted > 0 && c.accepted < rounds && c.resolved > 0 && c.resolved < rounds
              && c.sheets > 0 && c.sheets < c.files,
          "random labels, runs, raw values and files, good and bad");
    return c;
}
