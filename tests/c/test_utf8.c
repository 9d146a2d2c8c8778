/* Well-formed UTF-8 in the text of glyph_label_read: every string of one and of two bytes, every one of three
 * from C0 on, many of four from E0 on, and every number in every form that has room for it, against the model. */
#include "models.h"
#include "sheets.h"
#include "tests.h"

/* Outputs for 8 units, clusters and glyphs, which every text is read into, and a sheet of the last texts. */
static output text_outputs[3];
static sheet texts;

static void test_texts_sheet(void) {
    sheet_into("texts", texts.bytes, texts.size, 8 * texts.labels, 0, 0, texts.answers, texts.labels);
    free_sheet(&texts);
    texts = new_sheet();
}

/* A text against the model. The outputs are then put back as they were. */
static void test_text(const uint8_t *text, size_t n) {
    uint8_t *t = new_input(text, n);
    output *u = text_outputs, *c = u + 1, *g = u + 2;
    run want = {NULL, NULL, NULL, 0, 0, 0};
    glyph_label_reading m = model_text(t, n, &want);
    glyph_label_reading a = glyph_label_read(t, n, NULL, 0, u->bytes, u->size, c->bytes, c->size, g->bytes, g->size);
    run got = {u->bytes, c->bytes, g->bytes, 2 * (size_t)a.units, 8 * (size_t)a.clusters, 16 * (size_t)a.glyphs};
    int stays = stays_behind(u, got.units_len) && stays_behind(c, got.clusters_len) && stays_behind(g, got.glyphs_len);
    int right = is_reading(a, m.number, m.place, m.units, m.clusters, m.glyphs) && a.rounded == 0 && stays
                && (m.number != 0 || same_run(&want, &got));
    check(right, "the text %s: %u %u, not %u %u, or another run", right ? "" : shown(t, n), a.number, a.place, m.number, m.place);
    for (size_t k = 0; k < 3; k++)
        memcpy(text_outputs[k].all, text_outputs[k].before, text_outputs[k].size + 2 * GUARD);
    add_label(&texts, t, n, NULL, 0, m.number, m.place);
    if (texts.labels == 4096)
        test_texts_sheet();
    free(t);
    free_run(&want);
}

/* A number in the form of n bytes, alone and between letters. The shortest form of a scalar value is well-formed, no other is. */
static void test_form(uint32_t c, size_t n) {
    uint8_t text[8] = "A", shortest[4];
    uint32_t rest = c, found = 0;
    for (size_t k = n; k > 1; k--, rest >>= 6)
        text[k] = (uint8_t)(0x80 | (rest & 0x3F));
    text[1] = (uint8_t)(n == 1 ? rest : (0xFF00 >> n & 0xFF) | rest);
    text[n + 1] = 'B';
    size_t size = scalar_value(c) && put_utf8(shortest, c) == n ? n : 0;
    check(model_character(text + 1, n, &found) == size && (size == 0 || (found == c && same_bytes(shortest, text + 1, n))),
          "the model of %X, %zu bytes", c, n);
    test_text(text + 1, n);
    test_text(text, n + 2);
}

/* Every number in every form that has room for it, or every step-th, and those next to a border. */
static void test_forms(uint32_t step) {
    static const uint32_t borders[] = {3, 0x20, 0x80, 0x800, 0xD800, 0xDC00, 0xE000, 0xFFFE, 0x10000, 0x110000, 0x200000, 0x4000000,
                                       0x7FFFFFFD};
    for (size_t n = 1; n <= 4; n++)
        for (uint32_t c = 0; form_has_room(n, c); c += step)
            test_form(c, n);
    for (size_t k = 0; k < COUNT(borders); k++)
        for (uint32_t c = borders[k] - 3; c < borders[k] + 3; c++)
            for (size_t n = 1; n <= 6; n++)
                if (form_has_room(n, c))
                    test_form(c, n);
}

/* Every string of n bytes from this one on, or every step-th. */
static void test_strings(size_t n, uint32_t from, uint32_t step) {
    for (uint32_t number = from; number >> 8 * n == 0; number += step) {
        uint8_t text[3];
        for (size_t k = 0; k < n; k++)
            text[k] = (uint8_t)(number >> 8 * (n - 1 - k));
        test_text(text, n);
    }
}

/* Four bytes: every first two from E0 on, or every step-th, with some others behind them. */
static void test_four_bytes(uint32_t step) {
    static const uint8_t some[11] = {0x00, 0x41, 0x7F, 0x80, 0x8F, 0x90, 0x9F, 0xA0, 0xBF, 0xC0, 0xFF};
    for (uint32_t number = 0; number < 32 * 256 * 11 * 11; number += step) {
        uint8_t text[4] = {(uint8_t)(0xE0 + number / 121 / 256), (uint8_t)(number / 121), some[number / 11 % 11], some[number % 11]};
        test_text(text, 4);
    }
}

void test_utf8(int full) {
    uint32_t step = full ? 1 : 997;
    text_outputs[0] = new_output(8 * 2), text_outputs[1] = new_output(8 * 8), text_outputs[2] = new_output(8 * 16);
    texts = new_sheet();
    test_strings(1, 0, 1);
    test_strings(2, 0, step);
    test_strings(3, 0xC00000, step);
    test_four_bytes(step);
    test_forms(step);
    test_texts_sheet();
    free_sheet(&texts);
    for (size_t k = 0; k < 3; k++)
        free_output(&text_outputs[k]);
}
