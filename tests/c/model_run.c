/* Models of a run: whether it is sound, and what a pick in it answers. */
#include "models.h"

/* ---- Soundness ---- */

static int pair_at(const run *r, size_t i) { return 0xD800 <= unit_at(r, i) && unit_at(r, i) <= 0xDBFF && is_low(unit_at(r, i + 1)); }

/* The units are those of characters that XML 1.0 allows, so that no half stands alone. */
static int model_units(const run *r) {
    for (size_t i = 0; 2 * i < r->units_len; i++) {
        if (pair_at(r, i))
            i++;
        else if (!xml_char(unit_at(r, i)))
            return 0;
    }
    return 1;
}

static int within(int32_t v, int32_t least, int32_t most) { return least <= v && v <= most; }

static int model_glyph(const uint8_t *g) {
    const int32_t most = 1000000000;
    return within(get_number(g), -1, 65535) && within(get_number(g + 4), -1, most) && within(get_number(g + 8), -most, most)
           && within(get_number(g + 12), -most, most);
}

/* The first glyph from which on all are wholly the font's. */
static size_t font_from(const run *r) {
    static const uint8_t font[16] = {255, 255, 255, 255, 255, 255, 255, 255};
    size_t g = r->glyphs_len / 16;
    while (g > 0 && memcmp(r->glyphs + 16 * (g - 1), font, 16) == 0)
        g--;
    return g;
}

/* A cluster a:b with its glyphs, at unit `at` and glyph g. Its first glyph names an index; or it is 1:1; or it is a pair
 * and all from there on is the font's. */
static int model_cluster(const run *r, size_t at, size_t g, int32_t a, int32_t b, size_t font) {
    size_t n = r->units_len / 2;
    if (a < (n > 0) || (size_t)a > n - at || b < 1 || (size_t)b > r->glyphs_len / 16 - g || is_low(unit_at(r, at + (size_t)a)))
        return 0;
    for (size_t k = g + 1; k < g + (size_t)b; k++)
        if (get_number(r->glyphs + 16 * k) < 0)
            return 0;
    if (get_number(r->glyphs + 16 * g) >= 0)
        return n > 0 || b == 1;
    return b == 1 && (a == 1 || (a == 2 && pair_at(r, at) && g >= font));
}

int model_sound(const run *r) {
    size_t at = 0, g = 0, font = font_from(r);
    if (r->units_len % 2 || r->clusters_len % 8 || r->glyphs_len % 16 || r->units_len > 2 * 4096 || r->glyphs_len > 16 * 4096)
        return 0;
    if (!model_units(r))
        return 0;
    for (size_t k = 0; k < r->glyphs_len; k += 16)
        if (!model_glyph(r->glyphs + k))
            return 0;
    for (size_t k = 0; k < r->clusters_len; k += 8) {
        int32_t a = get_number(r->clusters + k), b = get_number(r->clusters + k + 4);
        if (!model_cluster(r, at, g, a, b, font))
            return 0;
        at += (size_t)a;
        g += (size_t)b;
    }
    return g > 0 && 2 * at == r->units_len && 16 * g == r->glyphs_len;
}

/* ---- Picks ---- */

glyph_label_stretch model_stretch(const run *r, int by, size_t first, size_t end) {
    glyph_label_stretch s = {22, 0, 0, 0};
    size_t n = r->clusters_len / 8, count = by ? r->glyphs_len / 16 : r->units_len / 2, at = 0, other = 0;
    int found = 0;
    if (first >= end || end > count)
        return s;
    s.number = 0;
    for (size_t k = 0; k < n; k++) {
        size_t a = (size_t)get_number(r->clusters + 8 * k + 4 * by), b = (size_t)get_number(r->clusters + 8 * k + 4 * !by);
        if (first < at + a && at < end) {
            if (!found)
                s.first = (uint32_t)other;
            s.end = (uint32_t)(other + b);
            found = 1;
        }
        at += a;
        other += b;
    }
    return s;
}
