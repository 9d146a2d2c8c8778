/* Models of a text: UTF-8 by values and layout, the characters that XML 1.0 allows, and what a text reads as. */
#include "models.h"

#include "spelling.h"

int xml_char(double c) {
    return c == 0x9 || c == 0xA || c == 0xD || (c >= 0x20 && c <= 0xD7FF) || (c >= 0xE000 && c <= 0xFFFD)
           || (c >= 0x10000 && c <= 0x10FFFF);
}

int scalar_value(uint32_t c) { return c <= 0xD7FF || (0xE000 <= c && c <= 0x10FFFF); }

size_t put_utf8(uint8_t *p, uint32_t c) {
    size_t n = c < 0x80 ? 1 : c < 0x800 ? 2 : c < 0x10000 ? 3 : 4;
    for (size_t k = n; k > 1; k--, c >>= 6)
        p[k - 1] = (uint8_t)(0x80 | (c & 0x3F));
    p[0] = (uint8_t)(n == 1 ? c : (0xF00 >> n & 0xFF) | c);
    return n;
}

/* The forms 0xxxxxxx, 110yyyyy 10xxxxxx and so on, up to four bytes: where the first byte says which it is, what it says,
 * and the count of bits for the value; this one also for the five and six bytes that UTF-8 once had. */
static const uint32_t form_masks[] = {0x80, 0xE0, 0xF0, 0xF8}, form_marks[] = {0x00, 0xC0, 0xE0, 0xF0};
static const uint32_t form_bits[] = {7, 11, 16, 21, 26, 31};

int form_has_room(size_t n, uint32_t c) { return c >> form_bits[n - 1] == 0; }

/* It is a scalar value that no shorter form has room for. */
size_t model_character(const uint8_t *p, size_t n, uint32_t *c) {
    size_t k = 0;
    while (k < 4 && (p[0] & form_masks[k]) != form_marks[k])
        k++;
    if (k == 4 || k >= n)
        return 0;
    *c = p[0] - form_marks[k];
    for (size_t i = 1; i <= k; i++) {
        if ((p[i] & 0xC0) != 0x80)
            return 0;
        *c = *c << 6 | (p[i] & 0x3F);
    }
    return scalar_value(*c) && (k == 0 || !form_has_room(k, *c)) ? k + 1 : 0;
}

glyph_label_reading model_text(const uint8_t *p, size_t n, run *r) {
    size_t mark = n >= 2 && memcmp(p, "{}", 2) == 0 ? 2 : 0, size;
    uint32_t c = 0;
    for (size_t at = 0; at < n; at += size) {
        size = model_character(p + at, n - at, &c);
        if (size == 0 || !xml_char(c))
            return (glyph_label_reading){size == 0 ? 2 : 3, (uint32_t)at, 0, 0, 0, 0};
        if (at < mark)
            continue;
        add_cluster(r, c > 0xFFFF ? 2 : 1, "f");
        add_character(r, c);
    }
    if (p[0] == '{' && mark == 0)
        return (glyph_label_reading){4, 0, 0, 0, 0, 0};
    return (glyph_label_reading){r->units_len == 0 ? 6 : 0, 0, (uint32_t)r->units_len / 2, (uint32_t)r->clusters_len / 8,
                                 (uint32_t)r->glyphs_len / 16, 0};
}
