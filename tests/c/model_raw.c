/* Models of raw values: what a reference stands for, what comes of a raw value, and the escaping of an escaped writing. */
#include "models.h"

/* The reference that this `&` begins: its size, 0 where it is bad, and its character. The value is a double, which no digits
 * overflow. */
static size_t model_reference(const uint8_t *p, size_t n, uint32_t *c) {
    static const char *const names[] = {"&amp;", "&lt;", "&gt;", "&quot;", "&apos;"};
    static const char digits[] = "0123456789abcdefABCDEF";
    const uint8_t *end = memchr(p, ';', n);
    size_t size = end ? (size_t)(end - p) + 1 : 0, hex = size > 2 && p[2] == 'x';
    double v = 0;
    for (int k = 0; k < 5; k++)
        if (size == strlen(names[k]) && memcmp(p, names[k], size) == 0)
            return *c = (uint8_t)"&<>\"'"[k], size;
    if (size < 4 + hex || p[1] != '#')
        return 0;
    for (const uint8_t *q = p + 2 + hex; q < end; q++) {
        const char *d = memchr(digits, *q, hex ? 22 : 10);
        if (!d)
            return 0;
        v = v * (hex ? 16 : 10) + (d - digits < 16 ? d - digits : d - digits - 6);
    }
    *c = xml_char(v) ? (uint32_t)v : 0;
    return xml_char(v) ? size : 0;
}

glyph_label_filled model_raw(const uint8_t *raw, size_t n, uint8_t *out) {
    size_t size = 0, used;
    for (size_t i = 0; i < n; i += used) {
        uint32_t c = 0;
        used = raw[i] == '&' ? model_reference(raw + i, n - i, &c) : raw[i] != '<';
        if (used == 0)
            return (glyph_label_filled){23, i, 0};
        if (raw[i] == '&')
            size += put_utf8(out + size, c);
        else if (raw[i] != '\n' || i == 0 || raw[i - 1] != '\r')
            out[size++] = raw[i] == '\t' || raw[i] == '\n' || raw[i] == '\r' ? ' ' : raw[i];
    }
    return (glyph_label_filled){0, 0, size};
}

size_t model_escaped(const uint8_t *from, size_t n, uint8_t *to) {
    static const char escaped[] = "&<\"\t\n\r";
    static const char *const become[] = {"&amp;", "&lt;", "&quot;", "&#9;", "&#10;", "&#13;"};
    size_t size = 0;
    for (size_t k = 0; k < n; k++) {
        const char *found = memchr(escaped, from[k], 6);
        size_t more = found ? strlen(become[found - escaped]) : 1;
        memcpy(to + size, found ? (const void *)become[found - escaped] : from + k, more);
        size += more;
    }
    return size;
}
