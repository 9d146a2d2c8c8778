/* Checks, random numbers, buffers, runs and answers. */
#include "support.h"

#include <stdarg.h>

/* ---- Checks ---- */

unsigned long checks, failures;

void check(int ok, const char *format, ...) {
    va_list args;
    checks++;
    if (ok)
        return;
    failures++;
    if (failures > 20)
        return;
    fprintf(stderr, "FAILED: ");
    va_start(args, format);
    vfprintf(stderr, format, args);
    va_end(args);
    fprintf(stderr, "\n");
}

const char *shown(const uint8_t *bytes, size_t n) {
    static char text[4 * 40 + 1];
    char *p = text;
    for (size_t k = 0; k < n && k < 40; k++)
        p += sprintf(p, bytes[k] < 0x20 || bytes[k] >= 0x7F ? "\\x%02X" : "%c", bytes[k]);
    *p = 0;
    return text;
}

/* ---- Random numbers ---- */

uint32_t random_below(uint32_t n) {
    static uint64_t state = 0x9e3779b97f4a7c15u;
    state ^= state << 13;
    state ^= state >> 7;
    state ^= state << 17;
    return (uint32_t)(state >> 32) % n;
}

/* ---- Buffers ---- */

output new_output(size_t size) {
    output o;
    o.size = size;
    o.all = malloc(size + 2 * GUARD);
    o.before = malloc(size + 2 * GUARD);
    if (!o.all || !o.before)
        abort();
    uint32_t seed = random_below(256);
    for (size_t i = 0; i < size + 2 * GUARD; i++)
        o.all[i] = (uint8_t)(seed + 7 * i);
    memcpy(o.before, o.all, size + 2 * GUARD);
    o.bytes = o.all + GUARD;
    return o;
}

void free_output(output *o) {
    free(o->all);
    free(o->before);
}

int stays_behind(const output *o, size_t filled) {
    return filled <= o->size && memcmp(o->all, o->before, GUARD) == 0
           && memcmp(o->bytes + filled, o->before + GUARD + filled, o->size - filled + GUARD) == 0;
}

uint8_t *new_bytes(size_t size) {
    uint8_t *p = size == 0 ? NULL : calloc(size, 1);
    if (size != 0 && !p)
        abort();
    return p;
}

uint8_t *new_input(const void *from, size_t size) {
    uint8_t *p = new_bytes(size);
    if (size != 0)
        memcpy(p, from, size);
    return p;
}

uint8_t *repeated(const char *piece, size_t times, const char *end, size_t *size) {
    size_t n = strlen(piece), m = strlen(end);
    uint8_t *bytes = new_bytes(n * times + m + 1);
    *size = n * times + m;
    if (n == 1)
        memset(bytes, *piece, times);
    for (size_t k = 0; n > 1 && k < times; k++)
        memcpy(bytes + n * k, piece, n);
    memcpy(bytes + n * times, end, m);
    return bytes;
}

void *grown(void *p, size_t size) {
    p = realloc(p, size);
    if (!p)
        abort();
    return p;
}

int same_bytes(const void *a, const void *b, size_t n) { return n == 0 || (a && b && memcmp(a, b, n) == 0); }

size_t string_count(size_t count, size_t n) {
    size_t total = 1;
    for (size_t k = 0; k < n; k++)
        total *= count;
    return total;
}

void put_string(uint8_t *p, const void *bytes, size_t count, size_t n, size_t number) {
    for (size_t k = 0; k < n; k++, number /= count)
        p[k] = ((const uint8_t *)bytes)[number % count];
}

void put_number(uint8_t *p, int32_t v) {
    uint32_t bits = (uint32_t)v;
    for (int i = 0; i < 4; i++)
        p[i] = (uint8_t)(bits >> 8 * i);
}

int32_t get_number(const uint8_t *p) {
    uint32_t bits = p[0] | (uint32_t)p[1] << 8 | (uint32_t)p[2] << 16 | (uint32_t)p[3] << 24;
    return bits < 0x80000000u ? (int32_t)bits : -(int32_t)(0xffffffffu - bits) - 1;
}

/* ---- Runs ---- */

run new_run(size_t units_len, size_t clusters_len, size_t glyphs_len) {
    run r = {new_bytes(units_len), new_bytes(clusters_len), new_bytes(glyphs_len), units_len, clusters_len, glyphs_len};
    return r;
}

void free_run(run *r) {
    free(r->units);
    free(r->clusters);
    free(r->glyphs);
}

int same_run(const run *a, const run *b) {
    return a->units_len == b->units_len && a->clusters_len == b->clusters_len && a->glyphs_len == b->glyphs_len
           && (a->units_len == 0 || memcmp(a->units, b->units, a->units_len) == 0)
           && (a->clusters_len == 0 || memcmp(a->clusters, b->clusters, a->clusters_len) == 0)
           && (a->glyphs_len == 0 || memcmp(a->glyphs, b->glyphs, a->glyphs_len) == 0);
}

unsigned unit_at(const run *r, size_t i) { return 2 * i < r->units_len ? r->units[2 * i] | (unsigned)r->units[2 * i + 1] << 8 : 0; }

int is_low(unsigned unit) { return 0xDC00 <= unit && unit <= 0xDFFF; }

/* ---- Answers ---- */

int is_reading(glyph_label_reading r, uint32_t number, uint32_t place, uint32_t units, uint32_t clusters, uint32_t glyphs) {
    return r.number == number && r.place == place && r.units == units && r.clusters == clusters && r.glyphs == glyphs;
}

int is_writing(glyph_label_writing w, uint32_t number, uint32_t place, uint32_t text, uint32_t indices) {
    return w.number == number && w.place == place && w.text == text && w.indices == indices;
}

int is_stretch(glyph_label_stretch s, uint32_t number, uint32_t first, uint32_t end) {
    return s.number == number && s.place == 0 && s.first == first && s.end == end;
}

int is_filled(glyph_label_filled f, uint32_t number, size_t place, size_t filled) {
    return f.number == number && f.place == place && f.filled == filled;
}

int is_part(glyph_label_part p, uint32_t in_indices, size_t start, size_t length) {
    return p.in_indices == in_indices && p.start == start && p.length == length;
}
