/* Texts and runs spelled in letters. */
#include "spelling.h"

#include "models.h"

static uint32_t letter(char c) {
    static const char letters[] = "PQRDEe";
    static const uint32_t characters[] = {0x1F600, 0x10000, 0x10FFFF, 0xD7FF, 0xE000, 0xE9};
    const char *found = memchr(letters, c, COUNT(characters));
    return found ? characters[found - letters] : (uint32_t)c;
}

size_t letter_units(char c) { return letter(c) > 0xFFFF ? 2 : 1; }

uint8_t *spelled_text(const char *letters, size_t *size) {
    uint8_t text[32];
    for (*size = 0; *letters; letters++)
        *size += put_utf8(text + *size, letter(*letters));
    return new_input(text, *size);
}

static void add_unit(run *r, uint32_t unit) {
    r->units = grown(r->units, r->units_len + 2);
    r->units[r->units_len++] = (uint8_t)unit, r->units[r->units_len++] = (uint8_t)(unit >> 8);
}

void add_character(run *r, uint32_t c) {
    if (c > 0xFFFF) {
        add_unit(r, 0xD800 + (c - 0x10000) / 1024);
        add_unit(r, 0xDC00 + c % 1024);
    } else {
        add_unit(r, c);
    }
}

run spelled_units(const char *letters) {
    run r = {NULL, NULL, NULL, 0, 0, 0};
    for (; *letters; letters++)
        add_character(&r, letter(*letters));
    return r;
}

void add_cluster(run *r, int32_t a, const char *glyphs) {
    static const char letters[] = "fnzauUvVNxy";
    static const int32_t numbers[][4] = {{FONT}, {FLAT(9)}, {-1, 0, 0, 0}, {-1, 7000, 0, 0}, {-1, -1, 1, 0}, {-1, -1, -1, 0},
                                         {-1, -1, 0, 1}, {-1, -1, 0, -1}, {65535, 0, -1000000000, 1000000000}, {-2, -1, 0, 0},
                                         {-1, -2, 0, 0}};
    size_t b = strlen(glyphs);
    r->clusters = grown(r->clusters, r->clusters_len + 8);
    put_number(r->clusters + r->clusters_len, a);
    put_number(r->clusters + r->clusters_len + 4, (int32_t)b);
    r->clusters_len += 8;
    if (b > 0)
        r->glyphs = grown(r->glyphs, r->glyphs_len + 16 * b);
    for (; *glyphs; glyphs++)
        for (int k = 0; k < 4; k++, r->glyphs_len += 4)
            put_number(r->glyphs + r->glyphs_len, numbers[strchr(letters, *glyphs) - letters][k]);
}

run spelled_run(const char *letters, const char *clusters) {
    run r = spelled_units(letters);
    while (*clusters) {
        char glyphs[8] = "";
        size_t b = strcspn(clusters + 1, " ");
        memcpy(glyphs, clusters + 1, b);
        add_cluster(&r, *clusters - '0', glyphs);
        clusters += 1 + b + (clusters[1 + b] == ' ');
    }
    return r;
}
