/* The header's own functions and structs, its constants, and the version of the archive. */
#include "calls.h"
#include "tests.h"

/* ---- Functions ---- */

/* The bytes of a number below 2 to the power 32, low byte first, by division. */
static void model_bytes(uint8_t *p, size_t count, int64_t number) {
    for (size_t k = 0; k < count; k++, number /= 256)
        p[k] = (uint8_t)(number % 256);
}

enum { AREA = 40 };

static void clear_areas(uint8_t *area, uint8_t *want) {
    memset(area, 0x5C, AREA);
    memset(want, 0x5C, AREA);
}

/* Stored as unit i from an address on: the two bytes are there, no other has changed, and the unit is fetched again. */
static void test_put_unit(size_t address, size_t i, uint16_t unit) {
    uint8_t area[AREA], want[AREA];
    clear_areas(area, want);
    model_bytes(want + address + 2 * i, 2, unit);
    glyph_label_put_unit(area + address, i, unit);
    check(memcmp(area, want, AREA) == 0, "unit %zu at %zu is stored as %04X", i, address, unit);
    check(glyph_label_unit_at(want + address, i) == unit, "unit %zu at %zu is fetched as %04X", i, address, unit);
}

static void test_put_number(size_t address, size_t i, int32_t number) {
    uint8_t area[AREA], want[AREA];
    clear_areas(area, want);
    model_bytes(want + address + 4 * i, 4, number < 0 ? number + 4294967296 : number);
    glyph_label_put_number(area + address, i, number);
    check(memcmp(area, want, AREA) == 0, "number %zu at %zu is stored as %ld", i, address, (long)number);
    check(glyph_label_number_at(want + address, i) == number, "number %zu at %zu is fetched as %ld", i, address, (long)number);
}

/* At odd addresses too: every unit, and the numbers next to each power of two, then random ones. */
static void test_leaves(uint32_t step) {
    for (size_t address = 0; address < 8; address++)
        for (size_t i = 0; i < 3; i++) {
            for (uint32_t unit = 0; unit < 65536; unit += step)
                test_put_unit(address, i, (uint16_t)unit);
            for (int k = 0; k < 32; k++)
                for (int64_t more = -2; more <= 2; more++) {
                    int64_t number = ((int64_t)1 << k) + more;
                    if (number <= INT32_MAX)
                        test_put_number(address, i, (int32_t)number);
                    if (-number >= INT32_MIN)
                        test_put_number(address, i, (int32_t)-number);
                }
            for (uint32_t k = 0; k < 10000; k += step)
                test_put_number(address, i, (int32_t)((int64_t)random_below(0xffffffffu) + INT32_MIN));
        }
}

/* Each number up to the last has its own cause. */
static void test_causes(void) {
    const uint32_t last = GLYPH_LABEL_NO_ROOM_FOR_ANSWERS;
    const char *none = glyph_label_cause(last + 1);
    check(last == 27 && strcmp(glyph_label_cause(UINT32_MAX), none) == 0, "numbers without a cause");
    for (uint32_t k = 0; k <= last; k++) {
        const char *cause = glyph_label_cause(k);
        check(cause && *cause && strcmp(cause, none) != 0, "%u has a cause", k);
        for (uint32_t j = 0; j < k; j++)
            check(strcmp(cause, glyph_label_cause(j)) != 0, "%u and %u have the same cause", k, j);
    }
}

void print_causes(void) {
    for (uint32_t k = 1; k <= 27; k++)
        printf("%u %s\n", k, glyph_label_cause(k));
}

/* ---- Structs ---- */

#define AT(type, field, offset) (offsetof(type, field) == (offset))

static void test_layouts(void) {
    check(sizeof(glyph_label_reading) == 24 && AT(glyph_label_reading, place, 4) && AT(glyph_label_reading, rounded, 20), "a reading");
    check(sizeof(glyph_label_writing) == 16 && AT(glyph_label_writing, text, 8) && AT(glyph_label_writing, indices, 12), "a writing");
    check(sizeof(glyph_label_stretch) == 16 && AT(glyph_label_stretch, first, 8) && AT(glyph_label_stretch, end, 12), "a stretch");
    check(sizeof(glyph_label_part) == 24 && AT(glyph_label_part, start, 8) && AT(glyph_label_part, length, 16), "a part");
    check(sizeof(glyph_label_filled) == 24 && AT(glyph_label_filled, place, 8) && AT(glyph_label_filled, filled, 16), "a filling");
    check(sizeof(glyph_label_cluster) == 8 && AT(glyph_label_cluster, units, 0) && AT(glyph_label_cluster, glyphs, 4), "a cluster");
    check(sizeof(glyph_label_glyph) == 16 && AT(glyph_label_glyph, index, 0) && AT(glyph_label_glyph, advance, 4)
              && AT(glyph_label_glyph, u, 8) && AT(glyph_label_glyph, v, 12),
          "a glyph");
    check(GLYPH_LABEL_UNITS_MAX == 2 * 4096 && GLYPH_LABEL_CLUSTERS_MAX == 8 * 4096 && GLYPH_LABEL_GLYPHS_MAX == 16 * 4096,
          "the largest run");
    check(GLYPH_LABEL_TEXT_MAX == 16384 && GLYPH_LABEL_ESCAPED_TEXT_MAX == 6 * 4096 && GLYPH_LABEL_INDICES_MAX == 262144,
          "the largest label");
    check(GLYPH_LABEL_VERSION == 1 && glyph_label_version() == GLYPH_LABEL_VERSION, "the archive has version %u", glyph_label_version());
}

/* A label read into arrays of structs has in their fields what the run's bytes say, and is written and picked from them alike. */
static void test_structs(const char *text, const char *indices) {
    uint16_t units[16];
    glyph_label_cluster clusters[16];
    glyph_label_glyph glyphs[16];
    size_t n = strlen(text), m = strlen(indices);
    run r = read_run(text, indices);
    glyph_label_reading a = glyph_label_read((const uint8_t *)text, n, (const uint8_t *)indices, m, (uint8_t *)units, sizeof units,
                                             (uint8_t *)clusters, sizeof clusters, (uint8_t *)glyphs, sizeof glyphs);
    run s = {(uint8_t *)units, (uint8_t *)clusters, (uint8_t *)glyphs, 2 * (size_t)a.units, 8 * (size_t)a.clusters, 16 * (size_t)a.glyphs};
    check(a.number == 0 && same_run(&r, &s), "%s %s is read into structs", text, indices);
    for (size_t k = 0; k < a.units; k++)
        check(units[k] == glyph_label_unit_at(r.units, k) && units[k] == unit_at(&r, k), "unit %zu of %s", k, text);
    for (size_t k = 0; k < a.clusters; k++)
        check(clusters[k].units == glyph_label_number_at(r.clusters, 2 * k)
                  && clusters[k].glyphs == glyph_label_number_at(r.clusters, 2 * k + 1),
              "cluster %zu of %s", k, indices);
    for (size_t k = 0; k < a.glyphs; k++)
        check(glyphs[k].index == get_number(r.glyphs + 16 * k) && glyphs[k].advance == get_number(r.glyphs + 16 * k + 4)
                  && glyphs[k].u == get_number(r.glyphs + 16 * k + 8) && glyphs[k].v == get_number(r.glyphs + 16 * k + 12),
              "glyph %zu of %s", k, indices);
    check(try_run("structs", &s), "%s %s in structs is sound", text, indices);
    for (size_t k = 0; k < a.glyphs; k++)
        try_pick(&s, k, k + 1);
    free_run(&r);
}

void test_header(int full) {
    test_layouts();
    test_causes();
    test_leaves(full ? 1 : 97);
    test_structs("12.4", "20,55.6;21,55.6;(2)416,33.4,,-14");
    test_structs("A" GRIN "B", "65535,1000000,-1000000,1000000;(2:3)1;2,0;3,,-.001");
    test_structs("", "5;6,,.001");
}
