/* Rounding to thousandths by glyph_label_read: how many fields it counts as rounded, and halves, what is next to them and
 * what is far from them, in every count of digits. */
#include "calls.h"
#include "models.h"
#include "tests.h"

/* ---- Rounded fields are counted ---- */

typedef struct {
    const char *text, *indices;
    uint32_t number, rounded;
} rounded_row;

static const rounded_row rounded_rows[] = {
    {"A", "5,.0005", 0, 1},
    {"A", "5,1.0000", 0, 0},
    {"A", "5,0e-99", 0, 0},
    {"A", "5,1e-4", 0, 1},
    {"A", "5,.0005,1.5,-1e-4", 0, 2},
    {"A", "5,.0005,.0005,-.0005", 0, 3},
    {"A", "(1:2)5,1.5;6,.0005,,-1e-4", 0, 2},
    {"A", "5,,,.0004", 0, 1},
    {"A", "5,,,", 0, 0},
    {"ABC", ",+.0004,", 0, 1},
    {"A", "5,1000000.0004", 0, 1},
    {"A", "5,1000000.0005", 0, 1},
    {"A", "5,1000000.0006", 9, 0},
    {"A", "5,,.0005", 0, 1},
    {"A", "5,.0005;6", 12, 0},
    {"", "5,.0005;6,12345e-5", 0, 2},
    {"A" GRIN, "5,.0005", 0, 1},
    {"A" GRIN, "5,.0005;", 13, 0},
};

static void test_rounded(const rounded_row *w) {
    size_t tn = strlen(w->text), in = strlen(w->indices);
    uint8_t *t = new_input(w->text, tn), *i = new_input(w->indices, in);
    glyph_label_reading a = read_into(w->indices, t, tn, i, in, 64, 64, 64, NULL);
    check(a.number == w->number && a.rounded == w->rounded, "%s: %u, %u rounded", w->indices, a.number, a.rounded);
    if (w->number == 0) {
        if (tn != 0)
            check(read_into(w->indices, t, tn, i, in, 1, 64, 64, NULL).number == 16, "%s: 16", w->indices);
        check(read_into(w->indices, t, tn, i, in, 64, 7, 64, NULL).number == 17, "%s: 17", w->indices);
        check(read_into(w->indices, t, tn, i, in, 64, 64, 15, NULL).number == 18, "%s: 18", w->indices);
    }
    free(t);
    free(i);
}

/* n glyphs with three rounded fields each. */
static void test_all_rounded(size_t n) {
    uint8_t *text = new_bytes(n), *indices = new_bytes(24 * n);
    size_t length = 0;
    for (size_t k = 0; k < n; k++) {
        text[k] = 'a';
        length += (size_t)sprintf((char *)indices + length, "%s5,.0001,.0009,-1e-9", k ? ";" : "");
    }
    glyph_label_reading a = read_into("all rounded", text, n, indices, length, 2 * n, 8 * n, 16 * n, NULL);
    check(is_reading(a, 0, 0, (uint32_t)n, (uint32_t)n, (uint32_t)n) && a.rounded == 3 * n, "all rounded: %u", a.rounded);
    free(text);
    free(indices);
}

/* ---- Halves ---- */

/* Digits with this many of them behind the point, and the exponent by which the last `below` count less than a thousandth:
 * without a sign in the advance, with `-` in the u offset, with `+` in the v offset. */
static void test_digits(const char *digits, size_t n, size_t below, size_t behind) {
    int exponent = (int)behind - (int)below - 3;
    char number[32], indices[100];
    int length = sprintf(number, "%.*s%s%s", (int)(n - behind), digits, behind ? "." : "", digits + (n - behind));
    if (exponent != 0)
        sprintf(number + length, exponent % 2 ? "e%d" : "E%+03d", exponent);
    length = sprintf(indices, "5,%s,-%s,+%s", number, number, number);
    uint64_t size = model_thousandths(digits, n, below);
    uint8_t *i = new_input(indices, (size_t)length);
    run r;
    glyph_label_reading a = read_into(indices, (const uint8_t *)"A", 1, i, (size_t)length, 2, 8, 16, &r);
    if (size > 1000000000)
        check(is_reading(a, 9, 0, 0, 0, 0), "%s: %u", indices, a.number);
    else
        check(is_reading(a, 0, 0, 1, 1, 1) && get_number(r.glyphs + 4) == (int32_t)size && get_number(r.glyphs + 8) == -(int32_t)size
                  && get_number(r.glyphs + 12) == (int32_t)size && a.rounded == (strspn(digits + (n - below), "0") == below ? 0 : 3),
              "%s: %u, or not %u", indices, a.number, (unsigned)size);
    free_run(&r);
    free(i);
}

/* A size of so many digits, with a half behind it, with what is next to a half and with what is far from it, and with
 * every count of digits behind the point: of all of these every step-th. */
static void test_ends(uint64_t size, size_t kept, size_t below, size_t step) {
    static const char *const ends[] = {"500000000000000000", "499999999999999999", "500000000000000001", "000000000000000000",
                                       "999999999999999999"};
    static size_t count;
    for (size_t k = 0; k < COUNT(ends); k++) {
        char digits[40];
        size_t n = kept == 0 && size == 0 ? 0 : (size_t)sprintf(digits, "%0*llu", (int)kept, (unsigned long long)size);
        if (n != kept)
            return;
        n += (size_t)sprintf(digits + n, "%.*s%c", (int)below - 1, ends[k], below == 1 ? ends[k][0] : ends[k][17]);
        for (size_t behind = 0; behind <= n; behind++)
            if (count++ % step == 0)
                test_digits(digits, n, below, behind);
    }
}

/* Every count of digits, and every one of them the first below a thousandth. */
static void test_halves(size_t step) {
    static const uint64_t sizes[] = {0, 1, 2, 3, 9, 10, 99, 998, 999999998, 999999999, 1000000000, 1000000001, 99999999999999999};
    for (size_t n = 1; n <= 18; n++)
        for (size_t below = 1; below <= n; below++)
            for (size_t k = 0; k < COUNT(sizes); k++)
                test_ends(sizes[k], n - below, below, step);
}

void test_rounding(int full) {
    for (size_t k = 0; k < COUNT(rounded_rows); k++)
        test_rounded(&rounded_rows[k]);
    test_all_rounded(4096);
    test_halves(full ? 1 : 97);
}
