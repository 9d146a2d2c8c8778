/* glyph_label_resolve: references and white space, good and bad, against rows and the model; all references to numbers,
 * all short raw values of some bytes, and long ones. Those above 4 GiB are in test_large.c. */
#include "calls.h"
#include "models.h"
#include "tests.h"

typedef struct {
    const char *raw;
    size_t n;
    uint32_t number, place; /* of the refusal, or 0 and: */
    const char *out;
    size_t size;
} raw_row;

#define GIVES(raw, out) {raw, sizeof raw - 1, 0, 0, out, sizeof out - 1}
#define BAD(raw, place) {raw, sizeof raw - 1, 23, place, "", 0}

static const raw_row raw_rows[] = {
    GIVES("", ""), GIVES("flow", "flow"), GIVES("&amp;&lt;&gt;&quot;&apos;", "&<>\"'"), GIVES("a&#65;b&#x42;c", "aAbBc"),
    /* Characters that may not stand, and the last ones that may. */
    BAD("&#0;", 0), BAD("&#x0;", 0), BAD("&#8;", 0), BAD("&#xB;", 0), BAD("&#12;", 0), BAD("&#14;", 0), BAD("&#31;", 0), BAD("&#xD800;", 0),
    BAD("&#xDBFF;&#xDC00;", 0), BAD("&#xdfff;", 0), BAD("&#xFFFE;", 0), BAD("&#65535;", 0), BAD("&#x110000;", 0), BAD("&#1114112;", 0),
    GIVES("&#x9;&#10;&#xD;&#32;", "\t\n\r "), GIVES("&#x7F;", "\x7F"), GIVES("&#x80;&#x7FF;", "\xC2\x80\xDF\xBF"),
    GIVES("&#x800;&#xD7FF;&#xE000;", "\xE0\xA0\x80\xED\x9F\xBF\xEE\x80\x80"), GIVES("&#xFFFD;", "\xEF\xBF\xBD"),
    GIVES("&#x10000;&#x10FFFF;", "\xF0\x90\x80\x80\xF4\x8F\xBF\xBF"), GIVES("&#128512;", "\xF0\x9F\x98\x80"), GIVES("&#x1FFFE;", "\xF0\x9F\xBF\xBE"),
    /* The form of a character reference. */
    BAD("&#X41;", 0), GIVES("&#x4a;&#x4A;", "JJ"), GIVES("&#xaF;&#xAf;", "\xC2\xAF\xC2\xAF"), GIVES("&#0065;&#x00041;", "AA"), BAD("&#4294967361;", 0),
    BAD("&#18446744073709551681;", 0), BAD("&#x100000041;", 0), BAD("&#x10000000000000041;", 0), BAD("&#;", 0), BAD("&#x;", 0), BAD("&#65", 0),
    BAD("&#x41", 0), BAD("&#", 0), BAD("&#x", 0), BAD("&# 65;", 0), BAD("&#65 ;", 0), BAD("&#x 41;", 0), BAD("&#x41 ;", 0), BAD("& #65;", 0),
    BAD("&#6a;", 0), BAD("&#A;", 0), BAD("&#x4G;", 0), BAD("&#xx41;", 0), BAD("&#0x41;", 0), BAD("&#-65;", 0), BAD("&#+65;", 0), BAD("&#6&#65;", 0),
    BAD("&x41;", 0), BAD("&65;", 0), BAD("&#6\r\n5;", 0),
    /* The form of a name. */
    BAD("&nbsp;", 0), BAD("&AMP;", 0), BAD("&Lt;", 0), BAD("&amp", 0), BAD("&lt &gt;", 0), BAD("&quot&quot;", 0), BAD("& amp;", 0), BAD("&amp ;", 0),
    BAD("&", 0), BAD("&;", 0), BAD("&&amp;", 0), BAD("&am;", 0), BAD("&amps;", 0), BAD("&a", 0), BAD("&apo;", 0), BAD("&ap", 0), BAD("&l;", 0),
    BAD("a & b", 2), BAD("&amp\0;", 0),
    /* What a reference gives is not looked at again, and only a raw `<` is bad. */
    GIVES("&amp;lt;", "&lt;"), GIVES("&#38;lt;", "&lt;"), GIVES("&#x26;#60;", "&#60;"), GIVES("&amp;amp;amp;", "&amp;amp;"), GIVES("&#60;&lt;", "<<"),
    BAD("<", 0), BAD("&lt;<", 4), GIVES(">\"']]>", ">\"']]>"), GIVES("&lt;b>&#x3C;/b>", "<b></b>"),
    /* White space. */
    GIVES("\t\n\r", "   "), GIVES("a\r\nb", "a b"), GIVES("\n\r", "  "), GIVES("\r\r\n", "  "), GIVES("\r\n\n", "  "), GIVES("\r\n\r\n", "  "),
    GIVES("\r&#10;", " \n"), GIVES("&#13;\n", "\r "), GIVES("&#13;&#10;", "\r\n"), GIVES("\r&#13;\n\r", " \r  "), GIVES("&#9;\t", "\t "),
    GIVES("a\r", "a "), GIVES("  a  b  ", "  a  b  "), GIVES(" &#32; ", "   "), GIVES("\xC2\x85\xE2\x80\xA8", "\xC2\x85\xE2\x80\xA8"),
    /* The mark and what looks like it. */
    GIVES("&#123;a", "{a"), GIVES("&#123;&#125;a", "{}a"), GIVES("{}&lt;", "{}<"),
    /* Bytes that no text has are copied. */
    GIVES("\xFF\xC3", "\xFF\xC3"), GIVES("\x00\x01\x0B", "\x00\x01\x0B"), GIVES("\xED\xA0\x80\xEF\xBF\xBE", "\xED\xA0\x80\xEF\xBF\xBE"),
    GIVES("\xE0&#65;\xB8", "\xE0" "A\xB8"), BAD("\xC3<", 1), GIVES("&#195;\xC3", "\xC3\x83\xC3"),
    /* The place is that of the first, in the raw bytes. */
    BAD("aaa<", 3), BAD("a&b<", 1), BAD("<&", 0), BAD("a<&", 1), BAD("&amp;&x;", 5), BAD("\r\n<", 2), BAD("&#x1F600;&#0;&#1;", 9), BAD("&lt;&gt;&quot", 8),
};

static void test_raw_rows(void) {
    for (size_t k = 0; k < COUNT(raw_rows); k++) {
        const raw_row *w = &raw_rows[k];
        try_raw(w->raw, w->n, w->number, w->place, w->out, w->size);
        check(is_filled(try_any_raw((const uint8_t *)w->raw, w->n), w->number, w->place, w->size), "the model of %s", w->raw);
    }
}

/* The references to all numbers up to past the last character, or to every step-th. */
static void test_references(uint32_t step) {
    static const char *const forms[] = {"&#%lu;", "&#x%lx;", "&#x%lX;"};
    for (uint32_t c = 0; c <= 0x110100; c += step) {
        uint8_t utf8[4];
        size_t size = put_utf8(utf8, c);
        for (int k = 0; k < 3; k++) {
            char raw[16];
            size_t n = (size_t)sprintf(raw, forms[k], (unsigned long)c);
            resolve_into((const uint8_t *)raw, n, n, xml_char(c) ? 0 : 23, 0, utf8, size);
        }
    }
}

/* All raw values of n of these bytes. */
static void test_all_raw(const uint8_t *bytes, size_t count, size_t n) {
    uint8_t raw[8];
    for (size_t number = 0; number < string_count(count, n); number++) {
        put_string(raw, bytes, count, n, number);
        try_any_raw(raw, n);
    }
}

static void test_small_raw(int full) {
    uint8_t any[256];
    for (int k = 0; k < 256; k++)
        any[k] = (uint8_t)k;
    test_all_raw(any, 256, 1);
    if (full)
        test_all_raw(any, 256, 2);
    for (size_t n = 2; n <= (full ? 5 : 3); n++)
        test_all_raw((const uint8_t *)"&#x;lt\r\n\t< 4", 12, n);
}

/* Something at every place of a text, as a copy may go in larger steps. */
static void test_places(void) {
    static const char *const some[] = {"<", "&", "&amp;", "&#x1F600;", "&lt", "&#xD800;", "\r\n", "\r", "\n", "\t", "&#13;\n"};
    for (size_t k = 0; k < COUNT(some); k++) {
        for (size_t at = 0; at <= 40; at++) {
            uint8_t raw[64];
            size_t n = strlen(some[k]);
            memset(raw, 'a', sizeof raw);
            memcpy(raw + at, some[k], n);
            try_any_raw(raw, 40 + n);
            try_any_raw(raw, at + n);
        }
    }
}

/* A byte many times, between a start and an end. */
static glyph_label_filled try_long(const char *start, int byte, size_t count, const char *end) {
    size_t n = strlen(start), m = strlen(end);
    uint8_t *raw = new_bytes(n + count + m);
    memcpy(raw, start, n);
    memset(raw + n, byte, count);
    memcpy(raw + n + count, end, m);
    glyph_label_filled f = try_any_raw(raw, n + count + m);
    free(raw);
    return f;
}

static void test_long_raw(void) {
    check(is_filled(try_long("&#", '0', 100000, "65;"), 0, 0, 1), "a reference with many zeros");
    check(is_filled(try_long("&#x", '0', 100000, "10FFFF;"), 0, 0, 4), "a reference with many zeros, hexadecimal");
    check(is_filled(try_long("&#", '0', 100000, ";"), 23, 0, 0), "a reference of zeros");
    check(is_filled(try_long("&#", '9', 100000, ";"), 23, 0, 0), "a reference with many digits");
    check(is_filled(try_long("&#x", 'F', 100000, ";"), 23, 0, 0), "a reference with many digits, hexadecimal");
    for (size_t zeros = 4; zeros < 40; zeros++) {
        check(is_filled(try_long("&#x1", '0', zeros, "41;"), 23, 0, 0), "16 to the power %zu and 65", zeros + 2);
        check(is_filled(try_long("&#1", '0', zeros + 2, "65;"), 23, 0, 0), "10 to the power %zu and 65", zeros + 4);
    }
    check(is_filled(try_long("", 'a', 1 << 20, ""), 0, 0, 1 << 20), "a long raw value");
    check(is_filled(try_long("", 'a', 1 << 20, "<"), 23, 1 << 20, 0), "a long raw value and `<`");
    check(is_filled(try_long("", 'a', 70000, "&"), 23, 70000, 0), "a long raw value and `&`");
    check(is_filled(try_long("&amp;", '\r', 70000, "\n"), 0, 0, 70001), "many carriage returns");
}

void test_resolve(int full) {
    check(is_filled(glyph_label_resolve(NULL, 0, NULL, 0), 0, 0, 0), "an empty raw value");
    check(is_filled(glyph_label_resolve((const uint8_t *)"&#65;", 5, NULL, 0), 24, 1, 0), "a raw value into no buffer");
    check(is_filled(glyph_label_resolve((const uint8_t *)"aaa<", 4, NULL, 0), 23, 3, 0), "a raw `<` into no buffer");
    test_raw_rows();
    test_references(full ? 1 : 199);
    test_small_raw(full);
    test_places();
    test_long_raw();
}
