/* Above 4 GiB: raw values of glyph_label_resolve and files of glyph_label_sheet whose places, sizes and counts 32 bits cannot
 * hold. Only with the argument `large`. */
#define _DEFAULT_SOURCE /* for MAP_ANONYMOUS */
#include <sys/mman.h>

#include "sheets.h"
#include "tests.h"

/* Zeros, of which only those that are changed take memory. */
static uint8_t *new_zeros(size_t n) {
    uint8_t *p = mmap(NULL, n, PROT_READ | PROT_WRITE, MAP_PRIVATE | MAP_ANONYMOUS | MAP_NORESERVE, -1, 0);
    check(p != MAP_FAILED, "no address space for %zu bytes", n);
    return p == MAP_FAILED ? NULL : p;
}

/* A place that 32 bits cannot hold is given whole. */
static void test_large_raw(void) {
    const size_t four = (size_t)1 << 32, n = four + 16;
    uint8_t *raw = new_zeros(n);
    if (raw == NULL)
        return;
    check(is_filled(glyph_label_resolve(raw, n, NULL, 0), 24, n, 0), "24 of a large raw value");
    for (size_t k = four - 2; k <= four + 2; k++)
        check(is_filled(glyph_label_resolve(raw, k, NULL, 0), 24, k, 0), "24 of %zu bytes", k);
    raw[n - 1] = '<';
    check(is_filled(glyph_label_resolve(raw, n, NULL, 0), 23, n - 1, 0), "23 at the end of a large raw value");
    for (size_t k = four + 1; k >= four - 2; k--) {
        raw[k] = k % 2 ? '<' : '&';
        check(is_filled(glyph_label_resolve(raw, n, NULL, 0), 23, k, 0), "23 at %zu", k);
    }
    munmap(raw, n);
}

/* A record with the largest sizes that there are, and one behind it. */
static void test_largest_record(void) {
    static const uint8_t answers[] = "\1\0\0\0\0\0\0\0" "\7\0\0\0\0\0\0\0";
    const size_t end = 5 + 6 + (size_t)65535 + 4294967295u;
    uint8_t *file = new_zeros(end + 8);
    if (file == NULL)
        return;
    memcpy(file, HEAD "\xFF\xFF\xFF\xFF\xFF\xFF", 11);
    memcpy(file + end, "\1\0\1\0\0\0" "Ax", 8);
    sheet_into("largest record", file, end, 8, 0, 0, answers, 1);
    sheet_into("largest record", file, end, 7, 27, 1, NULL, 0);
    sheet_into("largest record, cut", file, end - 1, 8, 26, 0, NULL, 0);
    sheet_into("largest record and another", file, end + 8, 16, 0, 0, answers, 2);
    for (size_t n = end + 1; n < end + 8; n++)
        sheet_into("largest record and another, cut", file, n, 16, 26, 1, NULL, 0);
    munmap(file, end + 8);
}

/* More records than 32 bits can count, all empty. */
static void test_most_records(void) {
    const size_t most = (size_t)1 << 32, n = 5 + 6 * most;
    uint8_t *file = new_zeros(n + 1);
    if (file == NULL)
        return;
    memcpy(file, HEAD, 5);
    sheet_into("most records", file, n, 8, 27, most, NULL, 0);
    sheet_into("most records, cut", file, n + 1, 8, 26, most, NULL, 0);
    munmap(file, n + 1);
}

void test_large(void) {
    test_large_raw();
    test_largest_record();
    test_most_records();
}
