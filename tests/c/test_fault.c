/* glyph_label_fault: the part of a label that a number and a place are of. */
#include "tests.h"

static glyph_label_part fault(const char *text, const char *indices, uint32_t number, size_t place) {
    size_t tn = strlen(text), in = strlen(indices);
    uint8_t *t = new_input(text, tn), *i = new_input(indices, in);
    glyph_label_part p = glyph_label_fault(t, tn, i, in, number, place);
    free(t);
    free(i);
    return p;
}

void test_fault(void) {
    for (uint32_t n = 0; n < 40; n++) {
        int of_text = 2 <= n && n <= 4, of_entry = (7 <= n && n <= 12) || n == 14;
        glyph_label_part p = fault("abc", "5;;(2:2)6", n, 1);
        check(of_text ? is_part(p, 0, 1, 2) : of_entry ? is_part(p, 1, 2, 0) : is_part(p, 0, 0, 0), "fault %u at 1", n);
        p = fault("abc", "5;;(2:2)6", n, 2);
        check(of_text ? is_part(p, 0, 2, 1) : of_entry ? is_part(p, 1, 3, 6) : is_part(p, 0, 0, 0), "fault %u at 2", n);
        p = fault("abc", "5;;(2:2)6", n, 0);
        check(of_text ? is_part(p, 0, 0, 3) : of_entry ? is_part(p, 1, 0, 1) : is_part(p, 0, 0, 0), "fault %u at 0", n);
        check(is_part(fault("abc", "5;;(2:2)6", n, 3), 0, 0, 0), "fault %u past the last", n);
        check(is_part(fault("abc", "5;;(2:2)6", n, SIZE_MAX), 0, 0, 0), "fault %u far past the last", n);
        check(is_part(fault("", "", n, 0), 0, 0, 0), "fault %u in an empty label", n);
    }
    check(is_part(fault("AB", "(1:2)5;", 11, 1), 1, 7, 0), "an empty entry at the end is a part of the indices");
    check(is_part(fault("AB", "(1:2)5;", 11, 2), 0, 0, 0), "past the last entry it is the start of the text");
    check(is_part(fault("AB", "", 7, 0), 0, 0, 0), "no bytes of indices have no entry");
    check(is_part(fault("AB", "5", UINT32_MAX, 0), 0, 0, 0), "no such number");
    check(is_part(glyph_label_fault(NULL, 0, NULL, 0, 7, 0), 0, 0, 0), "a part of nothing");
    check(is_part(glyph_label_fault(NULL, 0, NULL, 0, 2, 0), 0, 0, 0), "a part of nothing");
}
