/* glyph_label_units_of and glyph_label_glyphs_of: every stretch of some runs, and stretches far past their ends. */
#include "calls.h"
#include "tests.h"

void test_picks(void) {
    static const char *const labels[][2] = {{"ABCDEFG" GRIN "HI", "1;(2:3)2;3;4;;(1:2)5;6;(2)7;(2)8;(2:2)9;10"}, {"", "5;6;7"},
                                            {"A", "5"}, {GRIN, ""}, {GRIN "A" GRIN GRIN "B", ""}, {"ABC" GRIN "D" GRIN, "1;(2:3)2;3;4"},
                                            {GRIN GRIN "A" GRIN, "(2:2)9;8"}};
    check(is_stretch(glyph_label_units_of(NULL, 0, NULL, 0, NULL, 0, 0, 1), 19, 0, 0), "units of an empty run");
    check(is_stretch(glyph_label_glyphs_of(NULL, 0, NULL, 0, NULL, 0, 0, 1), 19, 0, 0), "glyphs of an empty run");
    for (size_t k = 0; k < COUNT(labels); k++) {
        run r = read_run(labels[k][0], labels[k][1]);
        size_t n = r.units_len / 2 + r.glyphs_len / 16 + 2;
        for (size_t first = 0; first <= n; first++)
            for (size_t end = 0; end <= n; end++)
                try_pick(&r, first, end);
        try_pick(&r, 0, SIZE_MAX);
        try_pick(&r, SIZE_MAX, 0);
        try_pick(&r, SIZE_MAX, SIZE_MAX);
        try_pick(&r, SIZE_MAX - 1, SIZE_MAX);
        try_pick(&r, 0, (size_t)1 << 32 | 1);
        free_run(&r);
    }
}
