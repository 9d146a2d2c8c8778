/* A model of a sheet. */
#include "models.h"

#include "sheets.h"

glyph_label_filled model_sheet(const uint8_t *file, size_t n, uint8_t *answers) {
    size_t labels = 0;
    if (n < 5 || memcmp(file, HEAD, 5) != 0)
        return (glyph_label_filled){25, 0, 0};
    for (size_t at = 5; at < n; labels++) {
        if (n - at < 6)
            return (glyph_label_filled){26, labels, 0};
        size_t text_len = file[at] + 256u * file[at + 1], indices_len = (uint32_t)get_number(file + at + 2);
        if (n - at - 6 < text_len || n - at - 6 - text_len < indices_len)
            return (glyph_label_filled){26, labels, 0};
        const uint8_t *text = file + at + 6, *indices = text + text_len;
        glyph_label_reading r = large_reading(text, text_len, indices, indices_len);
        put_answer(answers + 8 * labels, r.number, r.place);
        at += 6 + text_len + indices_len;
    }
    return (glyph_label_filled){0, 0, 2 * labels};
}
