/* Sheets that tests make, what every sheet and every file is tried with, and the sheet of the labels that read_into reads. */
#include "sheets.h"

#include "models.h"

/* ---- Making a sheet ---- */

sheet new_sheet(void) {
    sheet s = {NULL, NULL, grown(NULL, sizeof(size_t)), 5, 64, 0};
    s.bytes = grown(NULL, s.room);
    memcpy(s.bytes, HEAD, 5);
    s.starts[0] = 5;
    return s;
}

void free_sheet(sheet *s) {
    free(s->bytes);
    free(s->answers);
    free(s->starts);
}

void add_record(sheet *s, const uint8_t *record, size_t n, const uint8_t *answer) {
    if (s->size + n > s->room)
        s->bytes = grown(s->bytes, s->room = 2 * (s->size + n));
    if (s->labels % 64 == 0) {
        s->answers = grown(s->answers, 8 * (s->labels + 64));
        s->starts = grown(s->starts, (s->labels + 65) * sizeof(size_t));
    }
    memcpy(s->bytes + s->size, record, n);
    memcpy(s->answers + 8 * s->labels, answer, 8);
    s->starts[++s->labels] = s->size += n;
}

void put_sizes(uint8_t *p, size_t text_len, size_t indices_len) {
    p[0] = (uint8_t)text_len, p[1] = (uint8_t)(text_len >> 8);
    put_number(p + 2, (int32_t)indices_len);
}

void put_answer(uint8_t *p, uint32_t number, uint32_t place) {
    put_number(p, (int32_t)number);
    put_number(p + 4, (int32_t)place);
}

void add_label(sheet *s, const void *text, size_t text_len, const void *indices, size_t indices_len, uint32_t number,
               uint32_t place) {
    size_t n = 6 + text_len + indices_len;
    uint8_t *record = new_bytes(n), answer[8];
    put_sizes(record, text_len, indices_len);
    if (text_len != 0)
        memcpy(record + 6, text, text_len);
    if (indices_len != 0)
        memcpy(record + 6 + text_len, indices, indices_len);
    put_answer(answer, number, place);
    add_record(s, record, n, answer);
    free(record);
}

glyph_label_reading large_reading(const uint8_t *text, size_t text_len, const uint8_t *indices, size_t indices_len) {
    static uint8_t units[GLYPH_LABEL_UNITS_MAX], clusters[GLYPH_LABEL_CLUSTERS_MAX], glyphs[GLYPH_LABEL_GLYPHS_MAX];
    return glyph_label_read(text, text_len, indices, indices_len, units, sizeof units, clusters, sizeof clusters, glyphs, sizeof glyphs);
}

void add_long(sheet *s, const char *text, size_t texts, const char *text_end, const char *indices, size_t entries,
              const char *indices_end, uint32_t number, uint32_t place) {
    size_t tn, in;
    uint8_t *t = repeated(text, texts, text_end, &tn), *i = repeated(indices, entries, indices_end, &in);
    glyph_label_reading r = large_reading(t, tn, i, in);
    check(r.number == number && r.place == place, "a long label is read as %u %u, not %u %u", r.number, r.place, number, place);
    add_label(s, t, tn, i, in, number, place);
    free(t);
    free(i);
}

/* ---- Trying it ---- */

void sheet_into(const char *what, const uint8_t *file, size_t n, size_t room, uint32_t number, size_t place,
                const uint8_t *answers, size_t labels) {
    output o = new_output(room);
    glyph_label_filled f = glyph_label_sheet(file, n, o.bytes, room);
    check(is_filled(f, number, place, number == 0 ? 2 * labels : 0), "%s: a file of %zu bytes into %zu: %u %zu, %zu filled", what, n,
          room, f.number, f.place, f.filled);
    check(f.filled <= room / 4 && stays_behind(&o, 4 * f.filled), "%s: a file of %zu bytes into %zu changed other bytes", what, n, room);
    for (size_t k = 0; number == 0 && k < labels && k < f.filled / 2; k++)
        check(memcmp(o.bytes + 8 * k, answers + 8 * k, 8) == 0, "%s: label %zu of %zu gets %ld %ld", what, k, labels,
              (long)get_number(o.bytes + 8 * k), (long)get_number(o.bytes + 8 * k + 4));
    free_output(&o);
}

void try_sheet(const char *what, const sheet *s) {
    uint8_t *file = new_input(s->bytes, s->size);
    size_t room = 8 * s->labels;
    sheet_into(what, file, s->size, room, 0, 0, s->answers, s->labels);
    sheet_into(what, file, s->size, room + 1 + random_below(7), 0, 0, s->answers, s->labels);
    if (s->labels > 0)
        sheet_into(what, file, s->size, room - 1, 27, s->labels, NULL, 0);
    check(same_bytes(file, s->bytes, s->size), "%s: the file has changed", what);
    free(file);
}

void try_start(const char *what, const sheet *s, size_t n) {
    uint8_t *file = new_input(s->bytes, n);
    size_t k = 0;
    while (k < s->labels && s->starts[k + 1] <= n)
        k++;
    uint32_t number = n < 5 ? 25 : s->starts[k] < n ? 26 : 0;
    size_t place = number == 26 ? k : 0;
    sheet_into(what, file, n, 8 * k, number, place, s->answers, k);
    if (number != 0)
        sheet_into(what, file, n, 8 * s->labels + 3, number, place, NULL, 0);
    free(file);
}

void try_chosen(const char *what, const sheet *from, const size_t *which, size_t count) {
    sheet s = new_sheet();
    for (size_t k = 0; k < count; k++) {
        size_t at = from->starts[which[k]];
        add_record(&s, from->bytes + at, from->starts[which[k] + 1] - at, from->answers + 8 * which[k]);
    }
    sheet_into(what, s.bytes, s.size, 8 * count, 0, 0, s.answers, count);
    free_sheet(&s);
}

void try_swapped(const char *what, const sheet *s, size_t a, size_t b) {
    size_t *which = grown(NULL, s->labels * sizeof *which);
    for (size_t k = 0; k < s->labels; k++)
        which[k] = k == a ? b : k == b ? a : k;
    try_chosen(what, s, which, s->labels);
    free(which);
}

void try_file(const char *what, const void *bytes, size_t n, uint32_t number, size_t place, const void *answers, size_t labels) {
    uint8_t *file = new_input(bytes, n);
    size_t needed = 8 * labels;
    for (size_t room = 0; room < needed + 18; room += room + 18 < needed ? 5 : 1)
        if (number == 0 && room < needed)
            sheet_into(what, file, n, room, 27, labels, NULL, 0);
        else
            sheet_into(what, file, n, room, number, place, answers, labels);
    check(same_bytes(file, bytes, n), "%s: the file has changed", what);
    free(file);
}

glyph_label_filled try_any_file(const char *what, const uint8_t *file, size_t n) {
    uint8_t *answers = new_bytes(n / 6 * 8 + 8);
    glyph_label_filled f = model_sheet(file, n, answers);
    try_file(what, file, n, f.number, f.place, answers, f.filled / 2);
    free(answers);
    return f;
}

/* ---- Labels that read_into of calls.c has read ---- */

static sheet gathered;

/* As they come, two of them exchanged, and cut somewhere. */
void try_gathered(void) {
    if (gathered.labels == 0)
        return;
    try_sheet("gathered", &gathered);
    size_t a = random_below((uint32_t)gathered.labels), b = random_below((uint32_t)gathered.labels);
    try_swapped("gathered, swapped", &gathered, a, b);
    try_start("gathered, cut", &gathered, random_below((uint32_t)gathered.size));
    free_sheet(&gathered);
    memset(&gathered, 0, sizeof gathered);
}

void gather(const uint8_t *text, size_t text_len, const uint8_t *indices, size_t indices_len) {
    glyph_label_reading r = large_reading(text, text_len, indices, indices_len);
    if (gathered.labels == 0)
        gathered = new_sheet();
    add_label(&gathered, text, text_len, indices, indices_len, r.number, r.place);
    if (gathered.labels == 300 || gathered.size > 1000000)
        try_gathered();
}
