/* One label of bench.c, by its row, read or read and written so many times: what instructions.sh counts. */
#define main bench_main
#include "bench.c"
#undef main

struct row { const char *name; int n; const char *entry, *unit; };

static const struct row rows[] = {
    { "4 glyphs, bare", 4, "%d", "A" },
    { "12 glyphs, advances", 12, "%d,55.5", "A" },
    { "12 glyphs, all fields", 12, "%d,55.5,-1.25,.5", "A" },
    { "1,000 glyphs, bare", 1000, "%d", "A" },
    { "1,000 glyphs, all fields", 1000, "%d,55.5,-1.25,.5", "A" },
    { "1,000 glyphs, long fields, 3 bytes", 1000, "(1:1)%d,123456.789,-123456.789,-.125", "\xe0\xb8\xb3" },
    { "1,000 glyphs, worst numbers", 1000, "%d,1234567890123e-10,-12345678901234567.8e-12,.000000000000000012e+17", "A" },
    { "1,000 letters left to the font", 1000, NULL, "A" },
    { "1,000 pairs left to the font", 1000, NULL, "\xf0\x9f\x98\x80" },
    { "4,000 glyphs, all fields", 4000, "%d,55.5,-1.25,.5", "A" },
};

/* instructions ROW reads writes; without arguments the names of the rows, a line each */
int main(int argc, char **argv)
{
    size_t count = sizeof rows / sizeof rows[0];
    if (argc < 4) {
        for (size_t i = 0; i < count; i++) puts(rows[i].name);
        return 0;
    }
    const struct row *r = &rows[atoi(argv[1])];
    make(r->n, r->entry ? r->entry : "", r->unit);
    if (!r->entry) indices[0] = 0;
    for (int i = 0; i < atoi(argv[2]); i++)
        last = glyph_label_read((const uint8_t *)text, strlen(text), (const uint8_t *)indices, strlen(indices),
                                units, sizeof units, clusters, sizeof clusters, glyphs, sizeof glyphs);
    for (int i = 0; i < atoi(argv[3]); i++)
        sink += (int)glyph_label_write(units, 2 * last.units, clusters, 8 * last.clusters, glyphs, 16 * last.glyphs,
                                       out_text, sizeof out_text, out_indices, sizeof out_indices).text;
    return last.number != 0;
}
