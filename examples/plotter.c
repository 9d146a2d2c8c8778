/* Reads the label given on the command line, prints its run cluster by cluster, picks a stretch of glyphs, and writes
 * the label back in its normal writing. Or reads all labels of a sheet, and prints what came of each.
 *
 *     cc -I include examples/plotter.c target/staticlib/libglyph_label.a -o plotter
 *     ./plotter 'flow' '(2:1)192;7,55.5'            picks all glyphs
 *     ./plotter 'flow' '(2:1)192;7,55.5' 1 2        picks glyph 1
 *     ./plotter --raw 'A&amp;B' '5;6;7'             resolves text and indices first, and escapes what it writes back
 *     ./plotter --sheet examples/soundings.slb      reads the labels of a sheet's file
 */
#include <stdio.h>
#include <stdlib.h>
#include <string.h>

#include "glyph_label.h"

/* The exit status. */
enum { ACCEPTED = 0, REFUSED = 1, TROUBLE = 2 };

static const char usage[] =
    "usage: plotter [--raw] [--] TEXT [INDICES [FIRST END]]\n"
    "       plotter --sheet FILE\n"
    "       plotter --help\n"
    "Reads a label, prints its run, picks the glyphs from FIRST up to and without END, or\n"
    "all, and writes the label back. With --raw both values are as they stand in a page.\n"
    "With --sheet judges all labels of a file.\n"
    "Exit status: 0 accepted; 1 the label, the pick, the file or a label of it refused;\n"
    "2 wrong arguments, or a file that cannot be read.\n";

static uint8_t units[GLYPH_LABEL_UNITS_MAX], clusters[GLYPH_LABEL_CLUSTERS_MAX], glyphs[GLYPH_LABEL_GLYPHS_MAX];
static uint8_t text_out[GLYPH_LABEL_ESCAPED_TEXT_MAX], indices_out[GLYPH_LABEL_INDICES_MAX];

/* Thousandths as a decimal. */
static void print_value(const char *name, int32_t v) {
    uint32_t size = v < 0 ? 0u - (uint32_t)v : (uint32_t)v;
    printf(" %s %s%u.%03u", name, v < 0 ? "-" : "", size / 1000, size % 1000);
}

static void print_glyph(size_t i) {
    int32_t index = glyph_label_number_at(glyphs, 4 * i), advance = glyph_label_number_at(glyphs, 4 * i + 1);
    int32_t u = glyph_label_number_at(glyphs, 4 * i + 2), v = glyph_label_number_at(glyphs, 4 * i + 3);
    if (index < 0)
        printf(" font");
    else
        printf(" %d", index);
    if (advance >= 0)
        print_value("advance", advance);
    if (u != 0)
        print_value("u", u);
    if (v != 0)
        print_value("v", v);
}

/* One line a cluster: its code units, and its glyphs. */
static void print_run(glyph_label_reading r) {
    size_t u = 0, g = 0;
    printf("%u code units, %u clusters, %u glyphs, %u values rounded\n", r.units, r.clusters, r.glyphs, r.rounded);
    printf("cluster  units / glyphs\n");
    for (size_t c = 0; c < r.clusters; c++) {
        size_t u_end = u + (size_t)glyph_label_number_at(clusters, 2 * c);
        size_t g_end = g + (size_t)glyph_label_number_at(clusters, 2 * c + 1);
        printf("%7zu ", c);
        for (; u < u_end; u++)
            printf(" %04X", glyph_label_unit_at(units, u));
        printf(" /");
        for (; g < g_end; g++) {
            print_glyph(g);
            printf(g + 1 < g_end ? "," : "");
        }
        printf("\n");
    }
}

static void print_bytes(const char *name, const uint8_t *bytes, size_t n) {
    printf("%s", name);
    for (size_t i = 0; i < n; i++) {
        if (bytes[i] < 0x20 || bytes[i] == 0x7f)
            printf("\\x%02X", bytes[i]);
        else
            putchar(bytes[i]);
    }
    printf("\n");
}

/* Number and place of a refusal, and its cause. */
static void print_refusal(uint32_t number, size_t place) {
    printf("refused: number %u, place %zu: %s\n", number, place, glyph_label_cause(number));
}

/* A text, its indices, or a file. */
typedef struct {
    const uint8_t *bytes;
    size_t len;
} value;

/* A refusal, and the part of the label that it is about. */
static int refused(value text, value indices, uint32_t number, uint32_t place) {
    glyph_label_part p = glyph_label_fault(text.bytes, text.len, indices.bytes, indices.len, number, place);
    print_refusal(number, place);
    if (p.in_indices)
        print_bytes("entry: ", indices.bytes + p.start, p.length);
    else if (p.length != 0)
        print_bytes("text: ", text.bytes + p.start, p.length);
    return REFUSED;
}

static uint8_t *new_bytes(size_t n) {
    uint8_t *p = malloc(n + 1); /* malloc(0) may give NULL */
    if (p == NULL) {
        perror("plotter");
        exit(TROUBLE);
    }
    return p;
}

/* Resolves a raw value into memory as long as the value, which is always enough; or shows it from the bad place on. */
static int resolve(const char *name, value *v) {
    uint8_t *out = new_bytes(v->len);
    glyph_label_filled f = glyph_label_resolve(v->bytes, v->len, out, v->len);
    if (f.number != 0) {
        print_refusal(f.number, f.place);
        print_bytes(name, v->bytes + f.place, v->len - f.place);
        return REFUSED;
    }
    v->bytes = out;
    v->len = f.filled;
    return ACCEPTED;
}

/* Reads the label, picks the glyphs from pick[0] to pick[1] or all of them, and writes it back, escaped where it was
 * raw. */
static int plot(value text, value indices, const size_t *pick, int raw) {
    glyph_label_reading r = glyph_label_read(text.bytes, text.len, indices.bytes, indices.len, units, sizeof units,
                                             clusters, sizeof clusters, glyphs, sizeof glyphs);
    if (r.number != 0)
        return refused(text, indices, r.number, r.place);
    print_run(r);

    /* From here on the run is handed in, with its exact sizes. */
    size_t u = 2 * (size_t)r.units, c = 8 * (size_t)r.clusters, g = 16 * (size_t)r.glyphs;
    size_t first = pick ? pick[0] : 0, end = pick ? pick[1] : r.glyphs;
    glyph_label_stretch s = glyph_label_units_of(units, u, clusters, c, glyphs, g, first, end);
    if (s.number != 0)
        return refused(text, indices, s.number, s.place);
    printf("glyphs %zu to %zu touch the code units %u to %u\n", first, end, s.first, s.end);

    glyph_label_writing w = raw ? glyph_label_write_escaped(units, u, clusters, c, glyphs, g, text_out, sizeof text_out,
                                                            indices_out, sizeof indices_out)
                                : glyph_label_write(units, u, clusters, c, glyphs, g, text_out, sizeof text_out,
                                                    indices_out, sizeof indices_out);
    if (w.number != 0)
        return refused(text, indices, w.number, w.place);
    print_bytes("text:    ", text_out, w.text);
    print_bytes("indices: ", indices_out, w.indices);
    return ACCEPTED;
}

static value read_file(const char *path) {
    FILE *f = fopen(path, "rb");
    uint8_t *bytes = NULL;
    size_t len = 0;
    for (size_t more = 1; f != NULL && more > 0; len += more) {
        bytes = realloc(bytes, len + 65536);
        if (bytes == NULL)
            break;
        more = fread(bytes + len, 1, 65536, f);
    }
    if (bytes == NULL || ferror(f)) {
        perror(path);
        exit(TROUBLE);
    }
    fclose(f);
    return (value){bytes, len};
}

/* One line a label of a sheet. A label takes at least 6 bytes of the file, and 8 of the answers. */
static int plot_sheet(value file) {
    size_t room = file.len / 6 * 8, accepted = 0;
    uint8_t *answers = new_bytes(room);
    glyph_label_filled f = glyph_label_sheet(file.bytes, file.len, answers, room);
    size_t labels = f.filled / 2;
    if (f.number != 0) {
        print_refusal(f.number, f.place);
        return REFUSED;
    }
    for (size_t k = 0; k < labels; k++) {
        uint32_t number = (uint32_t)glyph_label_number_at(answers, 2 * k);
        printf("label %zu: ", k);
        if (number == 0)
            printf("accepted\n");
        else
            print_refusal(number, (size_t)glyph_label_number_at(answers, 2 * k + 1));
        accepted += number == 0;
    }
    printf("%zu of %zu labels accepted\n", accepted, labels);
    return accepted == labels ? ACCEPTED : REFUSED;
}

/* A count in digits, and nothing else. */
static int parse_count(const char *s, size_t *n) {
    *n = 0;
    if (*s == 0)
        return 0;
    for (; *s; s++) {
        if (*s < '0' || *s > '9' || *n > (SIZE_MAX - 9) / 10)
            return 0;
        *n = 10 * *n + (size_t)(*s - '0');
    }
    return 1;
}

static int wrong_arguments(void) {
    fputs(usage, stderr);
    return TROUBLE;
}

/* TEXT, and perhaps INDICES, FIRST and END. */
static int plot_arguments(int count, char **args, int raw) {
    value text, indices = {NULL, 0};
    size_t pick[2];
    if (count != 1 && count != 2 && count != 4)
        return wrong_arguments();
    if (count == 4 && !(parse_count(args[2], &pick[0]) && parse_count(args[3], &pick[1])))
        return wrong_arguments();
    text = (value){(const uint8_t *)args[0], strlen(args[0])};
    if (count > 1)
        indices = (value){(const uint8_t *)args[1], strlen(args[1])};
    if (raw && (resolve("raw text: ", &text) != ACCEPTED || resolve("raw indices: ", &indices) != ACCEPTED))
        return REFUSED;
    return plot(text, indices, count == 4 ? pick : NULL, raw);
}

int main(int argc, char **argv) {
    int raw = 0, at = 1;
    if (glyph_label_version() != GLYPH_LABEL_VERSION) {
        fprintf(stderr, "plotter: version %d, but the archive has %u\n", GLYPH_LABEL_VERSION, glyph_label_version());
        return TROUBLE;
    }
    if (argc == 2 && strcmp(argv[1], "--help") == 0) {
        fputs(usage, stdout);
        return 0;
    }
    if (argc == 3 && strcmp(argv[1], "--sheet") == 0)
        return plot_sheet(read_file(argv[2]));
    if (at < argc && strcmp(argv[at], "--raw") == 0)
        raw = 1, at++;
    if (at < argc && strcmp(argv[at], "--") == 0)
        at++;
    else if (at < argc && strncmp(argv[at], "--", 2) == 0)
        return wrong_arguments();
    return plot_arguments(argc - at, argv + at, raw);
}
