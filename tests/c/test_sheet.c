/* glyph_label_sheet: files against rows and the model, all short files of some bytes, sheets of the rows' labels and of long
 * ones, cut, chosen and exchanged, and a sheet with answers from files. Every label that read_into of calls.c
 * reads is put into a sheet too, by gather of sheets.c. Files above 4 GiB are in test_large.c. */
#include "sheets.h"
#include "tests.h"

/* ---- Files ---- */

typedef struct {
    const char *file;
    size_t n;
    uint32_t number, place; /* of the refusal, or 0 and: */
    const char *answers;
    size_t size;
} sheet_row;

#define ANSWERED(file, answers) {file, sizeof file - 1, 0, 0, answers, sizeof answers - 1}
#define REFUSED(file, number, place) {file, sizeof file - 1, number, place, "", 0}

static const sheet_row sheet_rows[] = {
    /* Mark and version. */
    REFUSED("", 25, 0), REFUSED("S", 25, 0), REFUSED("SL", 25, 0), REFUSED("SLB", 25, 0), REFUSED("SLB\1", 25, 0), ANSWERED(HEAD, ""),
    REFUSED("SLB\0\1", 25, 0), REFUSED("SLB\2\0", 25, 0), REFUSED("SLB\0\0", 25, 0), REFUSED("SLB\1\1", 25, 0), REFUSED("BLS\1\0", 25, 0),
    REFUSED("slb\1\0", 25, 0), REFUSED(" SLB\1\0", 25, 0), REFUSED("SLB1\0", 25, 0), REFUSED("\xEF\xBB\xBFSLB\1\0", 25, 0),
    /* One label. */
    ANSWERED(HEAD "\0\0\0\0\0\0", "\6\0\0\0\0\0\0\0"),
    ANSWERED(HEAD "\1\0\0\0\0\0" "A", "\0\0\0\0\0\0\0\0"),
    ANSWERED(HEAD "\0\0\1\0\0\0" "5", "\0\0\0\0\0\0\0\0"),
    ANSWERED(HEAD "\1\0\1\0\0\0" "A5", "\0\0\0\0\0\0\0\0"),
    ANSWERED(HEAD "\1\0\3\0\0\0" "A5;6", "\14\0\0\0\1\0\0\0"),
    ANSWERED(HEAD "\2\0\0\0\0\0" "{}", "\6\0\0\0\0\0\0\0"),
    ANSWERED(HEAD "\2\0\0\0\0\0" "{a", "\4\0\0\0\0\0\0\0"),
    ANSWERED(HEAD "\2\0\7\0\0\0" "AB(2:2)5;", "\13\0\0\0\1\0\0\0"),
    ANSWERED(HEAD "\2\0\6\0\0\0" "AB(2:2)5", "\16\0\0\0\0\0\0\0"),
    ANSWERED(HEAD "\4\0\0\0\0\0" GRIN, "\0\0\0\0\0\0\0\0"),
    ANSWERED(HEAD "\4\0\1\0\0\0" GRIN ";", "\15\0\0\0\1\0\0\0"),
    ANSWERED(HEAD "\5\0\1\0\0\0" "A" GRIN ";", "\15\0\0\0\2\0\0\0"),
    /* References are resolved already: here `&` is itself. */
    ANSWERED(HEAD "\7\0\0\0\0\0" "A&#66;C", "\0\0\0\0\0\0\0\0"),
    ANSWERED(HEAD "\1\0\5\0\0\0" "A&#53;", "\7\0\0\0\0\0\0\0"),
    /* Where the text ends and the indices begin, the sizes alone say. */
    ANSWERED(HEAD "\2\0\1\0\0\0" "A55", "\0\0\0\0\0\0\0\0"),
    ANSWERED(HEAD "\1\0\2\0\0\0" "A5x", "\7\0\0\0\0\0\0\0"),
    ANSWERED(HEAD "\3\0\0\0\0\0" "A5x", "\0\0\0\0\0\0\0\0"),
    /* A label that looks like a file or like a record. */
    ANSWERED(HEAD "\5\0\0\0\0\0" "SLB\1\0", "\3\0\0\0\3\0\0\0"),
    ANSWERED(HEAD "\0\0\6\0\0\0" "\0\0\0\0\0\0", "\7\0\0\0\0\0\0\0"),
    /* Several labels. */
    ANSWERED(HEAD "\0\0\0\0\0\0" "\0\0\0\0\0\0", "\6\0\0\0\0\0\0\0" "\6\0\0\0\0\0\0\0"),
    ANSWERED(HEAD "\1\0\4\0\0\0" "A5,-1" "\1\0\1\0\0\0" "A5", "\7\0\0\0\0\0\0\0" "\0\0\0\0\0\0\0\0"),
    ANSWERED(HEAD "\1\0\1\0\0\0" "A5" "\1\0\4\0\0\0" "A5,-1", "\0\0\0\0\0\0\0\0" "\7\0\0\0\0\0\0\0"),
    ANSWERED(HEAD "\1\0\1\0\0\0" "A;" "\0\0\0\0\0\0" "\3\0\0\0\0\0" "ab\1", "\14\0\0\0\1\0\0\0" "\6\0\0\0\0\0\0\0" "\3\0\0\0\2\0\0\0"),
    ANSWERED(HEAD "\1\0\5\0\0\0" "A65536" "\2\0\0\0\0\0" "AB" "\0\0\3\0\0\0" "5;6", "\10\0\0\0\0\0\0\0" "\0\0\0\0\0\0\0\0" "\0\0\0\0\0\0\0\0"),
    ANSWERED(HEAD "\4\0\0\0\0\0" "a\xE1\x80" "A" "\0\0\0\0\0\0" "\1\0\6\0\0\0" "A5,1e7;", "\2\0\0\0\1\0\0\0" "\6\0\0\0\0\0\0\0" "\11\0\0\0\0\0\0\0"),
    /* The file ends inside a record. */
    REFUSED(HEAD "\0", 26, 0), REFUSED(HEAD "\0\0\0\0\0", 26, 0), REFUSED(HEAD "\1\0\0\0\0\0", 26, 0), REFUSED(HEAD "\0\0\1\0\0\0", 26, 0),
    REFUSED(HEAD "\0\1\0\0\0\0" "A", 26, 0), REFUSED(HEAD "\0\0\0\1\0\0" "5", 26, 0), REFUSED(HEAD "\0\0\0\0\1\0" "5", 26, 0),
    REFUSED(HEAD "\0\0\0\0\0\1" "5", 26, 0), REFUSED(HEAD "\1\0\2\0\0\0" "A5", 26, 0), REFUSED(HEAD "\1\0\1\0\0\0" "A5" "\0", 26, 1),
    REFUSED(HEAD "\1\0\1\0\0\0" "A5" "\1\0\1\0\0\0" "A", 26, 1), REFUSED(HEAD "\0\0\0\0\0\0" "\0\0\0\0\0\0" "\0\0\0\0\0", 26, 2),
    REFUSED(HEAD "\0\0\0\0\0\0" "\xFF\xFF\xFF\xFF\xFF\xFF" "A5", 26, 1), REFUSED(HEAD HEAD, 26, 0),
    /* 25 comes before 26. */
    REFUSED("SLB\2\0" "\1\0\1\0\0\0" "A", 25, 0), REFUSED("SLC\1\0" "\0", 25, 0),
};

static void test_sheet_rows(void) {
    for (size_t k = 0; k < COUNT(sheet_rows); k++) {
        const sheet_row *w = &sheet_rows[k];
        try_file(shown((const uint8_t *)w->file, w->n), w->file, w->n, w->number, w->place, w->answers, w->size / 8);
    }
}

/* Every other value of every byte of mark and version, or every step-th: 25, whatever follows and whatever the room. */
static void test_marks(int step) {
    static const char follows[] = "\1\0\1\0\0\0" "A5" "\1\0\1\0\0\0" "A";
    static const size_t sizes[] = {0, 8, 15};
    uint8_t file[5 + sizeof follows];
    for (int at = 0; at < 5; at++)
        for (int value = 0; value < 256; value += step)
            for (int k = 0; k < 3; k++) {
                memcpy(file, HEAD, 5);
                memcpy(file + 5, follows, sizeof follows);
                if (file[at] == value)
                    continue;
                file[at] = (uint8_t)value;
                sheet_into("mark", file, 5 + sizes[k], 0, 25, 0, NULL, 0);
                sheet_into("mark", file, 5 + sizes[k], 16, 25, 0, NULL, 0);
            }
}

/* All files of n of these bytes behind a start. */
static void test_all_files(const char *start, size_t start_len, const char *bytes, size_t count, size_t n) {
    uint8_t file[32];
    memcpy(file, start, start_len);
    for (size_t number = 0; number < string_count(count, n); number++) {
        put_string(file + start_len, bytes, count, n, number);
        try_any_file("all files", file, start_len + n);
    }
}

static void test_small_files(int full) {
    for (size_t n = 0; n <= (full ? 5 : 3); n++)
        test_all_files("", 0, "SLB\1\0", 5, n);
    for (size_t n = 0; n <= (full ? 9 : 5); n++)
        test_all_files(HEAD, 5, "\0\1" "5", 3, n);
    for (size_t n = 6; n <= (full ? 14 : 8); n++)
        test_all_files(HEAD, 5, "\0\1", 2, n);
}

/* ---- Sheets of labels with known answers ---- */

static sheet rows_sheet(void) {
    sheet s = new_sheet();
    for (size_t k = 0; k < label_row_count; k++) {
        const label_row *w = &label_rows[k];
        add_label(&s, w->text, strlen(w->text), w->indices, strlen(w->indices), w->number, w->place);
    }
    return s;
}

/* The rows' labels: cut at every byte, each replaced by each other, all exchanged, each alone. */
static void test_rows_sheet(int full) {
    sheet s = rows_sheet();
    size_t n = s.labels, step = full ? 1 : 5, *which = grown(NULL, n * sizeof *which);
    try_sheet("rows", &s);
    for (size_t k = 0; k <= s.size; k++)
        try_start("rows, cut", &s, k);
    for (size_t k = 0; k < n; k++)
        which[k] = k;
    for (size_t k = 0; k < n; k++) {
        for (size_t by = k % step; by < n; by += step) {
            which[k] = by;
            try_chosen("rows, one replaced", &s, which, n);
            try_swapped("rows, swapped", &s, k, by);
        }
        which[k] = k;
        try_chosen("one row", &s, which + k, 1);
    }
    free(which);
    free_sheet(&s);
}

/* 1, 5 and 15, limits that are just kept, and places of two and three bytes; and as much with pairs. */
static sheet long_sheet(void) {
    sheet s = new_sheet();
    add_long(&s, "A", 16384, "", "", 0, "", 5, 0);
    add_long(&s, "A", 16385, "", "", 0, "", 1, 0);
    add_long(&s, "\xFF", 16385, "", "x", 1, "", 1, 0);
    add_long(&s, "A", 65535, "", "5", 1, "", 1, 0);
    add_long(&s, "A", 4096, "", "", 0, "", 0, 0);
    add_long(&s, "A", 4097, "", "", 0, "", 5, 0);
    add_long(&s, "\xE0\xB8\xB3", 4096, "", "5;", 4095, "5", 0, 0);
    add_long(&s, "A", 16383, "\xFF", "", 0, "", 2, 16383);
    add_long(&s, "A", 255, "\x01", "", 0, "", 3, 255);
    add_long(&s, "A", 256, "\x01", "", 0, "", 3, 256);
    add_long(&s, "", 0, "", "5;", 4095, "5", 0, 0);
    add_long(&s, "", 0, "", "5;", 4096, "5", 15, 0);
    add_long(&s, "", 0, "", "5;", 5000, "x", 7, 5000);
    add_long(&s, "", 0, "", "5;", 131071, "x", 7, 131071);
    add_long(&s, "", 0, "", "5;", 131072, "", 11, 131072);
    add_long(&s, "A", 1, "", "0", 262143, "5", 0, 0);
    add_long(&s, "A", 1, "", "0", 262144, "5", 1, 0);
    add_long(&s, "{", 1, "", "x", 262145, "", 1, 0);
    /* A pair of the tail is two units and one glyph. */
    add_long(&s, GRIN, 2048, "", "", 0, "", 0, 0);
    add_long(&s, GRIN, 2047, "AB", "", 0, "", 0, 0);
    add_long(&s, GRIN, 2048, "A", "", 0, "", 5, 0);
    add_long(&s, GRIN, 2049, "", "", 0, "", 5, 0);
    add_long(&s, GRIN, 4096, "", "", 0, "", 5, 0);
    add_long(&s, GRIN, 4097, "", "", 0, "", 1, 0);
    add_long(&s, GRIN, 2048, "", "(2)9;", 2046, "(2)9", 0, 0);
    add_long(&s, GRIN, 2048, "", "(2)9;", 2047, "", 13, 4095);
    add_long(&s, GRIN, 2048, "", "(2:3)9;8;7;", 1023, "(2:3)9;8;7", 0, 0);
    add_long(&s, GRIN, 2048, "", "(2:3)9;8;7;", 1023, "(2:4)9;8;7;6", 15, 0);
    add_long(&s, "A", 2048, GRIN GRIN, ";", 2047, "", 0, 0);
    add_long(&s, "A", 2048, GRIN GRIN, ";", 2048, "", 13, 2049);
    return s;
}

/* Long labels, cut inside and behind the sizes; and one whose size of indices has four bytes, between short ones. */
static void test_long_sheet(void) {
    sheet s = long_sheet(), few = new_sheet();
    try_sheet("long", &s);
    try_swapped("long, swapped", &s, 0, s.labels - 1);
    for (size_t k = 0; k < s.labels; k++) {
        try_start("long, cut", &s, s.starts[k] + 5);
        try_start("long, cut", &s, s.starts[k] + 6);
        try_start("long, cut", &s, s.starts[k + 1] - 1);
    }
    add_label(&few, "A", 1, "5", 1, 0, 0);
    add_long(&few, "A", 1, "", "0", 1 << 24, "", 1, 0);
    add_label(&few, "A", 1, "5;6", 3, 12, 1);
    try_sheet("16 MiB", &few);
    try_start("16 MiB, cut", &few, few.starts[2] - 1);
    free_sheet(&s);
    free_sheet(&few);
}

/* A refused label first, in the middle and last among as many accepted ones. */
static void test_position(const sheet *from, size_t good, size_t bad, size_t n) {
    size_t *which = grown(NULL, n * sizeof *which);
    for (size_t at = 0; at < n; at += n / 2) {
        for (size_t k = 0; k < n; k++)
            which[k] = k == at ? bad : good;
        try_chosen("position", from, which, n);
    }
    free(which);
}

static void test_positions(void) {
    sheet s = rows_sheet();
    for (size_t k = 0; k < s.labels; k++) {
        test_position(&s, 0, k, 3);
        test_position(&s, 0, k, 129);
        test_position(&s, k, 0, 3);
    }
    free_sheet(&s);
}

/* Sizes near 2 to the power 32 in the last record: the file ends first, whatever a sum of sizes comes to in 32 bits. */
static void test_far_ends(uint32_t step) {
    static const uint8_t head[] = HEAD "\1\0\1\0\0\0" "A5";
    for (uint32_t records = 0; records < 3; records++)
        for (uint32_t back = 0; back < 80; back += step)
            for (int k = 0; k < 6; k++) {
                uint8_t file[5 + 2 * 8 + 6 + 8];
                uint32_t from = k % 3 == 0 ? 0xffffffffu : k % 3 == 1 ? 0x80000010u : 0xffff0010u;
                size_t at = 5 + 8 * records;
                for (size_t j = 0; j < sizeof file; j++)
                    file[j] = head[j < 13 ? j : 5 + (j - 5) % 8];
                put_sizes(file + at, k < 3 ? 1 : 65535, 0);
                put_number(file + at + 2, (int32_t)(from - back));
                try_file("far end", file, at + 6 + 8, 26, records, NULL, 0);
                try_file("far end", file, at + 6, 26, records, NULL, 0);
            }
}

/* Neither file nor answers need any alignment. */
static void test_alignment(void) {
    sheet s = rows_sheet();
    uint8_t *file = new_bytes(s.size + 8);
    for (size_t a = 0; a < 8; a++)
        for (size_t b = 0; b < 8; b++) {
            output o = new_output(8 * s.labels + b);
            memcpy(file + a, s.bytes, s.size);
            memcpy(o.before + GUARD + b, s.answers, 8 * s.labels);
            glyph_label_filled f = glyph_label_sheet(file + a, s.size, o.bytes + b, 8 * s.labels);
            check(is_filled(f, 0, 0, 2 * s.labels) && stays_behind(&o, 0), "a file at %zu, answers at %zu", a, b);
            free_output(&o);
        }
    free(file);
    free_sheet(&s);
}

static void test_no_buffers(void) {
    check(is_filled(glyph_label_sheet(NULL, 0, NULL, 0), 25, 0, 0), "an empty file");
    check(is_filled(glyph_label_sheet((const uint8_t *)HEAD, 5, NULL, 0), 0, 0, 0), "a file of no labels into no buffer");
    check(is_filled(glyph_label_sheet((const uint8_t *)HEAD "\0\0\0\0\0\0", 11, NULL, 0), 27, 1, 0), "a file into no buffer");
    check(is_filled(glyph_label_sheet((const uint8_t *)HEAD "\0\0\0\0\0\0\0", 12, NULL, 0), 26, 1, 0), "a cut file into no buffer");
}

void test_sheet(int full) {
    test_no_buffers();
    test_sheet_rows();
    test_marks(full ? 1 : 15);
    test_small_files(full);
    test_rows_sheet(full);
    test_positions();
    test_far_ends(full ? 1 : 7);
    test_alignment();
    test_long_sheet();
}

/* ---- A sheet with its answers, from files ---- */

static uint8_t *read_file(const char *path, size_t *size) {
    FILE *f = fopen(path, "rb");
    uint8_t *bytes = NULL;
    *size = 0;
    check(f != NULL, "no file %s", path);
    if (f == NULL)
        return NULL;
    for (size_t more = 1; more > 0; *size += more) {
        bytes = grown(bytes, *size + 65536);
        more = fread(bytes + *size, 1, 65536, f);
    }
    fclose(f);
    return bytes;
}

/* The sheet of a file's records and of the answers to them. */
static sheet given_sheet(const uint8_t *file, size_t n, const uint8_t *answers, size_t size) {
    sheet s = new_sheet();
    size_t at = 5;
    while (at + 6 <= n && s.labels < size / 8) {
        size_t more = 6 + (file[at] + 256u * file[at + 1]) + (uint32_t)get_number(file + at + 2);
        if (more > n - at)
            break;
        add_record(&s, file + at, more, answers + 8 * s.labels);
        at += more;
    }
    check(at == n && s.labels == size / 8, "a given sheet of %zu labels, with answers of %zu bytes", s.labels, size);
    return s;
}

/* Each answer is the one of the file, and of the reading; the file is cut at each byte, or at some. */
void test_given_sheet(const char *sheet_path, const char *answers_path, int full) {
    size_t n, size;
    uint8_t *file = read_file(sheet_path, &n), *answers = read_file(answers_path, &size);
    if (file && answers) {
        check(size > 0 && size % 8 == 0, "%zu bytes of answers", size);
        check(is_filled(try_any_file("given sheet", file, n), 0, 0, size / 4), "a given sheet of %zu bytes, with answers of %zu", n, size);
        sheet s = given_sheet(file, n, answers, size);
        try_sheet("given sheet", &s);
        for (size_t k = 0; k < n; k += full ? 1 : 97)
            try_start("given sheet, cut", &s, k);
        free_sheet(&s);
    }
    free(file);
    free(answers);
}
