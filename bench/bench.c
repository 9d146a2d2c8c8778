/* Reading and writing through the C calls beside a plain loop of the kind that viewers use: digits by hand, strtof for the rest, no checks, no clusters
   tied to the text. Both in one run, best of several rounds; the ratio is what counts. Then the growth with the label, the time a glyph at sizes next to
   each other, and the stack that each call takes; resolving beside a plain loop, escaped writing beside the normal one; and all labels of a sheet in one
   call beside one reading each and the plain loop. */
#include <alloca.h>
#include <pthread.h>
#include <stdio.h>
#include <stdlib.h>
#include <string.h>
#include <time.h>
#include "../include/glyph_label.h"

#define MAX 4096

static uint8_t units[MAX * 2], clusters[MAX * 8], glyphs[MAX * 16];
static uint8_t out_text[MAX * 4], out_indices[262144];

/* ── the plain loop ── */

struct plain_glyph { int index; float advance, u, v; };

static unsigned short plain_units[MAX];
static struct plain_glyph plain_glyphs[MAX];
static int plain_clusters[2 * MAX];

static int plain_text(const char *s, size_t n)
{
    int k = 0;
    for (size_t i = 0; i < n;) {
        unsigned char b = (unsigned char)s[i];
        if (b < 0x80) { plain_units[k++] = b; i += 1; }
        else if (b < 0xe0) { plain_units[k++] = (unsigned short)((b & 31) << 6 | (s[i + 1] & 63)); i += 2; }
        else if (b < 0xf0) { plain_units[k++] = (unsigned short)((b & 15) << 12 | (s[i + 1] & 63) << 6 | (s[i + 2] & 63)); i += 3; }
        else {
            unsigned c = (unsigned)((b & 7) << 18 | (s[i + 1] & 63) << 12 | (s[i + 2] & 63) << 6 | (s[i + 3] & 63)) - 0x10000;
            plain_units[k++] = (unsigned short)(0xd800 + (c >> 10));
            plain_units[k++] = (unsigned short)(0xdc00 + (c & 1023));
            i += 4;
        }
    }
    return k;
}

static const char *plain_number(const char *p, int *n)
{
    int v = 0;
    while (*p >= '0' && *p <= '9') v = v * 10 + (*p++ - '0');
    *n = v;
    return p;
}

static const char *plain_field(const char *p, float *out)
{
    if (*p == ',') {
        p++;
        if (*p != ',' && *p != ';' && *p != 0) { char *e; *out = strtof(p, &e); p = e; }
    }
    return p;
}

static int plain_read(const char *text, size_t text_len, const char *p)
{
    plain_text(text, text_len);
    int g = 0, c = 0;
    while (*p) {
        int a = 1, b = 1;
        if (*p == '(') {
            p = plain_number(p + 1, &a);
            if (*p == ':') p = plain_number(p + 1, &b);
            p++;
        }
        struct plain_glyph *x = &plain_glyphs[g++];
        x->index = -1;
        x->advance = -1;
        x->u = x->v = 0;
        if (*p >= '0' && *p <= '9') p = plain_number(p, &x->index);
        p = plain_field(p, &x->advance);
        p = plain_field(p, &x->u);
        p = plain_field(p, &x->v);
        plain_clusters[c++] = a;
        plain_clusters[c++] = b;
        if (*p == ';') p++;
    }
    return g;
}

static int plain_write(int n)
{
    char *p = (char *)out_indices;
    for (int i = 0; i < n; i++) {
        struct plain_glyph *x = &plain_glyphs[i];
        if (i) *p++ = ';';
        if (plain_clusters[2 * i] != 1 || plain_clusters[2 * i + 1] != 1) p += sprintf(p, "(%d:%d)", plain_clusters[2 * i], plain_clusters[2 * i + 1]);
        p += sprintf(p, "%d", x->index);
        if (x->advance >= 0) p += sprintf(p, ",%g", x->advance);
        if (x->u != 0 || x->v != 0) p += sprintf(p, ",%g,%g", x->u, x->v);
    }
    return (int)(p - (char *)out_indices);
}

static char *plain_utf8(char *o, unsigned long c)
{
    if (c < 0x80) *o++ = (char)c;
    else if (c < 0x800) { *o++ = (char)(0xc0 | c >> 6); *o++ = (char)(0x80 | (c & 63)); }
    else if (c < 0x10000) { *o++ = (char)(0xe0 | c >> 12); *o++ = (char)(0x80 | (c >> 6 & 63)); *o++ = (char)(0x80 | (c & 63)); }
    else { *o++ = (char)(0xf0 | c >> 18); *o++ = (char)(0x80 | (c >> 12 & 63)); *o++ = (char)(0x80 | (c >> 6 & 63)); *o++ = (char)(0x80 | (c & 63)); }
    return o;
}

static const char *plain_reference(const char *p, char **o)
{
    if (p[1] == '#') {
        char *e;
        unsigned long c = p[2] == 'x' ? strtoul(p + 3, &e, 16) : strtoul(p + 2, &e, 10);
        *o = plain_utf8(*o, c);
        return e + 1;
    }
    if (strncmp(p, "&amp;", 5) == 0) { *(*o)++ = '&'; return p + 5; }
    if (strncmp(p, "&lt;", 4) == 0) { *(*o)++ = '<'; return p + 4; }
    if (strncmp(p, "&gt;", 4) == 0) { *(*o)++ = '>'; return p + 4; }
    if (strncmp(p, "&quot;", 6) == 0) { *(*o)++ = '"'; return p + 6; }
    if (strncmp(p, "&apos;", 6) == 0) { *(*o)++ = '\''; return p + 6; }
    *(*o)++ = *p;
    return p + 1;
}

static size_t plain_resolve(const char *p, size_t n, char *out)
{
    char *o = out;
    for (const char *end = p + n; p < end;) {
        if (*p == '&') p = plain_reference(p, &o);
        else *o++ = *p++;
    }
    return (size_t)(o - out);
}

/* ── labels ── */

static char text[4 * MAX + 16], indices[262145];

static void make(int n, const char *entry, const char *unit)
{
    text[0] = 0;
    indices[0] = 0;
    char *t = text, *p = indices;
    for (int i = 0; i < n; i++) {
        t += sprintf(t, "%s", unit);
        if (i) *p++ = ';';
        p += sprintf(p, entry, (i * 37) % 65536);
    }
}

static double now(void)
{
    struct timespec t;
    clock_gettime(CLOCK_MONOTONIC, &t);
    return (double)t.tv_sec * 1e9 + (double)t.tv_nsec;
}

static glyph_label_reading last;
static volatile int sink;

/* Each round has the label at other addresses and the calls at another depth of the stack, so that no row depends on how they happen to lie. */
#define ROUNDS 9
#define STEP 208

static char text_at[sizeof text + ROUNDS * STEP], indices_at[sizeof indices + ROUNDS * STEP];

static double best(int what, int n, int rounds)
{
    size_t tl = strlen(text), il = strlen(indices);
    double least = 1e30;
    for (int k = 0; k < ROUNDS; k++) {
        char *t0 = memcpy(text_at + k * STEP, text, tl + 1), *i0 = memcpy(indices_at + (ROUNDS - k) * STEP, indices, il + 1);
        volatile char *deeper = alloca(STEP);
        deeper[0] = 0;
        double start = now();
        for (int r = 0; r < rounds; r++) {
            switch (what) {
            case 0: sink += plain_read(t0, tl, i0); break;
            case 1:
                last = glyph_label_read((uint8_t *)t0, tl, (uint8_t *)i0, il, units, sizeof units, clusters, sizeof clusters, glyphs, sizeof glyphs);
                sink += (int)last.glyphs;
                break;
            case 2: sink += plain_write(n); break;
            default: {
                glyph_label_writing w = glyph_label_write(units, last.units * 2, clusters, last.clusters * 8, glyphs, last.glyphs * 16,
                    out_text, sizeof out_text, out_indices, sizeof out_indices);
                sink += (int)w.indices;
            }
            }
        }
        double t = (now() - start) / rounds;
        if (t < least) least = t;
    }
    return least;
}

static double reading_ns, writing_ns;

static void measure(const char *name, int n)
{
    int rounds = n < 100 ? 20000 : n < 2000 ? 500 : 100;
    double a = best(0, n, rounds), b = best(1, n, rounds), c = best(2, n, rounds), d = best(3, n, rounds);
    if (last.number) { printf("%s: refused with %u\n", name, last.number); exit(1); }
    reading_ns = b;
    writing_ns = d;
    printf("%-34s %9.0f %9.0f %6.2f   %9.0f %9.0f %6.2f\n", name, a, b, b / a, c, d, d / c);
}

/* n of this character without indices, all left to the font; the plain loop has no such label. */
static void measure_font(const char *name, int n, const char *character)
{
    make(n, "%d", character);
    indices[0] = 0;
    double b = best(1, n, 500), d = best(3, n, 500);
    if (last.number || last.glyphs != (uint32_t)n) { printf("%s: not one glyph each\n", name); exit(1); }
    printf("%-34s %9s %9.0f %6s   %9s %9.0f\n", name, "", b, "", "", d);
}

/* Time a glyph at sizes next to each other: no size is a step. */
static void measure_sizes(void)
{
    static const int sizes[] = {31, 32, 33, 34, 255, 256, 257, 258, 1023, 1024, 1025, 1026, 4000};
    printf("%-34s %9s %9s\n", "glyphs, all fields (ns a glyph)", "read", "write");
    for (size_t k = 0; k < sizeof sizes / sizeof sizes[0]; k++) {
        int n = sizes[k], rounds = 200000 / n;
        make(n, "%d,55.5,-1.25,.5", "A");
        double b = best(1, n, rounds), d = best(3, n, rounds);
        if (last.number || last.glyphs != (uint32_t)n) { printf("%d glyphs: not read\n", n); exit(1); }
        printf("%-34d %9.1f %9.1f\n", n, b / n, d / n);
    }
}

/* ── resolving, and escaped writing ── */

/* n characters: four letters, then one of these, and so on. */
static void make_text(int n, const char *const *some, int count)
{
    char *t = text;
    for (int i = 0; i < n; i++) t += sprintf(t, "%s", i % 5 == 4 ? some[i / 5 % count] : "A");
    *t = 0;
}

static void call_plain_resolve(const char *raw, size_t n) { sink += (int)plain_resolve(raw, n, (char *)out_text); }

static void call_resolve(const char *raw, size_t n) { sink += (int)glyph_label_resolve((const uint8_t *)raw, n, out_text, sizeof out_text).filled; }

static void call_write(const char *unused, size_t n)
{
    (void)unused, (void)n;
    sink += (int)glyph_label_write(units, last.units * 2, clusters, last.clusters * 8, glyphs, last.glyphs * 16, out_text, sizeof out_text, out_indices,
        sizeof out_indices).text;
}

static void call_write_escaped(const char *unused, size_t n)
{
    (void)unused, (void)n;
    sink += (int)glyph_label_write_escaped(units, last.units * 2, clusters, last.clusters * 8, glyphs, last.glyphs * 16, out_text, sizeof out_text,
        out_indices, sizeof out_indices).text;
}

/* As best, of one of these calls on the text. */
static double best_call(void (*call)(const char *, size_t), int rounds)
{
    size_t n = strlen(text);
    double least = 1e30;
    for (int k = 0; k < ROUNDS; k++) {
        char *t0 = memcpy(text_at + k * STEP, text, n + 1);
        volatile char *deeper = alloca(STEP);
        deeper[0] = 0;
        double start = now();
        for (int r = 0; r < rounds; r++) call(t0, n);
        double t = (now() - start) / rounds;
        if (t < least) least = t;
    }
    return least;
}

static void measure_resolving(const char *name)
{
    size_t n = strlen(text), m = plain_resolve(text, n, (char *)out_indices);
    glyph_label_filled f = glyph_label_resolve((uint8_t *)text, n, out_text, sizeof out_text);
    if (f.number || f.filled != m || memcmp(out_text, out_indices, m) != 0) { printf("%s: not resolved alike\n", name); exit(1); }
    int rounds = n < 100 ? 100000 : 2000;
    double a = best_call(call_plain_resolve, rounds), b = best_call(call_resolve, rounds);
    printf("%-34s %9.0f %9.0f %6.2f\n", name, a, b, b / a);
}

static void measure_escaping(const char *name)
{
    last = glyph_label_read((uint8_t *)text, strlen(text), (uint8_t *)indices, strlen(indices), units, sizeof units, clusters, sizeof clusters, glyphs, sizeof glyphs);
    if (last.number) { printf("%s: refused with %u\n", name, last.number); exit(1); }
    int rounds = last.units < 100 ? 20000 : 500;
    double a = best_call(call_write, rounds), b = best_call(call_write_escaped, rounds);
    printf("%-34s %9.0f %9.0f %6.2f\n", name, a, b, b / a);
}

static void measure_raw(void)
{
    static const char *const letter[] = {"A"};
    static const char *const names[] = {"&amp;", "&lt;", "&quot;", "&apos;"}, *const characters[] = {"&#233;", "&#xE33;", "&#8364;", "&#x1F600;"};
    static const char *const six[] = {"&", "<", "\"", "\t", "\n", "\r"};
    printf("%-34s %9s %9s %6s\n", "raw value (ns a call)", "plain", "resolve", "ratio");
    make_text(12, letter, 1);
    measure_resolving("12 bytes, no references");
    make_text(1000, letter, 1);
    measure_resolving("1,000 bytes, no references");
    make_text(12, names, 4);
    measure_resolving("12 characters, 2 names");
    make_text(1000, names, 4);
    measure_resolving("1,000 characters, 200 names");
    make_text(1000, characters, 4);
    measure_resolving("1,000 characters, 200 numbers");
    printf("%-34s %9s %9s %6s\n", "run (ns a call)", "write", "escaped", "ratio");
    make(12, "%d,55.5", "A");
    measure_escaping("12 glyphs, none escaped");
    make_text(12, six, 6);
    measure_escaping("12 glyphs, every fifth escaped");
    make(1000, "%d,55.5", "A");
    measure_escaping("1,000 glyphs, none escaped");
    make_text(1000, six, 6);
    measure_escaping("1,000 glyphs, every fifth escaped");
    indices[0] = 0;
    make_text(1000, letter, 1);
    measure_escaping("1,000 in the tail, none escaped");
    make_text(1000, six, 6);
    measure_escaping("1,000 in the tail, every fifth");
}

/* ── a sheet in one call ── */

#define LABELS 4000
#define LONGEST 512 /* bytes of a label of 12 glyphs, and more */

struct label { size_t text, text_len, indices, indices_len; };

/* The sheet's call judges each label and stores two numbers; one reading each, and the plain loop, store the runs as well.

   A sheet twice: its labels with a zero byte behind each text and indices, as the plain loop needs it, and its file. */
static struct label labels[LABELS];
static int label_count;
static size_t strings_len, file_len;
static char strings[LABELS * LONGEST], strings_at[sizeof strings + ROUNDS * STEP];
static uint8_t file[5 + LABELS * LONGEST], file_at[sizeof file + ROUNDS * STEP], answers[8 * LABELS];

static const char *strings_now;
static const uint8_t *file_now;

static size_t put_string(const char *s, size_t n)
{
    size_t at = strings_len;
    memcpy(strings + at, s, n + 1);
    strings_len += n + 1;
    return at;
}

static void put_record(size_t text_len, size_t indices_len)
{
    uint8_t *p = file + file_len;
    for (int k = 0; k < 2; k++) p[k] = (uint8_t)(text_len >> 8 * k);
    for (int k = 0; k < 4; k++) p[2 + k] = (uint8_t)(indices_len >> 8 * k);
    memcpy(p + 6, text, text_len);
    memcpy(p + 6 + text_len, indices, indices_len);
    file_len += 6 + text_len + indices_len;
}

/* n labels of 4 to 12 glyphs. */
static void make_sheet(int n, const char *entry)
{
    label_count = n;
    strings_len = 0;
    file_len = 5;
    memcpy(file, "SLB\1\0", 5);
    for (int k = 0; k < n; k++) {
        make(4 + k * 5 % 9, entry, "A");
        size_t t = strlen(text), i = strlen(indices);
        labels[k] = (struct label){put_string(text, t), t, put_string(indices, i), i};
        put_record(t, i);
    }
}

/* The three ways through a sheet. */
static void sheet_plain(void)
{
    for (struct label *x = labels; x < labels + label_count; x++) sink += plain_read(strings_now + x->text, x->text_len, strings_now + x->indices);
}

static glyph_label_reading read_one(const struct label *x)
{
    const uint8_t *s = (const uint8_t *)strings_now;
    return glyph_label_read(s + x->text, x->text_len, s + x->indices, x->indices_len, units, sizeof units, clusters, sizeof clusters, glyphs, sizeof glyphs);
}

static void sheet_singly(void)
{
    for (struct label *x = labels; x < labels + label_count; x++) sink += (int)read_one(x).number;
}

static void sheet_at_once(void) { sink += (int)glyph_label_sheet(file_now, file_len, answers, sizeof answers).filled; }

/* ns a label of the sheet. */
static double timed(void (*call)(void), int rounds)
{
    double start = now();
    for (int r = 0; r < rounds; r++) call();
    return (now() - start) / rounds / label_count;
}

/* As best, of the three ways in turn, so that a busy moment of the machine is in no column alone. */
static void best_sheet(double least[3])
{
    static void (*const ways[3])(void) = {sheet_plain, sheet_singly, sheet_at_once};
    least[0] = least[1] = least[2] = 1e30;
    for (int k = 0; k < 4 * ROUNDS; k++) {
        strings_now = memcpy(strings_at + k % ROUNDS * STEP, strings, strings_len);
        file_now = memcpy(file_at + (ROUNDS - k % ROUNDS) * STEP, file, file_len);
        volatile char *deeper = alloca(STEP);
        deeper[0] = 0;
        for (int w = 0; w < 3; w++) {
            double t = timed(ways[w], 10000 / label_count);
            if (t < least[w]) least[w] = t;
        }
    }
}

/* Every label is accepted, in the sheet and alone. */
static void check_sheet(const char *name)
{
    strings_now = strings;
    glyph_label_filled f = glyph_label_sheet(file, file_len, answers, sizeof answers);
    int bad = f.number != 0 || f.filled != 2 * (size_t)label_count;
    for (int k = 0; k < label_count; k++) bad |= read_one(&labels[k]).number != 0;
    for (int k = 0; k < 8 * label_count; k++) bad |= answers[k] != 0;
    if (bad) { printf("%s: a label is refused\n", name); exit(1); }
}

static void measure_sheet(const char *name)
{
    double t[3];
    check_sheet(name);
    best_sheet(t);
    printf("%-34s %7.0f %7.0f %7.0f %7.2f %7.2f   %9.0f %9.0f %9.0f\n", name, t[0], t[1], t[2], t[2] / t[0], t[2] / t[1], 1e9 / t[0], 1e9 / t[1], 1e9 / t[2]);
}

static void measure_sheets(void)
{
    printf("%-34s %7s %7s %7s %7s %7s   %9s %9s %9s\n", "sheet (ns a label; labels a s)", "plain", "read", "sheet", "/plain", "/read", "plain", "read", "sheet");
    make_sheet(400, "%d,55.5");
    measure_sheet("400 of 4 to 12 glyphs, advances");
    make_sheet(400, "%d,55.5,-1.25,.5");
    measure_sheet("400 of 4 to 12 glyphs, all fields");
    make_sheet(400, "%d");
    measure_sheet("400 of 4 to 12 glyphs, bare");
    make_sheet(4000, "%d,55.5");
    measure_sheet("4,000 of 4 to 12 glyphs, advances");
}

/* ── the stack of a call ── */

#define STACK (1 << 18)

static uint8_t stack[STACK] __attribute__((aligned(4096)));
static long stack_bytes;

static void call_read(void)
{
    last = glyph_label_read((uint8_t *)text, strlen(text), (uint8_t *)indices, strlen(indices), units, sizeof units, clusters, sizeof clusters, glyphs, sizeof glyphs);
}

static void call_plain_write(void) { call_write(NULL, 0); }

static void call_escaped_write(void) { call_write_escaped(NULL, 0); }

static void call_units_of(void)
{
    sink += (int)glyph_label_units_of(units, last.units * 2, clusters, last.clusters * 8, glyphs, last.glyphs * 16, 0, last.glyphs).end;
}

static void call_glyphs_of(void)
{
    sink += (int)glyph_label_glyphs_of(units, last.units * 2, clusters, last.clusters * 8, glyphs, last.glyphs * 16, 0, last.units).end;
}

static void call_text_resolve(void) { call_resolve(text, strlen(text)); }

static void call_fault(void) { sink += (int)glyph_label_fault((uint8_t *)text, strlen(text), (uint8_t *)indices, strlen(indices), 7, last.glyphs - 1).start; }

static void call_sheet(void)
{
    file_now = file;
    sheet_at_once();
}

/* Makes the call; then the bytes from here down to the last of the stack that has changed. */
static void *on_stack(void *call)
{
    volatile uint8_t here = 0;
    long k = 0;
    (*(void (**)(void))call)();
    while (k < STACK && stack[k] == 0xa5) k++;
    stack_bytes = (long)((uintptr_t)&here - (uintptr_t)(stack + k));
    return NULL;
}

static long stack_of(void (*call)(void))
{
    pthread_attr_t attr;
    pthread_t thread;
    call(); /* functions of the C library are then bound */
    memset(stack, 0xa5, STACK);
    pthread_attr_init(&attr);
    pthread_attr_setstack(&attr, stack, STACK);
    if (pthread_create(&thread, &attr, on_stack, &call) != 0 || pthread_join(thread, NULL) != 0) exit(1);
    return stack_bytes;
}

static void measure_stack(void)
{
    static void (*const calls[])(void) = {call_read, call_plain_write, call_escaped_write, call_units_of, call_glyphs_of, call_text_resolve, call_fault, call_sheet};
    static const char *const names[] = {"read", "write", "write_escaped", "units_of", "glyphs_of", "resolve", "fault", "sheet, of 400 and 4,000 labels"};
    long used[2][8];
    for (int k = 0; k < 2; k++) {
        make_sheet(k ? 4000 : 400, "%d,55.5");
        make(k ? 4096 : 32, "%d,1234.567,-12e-1,.0005", "\xe0\xb8\xb3");
        for (int c = 0; c < 8; c++) used[k][c] = stack_of(calls[c]);
    }
    printf("%-34s %9s %9s\n", "stack of a call (bytes), by glyphs", "32", "4,096");
    for (int c = 0; c < 8; c++) printf("%-34s %9ld %9ld\n", names[c], used[0][c], used[1][c]);
}

int main(void)
{
    printf("%-34s %9s %9s %6s   %9s %9s %6s\n", "label (ns a call)", "plain", "read", "ratio", "plain", "write", "ratio");
    make(4, "%d", "A");
    measure("4 glyphs, bare", 4);
    make(4, "%d,55.5", "A");
    measure("4 glyphs, advances", 4);
    make(12, "%d,55.5", "A");
    measure("12 glyphs, advances", 12);
    make(12, "%d,55.5,-1.25,.5", "A");
    measure("12 glyphs, all fields", 12);
    make(1000, "%d", "A");
    measure("1,000 glyphs, bare", 1000);
    make(1000, "%d,55.5,-1.25,.5", "A");
    measure("1,000 glyphs, all fields", 1000);
    make(1000, "(1:1)%d,123456.789,-123456.789,-.125", "\xe0\xb8\xb3");
    measure("1,000 glyphs, long fields, 3 bytes", 1000);
    make(1000, "%d,1234567890123e-10,-12345678901234567.8e-12,.000000000000000012e+17", "A");
    measure("1,000 glyphs, worst numbers", 1000);
    measure_font("1,000 letters left to the font", 1000, "A");
    measure_font("1,000 pairs left to the font", 1000, "\xf0\x9f\x98\x80");
    make(100, "%d,55.5,-1.25,.5", "A");
    measure("100 glyphs, all fields", 100);
    double small = reading_ns, small_writing = writing_ns;
    make(4000, "%d,55.5,-1.25,.5", "A");
    measure("4,000 glyphs, all fields", 4000);
    printf("growth from 100 to 4,000 glyphs (40 is linear): reading %.1f times, writing %.1f times\n", reading_ns / small, writing_ns / small_writing);
    measure_sizes();
    measure_raw();
    measure_sheets();
    measure_stack();
    return 0;
}
