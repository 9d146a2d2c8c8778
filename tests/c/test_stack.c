/* The stack: every call once, on the largest runs, on a thread with a stack of 16 KiB, and how many bytes of it are used. */
#define _DEFAULT_SOURCE /* for MAP_ANONYMOUS */
#include <pthread.h>
#include <sys/mman.h>

#include "models.h"
#include "sheets.h"
#include "tests.h"

/* Inputs, and what the calls make of them. */
typedef struct {
    const uint8_t *text, *indices, *file;
    size_t text_len, indices_len, file_len, last_entry, last_place;
    glyph_label_reading reading;
    glyph_label_writing writing, escaped;
    glyph_label_stretch to_units, to_glyphs;
    glyph_label_filled resolved, answered;
    glyph_label_part part;
    uint8_t units[GLYPH_LABEL_UNITS_MAX], clusters[GLYPH_LABEL_CLUSTERS_MAX], glyphs[GLYPH_LABEL_GLYPHS_MAX];
    uint8_t out_text[GLYPH_LABEL_TEXT_MAX], out_indices[GLYPH_LABEL_INDICES_MAX], out_escaped[GLYPH_LABEL_ESCAPED_TEXT_MAX];
    uint8_t out_resolved[GLYPH_LABEL_ESCAPED_TEXT_MAX], answers[64];
} calls;

/* Every call once. */
static void all_calls(calls *c) {
    c->reading = glyph_label_read(c->text, c->text_len, c->indices, c->indices_len, c->units, sizeof c->units, c->clusters,
                                  sizeof c->clusters, c->glyphs, sizeof c->glyphs);
    size_t u = 2 * (size_t)c->reading.units, k = 8 * (size_t)c->reading.clusters, g = 16 * (size_t)c->reading.glyphs;
    c->writing = glyph_label_write(c->units, u, c->clusters, k, c->glyphs, g, c->out_text, sizeof c->out_text, c->out_indices,
                                   sizeof c->out_indices);
    c->escaped = glyph_label_write_escaped(c->units, u, c->clusters, k, c->glyphs, g, c->out_escaped, sizeof c->out_escaped,
                                           c->out_indices, sizeof c->out_indices);
    c->to_units = glyph_label_units_of(c->units, u, c->clusters, k, c->glyphs, g, 1, c->reading.glyphs);
    c->to_glyphs = glyph_label_glyphs_of(c->units, u, c->clusters, k, c->glyphs, g, 1, c->reading.units);
    c->resolved = glyph_label_resolve(c->out_escaped, c->escaped.text, c->out_resolved, sizeof c->out_resolved);
    c->answered = glyph_label_sheet(c->file, c->file_len, c->answers, sizeof c->answers);
    c->part = glyph_label_fault(c->text, c->text_len, c->indices, c->indices_len, 12, c->last_entry);
}

/* What they must make of a label of 4,096 units and glyphs, in normal writing, and of a sheet of it and of one that is refused
 * with 12 at 4,096. */
static void check_calls(const char *what, const calls *c) {
    run r = {(uint8_t *)c->units, (uint8_t *)c->clusters, (uint8_t *)c->glyphs, GLYPH_LABEL_UNITS_MAX, 8 * (size_t)c->reading.clusters,
             GLYPH_LABEL_GLYPHS_MAX};
    uint8_t *escaped = new_bytes(6 * c->text_len);
    size_t size = model_escaped(c->text, c->text_len, escaped);
    glyph_label_stretch to_units = model_stretch(&r, 1, 1, 4096), to_glyphs = model_stretch(&r, 0, 1, 4096);
    check(is_reading(c->reading, 0, 0, 4096, c->reading.clusters, 4096) && model_sound(&r), "%s: a reading: %u %u", what,
          c->reading.number, c->reading.place);
    check(is_writing(c->writing, 0, 0, (uint32_t)c->text_len, (uint32_t)c->indices_len)
              && same_bytes(c->out_text, c->text, c->text_len),
          "%s: a writing", what);
    check(is_writing(c->escaped, 0, 0, (uint32_t)size, (uint32_t)c->indices_len) && same_bytes(c->out_escaped, escaped, size)
              && same_bytes(c->out_indices, c->indices, c->indices_len),
          "%s: an escaped writing", what);
    check(is_stretch(c->to_units, 0, to_units.first, to_units.end) && is_stretch(c->to_glyphs, 0, to_glyphs.first, to_glyphs.end),
          "%s: picks", what);
    check(is_filled(c->resolved, 0, 0, c->text_len) && same_bytes(c->out_resolved, c->text, c->text_len), "%s: a resolving", what);
    check(is_filled(c->answered, 0, 0, 4) && memcmp(c->answers, "\0\0\0\0\0\0\0\0" "\14\0\0\0\0\20\0\0", 16) == 0,
          "%s: a sheet", what);
    check(is_part(c->part, 1, c->last_place, c->indices_len - c->last_place), "%s: a fault", what);
    free(escaped);
}

enum { STACK = 16384, PAGE = 4096, PAINT = 0xA5 };

static uint8_t *stack;
static size_t stack_used; /* at most, where it is measured */

static void *call_there(void *c) {
    all_calls(c);
    return NULL;
}

/* The same, and then the bytes from here down to the last that has changed. */
static void *measure_there(void *c) {
    volatile uint8_t here = 0;
    size_t k = 0, used;
    all_calls(c);
    while (k < STACK && stack[k] == PAINT)
        k++;
    used = (size_t)((uintptr_t)&here - (uintptr_t)(stack + k));
    stack_used = used > stack_used ? used : stack_used;
    return NULL;
}

/* On a thread of 16 KiB of stack, with a page below it that nobody may touch. */
static void on_small_stack(void *(*what)(void *), calls *c) {
    pthread_attr_t attributes;
    pthread_t thread;
    uint8_t *all = mmap(NULL, PAGE + STACK, PROT_READ | PROT_WRITE, MAP_PRIVATE | MAP_ANONYMOUS, -1, 0);
    if (all == MAP_FAILED || mprotect(all, PAGE, PROT_NONE) != 0)
        abort();
    stack = all + PAGE;
    memset(stack, PAINT, STACK);
    check(pthread_attr_init(&attributes) == 0 && pthread_attr_setstack(&attributes, stack, STACK) == 0, "a stack of 16 KiB");
    check(pthread_create(&thread, &attributes, what, c) == 0 && pthread_join(thread, NULL) == 0, "a thread with 16 KiB of stack");
    pthread_attr_destroy(&attributes);
    munmap(all, PAGE + STACK);
}

/* On the stack of the program first, so that functions of the C library are already bound; then on the small one. valgrind
 * does not let a thread look below its stack pointer, so that the size is not measured there. */
static void test_stack_of(const char *what, const char *text, size_t texts, const char *indices, size_t entries, const char *last,
                          int measured) {
    static calls c, before;
    sheet s = new_sheet();
    memset(&before, 0, sizeof before);
    uint8_t *t = repeated(text, texts, "", &before.text_len), *i = repeated(indices, entries, last, &before.indices_len);
    add_label(&s, t, before.text_len, i, before.indices_len, 0, 0);
    add_long(&s, "A", 4096, "", ";", 4096, "", 12, 4096);
    before.text = t, before.indices = i, before.file = s.bytes, before.file_len = s.size;
    for (size_t k = 0; k < before.indices_len; k++)
        if (i[k] == ';')
            before.last_entry++, before.last_place = k + 1;
    c = before;
    all_calls(&c);
    check_calls(what, &c);
    c = before;
    on_small_stack(measured ? measure_there : call_there, &c);
    check_calls(what, &c);
    check(stack_used <= GLYPH_LABEL_STACK_MAX, "%s: %zu bytes of stack", what, stack_used);
    free(t);
    free(i);
    free_sheet(&s);
}

/* Letters and bytes to escape, with every field; and pairs, with maps and in the tail. */
size_t test_stack(int full) {
    test_stack_of("stack, fields", "A&\"\xE0\xB8\xB3", 1024, "65535,999999.999,-999999.999,-.125;", 4095,
                  "65535,999999.999,-999999.999,-.125", full);
    test_stack_of("stack, pairs", GRIN, 2048, "(2:3)9,.5;8,,-1;7;", 1023, "(2:3)9,.5;8,,-1;7", full);
    return stack_used;
}
