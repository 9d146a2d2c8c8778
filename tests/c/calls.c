/* Calls into guarded outputs; and what every run, every pick and every raw value is tried with. */
#include "calls.h"

#include "models.h"
#include "sheets.h"

/* ---- Calls ---- */

glyph_label_reading read_into(const char *what, const uint8_t *text, size_t text_len, const uint8_t *indices, size_t indices_len,
                              size_t u, size_t c, size_t g, run *out) {
    output us = new_output(u), cs = new_output(c), gs = new_output(g);
    glyph_label_reading r = glyph_label_read(text, text_len, indices, indices_len, us.bytes, u, cs.bytes, c, gs.bytes, g);
    run got = {NULL, NULL, NULL, 2 * (size_t)r.units, 8 * (size_t)r.clusters, 16 * (size_t)r.glyphs};
    int stays = stays_behind(&us, got.units_len) && stays_behind(&cs, got.clusters_len) && stays_behind(&gs, got.glyphs_len);
    check(stays, "%s: a reading into %zu %zu %zu changed other bytes", what, u, c, g);
    check(r.number == 0 || (r.units == 0 && r.clusters == 0 && r.glyphs == 0 && r.rounded == 0), "%s: counts of a refusal", what);
    gather(text, text_len, indices, indices_len);
    if (out) {
        if (stays) {
            got.units = new_input(us.bytes, got.units_len);
            got.clusters = new_input(cs.bytes, got.clusters_len);
            got.glyphs = new_input(gs.bytes, got.glyphs_len);
        } else {
            memset(&got, 0, sizeof got);
        }
        *out = got;
    }
    free_output(&us);
    free_output(&cs);
    free_output(&gs);
    return r;
}

run read_run(const char *text, const char *indices) {
    run r;
    glyph_label_reading a = read_into("a run", (const uint8_t *)text, strlen(text), (const uint8_t *)indices, strlen(indices),
                                      GLYPH_LABEL_UNITS_MAX, GLYPH_LABEL_CLUSTERS_MAX, GLYPH_LABEL_GLYPHS_MAX, &r);
    check(a.number == 0, "%s %s is read: %u %u", text, indices, a.number, a.place);
    return r;
}

typedef glyph_label_writing writing_call(const uint8_t *, size_t, const uint8_t *, size_t, const uint8_t *, size_t, uint8_t *,
                                         size_t, uint8_t *, size_t);

static glyph_label_writing write_by(writing_call *call, const char *what, const run *r, size_t t, size_t i, uint8_t **text,
                                    uint8_t **indices) {
    output ts = new_output(t), is = new_output(i);
    glyph_label_writing w = call(RUN(*r), ts.bytes, t, is.bytes, i);
    int stays = stays_behind(&ts, w.text) && stays_behind(&is, w.indices);
    check(stays, "%s: a writing into %zu %zu changed other bytes", what, t, i);
    check(w.number == 0 || (w.text == 0 && w.indices == 0), "%s: lengths of a refusal", what);
    if (text && indices) {
        *text = stays ? new_input(ts.bytes, w.text) : NULL;
        *indices = stays ? new_input(is.bytes, w.indices) : NULL;
    }
    free_output(&ts);
    free_output(&is);
    return w;
}

glyph_label_writing write_into(const char *what, const run *r, size_t t, size_t i, uint8_t **text, uint8_t **indices) {
    return write_by(glyph_label_write, what, r, t, i, text, indices);
}

glyph_label_writing escape_into(const char *what, const run *r, size_t t, size_t i, uint8_t **text, uint8_t **indices) {
    return write_by(glyph_label_write_escaped, what, r, t, i, text, indices);
}

void resolve_into(const uint8_t *raw, size_t n, size_t room, uint32_t number, size_t place, const void *bytes, size_t size) {
    output o = new_output(room);
    glyph_label_filled f = glyph_label_resolve(raw, n, o.bytes, room);
    int right = number != 0 ? is_filled(f, number, place, 0) : is_filled(f, 0, 0, size) && same_bytes(o.bytes, bytes, size);
    int stays = stays_behind(&o, f.filled);
    check(right, "%s resolved into %zu bytes: %u %zu, %zu filled", right ? "" : shown(raw, n), room, f.number, f.place, f.filled);
    check(stays, "%s resolved into %zu bytes: other bytes changed", stays ? "" : shown(raw, n), room);
    free_output(&o);
}

/* ---- What all are tried with ---- */

/* The escaped writing of a run that is written like this: the same indices and the text escaped, counted so in 20 and 21.
 * Resolving gives back the writing. Where the run was refused, it is again. */
static void try_escaped(const char *what, const run *r, glyph_label_writing w, const uint8_t *text, const uint8_t *indices) {
    uint8_t *wanted = new_bytes(6 * (size_t)w.text), *t, *i;
    size_t n = model_escaped(text, w.text, wanted), more = w.number == 0 ? 0 : 40;
    glyph_label_writing e = escape_into(what, r, n + more, w.indices + more, &t, &i);
    int ok = is_writing(e, w.number, w.place, (uint32_t)n, w.indices) && same_bytes(t, wanted, n) && same_bytes(i, indices, w.indices);
    check(ok, "%s: escaped %u %u, %u and %u bytes", what, e.number, e.place, e.text, e.indices);
    if (w.number != 0)
        check(is_writing(escape_into(what, r, 0, 0, NULL, NULL), w.number, w.place, 0, 0), "%s: escaped, %u before 20", what, w.number);
    else if (ok) {
        resolve_into(t, n, w.text, 0, 0, text, w.text);
        resolve_into(i, w.indices, w.indices, 0, 0, indices, w.indices);
        check(is_writing(escape_into(what, r, n + 9, w.indices + 9, NULL, NULL), 0, 0, (uint32_t)n, w.indices), "%s: escaped, large", what);
        if (n > 0)
            check(is_writing(escape_into(what, r, n - 1, 0, NULL, NULL), 20, (uint32_t)n, 0, 0), "%s: escaped, 20", what);
        if (w.indices > 0)
            check(is_writing(escape_into(what, r, n, w.indices - 1, NULL, NULL), 21, w.indices, 0, 0), "%s: escaped, 21", what);
    }
    free(wanted);
    free(t);
    free(i);
}

/* A run that is refused: with 19, by the picks too, whatever the room and the stretch. */
static void try_refused(const char *what, const run *r, glyph_label_writing w) {
    glyph_label_stretch to_units = glyph_label_units_of(RUN(*r), 0, 1), to_glyphs = glyph_label_glyphs_of(RUN(*r), 0, 1);
    check(is_writing(w, 19, 0, 0, 0), "%s: refused with %u %u", what, w.number, w.place);
    check(is_writing(write_into(what, r, 0, 0, NULL, NULL), 19, 0, 0, 0), "%s: 19 before 20", what);
    check(is_stretch(to_units, 19, 0, 0) && is_stretch(to_glyphs, 19, 0, 0), "%s: a pick of an unsound run", what);
    to_units = glyph_label_units_of(RUN(*r), 1, 0), to_glyphs = glyph_label_glyphs_of(RUN(*r), 0, SIZE_MAX);
    check(is_stretch(to_units, 19, 0, 0) && is_stretch(to_glyphs, 19, 0, 0), "%s: 19 before 22", what);
}

/* A run that is written like this: it is read back as it was, and picked from. */
static void try_read_back(const char *what, const run *r, glyph_label_writing w, const uint8_t *text, const uint8_t *indices) {
    glyph_label_stretch to_units = glyph_label_units_of(RUN(*r), 0, 1), to_glyphs = glyph_label_glyphs_of(RUN(*r), 0, 1);
    run back;
    glyph_label_reading a =
        read_into(what, text, w.text, indices, w.indices, r->units_len, r->clusters_len, r->glyphs_len, &back);
    check(a.number == 0 && same_run(r, &back), "%s: not read back (%u %u)", what, a.number, a.place);
    check(a.rounded == 0, "%s: %u fields of a normal writing rounded", what, a.rounded);
    check(to_units.number == 0 && to_units.first == 0, "%s: the first glyph's units", what);
    check(r->units_len == 0 ? is_stretch(to_glyphs, 22, 0, 0) : to_glyphs.number == 0 && to_glyphs.first == 0,
          "%s: the first unit's glyphs", what);
    free_run(&back);
}

/* A sound run has at most 3 bytes of text a unit, and 57 of indices a glyph. */
int try_run(const char *what, const run *r) {
    uint8_t *text, *indices;
    glyph_label_writing w = write_into(what, r, 2 * r->units_len + 2, 4 * r->glyphs_len, &text, &indices);
    int sound = model_sound(r);
    try_escaped(what, r, w, text, indices);
    check((w.number == 0) == sound, "%s: %u of a run that is %ssound", what, w.number, sound ? "" : "not ");
    if (w.number != 0)
        try_refused(what, r, w);
    else
        try_read_back(what, r, w, text, indices);
    free(text);
    free(indices);
    return w.number == 0;
}

void try_left_over(const run *r) {
    static const size_t more[][3] = {{1, 0, 0}, {0, 1, 0}, {0, 2, 0}, {0, 3, 0}, {0, 4, 0}, {0, 7, 0}, {0, 0, 1}, {0, 0, 3},
                                     {0, 0, 4}, {0, 0, 8}, {0, 0, 12}, {0, 0, 15}, {1, 1, 1}};
    for (size_t k = 0; k < COUNT(more); k++) {
        run b = new_run(r->units_len + more[k][0], r->clusters_len + more[k][1], r->glyphs_len + more[k][2]);
        if (r->units_len != 0)
            memcpy(b.units, r->units, r->units_len);
        memcpy(b.clusters, r->clusters, r->clusters_len);
        memcpy(b.glyphs, r->glyphs, r->glyphs_len);
        check(!try_run("left-over", &b), "left-over bytes %zu %zu %zu", more[k][0], more[k][1], more[k][2]);
        free_run(&b);
    }
}

void try_pick(const run *r, size_t first, size_t end) {
    glyph_label_stretch a = glyph_label_units_of(RUN(*r), first, end), b = model_stretch(r, 1, first, end);
    check(is_stretch(a, b.number, b.first, b.end), "units of glyphs %zu to %zu: %u, %u to %u", first, end, a.number, a.first, a.end);
    a = glyph_label_glyphs_of(RUN(*r), first, end), b = model_stretch(r, 0, first, end);
    check(is_stretch(a, b.number, b.first, b.end), "glyphs of units %zu to %zu: %u, %u to %u", first, end, a.number, a.first, a.end);
}

void try_raw(const void *raw, size_t n, uint32_t number, size_t place, const void *bytes, size_t size) {
    uint8_t *in = new_input(raw, n);
    resolve_into(in, n, n + 3, number, place, bytes, size);
    resolve_into(in, n, size, number, place, bytes, size);
    if (size > 0) {
        resolve_into(in, n, size - 1, 24, size, NULL, 0);
        resolve_into(in, n, 0, 24, size, NULL, 0);
    }
    free(in);
}

glyph_label_filled try_any_raw(const uint8_t *raw, size_t n) {
    uint8_t *out = new_bytes(n);
    glyph_label_filled f = model_raw(raw, n, out);
    try_raw(raw, n, f.number, f.place, out, f.filled);
    free(out);
    return f;
}
