/* Calls into guarded outputs; and what every run, every pick and every raw value is tried with. */
#ifndef CALLS_H
#define CALLS_H

#include "support.h"

/* ---- Calls ---- */

/* Reads into buffers of these sizes; what was filled must be reported and the rest must stay. A refusal fills nothing. The
 * run goes to `out` where it is not NULL; the label is put into a sheet as well. */
glyph_label_reading read_into(const char *what, const uint8_t *text, size_t text_len, const uint8_t *indices, size_t indices_len,
                              size_t u, size_t c, size_t g, run *out);

/* The run of a label that must be accepted. */
run read_run(const char *text, const char *indices);

/* Writes into buffers of these sizes, likewise; what was written goes to `text` and `indices` where they are not NULL. */
glyph_label_writing write_into(const char *what, const run *r, size_t t, size_t i, uint8_t **text, uint8_t **indices);
glyph_label_writing escape_into(const char *what, const run *r, size_t t, size_t i, uint8_t **text, uint8_t **indices);

/* Resolves into `room` bytes: the answer must be this one, with these bytes where it is no refusal, and the rest must stay. */
void resolve_into(const uint8_t *raw, size_t n, size_t room, uint32_t number, size_t place, const void *bytes, size_t size);

/* ---- What all are tried with ---- */

/* A run from any hand: it is written, escaped too, and read back as it was; or it is refused with 19, by the picks too,
 * whatever the room and the stretch. The model says which. Gives whether it was written. */
int try_run(const char *what, const run *r);

/* Bytes that are left over, and numbers that are no whole cluster or glyph: 19 of every call that a run is handed to. */
void try_left_over(const run *r);

/* A stretch of glyphs and the same one of units, against the model. */
void try_pick(const run *r, size_t first, size_t end);

/* A raw value and what must come of it: 23 whatever the room, or these bytes, and 24 where there is no room for them. */
void try_raw(const void *raw, size_t n, uint32_t number, size_t place, const void *bytes, size_t size);

/* The same against the model, which gives the answer. */
glyph_label_filled try_any_raw(const uint8_t *raw, size_t n);

#endif
