/* Plain models of what the calls must answer, one file for each subject. A model says a rule as the papers do, shares
 * nothing with the library, and may be slow; only the model of a sheet reads its labels by the call. */
#ifndef MODELS_H
#define MODELS_H

#include "support.h"

/* ---- model_run.c ---- */

/* Some label reads as this run. */
int model_sound(const run *r);

/* What a pick of [first, end) in a sound run answers: all clusters that it touches; `by` is 0 for units and 1 for glyphs. */
glyph_label_stretch model_stretch(const run *r, int by, size_t first, size_t end);

/* ---- model_text.c ---- */

/* XML 1.0 allows this character; a double, so that a number of any size may be asked for. */
int xml_char(double c);

/* A number that UTF-8 has a form for. */
int scalar_value(uint32_t c);

/* Puts a number in its shortest form, at most 4 bytes; gives how many they are. */
size_t put_utf8(uint8_t *p, uint32_t c);

/* The form of n bytes, 1 to 6, has room for this number. */
int form_has_room(size_t n, uint32_t c);

/* The character that these bytes begin with: its size, or 0 where none is well-formed. */
size_t model_character(const uint8_t *p, size_t n, uint32_t *c);

/* What a text without indices reads as, and its run, which is empty before. */
glyph_label_reading model_text(const uint8_t *p, size_t n, run *r);

/* ---- model_number.c ---- */

/* The thousandths of a number by its digits, of which the last ones, 1 at least, count less than a thousandth. */
uint64_t model_thousandths(const char *digits, size_t n, size_t below);

/* ---- model_raw.c ---- */

/* What comes of a raw value, into `out` of as many bytes. */
glyph_label_filled model_raw(const uint8_t *raw, size_t n, uint8_t *out);

/* Escapes n bytes as document 02 says; gives how many they become, at most 6 for each. */
size_t model_escaped(const uint8_t *from, size_t n, uint8_t *to);

/* ---- model_sheet.c ---- */

/* What comes of a file: 25, 26, or the answers that its labels get one by one, 8 bytes for each 6 of the file at most. */
glyph_label_filled model_sheet(const uint8_t *file, size_t n, uint8_t *answers);

#endif
