/* What all tests use: checks, random numbers, outputs between guards, inputs of exact sizes, runs as bytes, and compares
 * of answers. */
#ifndef SUPPORT_H
#define SUPPORT_H

#include <stdio.h>
#include <stdlib.h>
#include <string.h>

#include "glyph_label.h"

#define COUNT(array) (sizeof array / sizeof array[0])

/* ---- Checks ---- */

extern unsigned long checks, failures;

/* Counts a check, and says which it is where it fails; after 20 failures it only counts. */
void check(int ok, const char *format, ...);

/* The first bytes of an input for a message. */
const char *shown(const uint8_t *bytes, size_t n);

/* ---- Random numbers, the same in every run ---- */

uint32_t random_below(uint32_t n);

/* ---- Buffers ---- */

enum { GUARD = 16 };

/* An output: `size` bytes between guards, and all of it as it was before the call. */
typedef struct {
    uint8_t *all, *before, *bytes;
    size_t size;
} output;

output new_output(size_t size);
void free_output(output *o);

/* The first `filled` bytes may have changed, nothing else has. */
int stays_behind(const output *o, size_t filled);

/* Bytes for an input, of its exact size; NULL where it is empty. */
uint8_t *new_bytes(size_t size);
uint8_t *new_input(const void *from, size_t size);

/* A piece many times, and an end. */
uint8_t *repeated(const char *piece, size_t times, const char *end, size_t *size);

/* As realloc, but never NULL. */
void *grown(void *p, size_t size);

int same_bytes(const void *a, const void *b, size_t n);

/* All strings of n of some bytes: how many there are, and one of them by its number. */
size_t string_count(size_t count, size_t n);
void put_string(uint8_t *p, const void *bytes, size_t count, size_t n, size_t number);

/* Four bytes, low byte first, in two's complement. */
void put_number(uint8_t *p, int32_t v);
int32_t get_number(const uint8_t *p);

/* ---- Runs ---- */

/* A run as bytes, each buffer of its exact size. */
typedef struct {
    uint8_t *units, *clusters, *glyphs;
    size_t units_len, clusters_len, glyphs_len;
} run;

/* As the arguments of a call. */
#define RUN(r) (r).units, (r).units_len, (r).clusters, (r).clusters_len, (r).glyphs, (r).glyphs_len

/* The numbers of a glyph with nothing but its index, and of one that is wholly the font's. */
#define FLAT(i) i, -1, 0, 0
#define FONT -1, -1, 0, 0

#define GRIN "\xF0\x9F\x98\x80" /* U+1F600, a pair */

run new_run(size_t units_len, size_t clusters_len, size_t glyphs_len);
void free_run(run *r);
int same_run(const run *a, const run *b);

/* A unit of a run, 0 behind the last one. */
unsigned unit_at(const run *r, size_t i);

/* The low half of a pair. */
int is_low(unsigned unit);

/* ---- Answers ---- */

int is_reading(glyph_label_reading r, uint32_t number, uint32_t place, uint32_t units, uint32_t clusters, uint32_t glyphs);
int is_writing(glyph_label_writing w, uint32_t number, uint32_t place, uint32_t text, uint32_t indices);
int is_stretch(glyph_label_stretch s, uint32_t number, uint32_t first, uint32_t end);
int is_filled(glyph_label_filled f, uint32_t number, size_t place, size_t filled);
int is_part(glyph_label_part p, uint32_t in_indices, size_t start, size_t length);

#endif
