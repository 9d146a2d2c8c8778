/* Texts and runs spelled in letters, which short runs with pairs are made from. */
#ifndef SPELLING_H
#define SPELLING_H

#include "support.h"

/* A letter of a text is one character: `P`, `Q` and `R` are pairs, `D` and `E` are the units next to all halves, the others
 * are themselves or, for `e`, of two bytes. This says how many units it has. */
size_t letter_units(char c);

/* In UTF-8, at most 8 characters. */
uint8_t *spelled_text(const char *letters, size_t *size);

/* A run of these letters, without clusters and glyphs. */
run spelled_units(const char *letters);

/* A unit or a pair more behind those of the run. */
void add_character(run *r, uint32_t c);

/* A cluster of a units more, with its glyphs. These are spelled too: `f` font; `n` named; `z` and `a` font with advance 0
 * and 7; `u` and `U` with a u offset of 1 and -1 thousandths; `v` and `V` with such a v offset; `N` named with everything;
 * `x` and `y`, which no label has. */
void add_cluster(run *r, int32_t a, const char *glyphs);

/* A run of these letters and clusters, which are spelled as their count of units and their glyphs, with a blank between
 * them. */
run spelled_run(const char *letters, const char *clusters);

#endif
