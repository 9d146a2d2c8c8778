/* Labels with their answers: a refusal, or a run and its normal writing. */
#ifndef LABEL_ROWS_H
#define LABEL_ROWS_H

#include "support.h"

typedef struct {
    const char *text, *indices;
    uint32_t number, place; /* of the refusal, or 0 and: */
    const char *normal_text, *normal_indices;
    int units, clusters, glyphs;
    int unit[4], cluster[8], glyph[16];
} label_row;

extern const label_row label_rows[];
extern const size_t label_row_count;

/* The run of an accepted label; an empty one of a refused label. */
run row_run(const label_row *w);

#endif
