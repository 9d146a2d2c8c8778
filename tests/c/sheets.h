/* Sheets that tests make, what every sheet and every file is tried with, and the sheet of the labels that read_into reads. */
#ifndef SHEETS_H
#define SHEETS_H

#include "support.h"

/* ---- Making a sheet ---- */

#define HEAD "SLB\1\0" /* mark and version */

/* A sheet: its file, the 8 bytes of answer that each label must get, and where each record starts, and the last one ends. */
typedef struct {
    uint8_t *bytes, *answers;
    size_t *starts;
    size_t size, room, labels;
} sheet;

sheet new_sheet(void);
void free_sheet(sheet *s);

/* The sizes that a record begins with, and an answer. */
void put_sizes(uint8_t *p, size_t text_len, size_t indices_len);
void put_answer(uint8_t *p, uint32_t number, uint32_t place);

/* A record, or the record of a label, that must get this answer. */
void add_record(sheet *s, const uint8_t *record, size_t n, const uint8_t *answer);
void add_label(sheet *s, const void *text, size_t text_len, const void *indices, size_t indices_len, uint32_t number,
               uint32_t place);

/* A label of pieces, each many times, with an end. That it reads so is checked too. */
void add_long(sheet *s, const char *text, size_t texts, const char *text_end, const char *indices, size_t entries,
              const char *indices_end, uint32_t number, uint32_t place);

/* A reading with buffers that are large enough for every label. */
glyph_label_reading large_reading(const uint8_t *text, size_t text_len, const uint8_t *indices, size_t indices_len);

/* ---- Trying it ---- */

/* Calls with `room` bytes of answers: the answer must be this one, with these bytes where it is no refusal, and the rest
 * must stay. */
void sheet_into(const char *what, const uint8_t *file, size_t n, size_t room, uint32_t number, size_t place,
                const uint8_t *answers, size_t labels);

/* A sheet with exact room, with left-over bytes, and with one byte too few. */
void try_sheet(const char *what, const sheet *s);

/* The first n bytes of a sheet's file: 25 inside mark and version, 26 inside a record, else the labels up to there. */
void try_start(const char *what, const sheet *s, size_t n);

/* The sheet of these labels of another, in this order: each gets the answer that it got there. */
void try_chosen(const char *what, const sheet *from, const size_t *which, size_t count);

/* The sheet with two labels exchanged. */
void try_swapped(const char *what, const sheet *s, size_t a, size_t b);

/* A file in every kind of room: 25 and 26 hold in all of them, 27 where there is no room for all answers. */
void try_file(const char *what, const void *bytes, size_t n, uint32_t number, size_t place, const void *answers, size_t labels);

/* The same against the model, which gives the answer. */
glyph_label_filled try_any_file(const char *what, const uint8_t *file, size_t n);

/* ---- Labels that read_into of calls.c has read ---- */

/* Puts a label into a sheet, which is tried whenever it is large enough. */
void gather(const uint8_t *text, size_t text_len, const uint8_t *indices, size_t indices_len);

/* Tries those that are left. */
void try_gathered(void);

#endif
