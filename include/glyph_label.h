/* Glyph labels of OpenXPS (ECMA-388, 12.1): from the text and the indices of a Glyphs element to a run of code units,
 * clusters and glyphs, and back.
 *
 * A label is a text (the value of UnicodeString in UTF-8) with its indices (the value of Indices), the XML references
 * of both resolved. Reading it gives a run: its UTF-16 code units, its clusters, and its glyph records. Writing a run
 * gives its normal writing, the one label that stands for all those that read as this run. Picking goes from a stretch
 * of glyphs to the code units of all clusters that they touch, and back.
 *
 * An attribute value as it stands on the page is raw: its references are not resolved. Whoever holds raw values
 * resolves the text, then the indices, and reads what comes out. A run can also be written escaped, ready for a page.
 *
 * A sheet is a file of labels. One call says of each of them whether it is accepted, as reading it would.
 *
 * This header is C99 or C++. Link target/staticlib/libglyph_label.a (made by `sh tools/build.sh glyph_label`), which is for
 * Linux on x86-64 and needs no other library. Nothing is allocated, nothing is kept between calls, and there is no
 * state: any number of threads may call at once. A call takes at most GLYPH_LABEL_STACK_MAX bytes of stack, whatever
 * the size of the run. The archive is not instrumented, so that sanitizers do not see what a call reads and writes:
 * check your calls with valgrind.
 *
 * BUFFERS. A buffer is a pointer and its size in bytes. A size of 0 is an empty buffer, and the pointer may then be
 * NULL. Inputs are const and only read. A buffer that a call fills may share no byte with any other buffer of that
 * call, and nobody else may write to any of them until the call returns. Pointers need no alignment.
 *
 * NUMBERS OF A RUN are bytes, low byte first, on every machine:
 *
 *     buffer     one thing     bytes   its numbers
 *     units      code unit         2   the unit, 0 to 65535
 *     clusters   cluster           8   its count of code units, its count of glyphs
 *     glyphs     glyph            16   index, or -1: chosen by the font
 *                                      advance, or -1: the font's own
 *                                      u offset
 *                                      v offset
 *
 * Each number of clusters and glyphs is 4 bytes in two's complement. glyph_label_unit_at, glyph_label_number_at,
 * glyph_label_put_unit and glyph_label_put_number fetch and store them, on every machine. On x86-64 the buffers may as
 * well be arrays of uint16_t and int32_t, or of glyph_label_cluster and glyph_label_glyph, passed as bytes.
 *
 * Advances and offsets are in thousandths of the standard's unit, which is a hundredth of an em, rounded to the nearest
 * whole number, a half to the even one: .0015 and .0025 are 2, -.0025 is -2. Each cluster holds the units and the
 * glyphs next after those of the clusters before it. The code units behind the last entry, the tail, are left to the
 * font: a pair of surrogates is one cluster of 2 units and 1 glyph, every other unit one of 1 and 1.
 *
 * ANSWERS. `number` and `place` are 0 where the call did what it was asked. Else they are the number of a refusal and
 * its place, the other fields are 0, and no byte of any buffer has changed. A call that succeeds changes exactly the
 * bytes it reports; those behind them stay, left-over bytes that hold no whole number included.
 *
 *     number  cause                                                   place
 *     ------  ------------------------------------------------------  -------------------------------------------
 *          1  text above 16,384 bytes or indices above 262,144        0
 *          2  ill-formed UTF-8                                        byte of the text where no character starts
 *          3  character that XML 1.0 does not allow                   byte of the text where it starts
 *          4  the text begins with `{` and not with `{}`              0
 *          5  above 4,096 code units                                  0
 *          6  no code units and no bytes of indices                   0
 *          7  entry not well formed                                   number of the entry
 *          8  index above 65,535                                      number of the entry
 *          9  number with above 18 digits, or above 2 in its          number of the entry
 *             exponent, or a size above 1,000,000,000 thousandths
 *         10  a count of the map is 0                                 number of the entry
 *         11  a map or a missing index where none may be              number of the entry
 *         12  the cluster passes the end of the text                  number of the entry
 *         13  the cluster ends inside a pair                          number of the code unit, the pair's low half
 *         14  the last cluster lacks glyphs                           number of the entry that opened it
 *         15  above 4,096 glyphs, the tail included                   0
 *         16  units has too little room                               code units needed
 *         17  clusters has too little room                            clusters needed
 *         18  glyphs has too little room                              glyphs needed
 *         19  the run is not sound: no label reads as it              0
 *         20  text has too little room                                bytes needed
 *         21  indices has too little room                             bytes needed
 *         22  the stretch is empty, reversed or passes the end        0
 *         23  bad reference or raw `<`                                byte of the raw value where the first begins
 *         24  out has too little room                                 bytes needed
 *         25  the file does not begin with `SLB` and the version 1    0
 *         26  the file ends inside a record                           number of the record
 *         27  answers has too little room                             labels in the file
 *
 * Bytes, entries, code units, clusters, glyphs and records are numbered from 0. The bytes of 2 and 3 are those of the
 * text that is read, the resolved one, and not of a raw value. The checks are made in this order; 2 and 3 are checked
 * character by character, from the left, and entries one by one, each from 7 to 13. The first that fails gives the
 * answer. 23 and 24, in this order, come before 1: resolving is a call of its own, made before a reading, for the text
 * and then for the indices. 25 to 27 are of a sheet's file and are checked before any of its labels. */
#ifndef GLYPH_LABEL_H
#define GLYPH_LABEL_H

#include <stddef.h>
#include <stdint.h>

#ifdef __cplusplus
extern "C" {
#endif

/* The version of this header, and of the archive: where they differ, so do calls, structs or answers. */
#define GLYPH_LABEL_VERSION 1

uint32_t glyph_label_version(void);

/* The largest sizes, in bytes: of the buffers of a run, of a text and of indices, and of the stack that a call takes. */
#define GLYPH_LABEL_UNITS_MAX 8192
#define GLYPH_LABEL_CLUSTERS_MAX 32768
#define GLYPH_LABEL_GLYPHS_MAX 65536
#define GLYPH_LABEL_TEXT_MAX 16384
#define GLYPH_LABEL_ESCAPED_TEXT_MAX 24576
#define GLYPH_LABEL_INDICES_MAX 262144
#define GLYPH_LABEL_STACK_MAX 2048

/* The numbers of the table. */
enum glyph_label_refusal {
    GLYPH_LABEL_DONE = 0,
    GLYPH_LABEL_LABEL_TOO_LONG = 1,
    GLYPH_LABEL_ILL_FORMED_UTF8 = 2,
    GLYPH_LABEL_CHARACTER_NOT_ALLOWED = 3,
    GLYPH_LABEL_BRACE_FIRST = 4,
    GLYPH_LABEL_TOO_MANY_UNITS = 5,
    GLYPH_LABEL_EMPTY_LABEL = 6,
    GLYPH_LABEL_ENTRY_NOT_WELL_FORMED = 7,
    GLYPH_LABEL_INDEX_TOO_LARGE = 8,
    GLYPH_LABEL_NUMBER_TOO_LARGE = 9,
    GLYPH_LABEL_COUNT_OF_ZERO = 10,
    GLYPH_LABEL_MAP_OR_MISSING_INDEX = 11,
    GLYPH_LABEL_CLUSTER_PASSES_TEXT = 12,
    GLYPH_LABEL_CLUSTER_SPLITS_PAIR = 13,
    GLYPH_LABEL_CLUSTER_LACKS_GLYPHS = 14,
    GLYPH_LABEL_TOO_MANY_GLYPHS = 15,
    GLYPH_LABEL_NO_ROOM_FOR_UNITS = 16,
    GLYPH_LABEL_NO_ROOM_FOR_CLUSTERS = 17,
    GLYPH_LABEL_NO_ROOM_FOR_GLYPHS = 18,
    GLYPH_LABEL_RUN_NOT_SOUND = 19,
    GLYPH_LABEL_NO_ROOM_FOR_TEXT = 20,
    GLYPH_LABEL_NO_ROOM_FOR_INDICES = 21,
    GLYPH_LABEL_BAD_STRETCH = 22,
    GLYPH_LABEL_BAD_REFERENCE = 23,
    GLYPH_LABEL_NO_ROOM_FOR_OUT = 24,
    GLYPH_LABEL_NOT_A_SHEET = 25,
    GLYPH_LABEL_SHEET_CUT_OFF = 26,
    GLYPH_LABEL_NO_ROOM_FOR_ANSWERS = 27
};

/* The cause of a number in the table's words; also for 0, and for a number that is not in the table. */
static inline const char *glyph_label_cause(uint32_t number) {
    switch (number) {
    case GLYPH_LABEL_DONE: return "no refusal";
    case GLYPH_LABEL_LABEL_TOO_LONG: return "text above 16,384 bytes or indices above 262,144";
    case GLYPH_LABEL_ILL_FORMED_UTF8: return "ill-formed UTF-8";
    case GLYPH_LABEL_CHARACTER_NOT_ALLOWED: return "character that XML 1.0 does not allow";
    case GLYPH_LABEL_BRACE_FIRST: return "the text begins with `{` and not with `{}`";
    case GLYPH_LABEL_TOO_MANY_UNITS: return "above 4,096 code units";
    case GLYPH_LABEL_EMPTY_LABEL: return "no code units and no bytes of indices";
    case GLYPH_LABEL_ENTRY_NOT_WELL_FORMED: return "entry not well formed";
    case GLYPH_LABEL_INDEX_TOO_LARGE: return "index above 65,535";
    case GLYPH_LABEL_NUMBER_TOO_LARGE:
        return "number with above 18 digits, or above 2 in its exponent, or a size above 1,000,000,000 thousandths";
    case GLYPH_LABEL_COUNT_OF_ZERO: return "a count of the map is 0";
    case GLYPH_LABEL_MAP_OR_MISSING_INDEX: return "a map or a missing index where none may be";
    case GLYPH_LABEL_CLUSTER_PASSES_TEXT: return "the cluster passes the end of the text";
    case GLYPH_LABEL_CLUSTER_SPLITS_PAIR: return "the cluster ends inside a pair";
    case GLYPH_LABEL_CLUSTER_LACKS_GLYPHS: return "the last cluster lacks glyphs";
    case GLYPH_LABEL_TOO_MANY_GLYPHS: return "above 4,096 glyphs, the tail included";
    case GLYPH_LABEL_NO_ROOM_FOR_UNITS: return "units has too little room";
    case GLYPH_LABEL_NO_ROOM_FOR_CLUSTERS: return "clusters has too little room";
    case GLYPH_LABEL_NO_ROOM_FOR_GLYPHS: return "glyphs has too little room";
    case GLYPH_LABEL_RUN_NOT_SOUND: return "the run is not sound: no label reads as it";
    case GLYPH_LABEL_NO_ROOM_FOR_TEXT: return "text has too little room";
    case GLYPH_LABEL_NO_ROOM_FOR_INDICES: return "indices has too little room";
    case GLYPH_LABEL_BAD_STRETCH: return "the stretch is empty, reversed or passes the end";
    case GLYPH_LABEL_BAD_REFERENCE: return "bad reference or raw `<`";
    case GLYPH_LABEL_NO_ROOM_FOR_OUT: return "out has too little room";
    case GLYPH_LABEL_NOT_A_SHEET: return "the file does not begin with `SLB` and the version 1";
    case GLYPH_LABEL_SHEET_CUT_OFF: return "the file ends inside a record";
    case GLYPH_LABEL_NO_ROOM_FOR_ANSWERS: return "answers has too little room";
    default: return "no such number";
    }
}

/* Unit i of units. */
static inline uint16_t glyph_label_unit_at(const uint8_t *units, size_t i) {
    const uint8_t *p = units + 2 * i;
    return (uint16_t)(p[0] | p[1] << 8);
}

static inline void glyph_label_put_unit(uint8_t *units, size_t i, uint16_t unit) {
    uint8_t *p = units + 2 * i;
    p[0] = (uint8_t)(unit & 255);
    p[1] = (uint8_t)(unit >> 8);
}

/* Number i of clusters, of glyphs or of a sheet's answers: cluster k has the numbers 2 k and 2 k + 1, glyph k has 4 k
 * to 4 k + 3. */
static inline int32_t glyph_label_number_at(const uint8_t *numbers, size_t i) {
    const uint8_t *p = numbers + 4 * i;
    uint32_t bits = (uint32_t)p[0] | (uint32_t)p[1] << 8 | (uint32_t)p[2] << 16 | (uint32_t)p[3] << 24;
    return bits < 0x80000000u ? (int32_t)bits : -(int32_t)(0xffffffffu - bits) - 1;
}

static inline void glyph_label_put_number(uint8_t *numbers, size_t i, int32_t number) {
    uint8_t *p = numbers + 4 * i;
    uint32_t bits = (uint32_t)number;
    p[0] = (uint8_t)(bits & 255);
    p[1] = (uint8_t)(bits >> 8 & 255);
    p[2] = (uint8_t)(bits >> 16 & 255);
    p[3] = (uint8_t)(bits >> 24);
}

/* The numbers of a cluster and of a glyph; where the machine's are low byte first, these are their bytes too. */
typedef struct {
    int32_t units, glyphs;
} glyph_label_cluster;

typedef struct {
    int32_t index, advance, u, v;
} glyph_label_glyph;

/* What was read: counts of code units, clusters and glyphs, at most 4,096 each. `rounded` counts the advances and
 * offsets given in the label whose exact value is no whole number of thousandths, at most 12,288. It is no part of the
 * run: labels with equal runs may differ in it, and a normal writing has 0. */
typedef struct {
    uint32_t number, place, units, clusters, glyphs, rounded;
} glyph_label_reading;

/* Bytes that were written: at most 16,384 of text, 24,576 where it is escaped, and 262,144 of indices. */
typedef struct {
    uint32_t number, place, text, indices;
} glyph_label_writing;

/* What was filled: bytes by glyph_label_resolve, numbers of 4 bytes each by glyph_label_sheet. */
typedef struct {
    uint32_t number;
    size_t place, filled;
} glyph_label_filled;

/* A stretch from `first` up to and without `end`. */
typedef struct {
    uint32_t number, place, first, end;
} glyph_label_stretch;

/* `length` bytes from byte `start` on, of the text (in_indices is 0) or of the indices (1). */
typedef struct {
    uint32_t in_indices;
    size_t start, length;
} glyph_label_part;

/* Resolves one raw attribute value, of any size. `&amp;` `&lt;` `&gt;` `&quot;` `&apos;` and character references,
 * `&#65;` or `&#x41;`, become their character in UTF-8. A raw tab, line feed or carriage return becomes a blank, a
 * carriage return with its line feed one blank; a referenced one stays. Every other byte is copied, for the reading to
 * judge. What a reference gives is not looked at again. A reference is bad where XML 1.0 has no such form, where its
 * name is none of the five, or where XML 1.0 does not allow its character. Refusals 23 and 24. What comes out is never
 * longer than the raw value, so that raw_len bytes of out are always large enough; out may not be raw itself. */
glyph_label_filled glyph_label_resolve(const uint8_t *raw, size_t raw_len, uint8_t *out, size_t out_len);

/* Reads a label into the three buffers of a run. Refusals 1 to 18. Buffers of GLYPH_LABEL_UNITS_MAX,
 * GLYPH_LABEL_CLUSTERS_MAX and GLYPH_LABEL_GLYPHS_MAX bytes are large enough for every label; to learn what one needs,
 * read it with empty buffers and look at 16, 17 and 18 one after the other. */
glyph_label_reading glyph_label_read(const uint8_t *text, size_t text_len, const uint8_t *indices, size_t indices_len,
                                     uint8_t *units, size_t units_len, uint8_t *clusters, size_t clusters_len,
                                     uint8_t *glyphs, size_t glyphs_len);

/* Reads all labels of a sheet and stores an answer for each. The file, of any size, has its numbers low byte first:
 *
 *     the mark `SLB`           3 bytes
 *     the version, 1           2
 *     and for each label a record, one behind the other up to the end of the file:
 *     the size of its text     2
 *     the size of its indices  4
 *     the text, the indices    as many as the sizes say, the references of both resolved
 *
 * A file of mark and version alone has no labels and is accepted. In answers each label gets two numbers of 4 bytes,
 * low byte first, in the order of the records: the number of its refusal and the place, 0 and 0 where it is accepted.
 * They are the number and place of glyph_label_read with buffers large enough for every label, so a number is 0 to 15,
 * and they depend on this label alone: where it stands and what the others are changes nothing. Sizes above the limits
 * of a label get 1 and 0, a record with both sizes 0 gets 6 and 0.
 *
 * Refusals 25 to 27, in this order, are of the file as a whole; a label that is refused is no refusal of the call.
 * `filled` is 2 for each label. Each label needs 8 bytes of answers, and a file of n bytes has at most n / 6 labels; to
 * learn how many it has, call with empty answers and look at 27. The labels are judged where they stand: none is
 * copied, and no run is stored. */
glyph_label_filled glyph_label_sheet(const uint8_t *file, size_t file_len, uint8_t *answers, size_t answers_len);

/* Writes a run's normal writing into text and indices. The three sizes of the run are exactly those of its numbers,
 * so a left-over byte makes it unsound. A run is sound where some label reads as it:
 *
 *  - it has a glyph at least, at most 4,096 units and at most 4,096 glyphs; the counts of its clusters add up to both;
 *  - its units are UTF-16 of characters that XML 1.0 allows, and no cluster ends inside a pair;
 *  - an index is -1 to 65,535, an advance -1 to 1,000,000,000, an offset within 1,000,000,000 of 0;
 *  - a cluster has a unit and a glyph at least; in a run without units each has 0 units and 1 glyph;
 *  - every index is named, but that of a cluster of 1 unit and 1 glyph may be left to the font, -1; and that of a
 *    cluster of 2 units and 1 glyph where the units are one pair, and this glyph and all behind it are wholly the
 *    font's: -1, -1, 0, 0.
 *
 * Refusals 19 to 21. Buffers of GLYPH_LABEL_TEXT_MAX and GLYPH_LABEL_INDICES_MAX bytes are large enough for every
 * run. */
glyph_label_writing glyph_label_write(const uint8_t *units, size_t units_len, const uint8_t *clusters,
                                      size_t clusters_len, const uint8_t *glyphs, size_t glyphs_len, uint8_t *text,
                                      size_t text_len, uint8_t *indices, size_t indices_len);

/* As glyph_label_write, with the text escaped: `&` `<` `"` tab, line feed and carriage return are written as `&amp;`
 * `&lt;` `&quot;` `&#9;` `&#10;` and `&#13;`. Both outputs can then stand between double quotes as attribute values.
 * Resolving gives back the bytes of glyph_label_write; the indices have nothing to escape. Refusals 19 to 21, where 20
 * counts the escaped bytes. Buffers of GLYPH_LABEL_ESCAPED_TEXT_MAX and GLYPH_LABEL_INDICES_MAX bytes are large enough
 * for every run. */
glyph_label_writing glyph_label_write_escaped(const uint8_t *units, size_t units_len, const uint8_t *clusters,
                                              size_t clusters_len, const uint8_t *glyphs, size_t glyphs_len,
                                              uint8_t *text, size_t text_len, uint8_t *indices, size_t indices_len);

/* The code units of all clusters touched by the glyphs from `first` up to and without `end`: 0 to 0 in a run without
 * code units. The run's sizes are exact, as in glyph_label_write. Each pick judges the whole run first. Refusals 19 and
 * 22. */
glyph_label_stretch glyph_label_units_of(const uint8_t *units, size_t units_len, const uint8_t *clusters,
                                         size_t clusters_len, const uint8_t *glyphs, size_t glyphs_len,
                                         size_t first, size_t end);

/* The glyphs of all clusters touched by the code units from `first` up to and without `end`. Refusals 19 and 22. */
glyph_label_stretch glyph_label_glyphs_of(const uint8_t *units, size_t units_len, const uint8_t *clusters,
                                          size_t clusters_len, const uint8_t *glyphs, size_t glyphs_len,
                                          size_t first, size_t end);

/* The part of a label that a refusal is about: for 2 to 4 the text from the place on, for 7 to 12 and 14 the entry.
 * For every other number, and where there is no such place, it is the empty start of the text (0, 0, 0). The label is
 * not read again: number and place are taken as they come. */
glyph_label_part glyph_label_fault(const uint8_t *text, size_t text_len, const uint8_t *indices, size_t indices_len,
                                   uint32_t number, size_t place);

#ifdef __cplusplus
}
#endif

#endif
