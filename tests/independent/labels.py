"""Glyph labels after document 01: reader, writer, picks, faults and `relabel`, on exact integers.

A plain reference to test other implementations with; each function quotes the words it implements.
An answer is ('ok', ...) or ('no', number, place).

CR 4 of document 02 changes document 01 in the unwritten tail, in soundness and in what the normal writing drops;
CR 6 changes what a half rounds to. Words quoted behind "CR 4" or "CR 6" are the request's own.
"""

import re
from collections import namedtuple
from fractions import Fraction

class Limits:
    TEXT_BYTES, INDICES_BYTES, LINE_BYTES = 16_384, 262_144, 32_768
    UNITS = GLYPHS = 4_096
    INDEX, THOUSANDTHS = 65_535, 1_000_000_000
    DIGITS, EXPONENT_DIGITS = 18, 2

FONT = -1                       # "index or -1 for the font, advance or -1"
WHOLLY_FONT = (FONT, FONT, 0, 0)

# "A run is the units, clusters and glyph records, in order."
Run = namedtuple('Run', 'units clusters glyphs')

class Refusal(Exception):
    def __init__(self, number, place):
        self.answer = ('no', number, place)

# "No number is given unless its cause holds and no earlier one does."; "the place is 0" where none is named.
def refuse_if(cause, number, place=0):
    if cause:
        raise Refusal(number, place)

# ---- The text ----------------------------------------------------------------------------------------

# "Unicode's Table 3-7 decides UTF-8": each row has the lowest and the highest value of each byte.
TABLE_3_7 = (
    ((0x00, 0x7F),),
    ((0xC2, 0xDF), (0x80, 0xBF)),
    ((0xE0, 0xE0), (0xA0, 0xBF), (0x80, 0xBF)),
    ((0xE1, 0xEC), (0x80, 0xBF), (0x80, 0xBF)),
    ((0xED, 0xED), (0x80, 0x9F), (0x80, 0xBF)),
    ((0xEE, 0xEF), (0x80, 0xBF), (0x80, 0xBF)),
    ((0xF0, 0xF0), (0x90, 0xBF), (0x80, 0xBF), (0x80, 0xBF)),
    ((0xF1, 0xF3), (0x80, 0xBF), (0x80, 0xBF), (0x80, 0xBF)),
    ((0xF4, 0xF4), (0x80, 0x8F), (0x80, 0xBF), (0x80, 0xBF)),
)
LEAD_BITS = {1: 0x7F, 2: 0x1F, 3: 0x0F, 4: 0x07}

# The character whose well-formed bytes start there, with their count; None where none does.
def character_at(text, at):
    for row in TABLE_3_7:
        part = text[at:at + len(row)]
        if len(part) == len(row) and all(low <= byte <= high for byte, (low, high) in zip(part, row)):
            character = part[0] & LEAD_BITS[len(row)]
            for byte in part[1:]:
                character = character << 6 | byte & 0x3F
            return character, len(row)
    return None

# "XML 1.0's Char decides which characters may stand."
def is_xml_char(character):
    return (character in (0x9, 0xA, 0xD) or 0x20 <= character <= 0xD7FF
            or 0xE000 <= character <= 0xFFFD or 0x10000 <= character <= 0x10FFFF)

# "a character above U+FFFF gives a pair, high then low"
def units_of_character(character):
    if character <= 0xFFFF:
        return [character]
    return [0xD800 + (character - 0x10000 >> 10), 0xDC00 + (character - 0x10000 & 0x3FF)]

# "the text from its left (2 and 3, whichever comes first), 4, 5"; "If it begins with the two bytes `{}`, they
# are dropped, once. Any other text that begins with `{` is refused. What remains becomes UTF-16 code units".
def read_text(text):
    units, at = [], 0
    while at < len(text):
        found = character_at(text, at)
        refuse_if(found is None, 2, at)
        character, length = found
        refuse_if(not is_xml_char(character), 3, at)
        units += units_of_character(character)
        at += length
    escaped = text.startswith(b'{}')
    refuse_if(text.startswith(b'{') and not escaped, 4)
    units = units[2:] if escaped else units
    refuse_if(len(units) > Limits.UNITS, 5)
    return units

# ---- The entries -------------------------------------------------------------------------------------

# "Index part: an optional map, then one or more digits. A map is `(a)` or `(a:b)`, a and b one or more digits";
# "A map without an index isn't well formed." The index part is itself optional.
INDEX_PART = re.compile(rb'(?:(?:\(([0-9]+)(?::([0-9]+))?\))?([0-9]+))?')
# "A number is digits, or digits `.` digits, or `.` digits; then optionally `e` or `E`, an optional sign, digits.
# An advance may have `+` before it and never `-`; an offset may have either."
NUMBER = rb'(?:([0-9]+)(?:\.([0-9]+))?|\.([0-9]+))(?:[eE]([+-]?)([0-9]+))?'
ADVANCE = re.compile(rb'(\+?)' + NUMBER)
OFFSET = re.compile(rb'([+-]?)' + NUMBER)

Number = namedtuple('Number', 'sign before behind exponent_sign exponent')
Entry = namedtuple('Entry', 'counts index numbers')

# "Zero bytes of indices are no entries. Otherwise entries are split at each `;`".
def split_entries(indices):
    return indices.split(b';') if indices else []

# The number that digits spell. Beyond 18 digits it exceeds every count and limit here: any such number will do.
def whole(digits):
    digits = digits.lstrip(b'0')
    return int(digits or b'0') if len(digits) <= 18 else 10 ** 18

# "Each may be empty (house), which is "not given"": None. False where the field is no number.
def read_number(pattern, field):
    if not field:
        return None
    match = pattern.fullmatch(field)
    if match is None:
        return False
    sign, before, behind, only_behind, exponent_sign, exponent = match.groups(b'')
    return Number(sign, before, behind + only_behind, exponent_sign, exponent)

# "An entry is, without any space: an optional index part, then up to three fields, each behind a comma. [...]
# Fields in order: advance, u offset, v offset." None where the entry is not well formed.
def read_entry(entry):
    head, *fields = entry.split(b',')
    match = INDEX_PART.fullmatch(head)
    numbers = [read_number(pattern, field) for pattern, field in zip((ADVANCE, OFFSET, OFFSET), fields)]
    if match is None or len(fields) > 3 or False in numbers:
        return None
    a, b, index = match.groups()
    counts = None if a is None else (whole(a), 1 if b is None else whole(b))           # "`(a)` means b = 1"
    return Entry(counts, None if index is None else whole(index), numbers + [None] * (3 - len(numbers)))

# "With m the digits before any exponent, read as one whole number, f the count of those behind the point and e
# the exponent, the value is m * 10^(e - f) * 1000, rounded to the nearest whole number, [...]; then the sign."
# CR 6, in place of "a half going away from zero": "Halves go to the even neighbour. [...] `.0005` now reads as 0,
# `.0015` as 2, `.0025` as 2".
def thousandths(number):
    m = int(number.before + number.behind)
    power = int(number.exponent_sign + (number.exponent or b'0')) - len(number.behind) + 3
    if power >= 0:
        value = m * 10 ** power
    else:
        divisor = 10 ** -power
        value, rest = divmod(m, divisor)
        if 2 * rest > divisor or (2 * rest == divisor and value % 2 == 1):
            value += 1
    return -value if number.sign == b'-' else value

# "above 18 digits before the exponent, above 2 in it, or size above 1,000,000,000 thousandths"; "Leading zeros
# count as digits." The size is that of the rounded value. CR 6: "`1000000.0005` is accepted as 1,000,000,000;
# `1000000.0006` is refused with 9."
def above_limits(number):
    return (len(number.before + number.behind) > Limits.DIGITS or len(number.exponent) > Limits.EXPONENT_DIGITS
            or abs(thousandths(number)) > Limits.THOUSANDTHS)

# ---- Clusters ----------------------------------------------------------------------------------------

# "A cluster may not end between the halves of a pair (house), the tail included."
def inside_pair(units, end):
    return 0 < end < len(units) and 0xDC00 <= units[end] <= 0xDFFF

# "entry by entry 7 to 13 in number order; then 14, [...] 15". CR 4: "An entry without a map at a pair is still
# refused with 13, which the tail no longer gives."
def walk(units, entries):
    clusters, glyphs = [], []
    used = lacking = opener = 0     # units in clusters so far; glyphs that the open cluster lacks; its entry
    for place, written in enumerate(entries):
        entry = read_entry(written)
        refuse_if(entry is None, 7, place)
        refuse_if(entry.index is not None and entry.index > Limits.INDEX, 8, place)
        refuse_if(any(number and above_limits(number) for number in entry.numbers), 9, place)
        refuse_if(entry.counts and 0 in entry.counts, 10, place)
        # "the next b - 1 entries are its further glyphs and must each name an index and carry no map";
        # "In a text of no units (house) each entry must name an index and carry no map"
        refuse_if((lacking or not units) and (entry.counts or entry.index is None), 11, place)
        if lacking:
            lacking -= 1
        elif not units:
            clusters.append((0, 1))
        else:
            # "An entry with map `(a:b)` opens a cluster of a units and b glyphs"; "An entry without a map,
            # outside such a cluster, is a cluster 1:1 and may leave its index to the font."
            a, b = entry.counts or (1, 1)
            refuse_if(used + a > len(units), 12, place)
            refuse_if(inside_pair(units, used + a), 13, used + a)
            clusters.append((a, b))
            used, lacking, opener = used + a, b - 1, place
        # "Each glyph record holds its index choice, its advance choice and both offsets."
        advance, u, v = entry.numbers
        glyphs.append((FONT if entry.index is None else entry.index, thousandths(advance) if advance else FONT,
                       thousandths(u) if u else 0, thousandths(v) if v else 0))
    refuse_if(lacking, 14, opener)
    # "When entries end before the text, each unit left is a 1:1 cluster, all chosen by the font: this is the
    # unwritten tail." CR 4: "Now a pair in the tail is one cluster of 2 units and 1 glyph, wholly the font's."
    while used < len(units):
        clusters.append((2, 1) if inside_pair(units, used + 1) else (1, 1))
        glyphs.append(WHOLLY_FONT)
        used += clusters[-1][0]
    refuse_if(len(glyphs) > Limits.GLYPHS, 15)
    return clusters, glyphs

# "Text size and indices size; then the text [...], 6; then entry by entry": checks 1 to 15.
def read(text, indices):
    try:
        refuse_if(len(text) > Limits.TEXT_BYTES or len(indices) > Limits.INDICES_BYTES, 1)
        units = read_text(text)
        refuse_if(not units and not indices, 6)
        return 'ok', Run(units, *walk(units, split_entries(indices)))
    except Refusal as refusal:
        return refusal.answer

# "The reader fills three lent number buffers: one place a unit; two a cluster (units, glyphs); four a glyph",
# here given by their sizes in numbers. 16, 17, 18: "too short", with the "units, clusters, glyphs needed".
def read_into(text, indices, unit_places, cluster_numbers, glyph_numbers):
    return fit_reading(read(text, indices), unit_places, cluster_numbers, glyph_numbers)

def fit_reading(answer, unit_places, cluster_numbers, glyph_numbers):
    if answer[0] == 'ok':
        held = unit_places, cluster_numbers // 2, glyph_numbers // 4
        for number, needed, places in zip((16, 17, 18), map(len, answer[1]), held):
            if needed > places:
                return 'no', number, needed
    return answer

# "whether its exact value was a whole count of thousandths", of a field that is a number: Fraction takes every such
# spelling, and neither the reading nor the rounding above is asked.
def is_whole(field):
    return (Fraction(field.decode('ascii')) * 1000).denominator == 1

# "An accepted label returns the count of given fields that were not, beside the run; an offset not given counts as
# exact, a refusal as 0. The count is defined from the entries and is no part of the run". `answer` is that of read,
# read_into or fit_reading for these indices.
def rounded(indices, answer):
    if answer[0] == 'no':
        return 0
    fields = [field for entry in split_entries(indices) for field in entry.split(b',')[1:]]
    return sum(field != b'' and not is_whole(field) for field in fields)

# The run as its places: units, cluster numbers, glyph numbers.
def flat(run):
    return run.units, [n for cluster in run.clusters for n in cluster], [n for glyph in run.glyphs for n in glyph]

# ---- The normal writing ------------------------------------------------------------------------------

def grouped(numbers, size):
    return list(zip(*[iter(numbers)] * size))

# The characters of well-formed units; None where there is a lone half or a number that is no unit.
def characters_of(units):
    characters, at = [], 0
    while at < len(units):
        unit, following = units[at], units[at + 1] if at + 1 < len(units) else 0
        if 0xD800 <= unit <= 0xDBFF and 0xDC00 <= following <= 0xDFFF:
            characters.append(0x10000 + (unit - 0xD800 << 10) + following - 0xDC00)
            at += 2
        elif 0 <= unit <= 0xFFFF and not 0xD800 <= unit <= 0xDFFF:
            characters.append(unit)
            at += 1
        else:
            return None
    return characters

# "It is sound when it obeys every rule above: the lengths are whole clusters and glyphs, units are well-formed
# XML characters, counts add up, limits hold, it is not empty, and some label that this paper accepts reads as it."
# The normal writing of what passes here is below 180,000 bytes, so the two limits on bytes add nothing.
# CR 4, of a pair wholly the font's: it "is sound only where nothing but clusters wholly the font's follows".
def sound(units, cluster_numbers, glyph_numbers):
    if len(cluster_numbers) % 2 or len(glyph_numbers) % 4:
        return False
    clusters, glyphs, characters = grouped(cluster_numbers, 2), grouped(glyph_numbers, 4), characters_of(units)
    if characters is None or not all(map(is_xml_char, characters)):
        return False
    if sum(a for a, b in clusters) != len(units) or sum(b for a, b in clusters) != len(glyphs):
        return False
    if len(units) > Limits.UNITS or not 0 < len(glyphs) <= Limits.GLYPHS:
        return False
    for index, advance, u, v in glyphs:
        if not (FONT <= index <= Limits.INDEX and FONT <= advance <= Limits.THOUSANDTHS
                and abs(u) <= Limits.THOUSANDTHS and abs(v) <= Limits.THOUSANDTHS):
            return False
    if any(units and (a < 1 or b < 1) or not units and (a, b) != (0, 1) for a, b in clusters):
        return False
    used, first, in_tail = 0, 0, False      # units and glyphs in clusters so far; whether such a pair is among these
    for a, b in clusters:
        wholly_font = b == 1 and glyphs[first] == WHOLLY_FONT
        font_pair = wholly_font and a == 2 and inside_pair(units, used + 1)
        in_tail = in_tail or font_pair
        if in_tail and not wholly_font:
            return False
        if (a, b) != (1, 1) and not font_pair and any(glyph[0] == FONT for glyph in glyphs[first:first + b]):
            return False
        used, first = used + a, first + b
        if inside_pair(units, used):
            return False
    return True

# "no leading zeros, no `+`, no exponent; a value has a point only before digits, no trailing zeros behind it and
# no lone zero before it, a negative one begins with `-`, and 0 is `0`"
def write_value(value):
    before, behind = divmod(abs(value), 1000)
    digits = f'{behind:03}'.rstrip('0')
    size = (str(before) if before else '') + '.' + digits if digits else str(before)
    return '-' + size if value < 0 else size

# "`(a:b)` only when not 1:1 nor 0:1, `:b` only when b is not 1"; "Offsets of 0 are empty and trailing empty fields
# drop with their commas." A cluster's further glyphs are written as those of 1:1 clusters.
def write_entry(cluster, glyph):
    (a, b), (index, advance, u, v) = cluster, glyph
    cluster_map = '' if cluster in ((1, 1), (0, 1)) else f'({a})' if b == 1 else f'({a}:{b})'
    fields = [cluster_map + ('' if index == FONT else str(index)), '' if advance == FONT else write_value(advance),
              write_value(u) if u else '', write_value(v) if v else '']
    return ','.join(fields).rstrip(',')

# "Text: the units in UTF-8, with `{}` before them exactly when the first is `{`. Indices: the clusters' glyphs in
# order, joined by `;`"; "Trailing 1:1 entries that are wholly the font's drop." CR 4, of a pair wholly the font's:
# "the normal writing drops it like them". In a sound run no other 2:1 cluster is wholly the font's.
def normal_writing(units, clusters, glyphs):
    text = ('{}' if units[:1] == [ord('{')] else '') + ''.join(map(chr, characters_of(units)))
    entries = []
    for cluster in clusters:
        for k in range(cluster[1]):
            entries.append(write_entry((1, 1) if k else cluster, glyphs[len(entries)]))
    for cluster, glyph in zip(reversed(clusters), reversed(glyphs)):
        if cluster not in ((1, 1), (2, 1)) or glyph != WHOLLY_FONT:
            break
        entries.pop()
    return text.encode('utf-8'), ';'.join(entries).encode('ascii')

# "A run is handed in as exactly its places." ('ok', text, indices) or ('no', 19, 0).
def write(units, cluster_numbers, glyph_numbers):
    if not sound(units, cluster_numbers, glyph_numbers):
        return 'no', 19, 0
    return 'ok', *normal_writing(units, grouped(cluster_numbers, 2), grouped(glyph_numbers, 4))

# "The writer tests 19, 20, 21." The outputs are given by their sizes; the places are "bytes needed".
def write_into(units, cluster_numbers, glyph_numbers, text_bytes, indices_bytes):
    return fit_writing(write(units, cluster_numbers, glyph_numbers), text_bytes, indices_bytes)

def fit_writing(answer, text_bytes, indices_bytes):
    if answer[0] == 'ok':
        for number, output, held in zip((20, 21), answer[1:], (text_bytes, indices_bytes)):
            if len(output) > held:
                return 'no', number, len(output)
    return answer

# ---- Picks and faults --------------------------------------------------------------------------------

# "A pick takes a sound run and a stretch [...], from first to one past the last, and gives the stretch [...] of
# all clusters touched"; "Soundness (19) is tested before 22."; 22: "pick empty, reversed or past the end". The
# stretch taken counts the clusters' column `source` (0 units, 1 glyphs), the stretch given the other.
def pick(units, cluster_numbers, glyph_numbers, first, end, source):
    if not sound(units, cluster_numbers, glyph_numbers):
        return 'no', 19, 0
    if not 0 <= first < end <= (len(units), len(glyph_numbers) // 4)[source]:
        return 'no', 22, 0
    touched, starts = [], (0, 0)
    for cluster in grouped(cluster_numbers, 2):
        ends = starts[0] + cluster[0], starts[1] + cluster[1]
        if starts[source] < end and first < ends[source]:
            touched.append((starts[1 - source], ends[1 - source]))
        starts = ends
    return 'ok', touched[0][0], touched[-1][1]

# "a stretch of glyphs [...] gives the stretch of units"; "In a run without units the first gives 0 to 0."
def units_of(units, cluster_numbers, glyph_numbers, first, end):
    return pick(units, cluster_numbers, glyph_numbers, first, end, 1)

# "another goes from units to glyphs"
def glyphs_of(units, cluster_numbers, glyph_numbers, first, end):
    return pick(units, cluster_numbers, glyph_numbers, first, end, 0)

# "for 2 to 4 the text from that place on, for 7 to 12 and 14 the entry, else, or where no such place exists [...],
# the empty start of the text": (1 in indices or 0 in text, start, length).
def fault(text, indices, number, place):
    if number in (2, 3, 4) and place < len(text):
        return 0, place, len(text) - place
    if number in (7, 8, 9, 10, 11, 12, 14):
        start = 0
        for at, entry in enumerate(split_entries(indices)):
            if at == place:
                return 1, start, len(entry)
            start += len(entry) + 1
    return 0, 0, 0

# "reads two lines, text and indices, the second up to 32,768 bytes (else it acts as for 1), and prints `ok`, units,
# clusters, glyphs, then both normal lines; or `no`, number, place on one line, single spaces between. A line feed
# ends a line and is no part of it; a missing line is empty."
def relabel(stdin):
    text, indices = (stdin.split(b'\n', 2) + [b''])[:2]
    answer = read(text, indices) if len(indices) <= Limits.LINE_BYTES else ('no', 1, 0)
    if answer[0] == 'no':
        return b'no %d %d\n' % answer[1:]
    return b'ok %d %d %d\n%s\n%s\n' % (*map(len, answer[1]), *write(*flat(answer[1]))[1:])
