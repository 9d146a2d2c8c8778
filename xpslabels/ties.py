"""Which characters belong to which glyphs: the clusters of a run, for people."""

import struct
from typing import NamedTuple

from .words import shown_alone

FONT = -1                                       # an index that the label leaves to the font


class Tie(NamedTuple):
    """A cluster: its characters, the code units of these, its glyphs' indices, and whether it stands in the tail."""
    characters: str
    units: int
    indices: tuple
    in_tail: bool

    def is_one_to_one(self):
        return self.units == 1 and len(self.indices) == 1


def ties_of(label, reading):
    """The ties of an accepted label. The tail begins behind as many glyphs as there are entries."""
    entries = label.indices.count(b';') + 1 if label.indices else 0
    glyphs = struct.unpack(f'<{len(reading.glyphs) // 4}i', reading.glyphs)[::4]
    counts = struct.unpack(f'<{len(reading.clusters) // 4}i', reading.clusters)
    ties, unit, glyph = [], 0, 0
    for units, of_glyphs in zip(counts[::2], counts[1::2]):
        characters = reading.units[2 * unit:2 * (unit + units)].decode('utf-16-le')
        ties.append(Tie(characters, units, glyphs[glyph:glyph + of_glyphs], glyph >= entries))
        unit, glyph = unit + units, glyph + of_glyphs
    return ties


def index_words(index):
    return 'font' if index == FONT else str(index)


def sides(tie):
    """The characters of a tie, and its indices."""
    return shown_alone(tie.characters) if tie.characters else 'no characters', '+'.join(map(index_words, tie.indices))


def tie_words(tie):
    """`fl = 192`, `◌้ำ = 59+49+86`, `o = font`."""
    return ' = '.join(sides(tie))


def listed(ties, every):
    """The ties that a report lists: all of them, or those that are not 1:1, where a run without characters is one tie."""
    if not every and all(tie.units == 0 for tie in ties):
        return [Tie('', 0, tuple(index for tie in ties for index in tie.indices), False)]
    return [tie for tie in ties if every or not tie.is_one_to_one()]
