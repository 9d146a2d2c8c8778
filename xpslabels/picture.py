"""The SVG of a label: characters above, glyph indices below, clusters as brackets between. A refused label has its characters and its entries,
the offending part marked. Columns follow the label's own order, from the left, in rows that wrap."""

import unicodedata
from html import escape
from typing import NamedTuple

from . import limits
from .library import OUTPUTS
from .ties import index_words
from .words import DOTTED_CIRCLE, shown, shortened

ROW_WIDTH, TIE_HEIGHT, TEXT_HEIGHT, ENTRY_HEIGHT, MARGIN = 900, 92, 46, 30, 4
CHARACTERS_Y, CODES_Y, BRACKET_TOP, BAR_TOP, BAR_BOTTOM, BRACKET_BOTTOM, INDICES_Y = 23, 37, 43, 50, 57, 64, 78
WINDOW_OF_TEXT, WINDOW_OF_ENTRIES = 160, 60         # characters and entries that a refused label shows around its fault
MOST_OF_TIE = 16                                    # characters and indices of one tie
BLANK = '\u2423'                                    # stands for a blank


class Column(NamedTuple):
    width: int
    drawn: str


def character_width(character):
    """A guess at the width of a character in pixels; the browser's font decides."""
    if unicodedata.category(character) in ('Mn', 'Me', 'Cf'):
        return 0
    return 22 if unicodedata.east_asian_width(character) in 'WF' else 14


def visible(characters):
    """Characters as they stand in a picture, where their code points stand below: a blank has a sign, what cannot be printed has none."""
    text = ''.join(BLANK if c == ' ' else c if c.isprintable() else '' for c in characters)
    return DOTTED_CIRCLE + text if text and unicodedata.category(text[0]) in ('Mn', 'Mc', 'Me') else text


def code_words(character):
    return f'{ord(character):04X}'


def written(x, y, kind, words):
    return f'<text class="{kind}" x="{x:g}" y="{y}">{escape(words)}</text>' if words else ''


def spread(widths, width):
    """Middles of things of these widths that stand side by side, in the middle of a width."""
    at, middles = (width - sum(widths)) / 2, []
    for size in widths:
        middles.append(round(at + size / 2))
        at += size
    return middles


def bracket(above, below, width):
    """From the code points above, through the middle, to the indices below."""
    middle = round(width / 2)
    path = [f'M{x} {BRACKET_TOP}V{BAR_TOP}' for x in above] + [f'M{x} {BAR_BOTTOM}V{BRACKET_BOTTOM}' for x in below]
    path += [f'M{min(row + [middle])} {y}H{max(row + [middle])}' for row, y in ((above, BAR_TOP), (below, BAR_BOTTOM)) if len(row) > 1]
    return f'<path d="{"".join(path)}M{middle} {BAR_TOP if above else BAR_BOTTOM}V{BAR_BOTTOM}"/>'


def capped(words, things):
    """The words of the first things, and an ellipsis where there are more."""
    return [*map(words, things[:MOST_OF_TIE]), *(['…'] if len(things) > MOST_OF_TIE else [])]


def tie_column(tie):
    """A cluster: its characters with their code points, a bracket, its indices."""
    top, codes, indices = visible(tie.characters[:MOST_OF_TIE]), capped(code_words, tie.characters), capped(index_words, tie.indices)
    code_widths, index_widths = [6 * len(code) + 6 for code in codes], [8 * len(index) + 10 for index in indices]
    width = max(sum(map(character_width, top)) + 8, sum(code_widths), sum(index_widths), 30)
    codes_at, indices_at = spread(code_widths, width), spread(index_widths, width)
    drawn = [written(width / 2, CHARACTERS_Y, 'c', top), bracket(codes_at, indices_at, width)]
    drawn += [written(x, CODES_Y, 'u', code) for x, code in zip(codes_at, codes)]
    drawn += [written(x, INDICES_Y, 'g', index) for x, index in zip(indices_at, indices)]
    kind = 'f' if tie.in_tail else 'o' if tie.is_one_to_one() else 'm'
    ground = f'<rect class="tail" width="{width}" height="{TIE_HEIGHT - 4}"/>' if tie.in_tail else ''
    return Column(width, f'<g class="{kind}" transform="translate(@)">{ground}{"".join(drawn)}</g>')


def character_column(character, bad):
    """A character of a refused label with its code point."""
    code = code_words(character)
    width = max(character_width(character) + 8, 6 * len(code) + 6)
    drawn = written(width / 2, CHARACTERS_Y, 'c', visible(character)) + written(width / 2, CODES_Y, 'u', code)
    return Column(width, f'<g class="{"x" if bad else "o"}" transform="translate(@)">{drawn}</g>')


def entry_column(entry, bad):
    """An entry of a refused label in a box."""
    words = shown(shortened(entry, 40)) or ' '
    width = sum(8 if c.isascii() else 14 for c in words) + 12
    drawn = f'<rect class="e" x="1" y="1" width="{width - 2}" height="22" rx="3"/>' + written(width / 2, 16, 'g', words)
    return Column(width + 2, f'<g class="{"x" if bad else "o"}" transform="translate(@)">{drawn}</g>')


def words_column(words):
    """A remark between columns, as wide as its words."""
    return Column(7 * len(words) + 8, f'<g class="o" transform="translate(@)">{written((7 * len(words) + 8) / 2, CHARACTERS_Y - 6, "r", words)}</g>')


def laid(columns, height, top):
    """The columns in rows: what is drawn, the width and where it ends below."""
    drawn, x, y, widest = [], MARGIN, top, 0
    for column in columns:
        if x > MARGIN and x + column.width > ROW_WIDTH:
            x, y = MARGIN, y + height
        drawn.append(column.drawn.replace('@', f'{x} {y}', 1))
        x += column.width
        widest = max(widest, x)
    return ''.join(drawn), widest + MARGIN, y + height if drawn else top


def svg(drawn, width, height, title):
    return (f'<svg xmlns="http://www.w3.org/2000/svg" width="{width}" height="{height}" viewBox="0 0 {width} {height}" role="img">'
            f'<title>{escape(title)}</title>{drawn}</svg>')


def picture_of_ties(ties):
    """An accepted label."""
    columns = [tie_column(tie) for tie in ties[:limits.DRAWN_OF_LABEL]]
    if len(ties) > limits.DRAWN_OF_LABEL:
        columns.append(words_column(f'… and {len(ties) - limits.DRAWN_OF_LABEL:,} more ties'))
    drawn, width, height = laid(columns, TIE_HEIGHT, 0)
    return svg(drawn, width, height, 'characters above, glyph indices below, clusters as brackets between')


def window(things, column, first, end, most):
    """Columns of things from a little before `first` on, those up to `end` marked, with remarks where some are left out."""
    start = max(0, first - most // 3)
    columns = [column(thing, first <= k < end) for k, thing in enumerate(things[start:start + most], start)]
    before = [words_column(f'{start:,} before …')] if start else []
    return before + columns + ([words_column('… and more')] if len(things) > start + most else [])


def picture_of_refused(label, fault):
    """A refused label: its characters, its entries, the offending part marked. Of values above their limits the start is enough."""
    text, indices = label.text[:OUTPUTS[0]].decode('utf-8', 'replace'), label.indices[:OUTPUTS[1]].decode('utf-8', 'replace')
    entries = indices.split(';') if indices else []
    where, before, part = (fault.where, fault.before, fault.part) if fault is not None else ('', '', '')
    bad_text = (len(before), len(before) + len(part)) if where == 'text' else (0, 0)
    bad_entry = (before.count(';'), before.count(';') + 1) if where == 'indices' else (0, 0)
    characters = window(text, character_column, *bad_text, WINDOW_OF_TEXT)
    boxes = window(entries, entry_column, *bad_entry, WINDOW_OF_ENTRIES)
    above, width_above, middle = laid(characters, TEXT_HEIGHT, 0)
    below, width_below, height = laid(boxes, ENTRY_HEIGHT, middle)
    if height == 0:
        return ''
    return svg(above + below, max(width_above, width_below), height, 'characters above, entries of the indices below, the offending part marked')
