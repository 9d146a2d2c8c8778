"""The offending part of a refused label, with what stands around it."""

from typing import NamedTuple

from .words import shortened, shown

SPLIT_PAIR = 13         # the refusal whose place is a code unit
AROUND, WIDEST = 24, 48


class Fault(NamedTuple):
    """A part of the text or of the indices: where it is, what stands before it, the part itself, what stands behind."""
    where: str
    before: str
    part: str
    behind: str


def characters(value):
    return value.decode('utf-8', 'replace')


def fault_of(library, label, number, place):
    """The part that a refusal is about, or None where it is about the label as a whole."""
    in_indices, start, length = library.fault(label, number, place)
    if in_indices or length:
        value = label.indices if in_indices else label.text
        cut = value[:start], value[start:start + length], value[start + length:]
        return Fault('indices' if in_indices else 'text', *map(characters, cut))
    return pair_at(label.text, place) if number == SPLIT_PAIR else None


def pair_at(text, place):
    """The character whose low half is the code unit at a place; `{}` at the start is no part of the code units."""
    escape, text = ('{}', text[2:]) if text.startswith(b'{}') else ('', text)
    units = characters(text).encode('utf-16-le')
    cut = units[:2 * place - 2], units[2 * place - 2:2 * place + 2], units[2 * place + 2:]
    before, part, behind = (piece.decode('utf-16-le', 'replace') for piece in cut)
    return Fault('text', escape + before, part, behind)


def shown_around(fault):
    """A little of what stands before the part, the part, a little of what stands behind."""
    before = ('…' if len(fault.before) > AROUND else '') + fault.before[-AROUND:]
    behind = fault.behind[:AROUND] + ('…' if len(fault.behind) > AROUND else '')
    return shown(before), shown(shortened(fault.part, WIDEST)), shown(behind)


def fault_words(fault):
    """The part between marks: `indices: 1;2; >>(2)3<< ;4`."""
    before, part, behind = shown_around(fault)
    return f'{fault.where}: {before + " " if before else ""}>>{part}<<{" " + behind if behind else ""}'
