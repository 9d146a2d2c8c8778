"""The causes of refusals in the words of include/glyph_label.h, sentences that more than one report has, and text as it is shown to people.

The causes stand here once more because the header's are a C function that no shared object has; tests/labels/test_words.py
holds them to the header's table.
"""

import unicodedata
from itertools import groupby

CAUSES = {
    1: 'text above 16,384 bytes or indices above 262,144',
    2: 'ill-formed UTF-8',
    3: 'character that XML 1.0 does not allow',
    4: 'the text begins with `{` and not with `{}`',
    5: 'above 4,096 code units',
    6: 'no code units and no bytes of indices',
    7: 'entry not well formed',
    8: 'index above 65,535',
    9: 'number with above 18 digits, or above 2 in its exponent, or a size above 1,000,000,000 thousandths',
    10: 'a count of the map is 0',
    11: 'a map or a missing index where none may be',
    12: 'the cluster passes the end of the text',
    13: 'the cluster ends inside a pair',
    14: 'the last cluster lacks glyphs',
    15: 'above 4,096 glyphs, the tail included',
}
PLACES = {2: 'byte', 3: 'byte', 13: 'code unit', **dict.fromkeys((7, 8, 9, 10, 11, 12, 14), 'entry')}   # what a place counts

PROVED = ('What is proved ends at the library: which labels are accepted, the number and place of a refusal, ties, rounded values and normal writings '
          'are its answers. Unpacking the zip, the XML and what is printed or drawn are this program\'s and are not proved.')
COUNTING = ('A refusal is a number, a place and a cause: bytes, entries and code units are counted from 0, unlike pages, lines and columns; the 0 of '
            '1, 4, 5, 6 and 15 is no place.')

DOTTED_CIRCLE = '\u25cc'        # carries a combining mark that has nothing before it


def refusal(number, place):
    """Number, place and cause: `12 at entry 2: the cluster passes the end of the text`."""
    counted = PLACES[number] + ' ' if number in PLACES else ''
    return f'{number} at {counted}{place}: {CAUSES[number]}'


def code_point(character):
    return f'U+{ord(character):04X}'


def shown(text):
    """The text with U+XXXX, set apart by blanks, for each character that cannot be printed."""
    if text.isprintable():
        return text
    runs = groupby(text, str.isprintable)
    return ' '.join(''.join(run) if printable else ' '.join(map(code_point, run)) for printable, run in runs)


def shown_alone(characters):
    """The characters of a tie: a blank is U+0020, and a mark that combines with nothing before it gets a dotted circle."""
    if characters.strip(' ') == '':
        return ' '.join(map(code_point, characters))
    if unicodedata.category(characters[0]) in ('Mn', 'Mc', 'Me'):
        characters = DOTTED_CIRCLE + characters
    return shown(characters)


def shortened(text, most=72):
    """At most so many characters, the last of them an ellipsis where some are left out."""
    return text if len(text) <= most else text[:most - 1] + '…'


def named(name):
    """A part's name for a sentence."""
    return shortened(shown(name), 120)


def quoted(text, most=72):
    """A short text between quotes, for a line of a report."""
    return f'"{shown(shortened(text, most))}"'


def counted(number, noun):
    """`1 page`, `12 pages`."""
    return f'{number:,} {noun}' if number == 1 else f'{number:,} {noun}s'
