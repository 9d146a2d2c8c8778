"""Makes soundings.slb, a small sheet: python3 examples/make_sheet.py examples/soundings.slb

A record has the sizes of its text and of its indices, then both. Glyphs 19 to 28 are the font's digits, 412 to 421 its
lowered tenths: the point and the digit behind it are one glyph, set below the line.
"""

import struct
import sys

LABELS = (
    ('12.4', '20,55.6;21,55.6;(2)416,33.4,,-14'),
    ('8.1', '27,55.6;(2)413,33.4,,-14'),
    # left to the font
    ('31', ''),
    # a drying height: the 2 with the line below it, two code units and two glyphs
    ('2\u0332.5', '(2:2)21,55.6;890,0,-55.6;(2)417,33.4,,-14'),
    # a ligature
    ('Reef flat', '53;72;72;73;3;(2)192;68;87'),
    # refused: the last `;` begins a third entry, and the text has ended
    ('9.7', '28,55.6;(2)419,33.4,,-14;'),
)

def record(text, indices):
    text, indices = text.encode(), indices.encode()
    return struct.pack('<HI', len(text), len(indices)) + text + indices

def main():
    with open(sys.argv[1], 'wb') as out:
        out.write(b'SLB' + struct.pack('<H', 1) + b''.join(record(*label) for label in LABELS))

if __name__ == '__main__':
    main()
