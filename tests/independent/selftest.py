"""Checks labels.py, attributes.py and sheets.py against the papers' own examples, other witnesses and themselves. Exits
non-zero on any failure.

    selftest.py [--seed N] [--count N]
"""

import argparse
import itertools
import math
import re
import struct
import sys
from collections import Counter
from decimal import ROUND_HALF_EVEN, Context, Decimal
from fractions import Fraction
from random import Random
from xml.parsers import expat

import attributes
import edges
import generate
import labels
import sheets
from edges import GRIN

checks, failures = Counter(), Counter()

def check(group, holds, *about):
    checks[group] += 1
    if not holds:
        failures[group] += 1
        if failures[group] <= 5:
            print(f'FAILED {group}:', *map(repr, about))

def as_bytes(part):
    return part.encode() if isinstance(part, str) else part

def refused(group, text, indices, number, place=0):
    answer = labels.read(as_bytes(text), as_bytes(indices))
    check(group, answer == ('no', number, place), text, indices, answer, (number, place))

def accepted(group, text, indices, clusters=None, glyphs=None, normal=None):
    """Read as these clusters and glyphs, and written as these indices (or text and indices)."""
    answer = labels.read(as_bytes(text), as_bytes(indices))
    check(group, answer[0] == 'ok', text, indices, answer)
    if answer[0] == 'ok':
        check(group, clusters is None or answer[1].clusters == clusters, text, indices, answer)
        check(group, glyphs is None or answer[1].glyphs == glyphs, text, indices, answer)
        written = labels.write(*labels.flat(answer[1]))
        check(group, normal is None or written[2 if isinstance(normal, str) else slice(1, 3)]
              == (normal.encode() if isinstance(normal, str) else tuple(map(as_bytes, normal))), text, indices, written)

def named(*indices):
    return [(index, -1, 0, 0) for index in indices]

FONT = labels.WHOLLY_FONT

# ---- The papers' examples ----------------------------------------------------------------------------

def paper_labels():
    g = 'labels 1 to 11'
    accepted(g, 'fl', '(2:1)192', [(2, 1)], named(192), '(2)192')
    accepted(g, '\u0e33', '(1:2)124;181', [(1, 2)], named(124, 181), '(1:2)124;181')
    accepted(g, '\u0baa\u0bcb', '(2:3)34;76;88', [(2, 3)], named(34, 76, 88), '(2:3)34;76;88')
    refused(g, 'A', ';', 12, 1)
    accepted(g, 'AB', ';', [(1, 1)] * 2, [FONT] * 2, '')
    refused(g, '{}', '', 6)
    refused(g, '{a', '', 4)
    accepted(g, '{}{a', '', [(1, 1)] * 2, [FONT] * 2, ('{}{a', ''))
    check(g, labels.read(b'{}{a', b'')[1].units == [0x7B, 0x61])
    refused(g, 'A', '5,-1', 7)
    for number in ('.0005', '.0004'):                                   # document 02: "Labels 6 and 7 change to match"
        accepted(g, 'A', '5,' + number, [(1, 1)], [(5, 0, 0, 0)], '5,0')
    for number in ('1e6', '1000000.0004', '1000000.0005'):
        accepted(g, 'A', '5,' + number, [(1, 1)], [(5, 10 ** 9, 0, 0)], '5,1000000')
    refused(g, 'A', '5,1000000.0006', 9)
    accepted(g, 'A', '065535', [(1, 1)], named(65535), '65535')
    refused(g, 'A', '65536', 8)
    refused(g, 'AB', '(2:2)5', 14, 0)
    refused(g, 'AB', '(2:2)5;', 11, 1)
    refused(g, 'AB', '(0)5', 10)
    accepted(g, GRIN, '', [(2, 1)], [FONT], (GRIN, ''))                 # document 02: "Label 10 without indices is accepted."
    accepted(g, GRIN, '(2)9', [(2, 1)], named(9), (GRIN, '(2)9'))
    accepted(g, '', '5;6', [(0, 1)] * 2, named(5, 6), '5;6')
    for stdin, stdout in (
            (b'{}flow\n(2:1)192;07,+55.50,,0', b'ok 4 3 3\nflow\n(2)192;7,55.5\n'), (b'A\n;', b'no 12 1\n'), (b'', b'no 6 0\n'),
            (b'A', b'ok 1 1 1\nA\n\n'), (b'A\xf0\x9f\x98\x80', b'ok 3 2 2\nA\xf0\x9f\x98\x80\n\n'),
            (b'A\xf0\x9f\x98\x80\n;', b'no 13 2\n'), (b'\n5', b'ok 0 1 1\n\n5\n'), (b'A\r\n5', b'ok 2 2 2\nA\r\n5\n'),
            (b'A\n5\r', b'no 7 0\n'), (b'\xff\n' + b'5' * 32769, b'no 1 0\n'), (b'\xff\n' + b'5' * 32768, b'no 2 0\n'), (b'A' * 16385, b'no 1 0\n'),
            (b'A\n' + b'0' * 32767 + b'5', b'ok 1 1 1\nA\n5\n'), (b'A\n' + b'0' * 32768 + b'5', b'no 1 0\n'),
            (b'A\n5,.0005', b'ok 1 1 1\nA\n5,0\n'), (b'A\n5,,.0005', b'ok 1 1 1\nA\n5\n'), (b'A\n5,.0015,-.0025', b'ok 1 1 1\nA\n5,.002,-.002\n'),
            (b'A\n5,1000000.0005', b'ok 1 1 1\nA\n5,1000000\n'), (b'A\n5,1000000.0006', b'no 9 0\n')):
        for more in ((b'', b'\n', b'\nthird', b'\n\n\n') if b'\n' in stdin else (b'', b'\n', b'\n\n', b'\n\nthird')):
            check('relabel', labels.relabel(stdin + more) == stdout, stdin[:40], more, labels.relabel(stdin + more), stdout)

def standard_examples():
    g = 'examples 12-3 to 12-6 and 12-17 of ECMA-388'
    accepted(g, '\u0e20\u0e31\u0e33!', '153;106,,,16;(1:2)124;198;4', [(1, 1), (1, 1), (1, 2), (1, 1)],
             named(153) + [(106, -1, 0, 16000)] + named(124, 198, 4), '153;106,,,16;(1:2)124;198;4')
    accepted(g, '\u0baa\u0bcb\u0ba4\u0bc1', '(2:3)94;76;88;(2:1)162', [(2, 3), (2, 1)], named(94, 76, 88, 162),
             '(2:3)94;76;88;(2)162')
    accepted(g, 'seventh', ';;;;;;,40', [(1, 1)] * 7, [FONT] * 6 + [(-1, 40000, 0, 0)], ';;;;;;,40')
    accepted(g, 'seventh', ';;;;;(2:1)191', [(1, 1)] * 5 + [(2, 1)], [FONT] * 5 + named(191), ';;;;;(2)191')
    accepted(g, '\u0451\u0436\u0438\u043a', '(1:2)72;142,0,-40', [(1, 2)] + [(1, 1)] * 3,
             named(72) + [(142, 0, -40000, 0)] + [FONT] * 3, '(1:2)72;142,0,-40')

def choices_of_text():
    g = 'choices: text'
    for text, number, place in (
            (b'\x61\xe1\x80\x41', 2, 1), (b'\x61\xf0\x9f\x98', 2, 1), (b'\xed\xa0\x80', 2, 0), (b'\xc0\x80', 2, 0),
            (b'\xf4\x90\x80\x80', 2, 0), (b'{a\xff', 2, 2), (b'{\1', 3, 1), (b'{' + b'A' * 5000, 4, 0),
            (b'{}' + b'A' * 16382, 5, 0), (b'{', 4, 0)):
        refused(g, text, '', number, place)
    for c in [c for c in range(0x20) if c not in (9, 10, 13)] + [0xFFFE, 0xFFFF]:
        refused(g, 'A' + chr(c), '', 3, 1)
    for c in (9, 10, 13, *range(0x7F, 0xA0), *range(0xFDD0, 0xFDF0), 0xFEFF):
        accepted(g, chr(c), '', [(1, 1)], [FONT], (chr(c), ''))
    accepted(g, '\U0001FFFE', '(2)9', [(2, 1)], named(9))
    for text, units in (('{}{a', 2), ('{}{}', 2), ('{}{', 1)):
        accepted(g, text, '', [(1, 1)] * units, [FONT] * units, (text, ''))
    accepted(g, '{}', '5', [(0, 1)], named(5), ('', '5'))
    refused(g, '', ';', 11)

def choices_of_entries():
    g = 'choices: entries'
    accepted(g, 'A', '5,,,', [(1, 1)], named(5), '5')
    refused(g, 'A', '5,,,,', 7)
    accepted(g, 'A', ',', [(1, 1)], [FONT], '')
    accepted(g, 'A', '0' * 262143 + '5', [(1, 1)], named(5))
    refused(g, 'A', f'({"9" * 50})5', 12)
    refused(g, 'A', f'(1:{"9" * 50})5', 14)
    for number in ('0' * 18 + '1', '.' + '0' * 18 + '1', '1.' + '0' * 18, '1e001', '1e-001'):
        refused(g, 'A', '5,' + number, 9)
    for number, value in (('0' * 17 + '1', 1000), ('1e01', 10000), ('0e99', 0), ('.000e+99', 0), ('1e3', 10 ** 6)):
        accepted(g, 'A', '5,' + number, [(1, 1)], [(5, value, 0, 0)])
    for text, indices, number, place in (
            ('A', '(0)70000', 8, 0), ('A', '(0)5,1e9', 9, 0), ('AB', '(1:2)5;(0)5', 10, 1), ('', '(0)5', 10, 0),
            ('A', '70000,x', 7, 0), ('AB', '(1:2)5;(9)5', 11, 1), (GRIN, '5;x', 13, 1), ('', '5;' * 5000 + 'x', 7, 5000),
            (GRIN, '(1:2)5;x', 13, 1), (GRIN, '(1:2)5', 13, 1), ('AB' + GRIN, '5;(1:3)6;7', 14, 1), ('A', '5,-0', 7, 0),
            ('A', '5,-.0', 7, 0), ('A', ' 5', 7, 0), ('A', '5 ', 7, 0), ('A', '5, 1', 7, 0)):
        refused(g, text, indices, number, place)
    accepted(g, 'A', '5,,-0,-.0004', [(1, 1)], named(5), '5')
    accepted(g, 'A', '(01:001)5', [(1, 1)], named(5), '5')
    accepted(g, 'A', ',40', [(1, 1)], [(-1, 40000, 0, 0)], ',40')

def choices_of_rounding():
    """The count of rounded fields: of one number in each field, of labels, of refusals."""
    g = 'choices: rounded fields'

    def counted(text, indices, count, number=None):
        text, indices = as_bytes(text), as_bytes(indices)
        answer = labels.read(text, indices)
        check(g, (answer[1] if answer[0] == 'no' else None) == number, text, indices, answer, number)
        check(g, labels.rounded(indices, answer) == count, text, indices, labels.rounded(indices, answer), count)

    for count, numbers in (
            (0, '''1.0000 0e-99 0.0000 0 1 1.5 .001 12345e-2 1.5000 100e-5 5e-3 1000e-6 1e-3 1E-03 10e-04 123000000000000e-12
                   123000000000000e-15 1e6 1000000 1000000.0000 .1e7 1000000.00000000000 1000000000000e-6
                   100000000000000000e-11 999999.999 000000000000000001 000000000000000001e-3 .001000000000000000
                   .000000000000000001e15 .000000000000000001e24 000000000000000000 .000000000000000000 0e99 .000e+99 000E-99
                   000000000.000000000e-99 1e00 1e-0'''),
            (1, '''.0005 .0004 1e-4 1.0005 12345e-5 5e-4 10e-5 100e-6 15e-4 1.2345 123000000000000e-16 1000000.0004 999999.9995
                   999999.9994 1000000.00000000001 10000000004e-4 100000000000000001e-11 .10000000004e7 .000999999999999999
                   .000000000000000001 .000000000000000001e14 000000000000000001e-4 123456789012345678e-18 999999999999999999e-12
                   1e-99 999999999999999999e-99 1E-04 .0005e0''')):
        for number in numbers.split():
            for before in ('5,', '5,+', ',', '5,,', '5,,-', '5,,,', '5,,,+'):
                counted('A', before + number, count)
    for text, indices, count in (
            ('A', '5,+1.5', 0), ('A', '5,,-.0005', 1), ('A', '5,.0005,,1e-4', 2), ('A', '5,.0005,-.0005,1e-4', 3),
            ('A', '5,1.5,.0005,-1e-4', 2), ('A', '5,.0005,1.5,-1e-4', 2), ('A', '5,.0005,-1e-4,1.5', 2), ('A', '5,1.5,0,-2', 0),
            # an empty field counts nothing, nor does the tail
            ('A', '', 0), ('A', '5', 0), ('A', '5,', 0), ('A', '5,,,', 0), ('A', ',,,', 0), ('A', '5,,.0005,', 1), ('ABC', '5,.0005', 1),
            ('ABC', ';,.0005;', 1), ('ABCD', '5,.0005;6,1;,,.0005', 2),
            # a cluster's further glyphs count
            ('A', '(1:3)5,.0005;6,1e-4,1.0000;7,,.0004,-.0005', 4), ('A', '(1:2)5;6,.0005', 1), ('AB', '(2:2)5,1;6,1,.0005', 1),
            ('', '5,.0005;6,1;7,.0001', 2), (GRIN, '(2)5,.0005', 1), ('A' + GRIN, '5,.0005', 1), (GRIN * 2, '(2)5,1,.0005,1e-4', 2),
            ('A', '5,1000000.0005', 1), ('A', '5,.0005,1000000.0005', 2), ('A', '5,1000000.0005,,-1000000.0005', 2),
            (GRIN, '', 0), ('A' * 4096, ';'.join(['5,.0001,.0001,.0001'] * 4096), 12288)):
        counted(text, indices, count)
    for number, text, indices in (
            (1, 'A' * 16385, '5,.0005'), (2, b'\xff', '5,.0005'), (3, '\1', '5,.0005'), (4, '{A', '5,.0005'), (5, 'A' * 4097, '5,.0005'),
            (6, '', ''), (7, 'AB', '5,.0005;x'), (7, 'A', '5,.0005,x'), (7, 'A', '5,-.0005'), (8, 'AB', '5,.0005;65536'), (8, 'A', '65536,.0005'),
            (9, 'A', '5,1000000.0006'), (9, 'A', '5,.0005,1000000.0006'), (9, 'A', '5,1000000.0006,.0005'), (9, 'A', '5,1000000.0004,,-1e7'),
            (9, 'AB', '5,.0005;6,1e99'), (9, 'A', '5,1e-100'), (9, 'A', '5,.' + '0' * 18 + '1'), (9, 'A', '5,1e-4,1e-004'), (10, 'A', '(0)5,.0005'),
            (10, 'AB', '5,.0005;(1:0)5'), (11, 'A', '(1:2)5,.0005;,.0005'), (11, '', ',.0005'), (12, 'A', '5,.0005;6,.0005'),
            (12, 'A', '(2)5,.0005'), (13, GRIN, '5,.0005'), (13, 'A' + GRIN, '5,.0005;'), (14, 'A', '(1:2)5,.0005'),
            (15, '', ';'.join(['5,.0005'] * 4097))):
        counted(text, indices, 0, number)
    indices = b'5,.0005,,1e-4;6,1.0005'
    for sizes, number, count in (((3, 6, 12), None, 3), ((9, 9, 19), None, 3), ((2, 6, 12), 16, 0), ((3, 5, 12), 17, 0), ((3, 6, 11), 18, 0),
                                 ((0, 0, 0), 16, 0)):
        answer = labels.read_into(b'ABC', indices, *sizes)
        check(g, (answer[1] if answer[0] == 'no' else None) == number and labels.rounded(indices, answer) == count, sizes, answer)
    # no part of the run
    check(g, labels.read(b'A', b'5,.0005,,1e-4') == labels.read(b'A', b'5,0'))

def choices_of_halves():
    """A number's thousandths and their normal writing, in each field and with each sign; None for 9. Each accepted one is one rounded field."""
    g = 'choices: halves'
    for number, value, normal in (
            # the examples of document 02
            ('.0005', 0, '0'), ('.0015', 2, '.002'), ('.0025', 2, '.002'), ('1000000.0005', 10 ** 9, '1000000'), ('1000000.0006', None, ''),
            # the neighbour above, or that below
            ('.0035', 4, '.004'), ('.0045', 4, '.004'), ('.0095', 10, '.01'), ('.0105', 10, '.01'), ('.0995', 100, '.1'), ('.1005', 100, '.1'),
            ('.9985', 998, '.998'), ('.9995', 1000, '1'), ('1.0005', 1000, '1'), ('1.0015', 1002, '1.002'), ('54.9995', 55000, '55'),
            ('999999.9985', 10 ** 9 - 2, '999999.998'), ('999999.9995', 10 ** 9, '1000000'),
            # no half
            ('.00049999', 0, '0'), ('.00050001', 1, '.001'), ('.00149999', 1, '.001'), ('.00150001', 2, '.002'), ('.00249999', 2, '.002'),
            ('.00250001', 3, '.003'), ('.000500000000000001', 1, '.001'), ('.002499999999999999', 2, '.002'),
            ('.002500000000000001', 3, '.003'), ('.0014', 1, '.001'), ('.0016', 2, '.002'), ('.0024', 2, '.002'), ('.0026', 3, '.003'),
            # the limit
            ('1000000.00049999', 10 ** 9, '1000000'), ('1000000.00050001', None, ''), ('1000000.00050000000', 10 ** 9, '1000000'),
            ('1000000.00050000001', None, ''), ('1000000.000500000000', None, ''), ('1000000.001', None, ''), ('1000000.0015', None, ''),
            ('1000000.0014', None, ''), ('1000000.0025', None, ''),
            # other spellings
            ('5e-4', 0, '0'), ('15e-4', 2, '.002'), ('25E-04', 2, '.002'), ('.5e-3', 0, '0'), ('.00015e1', 2, '.002'),
            ('.000000000000025e+11', 2, '.002'), ('00000000000000.0015', 2, '.002'), ('0.00250000000000000', 2, '.002'),
            ('500000000000000000e-21', 0, '0'), ('150000000000000000E-20', 2, '.002'), ('250000000000000000e-20', 2, '.002'),
            ('.000000000000000005e14', 0, '0'), ('.000000000000000015e+14', 2, '.002'), ('.000000000000000025E14', 2, '.002'),
            ('10000000005e-4', 10 ** 9, '1000000'), ('.10000000005e7', 10 ** 9, '1000000'), ('.10000000006e7', None, ''),
            ('100000000050000000e-11', 10 ** 9, '1000000'), ('100000000050000001e-11', None, '')):
        for at, signs in enumerate((('', '+'), ('', '+', '-'), ('', '+', '-'))):
            for sign in signs:
                indices, record = '5' + ',' * (at + 1) + sign + number, [5, -1, 0, 0]
                if value is None:
                    refused(g, 'A', indices, 9)
                    continue
                record[at + 1] = -value if sign == '-' else value
                shown = ('-' if sign == '-' and value else '') + normal
                accepted(g, 'A', indices, [(1, 1)], [tuple(record)], '5' + (',' * (at + 1) + shown if value or at == 0 else ''))
                check(g, labels.rounded(indices.encode(), labels.read(b'A', indices.encode())) == 1, indices)
    # an offset that is 0 is not written, an advance that is 0 is; either was rounded
    for indices, same, count in (
            ('5,,.0005', '5', 1), ('5,,,-.0005', '5', 1), ('5,,-.0005,.0005', '5', 2), ('5,.0005', '5,0', 1), ('5,.0005,.0005,.0005', '5,0', 3),
            ('5,,.0015', '5,,.002', 1), ('5,,.0015', '5,,.0025', 1), ('5,,-.0015', '5,,-.0025', 1), ('5,.0015', '5,.0025', 1),
            (',,.0005', ',', 1), (',.0005', ',0', 1), (',,.0005,-.0015', ',,,-.002', 2)):
        answer = labels.read(b'A', indices.encode())
        check(g, answer[0] == 'ok' and answer == labels.read(b'A', same.encode()), indices, same, answer)
        check(g, labels.rounded(indices.encode(), answer) == count, indices, count)

def choices_of_runs():
    g, five = 'choices: runs', [5, -1, 0, 0]
    for sizes, answer in (((3, 6, 12), 'ok'), ((2, 6, 12), ('no', 16, 3)), ((3, 5, 12), ('no', 17, 3)), ((3, 4, 0), ('no', 17, 3)),
                          ((3, 6, 11), ('no', 18, 3)), ((0, 0, 0), ('no', 16, 3))):
        got = labels.read_into(b'ABC', b'5', *sizes)
        check(g, answer in (got, got[0]), sizes, got)
    check(g, labels.read_into(b'ABC', b'x', 0, 0, 0) == ('no', 7, 0))
    text, indices = labels.write(*edges.longest_writing())[1:]
    check(g, (len(text), len(indices)) == (12288, 178857), len(text), len(indices))
    for run in (([0x41, 0x42], [1, 1, 1, 1, 0, 1], five * 3), ([65536], [1, 1], five), ([-1], [1, 1], five),
                ([0x41], [2 ** 40, 1], five), ([0x41], [1, 1], [-2, -1, 0, 0]), ([0x41], [1, 1], [5, -2, 0, 0]),
                ([0x41], [1, 1], [5, 10 ** 9 + 1, 0, 0]), ([0x41], [1, 1], [5, -1, 0, -10 ** 9 - 1]), ([0x41], [1], five),
                ([0x41], [1, 1], five[:3])):
        check(g, labels.write(*run) == ('no', 19, 0), run)
    for sizes, answer in (((1, 1), ('ok', b'A', b'5')), ((0, 1), ('no', 20, 1)), ((1, 0), ('no', 21, 1)), ((0, 0), ('no', 20, 1))):
        check(g, labels.write_into([0x41], [1, 1], five, *sizes) == answer, sizes)

def choices_of_tails():
    """Pairs in the unwritten tail, and entries at a pair; `_` stands for a pair."""
    g, one, pair = 'choices: tails', (1, 1), (2, 1)
    for text, indices, clusters, glyphs, normal in (
            # at the start, in the middle and at the end; pairs alone
            ('__', '', [pair] * 2, [FONT] * 2, ''), ('_A', '', [pair, one], [FONT] * 2, ''), ('A_', '', [one, pair], [FONT] * 2, ''),
            ('A_B', '', [one, pair, one], [FONT] * 3, ''), ('_A_', '', [pair, one, pair], [FONT] * 3, ''),
            ('_' * 2048, '', [pair] * 2048, [FONT] * 2048, ''),
            ('A' + '_' * 2047 + 'B', '5', [one] + [pair] * 2047 + [one], named(5) + [FONT] * 2048, '5'),
            # entries that end exactly before a pair
            ('A_', '5', [one, pair], named(5) + [FONT], '5'), ('A_', ',', [one, pair], [FONT] * 2, ''),
            ('A_', ',40', [one, pair], [(-1, 40000, 0, 0), FONT], ',40'),
            ('A_', ',,,-1', [one, pair], [(-1, -1, 0, -1000), FONT], ',,,-1'), ('AB_', ';', [one, one, pair], [FONT] * 3, ''),
            ('AB_C_', ';5', [one, one, pair, one, pair], [FONT] + named(5) + [FONT] * 3, ';5'),
            # named pairs, and other clusters, before pairs
            ('__', '(2)9', [pair] * 2, named(9) + [FONT], '(2)9'), ('__', '(2)9;(2)8', [pair] * 2, named(9, 8), '(2)9;(2)8'),
            ('___', '(2)9;(2:2)8;7', [pair, (2, 2), pair], named(9, 8, 7) + [FONT], '(2)9;(2:2)8;7'),
            ('A__', '(3:1)9', [(3, 1), pair], named(9) + [FONT], '(3)9'), ('___', '(4)9', [(4, 1), pair], named(9) + [FONT], '(4)9'),
            ('\u0e33_', '(1:2)124;181', [(1, 2), pair], named(124, 181) + [FONT], '(1:2)124;181'),
            ('_A_', '(2)9;', [pair, one, pair], named(9) + [FONT] * 2, '(2)9'),
            # the mark; characters of two and three bytes; the first and the last pair
            ('{}_', '', [pair], [FONT], (GRIN, '')), ('{}{_', '', [one, pair], [FONT] * 2, ('{}{' + GRIN, '')),
            ('_{', '', [pair, one], [FONT] * 2, (GRIN + '{', '')), ('\u0451_\u0e33', '', [one, pair, one], [FONT] * 3, ''),
            ('\U00010000\U0010FFFF', '', [pair] * 2, [FONT] * 2, ''), ('\uFFFD\U00010000\uE000', '', [one, pair, one], [FONT] * 3, ''),
            # a pair of the tail counts one glyph
            ('_' * 2048, '(2:2049)9' + ';8' * 2048, [(2, 2049)] + [pair] * 2047, named(9) + named(8) * 2048 + [FONT] * 2047, None),
            ('A_', '(1:4095)9' + ';8' * 4094, [(1, 4095), pair], None, None)):
        accepted(g, text.replace('_', GRIN), indices, clusters, glyphs, normal)
    check(g, labels.read(GRIN.encode() + b'A', b'')[1].units == [0xD83D, 0xDE00, 0x41])
    for text, indices, number, place in (
            # "An entry without a map at a pair is still refused with 13"
            ('A_', ';', 13, 2), ('_', ';', 13, 1), ('_', ',', 13, 1), ('_', '5', 13, 1), ('_', ',40', 13, 1), ('_', '5;', 13, 1),
            ('A_', '5;', 13, 2), ('A_', '5;6', 13, 2), ('A_', ';,', 13, 2), ('AB_', ';;', 13, 3), ('AB_', '5;;', 13, 3),
            ('__', '(2)9;', 13, 3), ('_A_', '(2)9;;', 13, 4), ('{}_', ';', 13, 1), ('A_', '5;;x', 13, 2),
            ('_' * 2048, '(2)9;' * 2047, 13, 4095),
            # maps of clusters that end inside a pair
            ('_', '(1)5', 13, 1), ('_', '(1:2)5;6', 13, 1), ('A_', '(2)9', 13, 2), ('A_', '(2:2)9;8', 13, 2), ('__', '(3)9', 13, 3),
            ('__', '(2)9;(1:2)8;7', 13, 3), ('_A_', '(4:2)9;8', 13, 4),
            # other numbers near a pair
            ('_', '(2)', 7, 0), ('_', '(2),40', 7, 0), ('A_', ';(2)', 7, 1), ('A_', '5;x', 7, 1), ('A_', '5;65536', 8, 1),
            ('A_', '5;(0)9', 10, 1), ('A_', '(1:2)5;', 11, 1), ('_', '(2)9;', 12, 1), ('_', '(3)9', 12, 0), ('A_', '(1:2)5', 14, 0),
            ('__', '(2:2)9', 14, 0), ('{_', '', 4, 0), ('_' * 2049, '', 5, 0), ('A' + '_' * 2048, '', 5, 0),
            ('_' * 2048, '(2:2050)9' + ';8' * 2049, 15, 0), ('A_', '(1:4096)9' + ';8' * 4095, 15, 0)):
        refused(g, text.replace('_', GRIN), indices, number, place)
    for sizes, answer in (((3, 4, 8), 'ok'), ((2, 4, 8), ('no', 16, 3)), ((3, 3, 8), ('no', 17, 2)), ((3, 4, 7), ('no', 18, 2))):
        got = labels.read_into(GRIN.encode() + b'A', b'', *sizes)
        check(g, answer in (got, got[0]), sizes, got)

def choices_of_tail_runs():
    """Runs handed in with clusters of two units that are wholly the font's, or nearly."""
    g, pair, font, five = 'choices: tail runs', [0xD83D, 0xDE00], [-1, -1, 0, 0], [5, -1, 0, 0]
    given, right, left, up, down = [-1, 0, 0, 0], [-1, -1, 1, 0], [-1, -1, -1, 0], [-1, -1, 0, 1], [-1, -1, 0, -1]
    for run, indices in (
            ((pair, [2, 1], font), ''), ((pair * 2, [2, 1] * 2, font * 2), ''), (([0x41, *pair], [1, 1, 2, 1], font * 2), ''),
            (([*pair, 0x41], [2, 1, 1, 1], font * 2), ''), ((pair * 2048, [2, 1] * 2048, font * 2048), ''),
            (([*pair, 0x41, *pair, 0x42, 0x43], [2, 1, 1, 1, 2, 1, 1, 1, 1, 1], font * 5), ''),
            # behind anything
            (([0x41, *pair], [1, 1, 2, 1], five + font), '5'), (([0x41, *pair], [1, 1, 2, 1], given + font), ',0'),
            (([0x41, *pair], [1, 1, 2, 1], right + font), ',,.001'), (([0x41, *pair], [1, 1, 2, 1], down + font), ',,,-.001'),
            ((pair * 2, [2, 1] * 2, five + font), '(2)5'), ((pair * 2, [2, 2, 2, 1], five * 2 + font), '(2:2)5;5'),
            (([0x41, 0x42, *pair], [2, 1, 2, 1], five + font), '(2)5'), (([0x41, *pair, *pair], [3, 1, 2, 1], five + font), '(3)5'),
            (([0x41, *pair], [1, 2, 2, 1], five * 2 + font), '(1:2)5;5'),
            (([0x41, 0x42, 0x43, *pair], [1, 1] * 3 + [2, 1], font + five + font * 2), ';5'),
            ((pair * 2048, [2, 2049] + [2, 1] * 2047, five * 2049 + font * 2047), '(2:2049)5' + ';5' * 2048)):
        text = ''.join(map(chr, labels.characters_of(run[0])))
        check(g, labels.write(*run) == ('ok', text.encode(), indices.encode()), run, labels.write(*run))
    for run in (
            # "only where nothing but clusters wholly the font's follows"
            *(([*pair, 0x41], [2, 1, 1, 1], font + record) for record in (five, given, right, left, up, down, [5, 0, 0, 0])),
            *(([*pair, 0x41, 0x42], [2, 1, 1, 1, 1, 1], font * 2 + record) for record in (five, given, right, left, up, down)),
            (pair * 2, [2, 1] * 2, font + five), (pair * 3, [2, 1] * 3, font + five + font),
            ([*pair, 0x41, *pair], [2, 1, 1, 1, 2, 1], font * 2 + five), ([*pair, 0x41], [2, 1, 1, 2], font + five * 2),
            ([*pair, 0x41, 0x42], [2, 1, 2, 1], font + five), (pair * 2048, [2, 1] * 2048, font * 2047 + five),
            # not wholly the font's
            *((pair, [2, 1], record) for record in (given, [-1, 7, 0, 0], right, left, up, down, [-1, -2, 0, 0], [-2, -1, 0, 0])),
            *((pair * 2, [2, 1] * 2, record + font) for record in (given, right, down)),
            *((pair * 2, [2, 1] * 2, font + record) for record in (given, right, down)),
            # not over the two halves of one pair
            ([0x41, 0x42], [2, 1], font), ([0x41, 0x42, *pair], [2, 1, 2, 1], font * 2), ([*pair, 0x41, 0x42], [2, 1, 2, 1], font * 2),
            (pair * 2, [1, 1, 2, 1, 1, 1], font * 3), (pair * 2, [1, 1, 2, 1, 1, 1], five + font * 2),
            ([0x41, *pair, 0x42], [2, 1, 2, 1], font * 2), (pair[::-1], [2, 1], font), (pair[:1] * 2, [2, 1], font),
            (pair[1:] * 2, [2, 1], font), ([0xD83D, 0x41], [2, 1], font), ([0x41, 0xDE00], [2, 1], font),
            # other counts
            (pair, [2, 2], font * 2), (pair, [2, 2], five + font), (pair, [2, 2], font + five), (pair, [2, 0], []), (pair, [1, 1], font),
            (pair, [1, 1, 1, 1], font * 2), (pair * 2, [4, 1], font), (pair * 2, [4, 2], font * 2), ([*pair, 0x41], [3, 1], font),
            ([0x41, *pair], [3, 1], font), ([0x41], [1, 2], font * 2), ([*pair, 0x41], [2, 1, 1, 2], font * 3),
            (pair, [2, 1, 0, 1], font * 2), ([], [0, 1], font),
            # limits
            (pair * 2049, [2, 1] * 2049, font * 2049), (pair * 2048, [2, 2050] + [2, 1] * 2047, five * 2050 + font * 2047)):
        check(g, labels.write(*run) == ('no', 19, 0), run, labels.write(*run))
    run = [0x41, *pair], [1, 1, 2, 1], five + font
    for sizes, answer in (((5, 1), ('ok', b'A' + GRIN.encode(), b'5')), ((4, 1), ('no', 20, 5)), ((5, 0), ('no', 21, 1))):
        check(g, labels.write_into(*run, *sizes) == answer, sizes, labels.write_into(*run, *sizes))

def choices_of_tail_picks():
    g, pair, font = 'choices: picks of tails', [0xD83D, 0xDE00], [-1, -1, 0, 0]
    run = [0x41, *pair, 0x42, *pair], [1, 1, 2, 1, 1, 1, 2, 1], font * 4            # units 0 | 1 2 | 3 | 4 5
    unsound = [*pair, 0x41], [2, 1, 1, 1], font + [5, -1, 0, 0]
    for pick, cases in (
            (labels.units_of, ((0, 1, 0, 1), (1, 2, 1, 3), (2, 3, 3, 4), (3, 4, 4, 6), (0, 2, 0, 3), (1, 4, 1, 6), (0, 4, 0, 6))),
            (labels.glyphs_of, ((0, 1, 0, 1), (1, 2, 1, 2), (2, 3, 1, 2), (1, 3, 1, 2), (0, 2, 0, 2), (2, 4, 1, 3), (2, 5, 1, 4),
                                (3, 6, 2, 4), (5, 6, 3, 4), (0, 6, 0, 4)))):
        for first, end, *given in cases:
            check(g, pick(*run, first, end) == ('ok', *given), pick.__name__, first, end, pick(*run, first, end))
        for first, end in ((0, 7), (6, 7), (2, 2), (3, 2)):
            check(g, pick(*run, first, end) == ('no', 22, 0), pick.__name__, first, end, pick(*run, first, end))
        for first, end in ((0, 1), (1, 2), (0, 0), (0, 9)):
            check(g, pick(*unsound, first, end) == ('no', 19, 0), pick.__name__, first, end, pick(*unsound, first, end))
    check(g, labels.units_of(*run, 0, 5) == ('no', 22, 0) == labels.units_of(*run, 4, 5))

def choices_of_equality():
    """Indices in groups: within one the runs are equal and so are the normal writings, across groups neither are; `_` is a pair."""
    g = 'choices: equal runs, equal bytes'
    for text, *groups in (
            ('AB_', ['', ';', ',', ';,', ',;', ',,;,,,', ',,-0;,,.0004', ',,.0005', ',,-.0005;,,,.0005'],
             ['5', '5;', '05;,', '(1)5;', '5,,0', '5,,.0005', '5;,,,-.0005'], [';5', ',;5', ';(1:1)5,,'], [',0', ',.0004;', ',.0005'],
             [';,0'], [',,.001;', ',,.00050001'], [',,.002', ',,.0015', ',,.0025;,'], [',,-.002', ',,-.0015', ',,-.0025'],
             [';;(2)9', ',;,;(2:1)09'], [';(3)9'], ['(2)9'], ['(4)9'], ['5;6;(2)9']),
            ('_', [''], ['(2)9', '(2:1)9', '(02)09,,,'], ['(2)9,0'], ['(2:2)9;9'], ['(2)0']),
            ('__', [''], ['(2)9', '(2)9,'], ['(2)9;(2)9'], ['(4)9'], ['(2:2)9;9']),
            ('_A', [''], ['(2)9', '(2)9;', '(2)9;,,'], ['(2)9;5'], ['(2)9;,0'], ['(3)9']),
            ('A_B', ['', ',', ',,'], ['5', '(1)5'], [';(2)9', ',;(2)9;', ';(2)9;,'], [';(2)9;5'])):
        read = []
        for at, group in enumerate(groups):
            for mark, indices in itertools.product(('', '{}'), group):
                answer = labels.read((mark + text.replace('_', GRIN)).encode(), indices.encode())
                check(g, answer[0] == 'ok', text, indices, answer)
                if answer[0] == 'ok':
                    read.append((at, answer[1], labels.write(*labels.flat(answer[1]))))
        for (at, run, written), (other_at, other_run, other) in itertools.combinations(read, 2):
            check(g, (run == other_run, written == other) == (at == other_at,) * 2, text, run, other_run)

def choices_of_writing():
    for text, indices, normal in (
            ('fl', '(2:1)192', '(2)192'), ('A', '(1:2)5;6', '(1:2)5;6'), ('AB', '(2:3)5;6;7', '(2:3)5;6;7'), ('A', '(1)5', '5'),
            ('A', '5,,0.5', '5,,.5'), ('A', '5,,-0.50', '5,,-.5'), ('A', '5,10.5', '5,10.5'), ('A', '5,0.0', '5,0'),
            ('A', '5,,,16', '5,,,16'), ('A', '5,,0,0', '5'), ('A', ',0', ',0'), ('ABCD', '5;;,,;', '5'), ('ABCD', ';5;;', ';5'),
            ('ABC', '5;;6', '5;;6'), ('ABC', ';;', '')):
        accepted('choices: writing', text, indices, None, None, normal)

def choices_of_calls():
    g = 'choices: calls'
    run = [0x41] * 5, [2, 1, 1, 2, 2, 2], [5, -1, 0, 0] * 5             # units 2 1 2, glyphs 1 2 2
    bare = [], [0, 1] * 3, [5, -1, 0, 0] * 3
    empty = [], [], []
    for pick, run, first, end, answer in (
            (labels.units_of, run, 0, 1, ('ok', 0, 2)), (labels.units_of, run, 0, 2, ('ok', 0, 3)),
            (labels.units_of, run, 2, 3, ('ok', 2, 3)), (labels.units_of, run, 2, 4, ('ok', 2, 5)),
            (labels.units_of, run, 1, 1, ('no', 22, 0)), (labels.units_of, run, 2, 1, ('no', 22, 0)),
            (labels.units_of, run, 0, 6, ('no', 22, 0)), (labels.units_of, run, -1, 1, ('no', 22, 0)),
            (labels.glyphs_of, run, 1, 2, ('ok', 0, 1)), (labels.glyphs_of, run, 2, 3, ('ok', 1, 3)),
            (labels.glyphs_of, run, 2, 4, ('ok', 1, 5)), (labels.glyphs_of, run, 0, 5, ('ok', 0, 5)),
            (labels.glyphs_of, run, 5, 6, ('no', 22, 0)), (labels.glyphs_of, run, 0, 2 ** 64 - 1, ('no', 22, 0)),
            (labels.units_of, bare, 0, 1, ('ok', 0, 0)), (labels.units_of, bare, 1, 3, ('ok', 0, 0)),
            (labels.units_of, bare, 0, 4, ('no', 22, 0)), (labels.units_of, bare, 0, 0, ('no', 22, 0)),
            (labels.glyphs_of, bare, 0, 0, ('no', 22, 0)), (labels.glyphs_of, bare, 0, 1, ('no', 22, 0)),
            (labels.units_of, empty, 0, 0, ('no', 19, 0)), (labels.glyphs_of, empty, 0, 1, ('no', 19, 0))):
        check(g, pick(*run, first, end) == answer, pick.__name__, run, first, end, pick(*run, first, end))
    for text, indices, number, place, part in (
            (b'A', b'(1:2)5;', 11, 1, (1, 7, 0)), (b'A', b'(1:2)5;', 11, 2, (0, 0, 0)), (b'A', b'5;x', 7, 1, (1, 2, 1)),
            (b'A', b'', 7, 0, (0, 0, 0)), (b'a\xff', b'', 2, 1, (0, 1, 1)), (b'a\xff', b'', 2, 2, (0, 0, 0)),
            (b'{a', b'', 4, 0, (0, 0, 2)), (b'AB', b'5', 14, 0, (1, 0, 1)),
            *((b'AB', b'5', number, 0, (0, 0, 0)) for number in (0, 1, 5, 6, 13, *range(15, 41)))):
        check(g, labels.fault(text, indices, number, place) == part, text, indices, number, place)

def choices_of_resolving():
    """(raw value, what comes out), or the place of 23 instead."""
    def resolved(group, *cases):
        for raw, expected in cases:
            expected = ('no', 23, expected) if isinstance(expected, int) else ('ok', as_bytes(expected))
            got = attributes.resolve(as_bytes(raw))
            check(f'choices: resolving, {group}', got == expected, raw, got, expected)

    def bad(group, raws):
        resolved(group, *((raw, 0) for raw in raws.split()))

    resolved('names', ('&amp;', '&'), ('&lt;', '<'), ('&gt;', '>'), ('&quot;', '"'), ('&apos;', "'"),
             ('&amp;&lt;&gt;&quot;&apos;', '&<>"\''), ('a&amp;b', 'a&b'), ('amp;', 'amp;'), ('& ', 0), ('& amp;', 0),
             ('&amp ;', 0), ('&a mp;', 0), ('a&', 1), ('ab&lt', 2), ('&lt;&lt', 4))
    bad('names', '& &; &nbsp; &AMP; &Amp; &LT; &Gt; &QUOT; &aPos; &am; &ampp; &amp &lt &lt&gt; &&amp; &x41; &am&amp;p;')
    resolved('form', ('&#65;', 'A'), ('&#x41;', 'A'), ('&#x4a;', 'J'), ('&#x4A;', 'J'), ('&#xaB;', '\xab'),
             ('&#' + '0' * 5000 + '65;', 'A'), ('&#x' + '0' * 5000 + '41;', 'A'), ('&#' + '0' * 5000, 0),
             ('&#' + '9' * 5000 + ';', 0), ('&#x' + 'F' * 5000 + ';', 0), ('&#x41' + '0' * 5000 + ';', 0), ('&# 65;', 0),
             ('&#65 ;', 0), ('&#6 5;', 0), ('&#x 41;', 0), ('&#\u0666\u0665;', 0), ('A&#65;&#65', 6))
    bad('form', '''&# &#; &#x &#x; &#X41; &#65 &#x41 &#A; &#4a; &#xg; &#+65; &#-65; &#x+41; &#0x41; &#65.; &#&#65;; &#65&#65; &65;
                   &#x;41; &#4294967361; &#x100000041; &#18446744073709551681; &#x10000000000000041;
                   &#340282366920938463463374607431768211521;''')
    for number in (0x9, 0xA, 0xD, 0x20, 0x26, 0x3C, 0x7F, 0x80, 0x9F, 0x7FF, 0x800, 0xD7FF, 0xE000, 0xFDD0, 0xFEFF, 0xFFFD,
                   0x10000, 0x1FFFE, 0x10FFFF):
        c = chr(number)
        resolved('characters', (f'&#{number};', c), (f'&#x{number:x};', c), (f'a&#x000{number:X};b', f'a{c}b'))
    for number in (*range(9), 0xB, 0xC, *range(0xE, 0x20), 0xD800, 0xDBFF, 0xDC00, 0xDFFF, 0xFFFE, 0xFFFF, 0x110000,
                   0x1FFFFF, 0x7FFFFFFF, 2 ** 32 - 1):
        resolved('characters', (f'&#{number};', 0), (f'&#x{number:x};', 0), (f'a&#x000{number:X};b', 1))
    resolved('characters', ('&#x7F;', b'\x7f'), ('&#x80;', b'\xc2\x80'), ('&#x7FF;', b'\xdf\xbf'), ('&#x800;', b'\xe0\xa0\x80'),
             ('&#xFFFD;', b'\xef\xbf\xbd'), ('&#x10000;', b'\xf0\x90\x80\x80'), ('&#x10FFFF;', b'\xf4\x8f\xbf\xbf'),
             ('&#128512;', b'\xf0\x9f\x98\x80'))
    resolved('one pass', ('&amp;lt;', '&lt;'), ('&#38;lt;', '&lt;'), ('&amp;amp;', '&amp;'), ('&#38;#60;', '&#60;'),
             ('&amp;#x3C;', '&#x3C;'), ('&amp;nbsp;', '&nbsp;'), ('&#38;&#38;', '&&'), ('&#x26;', '&'), ('&#60;', '<'),
             ('&lt;a', '<a'))
    resolved('raw <', ('<', 0), ('a<b', 1), ('aaa<', 3), ('&lt;<', 4), ('>"\'', '>"\''), ('a]]>b', 'a]]>b'))
    resolved('white space', ('\t', ' '), ('\n', ' '), ('\r', ' '), ('\r\n', ' '), ('\n\r', '  '), ('\r\r\n', '  '),
             ('\r\n\n', '  '), ('\r\n\r\n', '  '), ('a\tb\nc\rd', 'a b c d'), ('\t\t', '  '), ('\r \n', '   '), ('\r\t\n', '   '),
             ('a\r', 'a '), (' a  b ', ' a  b '), ('\r&#10;', ' \n'), ('&#13;\n', '\r '), ('&#13;&#10;', '\r\n'),
             ('&#xD;&#xA;', '\r\n'), ('&#9;', '\t'), ('&#x9;\t', '\t '), ('&#32;', ' '))
    resolved('plain', ('', ''), ('flow', 'flow'), ('{}', '{}'), ('A' * 300000, 'A' * 300000), ('\ufffe\x0b', '\ufffe\x0b'),
             *((odd, odd) for odd in (b'\xff\0\x01\x80', b'\xed\xa0\x80\xc0\x80')), (b'\xff<', 1), (b'&\xff;', 0),
             (b'\xf0\x9f&amp;', b'\xf0\x9f&'))
    # the place is of the first fault, in bytes of the raw value
    resolved('first fault', ('a<b&nbsp;', 1), ('a&nbsp;b<', 1), ('&amp;<', 5), ('\r\n&', 2), ('\u0e33<', 3), ('&lt<', 0), ('<&', 0),
             ('&#0;<', 0), ('&amp;&#0;&#0;', 5), ('&#x10FFFF;&#x110000;', 10), ('&#xD800;&#xDC00;', 0))

def choices_of_raw_labels():
    g = 'choices: resolving, room'
    for raw, room, answer in (
            (b'', 0, ('ok', b'')), (b'abc', 3, ('ok', b'abc')), (b'abc', 9, ('ok', b'abc')), (b'abc', 2, ('no', 24, 3)),
            (b'abc', 0, ('no', 24, 3)), (b'&amp;&lt;', 2, ('ok', b'&<')), (b'&amp;&lt;', 1, ('no', 24, 2)),
            (b'&#x1F600;', 4, ('ok', GRIN.encode())), (b'&#x1F600;', 3, ('no', 24, 4)), (b'\r\n', 1, ('ok', b' ')),
            (b'\r\n', 0, ('no', 24, 1)), (b'aaa<', 0, ('no', 23, 3)), (b'aaa&', 2, ('no', 23, 3)), (b'<', 0, ('no', 23, 0))):
        check(g, attributes.resolve_into(raw, room) == answer, raw, room, attributes.resolve_into(raw, room))
    # the refusal, or the units that are read
    g = 'choices: resolving, then reading'
    for text, indices, answer in (
            ('&#123;a', '', ('no', 4, 0)), ('&#123;&#125;a', '', [0x61]), ('{&#125;a', '', [0x61]), ('&#123;}&#123;', '', [0x7B]),
            ('A', ' 5', ('no', 7, 0)), ('A', '\n5', ('no', 7, 0)), ('A', '5&#59;6', ('no', 12, 1)), ('A', '&#53;', [0x41]),
            ('A', '&#x28;1:2&#x29;5&#x3B;6', [0x41]), ('A&#10;\n', '', [0x41, 10, 32]), ('&#x1F600;', '(2)9', [0xD83D, 0xDE00]),
            ('&#x1F600;', '', [0xD83D, 0xDE00]), ('&#x1F600;', '&#59;', ('no', 13, 1)),
            (b'\xff', '', ('no', 2, 0)), ('\x01', '', ('no', 3, 0)), ('&#1;', '', ('no', 23, 0)), ('', '', ('no', 6, 0)),
            ('A&lt', '<', ('no', 23, 1)), ('A', '5<', ('no', 23, 1)), (b'\xff', '<', ('no', 23, 0)),
            ('A' * 16385, '5&', ('no', 23, 1)), ('&amp;' * 4096, '', [0x26] * 4096), ('&amp;' * 4097, '', ('no', 5, 0)),
            ('&amp;lt;', '', [0x26, 0x6C, 0x74, 0x3B])):
        got = attributes.read_raw(as_bytes(text), as_bytes(indices))
        check(g, (got if got[0] == 'no' else got[1].units) == answer, text, indices, got)

def choices_of_escaping():
    g, named, font = 'choices: escaping', [5, -1, 0, 0], list(FONT)
    for data, escaped in (
            (b'', b''), (b'&', b'&amp;'), (b'<', b'&lt;'), (b'"', b'&quot;'), (b'\t', b'&#9;'), (b'\n', b'&#10;'),
            (b'\r', b'&#13;'), (b'\r\n', b'&#13;&#10;'), (b">'; #{}", b">'; #{}"), (b'&amp;', b'&amp;amp;'),
            (b'a&<"\t\n\rb', b'a&amp;&lt;&quot;&#9;&#10;&#13;b'), (b'\0\xff\x0b', b'\0\xff\x0b')):
        check(g, attributes.escape(data) == escaped, data, attributes.escape(data))
    for byte in range(256):
        check(g, (attributes.escape(bytes((byte,))) == bytes((byte,))) == (byte not in b'&<"\t\n\r'), byte)
    one, many, unsound = ([0x26], [1, 1], named), ([0x22] * 4096, [4096, 1], named), ([0x26], [2, 1], named)
    for run, sizes, answer in (
            (one, (5, 1), ('ok', b'&amp;', b'5')), (one, (4, 1), ('no', 20, 5)), (one, (1, 1), ('no', 20, 5)),
            (one, (5, 0), ('no', 21, 1)), (one, (0, 0), ('no', 20, 5)), (unsound, (9, 9), ('no', 19, 0)),
            (unsound, (0, 0), ('no', 19, 0)), (many, (24576, 7), ('ok', b'&quot;' * 4096, b'(4096)5')),
            (many, (24575, 9), ('no', 20, 24576)), (many, (24576, 6), ('no', 21, 7)),
            (([], [0, 1], named), (0, 1), ('ok', b'', b'5')), (([], [0, 1], named), (0, 0), ('no', 21, 1)),
            (([0x7B], [1, 1], font), (3, 0), ('ok', b'{}{', b'')),
            (([0x7B, 0x3C], [2, 1], named), (7, 4), ('ok', b'{}{&lt;', b'(2)5')),
            (([0x41, 0x9, 0x42], [1, 1] * 3, font * 3), (6, 0), ('ok', b'A&#9;B', b'')),
            (([0x3E, 0x27], [1, 1] * 2, font * 2), (2, 0), ('ok', b">'", b''))):
        check(g, attributes.write_escaped_into(*run, *sizes) == answer, run, sizes, attributes.write_escaped_into(*run, *sizes))

SLB, EMPTY = '53 4C 42 01 00 ', '00 00 00 00 00 00 '       # the header; a record of no bytes

def choices_of_files():
    """Files in hexadecimal with their labels, or the refusal instead."""
    g = 'choices: sheets, files'
    for file, sheet in (
            (SLB, []), (SLB + EMPTY, [(b'', b'')]), (SLB + EMPTY * 3, [(b'', b'')] * 3),
            (SLB + '01 00  00 00 00 00  41', [(b'A', b'')]), (SLB + '00 00  01 00 00 00  35', [(b'', b'5')]),
            (SLB + '01 00  01 00 00 00  41 35', [(b'A', b'5')]),
            (SLB + '02 00  08 00 00 00  66 6C  28 32 3A 31 29 31 39 32', [(b'fl', b'(2:1)192')]),
            (SLB + '03 00  0C 00 00 00  E0 B8 B3  28 31 3A 32 29 31 32 34 3B 31 38 31' + EMPTY + '01 00  00 00 00 00  FF',
             [('\u0e33'.encode(), b'(1:2)124;181'), (b'', b''), (b'\xff', b'')]),
            (SLB + '05 00  05 00 00 00' + SLB * 2, [(b'SLB\1\0', b'SLB\1\0')]),
            (SLB + '02 01  03 00 00 00' + '41' * 258 + '36 3B 37', [(b'A' * 258, b'6;7')]),
            (SLB + '01 00  03 02 00 00  41' + '30' * 515, [(b'A', b'0' * 515)]),
            (SLB + '01 00  04 00 01 00  41' + '30' * 65540 + '01 00  00 00 00 00  42', [(b'A', b'0' * 65540), (b'B', b'')]),
            (SLB + 'FF FF  01 00 04 00' + '41' * 65535 + '35' * 262145, [(b'A' * 65535, b'5' * 262145)])):
        file = bytes.fromhex(file)
        check(g, sheets.read_sheet(file) == ('ok', sheet), file[:40], sheets.read_sheet(file))
        check(g, sheets.write_sheet(sheet) == file, file[:40], sheets.write_sheet(sheet)[:40])
    for file in ('', '53', '53 4C', '53 4C 42', '53 4C 42 01', '4C 42 01 00', '53 4C 42 00 01', '53 4C 42 00 00', '53 4C 42 02 00',
                 '53 4C 42 01 01', '53 4C 42 02 01', '53 4C 42 FF FF', '53 4C 42 00 00 01 00', '73 6C 62 01 00',
                 '53 4C 62 01 00', '42 4C 53 01 00', '52 4C 42 01 00', '53 4D 42 01 00', '53 4C 43 01 00', '00 53 4C 42 01 00',
                 '53 00 4C 00 42 00 01 00'):
        for more in ('', '02', EMPTY, '00', '01 00 00 00 00 00', 'FF FF FF FF FF FF'):
            data = bytes.fromhex(file + more)
            if data[:5] != bytes.fromhex(SLB):                              # else it is whole with what follows
                check(g, sheets.read_sheet(data) == ('no', 25, 0), data)
    for place, before in ((0, ''), (1, EMPTY), (2, '01 00 01 00 00 00 41 3B' + EMPTY)):
        for rest in ('00', '00 00', '00 00 00', '00 00 00 00', '00 00 00 00 00', 'FF', '41 42 43 44 45', '01 00  00 00 00 00',
                     '00 00  01 00 00 00', '01 00  01 00 00 00  41', '02 00  01 00 00 00  41 42', '00 01  00 00 00 00  41',
                     '00 00  00 01 00 00  35', '00 00  00 00 01 00  35', '00 00  00 00 00 01  35', '01 00  00 00 00 01  41 35',
                     '00 00  FF FF FF FF', '00 00  FA FF FF FF', '00 00  F5 FF FF FF', '01 00  FF FF FF FF  41',
                     '01 00  F9 FF FF FF  41', '00 00  00 00 00 80', '00 00  FF FF FF 7F', 'FF FF  FF FF FF FF',
                     'FF FF  01 00 FF FF' + '41' * 65535):
            check(g, sheets.read_sheet(bytes.fromhex(SLB + before + rest)) == ('no', 26, place), before, rest)

def choices_of_answers():
    """Files with their list of answers, both in hexadecimal; lent lists before and after."""
    g = 'choices: sheets, answers'
    for records, numbers, given in (
            ('', [], ''), (EMPTY, [6, 0], '06 00 00 00  00 00 00 00'), ('01 00 01 00 00 00 41 35', [0, 0], '00' * 8),
            ('01 00 01 00 00 00 41 3B', [12, 1], '0C 00 00 00  01 00 00 00'),
            (EMPTY + '01 00 00 00 00 00 41' + '02 00 00 00 00 00 41 FF', [6, 0, 0, 0, 2, 1],
             '06 00 00 00  00 00 00 00   00 00 00 00  00 00 00 00   02 00 00 00  01 00 00 00'),
            ('2D 01 00 00 00 00' + '41' * 300 + '80', [2, 300], '02 00 00 00  2C 01 00 00'),
            ('00 00 05 02 02 00' + '35 3B' * 65794 + '78', [7, 65794], '07 00 00 00  02 01 01 00'),
            ('04 00 01 00 00 00 F0 9F 98 80 35', [13, 1], '0D 00 00 00  01 00 00 00'),
            ('04 00 00 00 00 00 F0 9F 98 80' + '05 00 01 00 00 00 41 F0 9F 98 80 3B', [0, 0, 13, 2],
             '00' * 8 + '0D 00 00 00  02 00 00 00'),
            ('FF FF 00 00 00 00' + '41' * 65535 + '01 00 00 00 00 00 7B', [1, 0, 4, 0],
             '01 00 00 00  00 00 00 00   04 00 00 00  00 00 00 00')):
        file, given = bytes.fromhex(SLB + records), bytes.fromhex(given)
        check(g, sheets.answer_file(file) == ('ok', numbers), file[:40], sheets.answer_file(file))
        check(g, sheets.as_bytes(numbers) == given and sheets.as_numbers(given) == numbers, numbers, given)
        check(g, sheets.fill(('ok', numbers), bytes(len(given))) == ((0, 0, len(numbers)), given), numbers)
    check(g, sheets.as_bytes([-2, 1, -2 ** 31]) == bytes.fromhex('FE FF FF FF  01 00 00 00  00 00 00 80'))
    check(g, sheets.as_numbers(bytes.fromhex('FE FF FF FF  01 00 00 00  00 00 00 80  07 00 00')) == [-2, 1, -2 ** 31])
    g, one = 'choices: sheets, lists', '01 00 01 00 00 00 41 3B'
    for file, before, result, after in (
            (SLB + one, 'A0 A1 A2 A3 A4 A5 A6 A7', (0, 0, 2), '0C 00 00 00 01 00 00 00'),
            (SLB + one, 'A0 A1 A2 A3 A4 A5 A6 A7 A8', (0, 0, 2), '0C 00 00 00 01 00 00 00 A8'),
            (SLB + one, 'A0 A1 A2 A3 A4 A5 A6 A7 A8 A9 AA', (0, 0, 2), '0C 00 00 00 01 00 00 00 A8 A9 AA'),
            (SLB + one, 'A0 A1 A2 A3 A4 A5 A6 A7 A8 A9 AA AB', (0, 0, 2), '0C 00 00 00 01 00 00 00 A8 A9 AA AB'),
            (SLB + one, 'A0 A1 A2 A3 A4 A5 A6 A7 A8 A9 AA AB AC AD AE', (0, 0, 2),
             '0C 00 00 00 01 00 00 00 A8 A9 AA AB AC AD AE'),
            (SLB + one + EMPTY, 'FF' * 19, (0, 0, 4), '0C 00 00 00 01 00 00 00 06 00 00 00 00 00 00 00 FF FF FF'),
            (SLB + one + EMPTY, 'FF' * 16, (0, 0, 4), '0C 00 00 00 01 00 00 00 06 00 00 00 00 00 00 00'),
            (SLB, '', (0, 0, 0), ''), (SLB, 'FF', (0, 0, 0), 'FF'), (SLB, 'FF' * 9, (0, 0, 0), 'FF' * 9),
            *((SLB + one, 'FF' * size, (27, 1, 0), 'FF' * size) for size in range(8)),
            *((SLB + one + EMPTY, 'A5' * size, (27, 2, 0), 'A5' * size) for size in range(16)),
            # 25 before 26 and 27, 26 before 27, whatever the list
            *(('53 4C 42 02 00' + rest, 'FF' * size, (25, 0, 0), 'FF' * size)
              for rest in ('', one, '00') for size in (0, 7, 8, 99)),
            *((SLB + '00', 'FF' * size, (26, 0, 0), 'FF' * size) for size in (0, 7, 8, 99)),
            *((SLB + one + '00', 'FF' * size, (26, 1, 0), 'FF' * size) for size in (0, 7, 8, 15, 16, 99)),
            *((SLB + one * 2 + '01 00 00 00 00 00', 'FF' * size, (26, 2, 0), 'FF' * size) for size in (0, 8, 16, 24, 99))):
        file, before, after = map(bytes.fromhex, (file, before, after))
        answer = sheets.answer_into(file, len(before) // 4)
        check(g, sheets.fill(sheets.answer_file(file), before) == (result, after), file, before, result)
        expected = ('no', *result[:2]) if result[0] else ('ok', sheets.as_numbers(after)[:result[2]])
        check(g, answer == expected, file, before, answer)

# ---- Other ways to the same answers ------------------------------------------------------------------

def utf8():
    """Table 3-7 against Python's strict decoder: the same texts, and the same place of the first fault."""
    some = (0x00, 0x41, 0x7F, 0x80, 0x8F, 0x90, 0x9F, 0xA0, 0xBF, 0xC0, 0xC2, 0xE0, 0xF4, 0xFF)
    texts = [bytes(t) for n in (1, 2) for t in itertools.product(range(256), repeat=n)]
    texts += [bytes(t) for t in itertools.product(range(0xE0, 0x100), range(0x7F, 0xC1), some)]
    texts += [bytes(t) for t in itertools.product(range(0xF0, 0xF6), range(0x7F, 0xC1), some, some)]
    for text in texts:
        at, fault, units = 0, None, []
        while at < len(text) and fault is None:
            found = labels.character_at(text, at)
            if found is None:
                fault = at
            else:
                units += labels.units_of_character(found[0])
                at += found[1]
        try:
            expected = generate.utf16(text.decode('utf-8')), None
        except UnicodeDecodeError as error:
            expected = generate.utf16(text[:error.start].decode('utf-8')), error.start
        check('UTF-8 against the strict decoder', (units, fault) == expected, text, units, fault, expected)

def grammar():
    """Entries of up to five bytes against one pattern for the whole entry."""
    digits, sign = '[0-9]+', '[+-]?'
    number = rf'({digits}|{digits}\.{digits}|\.{digits})([eE]{sign}{digits})?'
    index_part = rf'(\({digits}\)|\({digits}:{digits}\))?{digits}'
    entry = re.compile(rf'({index_part})?(,(\+?{number})?(,({sign}{number})?(,({sign}{number})?)?)?)?')
    for length in range(6):
        for letters in itertools.product('1,.e+-(:)', repeat=length):
            text = ''.join(letters)
            well_formed = labels.read_entry(text.encode()) is not None
            check('grammar of short entries', well_formed == (entry.fullmatch(text) is not None), text)

def rounding(rng, count):
    """Values, and whether they are exact, against the decimal module; its ROUND_HALF_EVEN takes a half to the even neighbour."""
    context = Context(prec=300)
    numbers = [indices.split(b',')[-1] for _, indices in itertools.chain(edges.number_edges(), edges.rounding_edges())]
    numbers += [field for _, indices in edges.half_edges() for entry in indices.split(b';') for field in entry.split(b',')[1:]]
    numbers += [generate.number_label(rng)[1].split(b',')[-1] for _ in range(count)]
    numbers += [generate.near_whole(rng).encode() for _ in range(count)]
    for field in numbers:
        number = labels.read_number(labels.OFFSET, field)
        if number and len(number.exponent) <= 3:
            exact = Decimal(field.decode()).scaleb(3, context)
            rounded = int(exact.quantize(Decimal(1), ROUND_HALF_EVEN, context))
            check('rounding against decimal', labels.thousandths(number) == rounded, field)
            check('exact against decimal', labels.is_whole(field) == (exact == rounded), field)

def nearest(exact):
    """The nearest whole number, of two as near the even one."""
    below = math.floor(exact)
    return min(below, below + 1, key=lambda whole: (abs(exact - whole), whole % 2))

def halves():
    """Halves above even and odd thousandths of every count of digits, in every shape, and the numbers next to them, against
    fractions: the value, that with a minus, and around the limit the label with both."""
    around_limit = [10 ** 9 + more for more in range(-2, 3)]
    wholes = [0, *around_limit] + [10 ** digits - less for digits in range(1, 18) if digits != 9 for less in (1, 2)]
    for turn, shape in enumerate(edges.half_shapes()):
        for whole, steps in itertools.product(edges.fitting(wholes, shape), (-1, 0, 1)):
            field, middle = edges.around_half(shape, whole, steps, turn + whole).encode(), whole + Fraction(1, 2)
            exact = Fraction(field.decode()) * 1000
            check('halves, or next to them', (exact > middle) - (exact < middle) == steps, field, whole, steps)
            value, plus, minus = nearest(exact), *(labels.read_number(labels.OFFSET, sign + field) for sign in (b'', b'-'))
            check('halves against fractions', labels.thousandths(plus) == value, field, value)
            check('halves with a minus', labels.thousandths(minus) == -value, field, value)
            if whole in around_limit:
                answer = labels.read(b'A', b'5,%s,-%s' % (field, field))
                expected = ('ok', [(5, value, -value, 0)]) if value <= 10 ** 9 else ('no', 9, 0)
                check('halves around the limit', (('ok', answer[1].glyphs) if answer[0] == 'ok' else answer) == expected, field, answer)

def parity_below_half(field):
    """0 or 1, of the whole thousandths below, where the number is an exact half; else None."""
    exact = abs(Fraction(field.decode())) * 1000
    return math.floor(exact) % 2 if exact.denominator == 2 else None

def has_lower_digit(number):
    """Whether a digit that isn't 0 counts less than a thousandth."""
    last = int(number.exponent_sign + (number.exponent or b'0')) - len(number.behind)
    digits = reversed(number.before + number.behind)
    return any(digit != ord('0') and last + k < -3 for k, digit in enumerate(digits))

def reads_back(run):
    """Whether the run's writing, made without asking for soundness, reads as the run."""
    try:
        written = labels.normal_writing(run[0], labels.grouped(run[1], 2), labels.grouped(run[2], 4))
    except (IndexError, TypeError, ValueError):
        return False
    answer = labels.read(*written)
    return answer[0] == 'ok' and labels.flat(answer[1]) == run

def tail_by_decoder(run, entries):
    """The units, clusters and glyphs behind those of the entries, and the clusters that Python's decoder makes of these units:
    one a character."""
    glyphs = at = used = 0
    while glyphs < entries:
        used, glyphs, at = used + run.clusters[at][0], glyphs + run.clusters[at][1], at + 1
    text = struct.pack(f'<{len(run.units) - used}H', *run.units[used:]).decode('utf-16-le')
    return run.clusters[at:], run.glyphs[entries:], [(1 if character <= '\uFFFF' else 2, 1) for character in text]

def round_trips(rng, count):
    draw, bytes_of, run_of = generate.chooser(rng, generate.LABEL_KINDS), {}, {}
    for text, indices in itertools.chain(edges.label_edges(), (draw()[1] for _ in range(count))):
        answer = labels.read(text, indices)
        checks['labels accepted' if answer[0] == 'ok' else f'labels refused with {answer[1]:2}'] += 1
        if answer[0] == 'ok':
            run, rounded = answer[1], labels.rounded(indices, answer)
            checks['labels accepted, with rounded fields'] += rounded > 0
            numbers = [number for entry in labels.split_entries(indices) for number in labels.read_entry(entry).numbers if number]
            check('rounded fields against digits', rounded == sum(map(has_lower_digit, numbers)), text, indices, rounded)
            parities = {parity_below_half(field) for entry in indices.split(b';') for field in entry.split(b',')[1:] if field}
            checks['labels accepted, with halves above even numbers'] += 0 in parities
            checks['labels accepted, with halves above odd numbers'] += 1 in parities
            counts = sum(a for a, b in run.clusters), sum(b for a, b in run.clusters)
            check('every unit and glyph in one cluster', counts == (len(run.units), len(run.glyphs)), text, indices)
            tail, glyphs, characters = tail_by_decoder(run, len(labels.split_entries(indices)))
            checks['labels accepted, with pairs in the tail'] += (2, 1) in tail
            check("tail against Python's decoder", tail == characters and set(glyphs) <= {FONT}, text, indices, run)
            normal = labels.write(*labels.flat(run))
            if len(text + indices) < 200:
                key = str(run)
                checks['labels with the run of one before'] += key in bytes_of
                check('equal runs, equal bytes', bytes_of.setdefault(key, normal) == normal, text, indices, normal)
                check('equal bytes, equal runs', run_of.setdefault(normal, key) == key, text, indices, normal)
            check('written, read back', normal[0] == 'ok' and labels.read(*normal[1:]) == answer, text, indices, normal)
            check('nothing rounded in a normal writing', labels.rounded(normal[2], answer) == 0, text, indices, normal)
            check('written back unchanged', labels.write(*labels.flat(labels.read(*normal[1:])[1])) == normal, text, indices)
    for _ in range(count):
        run = rng.choice((generate.sound_run, generate.sound_run, generate.tail_run))(rng)
        answer = labels.read(*generate.spelled_label(rng, run))
        check('written any way, read as the run', answer[0] == 'ok' and labels.flat(answer[1]) == run, run, answer)
    makers = (generate.sound_run, generate.nearly_run, generate.nearly_run, generate.random_run, generate.tail_run,
              generate.nearly_tail_run, generate.random_tail_run)
    drawn = (rng.choice(makers)(rng) for _ in range(2 * count))
    for run in itertools.chain(edges.run_edges(), edges.tail_runs(), drawn):
        sound = labels.sound(*run)
        checks['runs sound' if sound else 'runs not sound'] += 1
        check('sound exactly when its writing reads back', sound == reads_back(run), run)

def short_runs():
    """"some label that this paper accepts reads as it": all runs of up to three clusters of some counts and records, against
    what all labels of up to three such entries read as."""
    counts, records = ((1, 1), (2, 1), (3, 1), (2, 2), (1, 2)), (*named(5), FONT, (-1, 0, 0, 0), (-1, -1, 0, -1000))
    entries = ['', '5', ',0', ',,,-1'] + [f'({a}:{b})5' for a, b in counts[1:]]
    for text in (''.join(pieces) for count in (1, 2, 3) for pieces in itertools.product('A' + GRIN, repeat=count)):
        read, units = set(), generate.utf16(text)
        for listed in (listed for count in range(4) for listed in itertools.product(entries, repeat=count)):
            answer = labels.read(text.encode(), ';'.join(listed).encode())
            if answer[0] == 'ok':
                read.add((tuple(answer[1].clusters), tuple(answer[1].glyphs)))
        for clusters in (c for count in (1, 2, 3) for c in itertools.product(counts + ((2, 0), (0, 1)), repeat=count)):
            glyphs = sum(b for a, b in clusters)
            if sum(a for a, b in clusters) == len(units) and glyphs <= 3:
                for chosen in itertools.product(records, repeat=glyphs):
                    sound = labels.sound(units, [n for pair in clusters for n in pair], [n for record in chosen for n in record])
                    checks['short runs, sound'] += sound
                    check('sound exactly when some label reads as it', sound == ((clusters, chosen) in read), text, clusters, chosen)

def picks(rng, count):
    """Picks against the list of owners: which cluster each unit and each glyph is in."""
    tails = ((run, *sorted(rng.sample(range(7), 2))) for run in edges.tail_runs())
    for run, first, end in itertools.chain(tails, (generate.pick_case(rng) for _ in range(count))):
        owners = [[k for k, n in enumerate(run[1][side::2]) for _ in range(min(n, 5000))] for side in (0, 1)]
        for pick, source, target in ((labels.units_of, 1, 0), (labels.glyphs_of, 0, 1)):
            if not labels.sound(*run):
                expected = 'no', 19, 0
            elif not first < end <= len(owners[source]):
                expected = 'no', 22, 0
            else:
                touched = set(owners[source][first:end])
                places = [at for at, owner in enumerate(owners[target]) if owner in touched]
                expected = ('ok', places[0], places[-1] + 1) if places else ('ok', 0, 0)
            check('picks against owners', pick(*run, first, end) == expected, pick.__name__, run, first, end, expected)

def faults(rng, count):
    for case in itertools.chain(edges.fault_edges(), (generate.fault_case(rng) for _ in range(count))):
        text, indices, number, place = case
        in_indices, start, length = labels.fault(*case)
        part = (indices if in_indices else text)[start:start + length]
        if number in (2, 3, 4) and place < len(text):
            holds = (in_indices, start) == (0, place) and part == text[place:]
        elif number in (7, 8, 9, 10, 11, 12, 14) and indices and place <= indices.count(b';'):
            holds = in_indices == 1 and part == indices.split(b';')[place] and indices[:start].count(b';') == place
        else:
            holds = (in_indices, start, length) == (0, 0, 0)
        check('faults against slices', holds, *case)

def expat_value(raw, quote):
    """The value of an attribute with that raw value, as the standard library's XML parser gives it; None if it refuses."""
    found, parser = [], expat.ParserCreate()
    parser.StartElementHandler = lambda name, given: found.append((name, given))
    try:
        parser.Parse(b'<a b=' + quote + raw + quote + b'/>', True)
    except expat.ExpatError:
        return None
    (name, given), = found
    return given['b'].encode('utf-8')

def is_xml_text(data):
    try:
        return all(labels.is_xml_char(ord(character)) for character in set(data.decode('utf-8')))
    except UnicodeDecodeError:
        return False

# Each byte that expat might not take for a character becomes a `~`; neither is part of any reference.
TO_TILDE = bytes(byte if 0x20 <= byte < 0x7F or byte in (9, 10, 13) else 0x7E for byte in range(256))

def resolving(rng, count):
    """Raw values against expat: which are accepted, what comes out, where the first fault is."""
    draw = generate.chooser(rng, {kind: made for kind, made in generate.RAW_KINDS.items() if kind != 'raw-large'})
    for raw in itertools.chain(edges.raw_edges(), (draw()[1] for _ in range(count))):
        answer = attributes.resolve(raw)
        checks['raw values accepted' if answer[0] == 'ok' else 'raw values refused with 23'] += 1
        if answer[0] == 'ok':
            needed = len(answer[1])
            check('no longer than the raw value', needed <= len(raw), raw, answer)
            check('resolved into its room', attributes.resolve_into(raw, needed) == answer, raw)
            check('resolved into its room', needed == 0 or attributes.resolve_into(raw, needed - 1) == ('no', 24, needed), raw)
        if not is_xml_text(raw):
            instead = attributes.resolve(raw.translate(TO_TILDE))
            same = answer == instead if 'no' in (answer[0], instead[0]) else (
                len(answer[1]) == len(instead[1]) and all(y in (x, 0x7E) for x, y in zip(answer[1], instead[1])))
            check('odd bytes resolved like plain ones', same, raw, answer, instead)
            raw, answer = raw.translate(TO_TILDE), instead
        quote = b'"' if b'"' not in raw else b"'"
        if quote not in raw:
            value = expat_value(raw, quote)
            check('resolved against expat', value == (answer[1] if answer[0] == 'ok' else None), raw, answer, value)
            if answer[0] == 'no':
                # all before the place is good, and what begins there is not, up to its `;`
                place, end = answer[2], raw.find(b';', answer[2]) + 1 or len(raw)
                check('place of 23 against expat', expat_value(raw[:place], quote) is not None
                      and raw[place] in b'&<' and expat_value(raw[place:end], quote) is None, raw, answer)

def escaping(rng, count):
    """Escaped bytes resolve to what they were, by expat too. So do those that are spelled in any other way."""
    drawn = (make(rng) for _ in range(count) for make in (generate.plain_text, generate.random_raw))
    for data in itertools.chain(edges.raw_edges(), drawn):
        escaped = attributes.escape(data)
        check('escaped, resolved', attributes.resolve(escaped) == ('ok', data) and not set(escaped) & set(b'<"\t\n\r'), data)
        if is_xml_text(data):
            check('escaped, given back by expat', expat_value(escaped, b'"') == data, data, escaped)
        if len(data) < 1000:
            check('spelled any way, resolved', attributes.resolve(generate.spelled_raw(rng, data)) == ('ok', data), data)
    for run in itertools.chain(edges.escape_edges(), (generate.escaped_run(rng) for _ in range(count))):
        written, escaped = labels.write(*run), attributes.write_escaped(*run)
        checks['runs escaped' if escaped[0] == 'ok' else 'runs not sound, not escaped'] += 1
        if written[0] == 'no' or escaped[0] == 'no':
            check('escaped exactly when written', escaped == written, run)
            continue
        resolved = [attributes.resolve(part) for part in escaped[1:]]
        check('escaped, resolved: as written', resolved == [('ok', part) for part in written[1:]], run)
        check('nothing to escape in indices', escaped[2] == written[2], run)
        check('escaped, resolved, read', labels.flat(attributes.read_raw(*escaped[1:])[1]) == run, run)
        text, indices = map(len, escaped[1:])
        check('escaped into its room', labels.fit_writing(escaped, text, indices) == escaped, run)
        check('escaped into its room', text == 0 or labels.fit_writing(escaped, text - 1, 0) == ('no', 20, text), run)
        check('escaped into its room', indices == 0 or labels.fit_writing(escaped, text, indices - 1) == ('no', 21, indices), run)

def labels_by_struct(file):
    """The labels up to the end of the file or up to a record that passes it, and the bytes from there on."""
    found, rest = [], file[5:]
    while len(rest) >= 6:
        text, indices = struct.unpack('<HI', rest[:6])
        if 6 + text + indices > len(rest):
            break
        found.append((rest[6:6 + text], rest[6 + text:6 + text + indices]))
        rest = rest[6 + text + indices:]
    return found, rest

def files(rng, count):
    """Files against struct: which are accepted, with which labels, and the record that the file ends in."""
    draw = generate.chooser(rng, generate.FILE_KINDS)
    for file in itertools.chain(edges.sheet_edges(), (draw()[1] for _ in range(count))):
        answer = sheets.read_sheet(file)
        checks['files accepted' if answer[0] == 'ok' else f'files refused with {answer[1]}'] += 1
        if answer[0] == 'ok':
            check('a file is the bytes of its labels', sheets.write_sheet(answer[1]) == file, file[:200], answer)
        if len(file) < 50_000:
            found, rest = labels_by_struct(file)
            expected = ('no', 25, 0) if file[:5] != b'SLB\x01\x00' else ('no', 26, len(found)) if rest else ('ok', found)
            check('files against struct', answer == expected, file, answer, expected)

def whole_sheets(rng, count):
    """Sheets out and back, and cut at every byte; answers against single readings, moved with their labels; lists of all sizes."""
    for number, group in edges.ANSWERED.items():
        for label in group:
            check('labels by the number of their answer', sheets.answer_to(*label)[0] == number, number, label)
    drawn = [generate.sheet(rng) for _ in range(count // 10)] + [generate.long_sheet(rng) for _ in range(count // 500)]
    for sheet in (*edges.SMALL_SHEETS, *drawn):
        file, numbers = sheets.write_sheet(sheet), sheets.answers(sheet)
        check('sheets out and back', sheets.read_sheet(file) == ('ok', sheet), sheet)
        check('answers of the file', sheets.answer_file(file) == ('ok', numbers), sheet, numbers)
        if len(file) < 300:
            borders = [len(sheets.write_sheet(sheet[:k])) for k in range(len(sheet) + 1)]
            for at in range(len(file) + 1):
                whole = sum(border <= at for border in borders) - 1
                expected = ('no', 25, 0) if at < 5 else ('ok', sheet[:whole]) if at in borders else ('no', 26, whole)
                check('sheets cut at every byte', sheets.read_sheet(file[:at]) == expected, file, at, expected)
        if len(sheet) < 30:
            for at, label in enumerate(sheet):
                alone, given = labels.read_into(*label, 4096, 8192, 16384), tuple(numbers[2 * at:2 * at + 2])
                check('answers against single readings', given == ((0, 0) if alone[0] == 'ok' else alone[1:]), label, given, alone)
            lists(sheet, file, numbers)
        if sheet:
            other_labels(rng, sheet, numbers)

def lists(sheet, file, numbers):
    """Lists of every size around the one needed, against struct."""
    packed = struct.pack(f'<{len(numbers)}i', *numbers)
    for size in range(max(0, len(packed) - 9), len(packed) + 10):
        before = bytes(range(0x80, 0x100))[:size] * (size // 0x80 + 1)
        before, after = before[:size], bytearray(before[:size])
        if size // 4 < len(numbers):
            expected = (27, len(sheet), 0)
        else:
            struct.pack_into(f'<{len(numbers)}i', after, 0, *numbers)
            expected = (0, 0, len(numbers))
        check('lists of answers against struct', sheets.fill(('ok', numbers), before) == (expected, bytes(after)), file, size)

def other_labels(rng, sheet, numbers):
    """One label replaced or left out, all in another order: every other label keeps its answer."""
    pairs, at = labels.grouped(numbers, 2), rng.randrange(len(sheet))
    others = pairs[:at] + pairs[at + 1:]
    replaced = labels.grouped(sheets.answers(sheet[:at] + [generate.sheet_label(rng)] + sheet[at + 1:]), 2)
    check('answers beside a label replaced', replaced[:at] + replaced[at + 1:] == others, sheet, at)
    left = labels.grouped(sheets.answers(sheet[:at] + sheet[at + 1:]), 2)
    check('answers beside a label left out', left == others, sheet, at)
    order = rng.sample(range(len(sheet)), len(sheet))
    moved = labels.grouped(sheets.answers([sheet[k] for k in order]), 2)
    check('answers in another order', moved == [pairs[k] for k in order], sheet, order)

def fixed_sheet():
    g, sheet = 'the fixed sheet', sheets.fixed_sheet()
    file, numbers = sheets.write_sheet(sheet), sheets.answers(sheet)
    check(g, len(sheet) == 400 and len(file) < 60_000, len(sheet), len(file))
    check(g, set(numbers[::2]) == set(range(16)), set(numbers[::2]))
    check(g, numbers[0] and numbers[-2] and sheet[1] == (b'', b''), numbers[:4], numbers[-2:])
    check(g, sheets.fixed_sheet() == sheet)

def main():
    parser = argparse.ArgumentParser()
    parser.add_argument('--seed', type=int, default=1)
    parser.add_argument('--count', type=int, default=5000)
    options = parser.parse_args()
    rng = Random(options.seed)
    for part in (paper_labels, standard_examples, choices_of_text, choices_of_entries, choices_of_rounding, choices_of_halves,
                 choices_of_runs, choices_of_tails, choices_of_tail_runs, choices_of_tail_picks, choices_of_equality,
                 choices_of_writing, choices_of_calls, choices_of_resolving, choices_of_raw_labels, choices_of_escaping,
                 choices_of_files, choices_of_answers, utf8, grammar, halves, short_runs, fixed_sheet):
        part()
    for part in (rounding, round_trips, picks, faults, resolving, escaping, files, whole_sheets):
        part(rng, options.count)
    for group in sorted(checks):
        print(f'{checks[group]:8} {group}' + (f'   {failures[group]} FAILED' if failures[group] else ''))
    print('failed' if failures else 'all passed')
    return 1 if failures else 0

if __name__ == '__main__':
    sys.exit(main())
