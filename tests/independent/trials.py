"""Writes the labels that the program `trials` is run on, and what it must print for them by labels.py.

    trials.py FOLDER    writes FOLDER/stdin and FOLDER/stdout

The labels: those of document 01, the examples of ECMA-388, the slips listed at its end, the limits from both sides, pairs of different labels with equal runs, accepted labels in
Latin and Thai, labels with pairs in the unwritten tail or at an entry without a map (CR 4 of document 02), labels with halves of thousandths above even and odd ones and
above the limit (CR 6), and some generated ones. Labels 6 and 7 of document 01 are there as CR 6 changes them.
"""

import os
import sys
from random import Random

import edges
import generate
import labels

GRIN = '\U0001f600'.encode()
PAPER = [
    (b'fl', b'(2:1)192'), ('\u0e33'.encode(), b'(1:2)124;181'), ('\u0baa\u0bcb'.encode(), b'(2:3)34;76;88'), (b'A', b';'), (b'AB', b';'),
    (b'{}', b''), (b'{a', b''), (b'{}{a', b''), (b'A', b'5,-1'), (b'A', b'5,.0005'), (b'A', b'5,.0004'), (b'A', b'5,1e6'), (b'A', b'5,1000000.0004'),
    (b'A', b'5,1000000.0005'), (b'A', b'5,1000000.0006'), (b'A', b'065535'), (b'A', b'65536'), (b'AB', b'(2:2)5'), (b'AB', b'(2:2)5;'), (b'AB', b'(0)5'), (GRIN, b''),
    (GRIN, b'(2)9'), (b'', b'5;6'), (b'{}flow', b'(2:1)192;07,+55.50,,0'),
]
STANDARD = [
    ('\u0e20\u0e31\u0e33!'.encode(), b'153;106,,,16;(1:2)124;198;4'), ('\u0baa\u0bcb\u0ba4\u0bc1'.encode(), b'(2:3)94;76;88;(2:1)162'),
    (b'fathoms', b';;;;;;,40'), (b'fathoms', b';;;;;(2:1)191'),
]
LIMITS = [
    (b'A' * 16385, b''), (b'{}' + b'A' * 16382, b''), (b'A', b'5' * 32769), (b'A', b'0' * 32767 + b'5'), (b'A' * 4096, b''), (b'A' * 4097, b''),
    (b'{}' + b'A' * 4096, b''), (b'A' * 4096, b'(1:2)5;6'), (b'A' * 4096, b'(2:2)5;6'), (b'A' * 4096, b';' * 4095), (b'A' * 4096, b';' * 4096),
    (b'', b';'.join([b'7'] * 4096)), (b'', b';'.join([b'7'] * 4097)), (b'', b';'.join([b'7'] * 4500) + b';x'),
]
EQUAL = [
    ((b'AB', b'5;6'), (b'{}AB', b'05;(1:1)6')), ((b'A', b'5,55.5'), (b'A', b'5,+55.50,,0')), ((b'A', b'5,,-0'), (b'A', b'5')),
    ((b'ABC', b'5'), (b'ABC', b'5;;')), ((b'fl', b'(2)192'), (b'{}fl', b'(02:001)0192,,,')), ((b'A', b'5,1.5e1'), (b'A', b'5,150E-1')),
    (('\u0e01\u0e33'.encode(), b'9;(1:2)124;181'), (b'{}' + '\u0e01\u0e33'.encode(), b'09;(1:2)124,;181,,')), ((b'', b'5;6'), (b'{}', b'05;06')),
    ((b'AB' + GRIN, b''), (b'{}AB' + GRIN, b';')), ((b'AB' + GRIN + b'C', b'5'), (b'AB' + GRIN + b'C', b'5;,')), ((GRIN * 2, b'(2)9'), (GRIN * 2, b'(02:1)9,')),
    ((b'A', b'5,,.0005'), (b'A', b'5')), ((b'A', b'5,.0015,-.0025'), (b'A', b'5,.0025,-.0015')),
]
TAILS = [
    (b'A' + GRIN, b''), (b'A' + GRIN, b'5'), (b'A' + GRIN, b';'), (b'A' + GRIN, b'5;'), (b'A' + GRIN, b'5;6'), (b'A' + GRIN, b'5;(2)'), (GRIN, b';'), (GRIN, b','), (GRIN, b'5'),
    (GRIN + b'A', b''), (GRIN + b'A', b';'), (GRIN * 2, b''), (GRIN * 2, b'(2)9'), (GRIN * 2, b'(2)9;'), (GRIN * 2, b'(3)9'), (GRIN * 2, b'(2:2)9;8'), (GRIN * 2, b'(2)9;(2)8'),
    ('\u0e01'.encode() + GRIN + '\u0e33'.encode(), b',40'), (b'{}{' + GRIN, b''), (b'{}' + GRIN, b''), (b'AB' + GRIN + b'C' + GRIN, b'(2)192'), (b'AB' + GRIN, b'(3)9'),
    ('\U00010000\U0010ffff'.encode(), b''), (b'A' + GRIN * 2047 + b'B', b'5'), (GRIN * 2048 + b'A', b''), (GRIN * 2048, b'(2:2049)9' + b';8' * 2048),
]
HALVES = [
    (b'A', b'5,.0015'), (b'A', b'5,.0025'), (b'A', b'5,,-.0005'), (b'A', b'5,,-.0015,-.0025'), (b'A', b'5,.0035,.0045,-.0095'), (b'A', b'5,15e-4,250E-05,-.00005e+1'),
    (b'A', b'5,.00150001,.00250001,-.00249999'), (b'A', b'5,00000000000000.0025,.000500000000000000'), (b'A', b'5,999999.9985,-999999.9995'),
    (b'A', b'5,,-1000000.0005,10000000005e-4'), (b'A', b'5,,-1000000.0006'), (b'A', b'5,1000000.00050001'), (b'A', b'5,,,1000000.0015'),
    (b'AB' + GRIN, b',,.0005;,,-.0005,.0005'), (b'A', b'(1:2)5,,.0005;6,.0005'),
]


def on_lines(label):
    return b'\n' not in label[0] and b'\n' not in label[1]


def all_labels():
    rng = Random(20)
    found = PAPER + STANDARD + LIMITS + [label for pair in EQUAL for label in pair] + TAILS + HALVES + [case[:2] for case in edges.slips()]
    # of the edges those of the base, so that the kept labels stay
    found += rng.sample([case[:2] for case in edges.base_edges() if len(case[0]) + len(case[1]) < 300], 300)
    for make in (generate.valid_label, generate.damaged_label, generate.mixed_label, generate.number_label, generate.utf8_label):
        found += [make(rng)[:2] for _ in range(40)]
    return list(dict.fromkeys(label for label in found if on_lines(label)))


def main():
    for (a, b) in EQUAL:
        assert labels.read(*a) == labels.read(*b) and a != b, (a, b)
    found = all_labels()
    shown = [labels.relabel(text + b'\n' + indices + b'\n') for text, indices in found]
    numbers = {int(s.split()[1]) for s in shown if s.startswith(b'no')}
    assert numbers == set(range(1, 16)), numbers
    folder = sys.argv[1]
    with open(os.path.join(folder, 'stdin'), 'wb') as f:
        f.write(b''.join(text + b'\n' + indices + b'\n' for text, indices in found))
    with open(os.path.join(folder, 'stdout'), 'wb') as f:
        f.write(b''.join(shown))
    print(f'{len(found)} labels, {sum(s.startswith(b"ok") for s in shown)} accepted, refusals {sorted(numbers)}')


if __name__ == '__main__':
    main()
