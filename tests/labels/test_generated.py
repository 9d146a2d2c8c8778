"""Generated labels on pages: number, place, fault and rounded values are those of the independent reader."""

import os
import re
import sys
import unittest
from random import Random

from support import Case, glyphs, page, parts_of

sys.path.insert(0, os.path.join(os.path.dirname(os.path.abspath(__file__)), '..', 'independent'))
import edges                                                                    # noqa: E402
import generate                                                                 # noqa: E402
import labels as independent                                                    # noqa: E402

COUNT = 3000
SHORT = {'t': '\t', 'n': '\n', 'r': '\r'}


def on_a_page(text, indices):
    """Whether both values can stand in XML: a page has only characters that XML allows."""
    try:
        return all(independent.is_xml_char(ord(c)) for value in (text, indices) for c in value.decode('utf-8'))
    except UnicodeDecodeError:
        return False


def some_labels(rng):
    draw = generate.chooser(rng, {kind: made for kind, made in generate.LABEL_KINDS.items() if kind != 'large'})
    drawn = [draw()[1] for _ in range(COUNT)] + rng.sample(list(edges.label_edges()), 600)
    return [label for label in drawn if on_a_page(*label) and sum(map(len, label)) < 20_000]


def standing_of(text, indices):
    """What a label stands for, by the independent reader: its normal writing, or itself where it is refused."""
    answer = independent.read(text, indices)
    return independent.write(*independent.flat(answer[1]))[1:] if answer[0] == 'ok' else ('refused', text, indices)


def character_of(escape):
    """The character of an escape, without its backslash."""
    return SHORT.get(escape) or (chr(int(escape[1:], 16)) if len(escape) > 1 else escape)


def unescaped(cell):
    """A cell of --tsv as the value that it was made of."""
    text = cell[1:] if cell.startswith("'") else cell
    return re.sub(r'\\(x..|u....|.)', lambda found: character_of(found[1]), text)


class Generated(Case):
    def test_answers(self):
        chosen = some_labels(Random(7))
        spelled = [glyphs(*(value.decode('utf-8') for value in label)) for label in chosen]
        rows, _ = self.rows(self.zip(parts_of([page(*spelled[:1000])], [page(*spelled[1000:])])))
        self.assertEqual(len(rows), len(chosen))
        numbers = set()
        for (text, indices), row in zip(chosen, rows):
            answer = independent.read(text, indices)
            wanted = (0, 0) if answer[0] == 'ok' else answer[1:]
            numbers.add(wanted[0])
            self.assertEqual((int(row['number']), int(row['place'])), wanted, (text, indices))
            self.assertEqual(int(row['finer than thousandths']), independent.rounded(indices, answer), (text, indices))
            self.assertEqual((unescaped(row['UnicodeString']).encode(), unescaped(row['Indices']).encode()), (text, indices))
            in_indices, start, length = independent.fault(text, indices, *wanted)
            if length and wanted[0]:
                self.assertEqual(unescaped(row['offending']).encode(), (indices if in_indices else text)[start:start + length])
        self.assertLessEqual({0, 4, 6, 7, 8, 9, 10, 11, 12, 13, 14}, numbers)
        print(f'{len(chosen)} labels', end=' ', flush=True)

    def test_comparison(self):
        rng = Random(8)
        pairs = [tuple(independent_spelling(rng)) for _ in range(400)]
        paths = [self.package(*(glyphs(*(v.decode('utf-8') for v in pair[k])) for pair in pairs), name=f'{k}.xps') for k in range(2)]
        status, out, _ = self.labels('--compare', *paths)
        same = [standing_of(*a) == standing_of(*b) for a, b in pairs]
        told = [line.split(': ')[1].split(' ')[0] == 'same' for line in out.splitlines() if line.startswith('label ')]
        self.assertEqual(told, same)
        self.assertLess(100, sum(same))
        self.assertLess(sum(same), 390)


def independent_spelling(rng):
    """Two labels of one run in two spellings, or of two runs."""
    while True:
        run = generate.sound_run(rng)
        pair = [generate.spelled_label(rng, run), generate.spelled_label(rng, run if rng.random() < .6 else generate.sound_run(rng))]
        if all(on_a_page(*label) for label in pair):
            return pair


if __name__ == '__main__':
    unittest.main()
