"""Labels of two files, in order: the same run or not. Two runs are equal exactly where their normal writings are; a refused label has no run,
and is the same as one that has its text and its indices byte for byte."""

from itertools import zip_longest
from typing import NamedTuple

from .text_report import INDENT, place_words
from .trouble import Unreadable
from .words import counted, refusal, shown, shortened

SAME, SAME_BUT_REFUSED, OTHER, ONLY_A, ONLY_B = range(5)
WIDEST = 72, 100                # characters of a text and of indices that a line shows
BEFORE = 24                     # .. before the first that differs


class Standing(NamedTuple):
    """What a label stands for: its normal writing; or number and place of its refusal, and its values as they are."""
    number: int
    place: int
    text: bytes
    indices: bytes

    def values(self):
        return self.text.decode('utf-8'), self.indices.decode('utf-8')


def stream(path, source):
    """The labels of a file, one by one."""
    try:
        for _, labels in source.labels():
            yield from labels
    except Unreadable as error:
        raise Unreadable(f'{path}: {error}') from None


def standing(library, label):
    number, place, reading = library.answer(label)
    return Standing(number, place, label.text, label.indices) if reading is None else Standing(0, 0, *library.write(reading))


def alike(one, two):
    """How many characters two values begin with alike."""
    return next((k for k, (a, b) in enumerate(zip(one, two)) if a != b), min(len(one), len(two)))


def start_shown(one, two, most):
    """Where two values are shown from, so that the first difference is among `most` characters."""
    if one == two or max(len(one), len(two)) <= most:
        return 0
    first = alike(one, two)
    return first - BEFORE if first + BEFORE > most else 0


def cut(value, start, most):
    return shown(shortened(('…' if start else '') + value[start:], most))


def standing_words(stands, starts=(0, 0)):
    """Text, indices and refusal of a label, each value from its start on."""
    text, indices = map(cut, stands.values(), starts, WIDEST)
    return '  '.join(filter(None, (f'"{text}"', indices, 'refused: ' + refusal(stands.number, stands.place) if stands.number else '')))


class Comparison:
    """Compares label by label and prints what came of it."""

    def __init__(self, out, library, paths):
        self.out, self.library, self.paths = out, library, [shown(path) for path in paths]
        self.counts = [0, 0, 0, 0, 0]

    def run(self, sources, progress):
        pairs = zip_longest(*map(stream, self.paths, sources))
        for number, pair in enumerate(progress.through(pairs, '{:,} labels compared', True), 1):
            progress.make_way()
            self.out.write('\n'.join([*self.compare(number, *pair), '']))
        progress.make_way()
        self.out.write(f'{counted(sum(self.counts), "label")} compared: {self.sums_words()}\n')
        return sum(self.counts) == self.counts[SAME] + self.counts[SAME_BUT_REFUSED]

    def sums_words(self):
        kinds = 'same', 'same but refused in both', 'other', f'only in {self.paths[0]}', f'only in {self.paths[1]}'
        return ', '.join(f'{count:,} {kind}' for count, kind in zip(self.counts, kinds))

    def compare(self, number, a, b):
        """The lines on a pair of labels; of which one may be missing."""
        if a is None or b is None:
            return self.only_in_one(number, a, b)
        one = standing(self.library, a)
        two = one if (a.text, a.indices) == (b.text, b.indices) else standing(self.library, b)
        where = f'{place_words(a)} | {place_words(b)}'
        if one == two:
            self.counts[SAME_BUT_REFUSED if one.number else SAME] += 1
            return [f'label {number}: same  {where}  {self.same_words(a, one)}']
        self.counts[OTHER] += 1
        starts = tuple(map(start_shown, one.values(), two.values(), WIDEST))
        return [f'label {number}: OTHER  {where}', f'{INDENT}A: {standing_words(one, starts)}', f'{INDENT}B: {standing_words(two, starts)}']

    def same_words(self, label, stands):
        """The text, as the first file has it; of a refused label all."""
        return standing_words(stands) if stands.number else standing_words(stands._replace(text=label.text, indices=b''))

    def only_in_one(self, number, a, b):
        self.counts[ONLY_B if a is None else ONLY_A] += 1
        path, label = (self.paths[1], b) if a is None else (self.paths[0], a)
        return [f'label {number}: ONLY in {path}  {place_words(label)}  "{cut(label.text.decode("utf-8"), 0, WIDEST[0])}"']
