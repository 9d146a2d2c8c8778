"""Sheets of labels after change request 3: the file both ways, and the list of answers that it gets.

    sheets.py FOLDER    writes FOLDER/sheet.slb, a fixed sheet, and FOLDER/sheet.answers, the bytes of its answers

Like labels.py, each function quotes the words it implements. A sheet is a list of labels (text, indices), a file is its
bytes. An answer is ('ok', ...) or ('no', number, place).

The fixed sheet has 400 labels, the same in every run: those of documents 01 and 02, the examples of ECMA-388, the slips
listed at the end of document 01, pairs of different labels with equal runs, pairs in the unwritten tail, labels refused with
each number 1 to 15, and generated ones below 60 bytes, accepted and refused. They stand in random order, but that the first
and the last are refused and an empty record is second. A text above 16,384 bytes, texts of 4,096 and 4,097 units and above
4,096 glyphs are among them. sheet.answers has exactly two numbers a label, 3,200 bytes.
"""

import os
import sys
from functools import lru_cache
from itertools import chain
from random import Random

import labels

# ---- The file ----------------------------------------------------------------------------------------

# "the mark `SLB`, a 16-bit version, 1, then records of a 16-bit text length, a 32-bit indices length, the text, the
# indices"; "low byte first". Widths in bytes.
MARK, VERSION = b'SLB', 1
VERSION_WIDTH, TEXT_WIDTH, INDICES_WIDTH = 2, 2, 4
HEADER = MARK + VERSION.to_bytes(VERSION_WIDTH, 'little')
LENGTHS = TEXT_WIDTH + INDICES_WIDTH

# The two lengths that a record begins with.
def write_lengths(text_length, indices_length):
    return text_length.to_bytes(TEXT_WIDTH, 'little') + indices_length.to_bytes(INDICES_WIDTH, 'little')

def write_record(text, indices):
    return write_lengths(len(text), len(indices)) + text + indices

# The one file of a sheet whose lengths fit their fields.
def write_sheet(sheet):
    return HEADER + b''.join(write_record(*label) for label in sheet)

# The label whose record starts there, and where the record ends; None where the file ends first.
def read_record(file, at):
    text = at + LENGTHS
    if text > len(file):
        return None
    indices = text + int.from_bytes(file[at:at + TEXT_WIDTH], 'little')
    end = indices + int.from_bytes(file[at + TEXT_WIDTH:text], 'little')
    return None if end > len(file) else ((file[text:indices], file[indices:end]), end)

# ('ok', sheet). "25: mark or version wrong or cut off; 26: file ends inside a record, place the record"; "records [...]
# are numbered from 0".
def read_sheet(file):
    if file[:len(HEADER)] != HEADER:
        return 'no', 25, 0
    sheet, at = [], len(HEADER)
    while at < len(file):
        found = read_record(file, at)
        if found is None:
            return 'no', 26, len(sheet)
        sheet.append(found[0])
        at = found[1]
    return 'ok', sheet

# ---- The answers -------------------------------------------------------------------------------------

# "two numbers a label, number and place, 0 and 0 when accepted. They equal those of single readings with large buffers".
@lru_cache(maxsize=20_000)
def answer_to(text, indices):
    answer = labels.read(text, indices)
    return (0, 0) if answer[0] == 'ok' else answer[1:]

# "for every list of labels in such a file, at every position"
def answers(sheet):
    return [number for label in sheet for number in answer_to(*label)]

# ('ok', numbers) for a list that is long enough.
def answer_file(file):
    answer = read_sheet(file)
    return ('ok', answers(answer[1])) if answer[0] == 'ok' else answer

# "27: answer list too short, place the labels in the file; in this order". The list is given by its size in numbers.
def answer_into(file, places):
    return fit_answers(answer_file(file), places)

def fit_answers(answer, places):
    return ('no', 27, len(answer[1]) // 2) if answer[0] == 'ok' and len(answer[1]) > places else answer

# "From C, numbers in this and later lists are a run's 4 bytes", "two's complement, low byte first".
NUMBER_WIDTH = 4

def as_bytes(numbers):
    return b''.join(number.to_bytes(NUMBER_WIDTH, 'little', signed=True) for number in numbers)

# "left-over bytes at a list's end hold none"
def as_numbers(data):
    ends = range(NUMBER_WIDTH, len(data) + 1, NUMBER_WIDTH)
    return [int.from_bytes(data[end - NUMBER_WIDTH:end], 'little', signed=True) for end in ends]

# What the C call returns, number, place and "how many places it filled", and what the lent bytes hold afterwards: "places
# behind them stay", "every refusal, later numbers included, changes no lent place". `answer` is that of a long list.
def fill(answer, lent):
    answer = fit_answers(answer, len(lent) // NUMBER_WIDTH)
    if answer[0] == 'no':
        return (*answer[1:], 0), lent
    given = as_bytes(answer[1])
    return (0, 0, len(answer[1])), given + lent[len(given):]

# ---- The fixed sheet ---------------------------------------------------------------------------------

FIXED_LABELS = 400

def fixed_sheet():
    import edges
    import generate
    import trials
    rng, first, second, last = Random(3), (b'A\xff', b'5'), (b'', b''), (b'A', b';')
    found = [*trials.PAPER, *edges.LATER_PAPER, *trials.STANDARD, *edges.slips(), *chain(*trials.EQUAL), edges.ANSWERED[1][0]]
    found += [label for label in [*trials.TAILS, *chain(*edges.ANSWERED.values())] if sum(map(len, label)) < 5_000]
    found = dict.fromkeys(label for label in found if label not in (first, second, last))
    makers = [make for kind, (_, make) in generate.LABEL_KINDS.items() if kind != 'large']
    while len(found) < FIXED_LABELS - 3:
        label = rng.choice(makers)(rng)
        if sum(map(len, label)) < 60 and label not in (first, second, last):
            found[label] = None
    middle = list(found)
    rng.shuffle(middle)
    return [first, second, *middle, last]

def main():
    folder, sheet = sys.argv[1], fixed_sheet()
    file, numbers = write_sheet(sheet), answers(sheet)
    for name, data in (('sheet.slb', file), ('sheet.answers', as_bytes(numbers))):
        with open(os.path.join(folder, name), 'wb') as out:
            out.write(data)
    print(f'{len(sheet)} labels, {len(file)} bytes, {numbers[::2].count(0)} accepted, refusals {sorted(set(numbers[::2]) - {0})}')

if __name__ == '__main__':
    main()
