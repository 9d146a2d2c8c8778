"""Prints short labels with the reference's answers, and the counts of their rounded fields, as JSON lines.

    rows.py [--seed N] [--count N]
    rows.py --raw [--seed N] [--count N]    raw attribute values with what they resolve to, and bytes with what they are escaped to
    rows.py --sheets [--seed N] [--count N] files of sheets, the room of an answer list, and the answers

About a third of the labels are accepted: as many with pairs in the unwritten tail as, of the others, with no rounded field,
with one and with more; the rest share the refusals that labels below 60 bytes can reach. Of the raw values, those that each
show one thing come first; then each group of edges and each random kind has its share of those accepted and of those refused.
Every fifth row is one of escaping. Of the files, about half are accepted; the others share 25, 26 and 27.
"""

import argparse
import itertools
import json
from random import Random

import attributes
import edges
import generate
import labels
import sheets

REACHED = (2, 3, 4, 6, 7, 8, 9, 10, 11, 12, 13, 14)        # 1, 5 and 15 take longer labels
BYTES = 60
RAW_SIZE = 40
SHEET_SIZE = 80

def row(text, indices, answer):
    if answer[0] == 'no':
        said = {'no': answer[1:]}
    else:
        units, clusters, glyphs = labels.flat(answer[1])
        normal = labels.write(units, clusters, glyphs)
        said = {'units': units, 'clusters': clusters, 'glyphs': glyphs, 'text': normal[1].hex(), 'indices': normal[2].hex()}
    return json.dumps({'text': text.hex(), 'indices': indices.hex(), 'answer': said, 'rounded': labels.rounded(indices, answer)})

def has_tail_pair(run):
    """Whether the tail of a run that was read has a pair. From the end to there, every cluster has one glyph."""
    for cluster, glyph in zip(reversed(run.clusters), reversed(run.glyphs)):
        if cluster not in ((1, 1), (2, 1)) or glyph != labels.WHOLLY_FONT:
            return False
        if cluster == (2, 1):
            return True
    return False

def outcome_of(label, answer):
    """What the label counts as among the rows."""
    if answer[0] == 'no':
        return answer[1]
    return 'tail' if has_tail_pair(answer[1]) else ('ok', min(labels.rounded(label[1], answer), 2))

def rows(seed, count):
    """Distinct rows, as many of each outcome as its share."""
    rng = Random(seed)
    share = {number: max(1, 2 * count // (3 * len(REACHED))) for number in REACHED}
    share[6] = min(share[6], 2)                             # `` and `{}` are all there are
    accepted = max(0, count - sum(share.values()))
    share['tail'] = (accepted + 3) // 4
    share.update({('ok', rounded): (accepted + rounded) // 4 for rounded in range(3)})
    some_halves = itertools.islice(edges.half_edges(), 0, None, 151)        # all would crowd out other rounded fields
    every = itertools.chain(edges.base_edges(), edges.rounding_edges(), edges.tail_edges(), some_halves)
    fixed = [label for label in every if sum(map(len, label)) < BYTES]
    rng.shuffle(fixed)
    draw = generate.chooser(rng, {kind: made for kind, made in generate.LABEL_KINDS.items() if kind != 'large'})
    seen = set()
    for label in itertools.chain(fixed, (draw()[1] for _ in itertools.count())):
        if len(seen) == count:
            return
        answer = labels.read(*label)
        outcome = outcome_of(label, answer)
        if sum(map(len, label)) < BYTES and label not in seen and share[outcome]:
            seen.add(label)
            share[outcome] -= 1
            yield row(*label, answer)

def raw_row(raw):
    answer = attributes.resolve(raw)
    said = {'ok': answer[1].hex()} if answer[0] == 'ok' else {'no': answer[1:]}
    return json.dumps({'raw': raw.hex(), 'answer': said})

def escaped_row(data):
    return json.dumps({'bytes': data.hex(), 'escaped': attributes.escape(data).hex()})

def in_turn(groups):
    """One of each group after the other, as long as there are any."""
    while any(groups):
        groups = [group for group in groups if group]
        yield from [group.pop() for group in groups]

def raw_rows(seed, count):
    """Distinct rows."""
    rng = Random(seed)
    groups = [list(part()) for part in edges.RAW_EDGES.values()]
    groups += [[make(rng) for _ in range(count)] for kind, (_, make) in generate.RAW_KINDS.items() if kind != 'raw-large']
    groups = [list(dict.fromkeys(raw for raw in group if len(raw) <= RAW_SIZE)) for group in groups]
    by_outcome = [[raw for raw in group if attributes.resolve(raw)[0] == outcome] for group in groups for outcome in ('ok', 'no')]
    plain = [bytes((byte,)) for byte in (*b'&<"\t\n\r>\' {;A', 0x80)] + [b'', b'\r\n', b'&amp;', b'{}{&', b'a<b', b'\x00\xff"']
    texts = [generate.plain_text(rng) for _ in range(count)]
    for group in by_outcome + [plain, texts]:
        rng.shuffle(group)
    raws = dict.fromkeys(itertools.chain(edges.MAIN_RAW, in_turn(by_outcome)))
    texts = dict.fromkeys(data for data in in_turn([plain, texts]) if len(data) <= RAW_SIZE)
    fifth = count // 5
    shown = list(map(raw_row, list(raws)[:count - fifth])) + list(map(escaped_row, list(texts)[:fifth]))
    rng.shuffle(shown)
    return shown

def sheet_row(file, room):
    answer = sheets.answer_into(file, room)
    said = {'ok': answer[1]} if answer[0] == 'ok' else {'no': answer[1:]}
    return json.dumps({'file': file.hex(), 'room': room, 'answer': said})

def rooms(rng, file):
    """A room for the answers that is exact, a number or a label too short, or too large."""
    answer = sheets.answer_file(file)
    exact = len(answer[1]) if answer[0] == 'ok' else 4
    return max(0, exact + rng.choice((0, 0, 0, 1, 5, -1, -2)))

def sheet_rows(seed, count):
    """Distinct rows, as many of each outcome as its share."""
    rng = Random(seed)
    share = {'ok': count - 3 * (count // 6), 25: count // 6, 26: count // 6, 27: count // 6}
    files = [list(part()) for name, part in edges.SHEET_EDGES.items() if name != 'many']
    files += [[sheets.write_sheet(generate.sheet(rng)) for _ in range(count)] for _ in range(3)]
    files = [[file for file in group if len(file) <= SHEET_SIZE] for group in files]
    for group in files:
        rng.shuffle(group)
    seen = set()
    for file in in_turn(files):
        room = rooms(rng, file)
        answer = sheets.answer_into(file, room)
        outcome = answer[1] if answer[0] == 'no' else 'ok'
        if file not in seen and share[outcome]:
            seen.add(file)
            share[outcome] -= 1
            yield sheet_row(file, room)

if __name__ == '__main__':
    parser = argparse.ArgumentParser()
    parser.add_argument('--seed', type=int, default=1)
    parser.add_argument('--count', type=int, default=300)
    parser.add_argument('--raw', action='store_true')
    parser.add_argument('--sheets', action='store_true')
    options = parser.parse_args()
    chosen = raw_rows if options.raw else sheet_rows if options.sheets else rows
    for line in chosen(options.seed, options.count):
        print(line)
