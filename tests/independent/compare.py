"""Compares another implementation with labels.py, attributes.py and sheets.py on generated cases; exits non-zero on a
difference.

    compare.py relabel PROGRAM    a program that reads one label on two lines and prints what came of it
    compare.py trials PROGRAM     a program that reads many labels, each on two lines, and prints the same for each
    compare.py archive LIB.so     a shared library with the C functions of include/glyph_label.h

    --seed N --count N            which random cases, and how many
    --kinds edges,valid,..        only these kinds; `edges`, `raw-edges` (those of resolving and escaping), `sheet-edges` and
                                  `lines` are fixed cases, all tried before the random ones (relabel: of the edges the
                                  papers' slips, then some of the others)
    --trace                       prints each case before it is tried, to find one that ends the process
"""

import argparse
import ctypes
import struct
import subprocess
import sys
from collections import Counter, defaultdict
from itertools import chain
from random import Random

import attributes
import edges
import generate
import labels
import sheets

FIXED_KINDS = 'edges', 'raw-edges', 'sheet-edges', 'lines'

class Report:
    """Outcomes by call, and the differences found."""

    def __init__(self, trace):
        self.outcomes, self.differences, self.trace = defaultdict(Counter), [], trace

    def count(self, call, answer):
        self.outcomes[call][answer[1] if answer[0] == 'no' else answer[0]] += 1

    def announce(self, **case):
        if self.trace:
            print(case, file=sys.stderr, flush=True)

    def differ(self, **case):
        self.differences.append('\n'.join(f'  {name}: {shown(value)}' for name, value in case.items() if value not in (None, ())))

    def finished(self):
        return len(self.differences) >= 10

    def show(self):
        for call, outcomes in self.outcomes.items():
            words = sorted(name for name in outcomes if isinstance(name, str))
            numbers = sorted(name for name in outcomes if not isinstance(name, str))
            print(f'{call:13}', sum(outcomes.values()), 'calls:', ', '.join(
                [f'{name} {outcomes[name]}' for name in words] + [f'refused with {n}: {outcomes[n]}' for n in numbers]))
        for difference in sorted(self.differences, key=len)[:3]:
            print('DIFFERENCE\n' + difference)
        print('differences found' if self.differences else 'no difference')
        return 1 if self.differences else 0

def shown(value):
    if isinstance(value, bytes):
        return f'{len(value)} bytes\n    hex  {value.hex()}\n    repr {value!r}'
    return repr(value)

def random_cases(rng, count, kinds):
    """(kind, case) of the kinds that aren't fixed."""
    kinds = {kind: made for kind, made in kinds.items() if kind not in FIXED_KINDS}
    draw = generate.chooser(rng, kinds)
    return (draw() for _ in range(count if kinds else 0))

# ---- Programs ----------------------------------------------------------------------------------------

def answer_of(output):
    """The answer that an output begins with, for the counts."""
    word, *numbers = output.split(b'\n')[0].split()
    return 'accepted' if word == b'ok' else 'no', *map(int, numbers)

def run_program(path, stdin):
    """What it printed, and what else is to be said."""
    try:
        done = subprocess.run([path], input=stdin, capture_output=True, timeout=120)
    except subprocess.TimeoutExpired as late:
        return (late.stdout or b''), 'no end within 120 s'
    return done.stdout, f'ended by signal {-done.returncode}; {done.stderr!r}' if done.returncode < 0 else None

def relabel_inputs(rng, count, kinds):
    """(kind, input): the slips, line ends and limits of lines; then random labels, some with other lines around."""
    if 'edges' in kinds:
        yield from (('edges', text + b'\n' + indices + b'\n') for text, indices in edges.slips())
    if 'lines' in kinds:
        yield from (('lines', text + b'\n' + indices + end) for text, indices in edges.line_edges() for end in (b'', b'\n'))
        yield from (('lines', stdin) for stdin in edges.INPUTS)
    draw = generate.chooser(rng, kinds)
    for _ in range(count):
        kind, (text, indices) = draw()
        stdin = text + b'\n' + indices + rng.choice((b'\n',) * 9 + (b'', b'\nthird', b'\n\n\n', b'\n5\n6'))
        yield kind, stdin if rng.random() < .98 else rng.choice((text, text + b'\n', stdin.replace(b'\n', b'\r\n')))

def relabel_mode(path, rng, count, kinds, report):
    for kind, stdin in relabel_inputs(rng, count, kinds):
        report.announce(kind=kind, stdin=stdin)
        expected = labels.relabel(stdin)
        got, trouble = run_program(path, stdin)
        report.count('relabel', answer_of(expected))
        if got != expected or trouble:
            report.differ(kind=kind, stdin=stdin, expected=expected, got=got, trouble=trouble)
            if report.finished():
                return

def compare_batch(path, batch, report):
    stdin = b''.join(text + b'\n' + indices + b'\n' for _, text, indices in batch)
    report.announce(batch=stdin)
    got, trouble = run_program(path, stdin)
    for kind, text, indices in batch:
        expected = labels.relabel(text + b'\n' + indices + b'\n')
        report.count('trials', answer_of(expected))
        if not got.startswith(expected):
            got = got[:len(expected) + 40]
            return report.differ(kind=kind, text=text, indices=indices, expected=expected, got_from_there=got, trouble=trouble)
        got = got[len(expected):]
    if got or trouble:
        report.differ(batch=stdin, behind_the_last_answer=got, trouble=trouble)

def trials_mode(path, rng, count, kinds, report):
    """Batches of at most 200 labels and less than 1,000,000 bytes."""
    batch, size = [], 0
    fixed = [('edges', label) for label in edges.label_edges() if 'edges' in kinds]
    fixed += [('lines', label) for label in edges.line_edges() if 'lines' in kinds]
    for kind, (text, indices) in chain(fixed, random_cases(rng, count, kinds)):
        if b'\n' in text + indices:
            continue
        if len(batch) == 200 or size + len(text) + len(indices) > 990_000:
            compare_batch(path, batch, report)
            batch, size = [], 0
            if report.finished():
                return
        batch.append((kind, text, indices))
        size += len(text) + len(indices) + 2
    if batch:
        compare_batch(path, batch, report)

# ---- The C interface ---------------------------------------------------------------------------------

def result_type(name, **fields):
    return type(name, (ctypes.Structure,), {'_fields_': list(fields.items())})

U32, SIZE = ctypes.c_uint32, ctypes.c_size_t
SLICE = ctypes.c_void_p, SIZE
Reading = result_type('Reading', number=U32, place=U32, units=U32, clusters=U32, glyphs=U32, rounded=U32)
Writing = result_type('Writing', number=U32, place=U32, text=U32, indices=U32)
Stretch = result_type('Stretch', number=U32, place=U32, first=U32, end=U32)
Part = result_type('Part', in_indices=U32, start=SIZE, length=SIZE)
Filled = result_type('Filled', number=U32, place=SIZE, filled=SIZE)
FUNCTIONS = {
    'read': (Reading, *SLICE * 5), 'write': (Writing, *SLICE * 5), 'units_of': (Stretch, *SLICE * 3, SIZE, SIZE),
    'glyphs_of': (Stretch, *SLICE * 3, SIZE, SIZE), 'fault': (Part, *SLICE * 2, U32, SIZE),
    'resolve': (Filled, *SLICE * 2), 'write_escaped': (Writing, *SLICE * 5), 'sheet': (Filled, *SLICE * 2)}
STEPS = 2, 8, 16                # bytes of a unit, of a cluster, of a glyph
LARGE = 8_192, 32_768, 65_536   # bytes for 4,096 of each
LABEL_STEP = 8                  # bytes of a label's two answers
RUN = 'units', 'clusters', 'glyphs'
LABEL = 'text', 'indices'

def as_bytes(run):
    """A run's places in C: a unit 2 bytes, other numbers 4, two's complement, low byte first."""
    return [struct.pack(f'<{len(part)}{code}', *part) for part, code in zip(run, 'Hii')]

def as_numbers(run):
    """The run that such bytes are; None where some are left over."""
    if any(len(part) % step for part, step in zip(run, STEPS)):
        return None
    return [list(struct.unpack(f'<{len(part) // size}{code}', part)) for part, size, code in zip(run, (2, 4, 4), 'Hii')]

class Buffer:
    """Memory for one buffer, with guard bytes around it that must stay."""
    GUARD, POOL = 24, 400_000

    def __init__(self, rng, alphabet, memory=POOL):
        self.rng, self.whole, self.start = rng, b'', 0
        self.memory = ctypes.create_string_buffer(memory)
        self.base = ctypes.addressof(self.memory)
        self.pool = bytes(rng.choices(alphabet, k=self.POOL))

    def slice(self, data=None, length=None, behind=b''):
        """The data, or else room of that length, as a slice in C: at any alignment, and NULL now and then where it has no
        byte. Bytes around it are of the pool, as are those of the room; those next after the data are `behind`."""
        self.start, at = self.GUARD + int(self.rng.random() * 8), int(self.rng.random() * 1000)
        if data is None:
            self.whole = self.pool[at:at + self.start + length + self.GUARD]
        else:
            self.whole, length = self.pool[at:at + self.start] + data + behind + self.pool[at:at + self.GUARD], len(data)
        ctypes.memmove(self.base, self.whole, len(self.whole))
        return (None if length == 0 and self.rng.random() < .5 else self.base + self.start), length

    def difference(self, written):
        """None if the buffer now begins with those bytes and all else is as it was."""
        after = self.whole[:self.start] + written + self.whole[self.start + len(written):]
        got = ctypes.string_at(self.base, len(after))
        return None if got == after else (self.start, after, got)

class Archive:
    def __init__(self, path, rng, report):
        self.rng, self.report, self.functions = rng, report, {}
        library = ctypes.CDLL(path)
        missing = [name for name in FUNCTIONS if not hasattr(library, 'glyph_label_' + name)]
        if missing:
            sys.exit(f'{path} has no ' + ', '.join('glyph_label_' + name for name in missing))
        for name, (result, *arguments) in FUNCTIONS.items():
            self.functions[name] = getattr(library, 'glyph_label_' + name)
            self.functions[name].restype, self.functions[name].argtypes = result, arguments
        self.buffers = {name: Buffer(rng, b'0123456789;,.:()+-eE5{}A\x80\xbf') for name in LABEL}
        self.buffers |= {name: Buffer(rng, range(256)) for name in RUN}
        self.buffers |= {'raw': Buffer(rng, generate.RAW_BYTES), 'out': Buffer(rng, range(256))}
        self.buffers |= {'file': Buffer(rng, b'SLB\1\0\0\0\0\0A5;', 2_000_000), 'answers': Buffer(rng, range(256), 1_000_000)}
        self.large = [ctypes.create_string_buffer(size) for size in LARGE]

    def call(self, name, answer, expected, inputs, outputs=(), extra=(), behind=b''):
        """One call. `inputs` are (buffer, bytes), `outputs` (buffer, size or the bytes it holds, bytes it must begin with
        afterwards). Returns what the outputs now begin with where it was accepted and nothing differs."""
        slices = [self.buffers[buffer].slice(data, behind=behind) for buffer, data in inputs]
        for buffer, size, _ in outputs:
            slices.append(self.buffers[buffer].slice(**{'length' if isinstance(size, int) else 'data': size}))
        sizes = {buffer: size if isinstance(size, int) else len(size) for buffer, size, _ in outputs}
        self.report.announce(call=name, inputs=inputs, behind=behind, sizes=sizes, extra=extra)
        result = self.functions[name](*chain(*slices), *extra)
        fields = [field for field, _ in result._fields_]
        got = tuple(getattr(result, field) for field in fields)
        changes = [(buffer, self.buffers[buffer].difference(b'')) for buffer, _ in inputs]
        changes += [(buffer, self.buffers[buffer].difference(after)) for buffer, _, after in outputs]
        self.report.count(name, ('accepted',) if answer[0] == 'ok' else answer)
        if got != expected or any(change for _, change in changes):
            shown_changes = {}
            for buffer, change in changes:
                if change:
                    shown_changes |= zip((f'{buffer}, guard bytes in front', f'{buffer}, expected', f'{buffer}, got'), change)
            self.report.differ(call=name, **dict(inputs), behind=behind or None, sizes=sizes, extra=extra,
                               expected=dict(zip(fields, expected)), got=dict(zip(fields, got)), **shown_changes)
            return None
        return [after for _, _, after in outputs] if answer[0] == 'ok' else None

    def read(self, text, indices, answer, sizes):
        """The reader, with buffers of these sizes in bytes; `answer` is that of large enough ones."""
        answer = labels.fit_reading(answer, sizes[0] // 2, sizes[1] // 4, sizes[2] // 4)
        stored, expected = (b'', b'', b''), (*answer[1:], 0, 0, 0, 0)
        if answer[0] == 'ok':
            stored = as_bytes(labels.flat(answer[1]))
            expected = (0, 0, *map(len, answer[1]), labels.rounded(indices, answer))
        return self.call('read', answer, expected, [('text', text), ('indices', indices)], list(zip(RUN, sizes, stored)))

    def needed(self, answer):
        return [len(part) * step for part, step in zip(answer[1], STEPS)] if answer[0] == 'ok' else [0, 0, 0]

    def read_around(self, text, indices, answer):
        self.read(text, indices, answer, [generate.around(self.rng, n, step) for n, step in zip(self.needed(answer), STEPS)])

    def write(self, run, sizes=None, escaped=False, answer=None):
        """The writer on three byte strings, with outputs of these sizes, or exact and short ones by chance; `answer` is that
        of large enough ones, where it is known."""
        if answer is None:
            numbers, write = as_numbers(run), attributes.write_escaped if escaped else labels.write
            answer = write(*numbers) if numbers else ('no', 19, 0)
        if sizes is None:
            lengths = map(len, answer[1:]) if answer[0] == 'ok' else (self.rng.randrange(40), self.rng.randrange(40))
            sizes = [generate.around(self.rng, length, 1) for length in lengths]
        answer = labels.fit_writing(answer, *sizes)
        stored, expected = (b'', b''), (*answer[1:], 0, 0)
        if answer[0] == 'ok':
            stored, expected = answer[1:], (0, 0, len(answer[1]), len(answer[2]))
        name = 'write_escaped' if escaped else 'write'
        return self.call(name, answer, expected, list(zip(RUN, run)), list(zip(LABEL, sizes, stored)))

    def resolve(self, raw, room=None, behind=b'', answer=None):
        """Resolving, into room of that size, or exact and short room by chance, with these bytes behind the raw ones; `answer`
        is that of large enough room, where it is known."""
        answer = answer or attributes.resolve(raw)
        if room is None:
            room = generate.around(self.rng, len(answer[1]) if answer[0] == 'ok' else self.rng.randrange(len(raw) + 1), 1)
        answer = attributes.fit_resolving(answer, room)
        stored, expected = (answer[1], (0, 0, len(answer[1]))) if answer[0] == 'ok' else (b'', (*answer[1:], 0))
        return self.call('resolve', answer, expected, [('raw', raw)], [('out', room, stored)], behind=behind)

    def resolve_cut(self, raw):
        """Resolving of the beginning alone, while what would go on with it lies behind."""
        at = self.rng.randrange(len(raw) + 1)
        self.resolve(raw[:at], behind=raw[at:at + 16])

    def there_and_back(self, run):
        """A sound run is written escaped, both outputs are resolved, what comes out is read: each call is lent what the one
        before gave. It is what the writer gives unasked, and reads as the run."""
        unasked, run, sizes = labels.write(*run), as_bytes(run), (24_700, 262_144)
        written = self.write(run, sizes, answer=unasked)
        escaped = self.write(run, sizes, escaped=True, answer=('ok', *map(attributes.escape, unasked[1:])))
        resolved = [self.resolve(raw, len(raw)) for raw in escaped or ()]
        if not written or not escaped or None in resolved:
            return                                                  # reported there
        resolved = [given for outputs in resolved for given in outputs]
        back = self.read(*resolved, labels.read(*resolved), list(map(len, run)))
        self.report.count('there and back', ('accepted',))
        if resolved != written or back != run:
            self.report.differ(chain='write_escaped, resolve, read', **dict(zip(RUN, run)), written=written, escaped=escaped,
                               resolved=resolved, back=back)

    def raw_label(self, *raws):
        """Text before indices is resolved, and what comes out is read."""
        resolved = []
        for raw in raws:
            given = self.resolve(raw, len(raw))
            if given is None:
                return
            resolved += given
        answer = labels.read(*resolved)
        self.report.count('raw labels', ('accepted',) if answer[0] == 'ok' else answer)
        self.read_around(*resolved, answer)

    def held_before(self, size):
        """What a list holds before the call: random bytes, or one byte throughout."""
        r = self.rng.random()
        return self.rng.randbytes(size) if r < .7 else bytes((self.rng.choice((0x00, 0x01, 0xA5, 0xFF)),)) * size

    def sheet(self, file, size=None, behind=b'', answer=None):
        """A file's answers, in a list of that size in bytes, or exact, long and short ones by chance, with these bytes behind
        the file; `answer` is that of a long list, where it is known. Returns the bytes filled where it was accepted."""
        answer = answer or sheets.answer_file(file)
        if size is None:
            needed = 4 * len(answer[1]) if answer[0] == 'ok' else LABEL_STEP * self.rng.randrange(9)
            size = generate.around(self.rng, needed, LABEL_STEP) if self.rng.random() < .95 else needed + self.rng.randint(0, 6000)
        before = self.held_before(size)
        expected, after = sheets.fill(answer, before)
        outcome = ('no', *expected[:2]) if expected[0] else ('ok',)
        given = self.call('sheet', outcome, expected, [('file', file)], [('answers', before, after)], behind=behind)
        return None if given is None else given[0][:4 * expected[2]]

    def alone(self, text, indices):
        """Number and place of the label's single reading, with large buffers."""
        self.report.announce(call='read', text=text, indices=indices)
        result = self.functions['read'](text, len(text), indices, len(indices), *chain(*zip(self.large, LARGE)))
        return result.number, result.place

    def each_alone(self, sheet, given):
        """Every answer in a sheet is that of the single reading."""
        for label, answer in dict.fromkeys(zip(sheet, labels.grouped(sheets.as_numbers(given), 2))):
            single = self.alone(*label)
            self.report.count('sheet, alone', ('no', *single) if single[0] else ('accepted',))
            if single != answer:
                self.report.differ(call='sheet, then read', **dict(zip(LABEL, label)), in_sheet=answer, alone=single)

    def whole_sheet(self, sheet):
        """A sheet's answers in a list by chance, then in an exact one, and each label alone. Returns the latter's bytes."""
        file = sheets.write_sheet(sheet)
        self.sheet(file)
        given = self.sheet(file, LABEL_STEP * len(sheet), answer=('ok', sheets.answers(sheet)))
        if given is not None:
            self.each_alone(sheet, given)
        return given

    def other_labels(self, sheet, given):
        """One label replaced, then two swapped: every other answer stays, and those swapped go with their labels."""
        given = labels.grouped(sheets.as_numbers(given), 2)
        at, other = self.rng.randrange(len(sheet)), self.rng.randrange(len(sheet))
        replaced = sheet[:at] + [generate.sheet_label(self.rng)] + sheet[at + 1:]
        swapped, moved = list(sheet), list(given)
        swapped[at], swapped[other] = sheet[other], sheet[at]
        moved[at], moved[other] = given[other], given[at]
        for name, changed, expected in (('replaced', replaced, given), ('swapped', swapped, moved)):
            after = self.sheet(sheets.write_sheet(changed), LABEL_STEP * len(sheet))
            if after is None:
                continue                                            # reported there
            after = labels.grouped(sheets.as_numbers(after), 2)
            self.report.count(f'sheet, {name}', ('accepted',))
            if any(a != b for k, (a, b) in enumerate(zip(expected, after)) if name == 'swapped' or k != at):
                self.report.differ(call=f'sheet, a label {name}', file=sheets.write_sheet(sheet), at=at, other=other, before=given,
                                   after=after)

    def sheet_edge(self, file):
        """Lists that are exact, empty, too short and longer by bytes, numbers and labels, and much longer; where the file is
        refused, an empty one and another. Each label alone."""
        read = sheets.read_sheet(file)
        answer = ('ok', sheets.answers(read[1])) if read[0] == 'ok' else read
        if read[0] == 'no':
            sizes = {0, LABEL_STEP * (read[2] + self.rng.randrange(3))}
        else:
            needed = 4 * len(answer[1])
            around = -needed, -8, -1, 0, self.rng.randint(1, 7), 2000
            if len(file) < 5000:
                around += -4, 4, *self.rng.choices(range(-17, 18), k=3)
            sizes = {max(0, needed + more) for more in around}
        for size in sorted(sizes):
            given = self.sheet(file, size, answer=answer)
            if read[0] == 'ok' and size == needed and given is not None:
                self.each_alone(read[1], given)

    def sheet_cut_edge(self, sheet):
        """Every beginning of a file, while the rest lies behind, with lists for all labels, for those it has, and empty."""
        file = sheets.write_sheet(sheet)
        for at in range(len(file) + 1):
            for size in {0, LABEL_STEP * len(sheet), LABEL_STEP * self.rng.randrange(len(sheet) + 1)}:
                self.sheet(file[:at], size, behind=file[at:])

    def picks(self, run, first, end):
        numbers = as_numbers(run)
        for name, pick in (('units_of', labels.units_of), ('glyphs_of', labels.glyphs_of)):
            answer = pick(*numbers, first, end) if numbers else ('no', 19, 0)
            expected = (0, 0, *answer[1:]) if answer[0] == 'ok' else (*answer[1:], 0, 0)
            self.call(name, answer, expected, list(zip(RUN, run)), extra=(first, end))

    def fault(self, text, indices, number, place):
        part = labels.fault(text, indices, number, place)
        outcome = 'an entry' if part[0] else 'part of the text' if part[2] else 'empty start'
        self.call('fault', (outcome,), part, [('text', text), ('indices', indices)], extra=(number, place))

    def cut(self, run):
        """The run's bytes, now and then some too many or too few."""
        run = as_bytes(run)
        if self.rng.random() < .08:
            which, off = self.rng.randrange(3), self.rng.randint(1, 16)
            run[which] = run[which] + bytes(off) if self.rng.random() < .5 else run[which][:-off]
        return run

    def label_edge(self, text, indices):
        """Exact buffers, each too short by a byte, the fault shown."""
        answer = labels.read(text, indices)
        needed = self.needed(answer)
        self.read(text, indices, answer, needed)
        self.read_around(text, indices, answer)
        if answer[0] == 'no':
            self.fault(text, indices, *answer[1:])
        for short in range(3):
            if needed[short]:
                self.read(text, indices, answer, [n - (k == short) for k, n in enumerate(needed)])

    def run_edge(self, *run):
        """Exact outputs, each too short by a byte; left-over bytes; picks of all small stretches and beyond any end."""
        answer, run = labels.write(*run), as_bytes(run)
        lengths = list(map(len, answer[1:])) if answer[0] == 'ok' else [9, 9]
        for short in ((0, 0), (1, 0), (0, 1), (1, 1)):
            self.write(run, [max(0, length - less) for length, less in zip(lengths, short)])
        small = len(run[1]) < 80
        for which, off in ((0, 1), (1, 1), (1, 4), (2, 1), (2, 4), (2, 8), (2, 15)) if small else ():
            self.write(run[:which] + [run[which] + bytes(off)] + run[which + 1:], lengths)
            self.write(run[:which] + [run[which][:-off]] + run[which + 1:], lengths)
        ends = (0, 1, 2, 3, 4, 5, 6, 2 ** 32, 2 ** 32 + 1, 2 ** 64 - 1) if small else (0, 1, 4095, 4096, 4097)
        for first in ends:
            for end in ends if small else {first, min(4097, first + 1), 4096}:
                self.picks(run, first, end)

    def tail_run_edge(self, *run):
        """Exact outputs, and picks of some small stretches."""
        answer, run = labels.write(*run), as_bytes(run)
        self.write(run, list(map(len, answer[1:])) if answer[0] == 'ok' else [9, 9])
        for first, end in ((0, 1), (1, 2), (2, 3), (0, 3), sorted(self.rng.sample(range(8), 2))):
            self.picks(run, first, end)

    def raw_edge(self, raw):
        """Exact room, a byte less, more; where it is refused none, and room for all; the beginning alone."""
        answer = attributes.resolve(raw)
        needed = len(answer[1]) if answer[0] == 'ok' else 0
        for room in {needed, max(0, needed - 1), needed + self.rng.randint(1, 9)} if answer[0] == 'ok' else (0, len(raw)):
            self.resolve(raw, room, answer=answer)
        if len(raw) < 1000:
            self.resolve_cut(raw)

    def cut_edge(self, whole):
        """Every beginning, while the rest lies behind."""
        for at in range(len(whole) + 1):
            self.resolve(whole[:at], behind=whole[at:])

    def escape_edge(self, *run):
        """Exact outputs, each too short by a byte, as long as the writing unasked, and empty; left-over bytes; there and back."""
        answer, unasked = attributes.write_escaped(*run), labels.write(*run)
        (text, indices), plain = ([len(part) for part in one[1:]] if one[0] == 'ok' else [9, 9] for one in (answer, unasked))
        parts = as_bytes(run)
        for sizes in ((text, indices), (max(0, text - 1), indices), (text, max(0, indices - 1)), plain, (plain[0], 0), (0, 0)):
            self.write(parts, sizes, escaped=True, answer=answer)
        for which, off in ((0, 1), (1, 1), (1, 4), (2, 1), (2, 8)) if len(parts[1]) < 80 else ():
            self.write(parts[:which] + [parts[which] + bytes(off)] + parts[which + 1:], (text, indices), escaped=True)
        if answer[0] == 'ok':
            self.there_and_back(run)

    def case(self, kind, case):
        if kind == 'fault' or kind.endswith('_edge'):
            getattr(self, kind)(*case)
        elif kind in generate.LABEL_KINDS:
            answer = labels.read(*case)
            self.read_around(*case, answer)
            if answer[0] == 'ok' and self.rng.random() < .2:
                self.write(self.cut(labels.flat(answer[1])))
        elif kind in generate.RUN_KINDS:
            self.write(self.cut(case))
        elif kind in generate.PICK_KINDS:
            self.picks(self.cut(case[0]), *case[1:])
        elif kind in generate.RAW_KINDS:
            self.resolve(case)
            if self.rng.random() < .2:
                self.resolve_cut(case)
        elif kind in generate.RAW_LABEL_KINDS:
            self.raw_label(*case)
        elif kind in generate.ESCAPED_KINDS:
            self.write(self.cut(case), escaped=True)
            if self.rng.random() < .2 and labels.sound(*case):
                self.there_and_back(case)
        elif kind in generate.SHEET_KINDS:
            given = self.whole_sheet(case)
            if given and self.rng.random() < .3:
                self.other_labels(case, given)
        elif kind in generate.FILE_KINDS:
            given = self.sheet(case)
            if given:
                self.each_alone(sheets.read_sheet(case)[1], given)
        else:
            self.fault(*case)

def archive_mode(path, rng, count, kinds, report):
    archive = Archive(path, rng, report)
    fixed = []
    if 'edges' in kinds:
        fixed += [('label_edge', edges.label_edges()), ('run_edge', edges.run_edges()), ('tail_run_edge', edges.tail_runs()),
                  ('fault', edges.fault_edges())]
    if 'raw-edges' in kinds:
        fixed += [('raw_edge', zip(edges.raw_edges())), ('cut_edge', zip(edges.CUT)), ('escape_edge', edges.escape_edges()),
                  ('escaped', edges.run_edges())]
    if 'sheet-edges' in kinds:
        fixed += [('sheet_edge', zip(edges.sheet_edges())), ('sheet_cut_edge', zip(edges.SMALL_SHEETS))]
    fixed_cases = ((kind, case) for kind, cases in fixed for case in cases)
    for kind, case in chain(fixed_cases, random_cases(rng, count, kinds)):
        archive.case(kind, case)
        if report.finished():
            return

# ---- Command line ------------------------------------------------------------------------------------

def kinds_of(mode):
    if mode == 'archive':
        return {'edges': None, 'raw-edges': None, 'sheet-edges': None, **generate.LABEL_KINDS, **generate.RUN_KINDS,
                **generate.PICK_KINDS, **generate.FAULT_KINDS, **generate.RAW_KINDS, **generate.RAW_LABEL_KINDS,
                **generate.ESCAPED_KINDS, **generate.SHEET_KINDS, **generate.FILE_KINDS}
    labels_of = {'edges': list(edges.label_edges()), 'lines': list(edges.line_edges())}
    return {'edges': (40, lambda rng: rng.choice(labels_of['edges'])), 'lines': (1, lambda rng: rng.choice(labels_of['lines'])),
            **generate.LABEL_KINDS, 'large': (.5, generate.large_label)}

def main():
    parser = argparse.ArgumentParser(description=__doc__, formatter_class=argparse.RawDescriptionHelpFormatter)
    parser.add_argument('mode', choices=('relabel', 'trials', 'archive'))
    parser.add_argument('path')
    parser.add_argument('--seed', type=int, default=1)
    parser.add_argument('--count', type=int, default=2000)
    parser.add_argument('--kinds')
    parser.add_argument('--trace', action='store_true')
    options = parser.parse_args()
    kinds = kinds_of(options.mode)
    if options.kinds:
        unknown = set(options.kinds.split(',')) - set(kinds)
        if unknown:
            parser.error(f'{", ".join(sorted(unknown))}: not among the kinds {", ".join(kinds)}')
        kinds = {kind: kinds[kind] for kind in options.kinds.split(',')}
    report = Report(options.trace)
    mode = {'relabel': relabel_mode, 'trials': trials_mode, 'archive': archive_mode}[options.mode]
    mode(options.path, Random(options.seed), options.count, kinds, report)
    print(f'{options.mode}, seed {options.seed}, count {options.count}, kinds {",".join(kinds)}')
    return report.show()

if __name__ == '__main__':
    sys.exit(main())
