#!/usr/bin/env python3
"""Compares the definitions of crates/label/specs with the independent reader: labels, raw attribute values, bytes to escape and sheets, with that reader's
answers, become rows of theorems, which the prover computes.

  compare.py [--seed N] [--count N]

The folder specs/Rows of a copy of crates/label outside the repository is replaced: its rows' types stay, whole files of rows and theorems are written beside
them, and the copy is checked. Of the files that are replaced only code is read: which module a name is imported from, and which definitions the proof of a
theorem unfolds.
"""
import argparse, json, os, re, shutil, subprocess, sys, tempfile

ROOT = os.path.dirname(os.path.dirname(os.path.dirname(os.path.abspath(__file__))))


def bytes_of(hexed):
    return numbers(bytes.fromhex(hexed))


def numbers(values):
    return '(' + ' ∷ '.join([str(v) for v in values] + ['[]']) + ')'


def signed(z):
    return f'(pos {z})' if z >= 0 else f'(negsuc {-z - 1})'


def pairs(flat, n):
    return [flat[k:k + n] for k in range(0, len(flat), n)]


def glyph(g):
    index = f'Named {g[0]}' if g[0] >= 0 else 'Font'
    advance = f'Given {g[1]}' if g[1] >= 0 else 'Own'
    return f'record {{ index = {index}; advance = {advance}; u = {signed(g[2])}; v = {signed(g[3])} }}'


def row(label):
    answer = label['answer']
    if 'no' in answer:
        said = f"refused {answer['no'][0]} {answer['no'][1]}"
    else:
        clusters = numbers([f'cluster {a} {b}' for a, b in pairs(answer['clusters'], 2)])
        glyphs = numbers([glyph(g) for g in pairs(answer['glyphs'], 4)])
        said = f"reads {numbers(answer['units'])} {clusters} {glyphs} {bytes_of(answer['text'])} {bytes_of(answer['indices'])}"
    return f"    label_row {bytes_of(label['text'])} {bytes_of(label['indices'])} ({said}) ∷"


def counted(label):
    return f"    count_row {bytes_of(label['text'])} {bytes_of(label['indices'])} {label['rounded']} ∷"


def resolved(value):
    answer = value['answer']
    said = f"no {answer['no'][0]} {answer['no'][1]}" if 'no' in answer else f"ok {bytes_of(answer['ok'])}"
    return f"    raw_row {bytes_of(value['raw'])} ({said}) ∷"


def escaped(value):
    return f"    escape_row {bytes_of(value['bytes'])} {bytes_of(value['escaped'])} ∷"


def answered(sheet):
    answer = sheet['answer']
    said = f"no {answer['no'][0]} {answer['no'][1]}" if 'no' in answer else f"ok {numbers([signed(z) for z in answer['ok']])}"
    return f"    sheet_row {bytes_of(sheet['file'])} {sheet['room']} ({said}) ∷"


def rows_of(name, kind, rows):
    return f'unfoldable pub {name} : List {kind}\n{name} =\n' + '\n'.join(rows + ['    []']) + '\n'


class Rows:
    """The folder specs/Rows of a copy."""

    def __init__(self, specs):
        self.specs = specs
        self.folder = os.path.join(specs, 'Rows')
        self.files = {name: open(os.path.join(self.folder, name), encoding='utf-8').read() for name in sorted(os.listdir(self.folder))}
        self.modules = {}
        for text in self.files.values():
            for module, names in re.findall(r'^use ([^{\n]+)\.\{(.+)\}$', text, re.M):
                self.modules.update((name, module) for name in names.split(', '))
        types = re.findall(r'^(?:abbrev pub|pub record|pub data) (\S+)', self.files['Types.antt'], re.M)
        constructors = re.findall(r'^  (\w+) : ', self.files['Types.antt'], re.M)
        self.modules.update((name, 'Rattle.label.specs.Rows.Types') for name in types + constructors)

    def unfolding(self, theorem):
        """The definitions that the proof of a theorem of this folder unfolds, without lists of rows."""
        for text in self.files.values():
            found = re.search(rf'^pub {theorem} :[^\n]*\n(?:    [^\n]*\n)*unfolding ([^\n]*(?:\n    [^\n]*)*)\n', text, re.M)
            if found:
                return [name for name in found.group(1).split() if not name.endswith('_rows')]
        sys.exit(f'definitions: no theorem {theorem} in {self.folder}')

    def theorem(self, name, rows, kind, computed, answer):
        """Computed of each of some rows is the row's answer."""
        return (f'pub {name} : map (λ (r : {kind}). {computed}) {rows} ≡ map (λ (r : {kind}). r.{answer}) {rows}\n'
                f'unfolding {" ".join([rows] + self.unfolding(name))}\n{name} = refl\n')

    def write(self, name, *parts):
        """The file of these parts, with the imports that they need."""
        text = '\n'.join(parts)
        used = set(re.findall(r'(?<![.\w-])[^\W\d][\w-]*', text)) | {'◌≡◌', '◌∷◌', '[]'}
        imports = {}
        for word in sorted(used & set(self.modules)):
            imports.setdefault(self.modules[word], []).append(word)
        lines = [f'use {module}.{{{", ".join(words)}}}' for module, words in sorted(imports.items())]
        with open(os.path.join(self.folder, name), 'w', encoding='utf-8') as out:
            out.write('-- Rows of the independent reader.\n-- Assumes nothing.\n' + '\n'.join(lines) + '\n\n' + text)

    def replace(self, labels, values, sheets):
        """These labels, the counts of their rounded fields, these raw values, bytes and sheets in place of the rows that are there."""
        for name in self.files:
            if name != 'Types.antt':
                os.remove(os.path.join(self.folder, name))
        self.write('Document.antt',
                   rows_of('document_rows', 'LabelRow', [row(l) for l in labels]),
                   self.theorem('labels', 'document_rows', 'LabelRow', 'said (read r.text r.indices)', 'answer'))
        self.write('RoundedCount.antt',
                   rows_of('rounded_rows', 'RoundedRow', [counted(l) for l in labels]),
                   self.theorem('rounded_labels', 'rounded_rows', 'RoundedRow', 'beside (rounded r.indices) (read r.text r.indices)', 'count'))
        self.write('Attribute.antt',
                   rows_of('raw_rows', 'RawRow', [resolved(v) for v in values if 'raw' in v]),
                   self.theorem('raw_values', 'raw_rows', 'RawRow', 'resolve r.raw', 'answer'),
                   rows_of('escape_rows', 'EscapeRow', [escaped(v) for v in values if 'bytes' in v]),
                   self.theorem('escaped_values', 'escape_rows', 'EscapeRow', 'escape r.bytes', 'escaped'))
        self.write('Sheet.antt',
                   rows_of('sheet_rows', 'SheetRow', [answered(s) for s in sheets]),
                   self.theorem('sheets', 'sheet_rows', 'SheetRow', 'sheet_into r.room r.file', 'answer'))
        with open(os.path.join(self.specs, 'Rows.antt'), 'w', encoding='utf-8') as out:
            out.write(''.join(f'pub mod {name[:-5]}\n' for name in sorted(os.listdir(self.folder))))


def answers(*arguments):
    """What the independent reader says of its own cases."""
    reader = os.path.join(ROOT, 'tests', 'independent', 'rows.py')
    out = subprocess.run([sys.executable, reader, *arguments], capture_output=True, text=True, check=True).stdout
    return [json.loads(line) for line in out.splitlines()]


def main():
    parser = argparse.ArgumentParser()
    parser.add_argument('--seed', default='1')
    parser.add_argument('--count', default='60')
    args = parser.parse_args()
    labels = answers('--seed', args.seed, '--count', args.count)
    values = answers('--raw', '--seed', args.seed, '--count', args.count)
    sheets = answers('--sheets', '--seed', args.seed, '--count', args.count)
    with tempfile.TemporaryDirectory() as folder:
        subprocess.run(['git', 'init', '-q', folder], check=True)
        label = os.path.join(folder, 'crates', 'label')
        shutil.copytree(os.path.join(ROOT, 'crates', 'label'), label, ignore=shutil.ignore_patterns('must-fail', 'out'))
        open(os.path.join(folder, 'crates.txt'), 'w').write('label:\n')
        Rows(os.path.join(label, 'specs')).replace(labels, values, sheets)
        done = subprocess.run(['rt', 'check'], cwd=label, capture_output=True, text=True)
    accepted = sum('no' not in l['answer'] for l in labels)
    numbers_seen = sorted({l['answer']['no'][0] for l in labels if 'no' in l['answer']})
    if done.returncode != 0:
        said = done.stdout + done.stderr
        print(said[max(said.find(': error'), 0):][:4000])
        sys.exit(f'definitions: the theorems of {len(labels)} labels, {len(values)} raw values and bytes to escape and {len(sheets)} sheets were refused')
    rounded = sum(l['rounded'] for l in labels)
    bad = sum('no' in v.get('answer', ()) for v in values)
    print(f'definitions: {len(labels)} labels computed by the prover agree with the independent reader'
          f' ({accepted} accepted, {rounded} fields rounded; refusals {" ".join(map(str, numbers_seen))});'
          f' so do {sum("raw" in v for v in values)} raw values ({bad} refused), {sum("bytes" in v for v in values)} escapings'
          f' and {len(sheets)} sheets ({sum("no" in s["answer"] for s in sheets)} refused)')


if __name__ == '__main__':
    main()
