#!/usr/bin/env python3
"""Holds the must-fail edits against docs/PROMISES.md and against the files that they change.

  edits.py

The table "Edits by the number that goes wrong" names each edit with its crate: names, then "of `crate`". Fails when a file crates/NAME/must-fail/*.edit is not
named there, or a name there has no file; when an `old:` text does not stand exactly once in its file.
"""
import glob, os, re, sys

ROOT = os.path.dirname(os.path.dirname(os.path.abspath(__file__)))


def files():
    for path in glob.glob(os.path.join(ROOT, 'crates', '*', 'must-fail', '*.edit')):
        yield path.split(os.sep)[-3], os.path.basename(path)[:-len('.edit')]


def named(text):
    """The pairs of crate and edit in the table: names wait for the crate, or the crates, behind "of"."""
    table = text[text.index('| number | edits |'):text.index('Some edits stand for')]
    for row in table.split('\n'):
        waiting, last = [], []
        for of, name in re.findall(r'(of |and of )?`([a-z0-9_]+)`', row):
            if of:
                for edit in waiting if of == 'of ' else last:
                    yield name, edit
                if of == 'of ':
                    last = waiting[-1:]
                    waiting = []
            else:
                waiting.append(name)


def misplaced(crate, edit):
    """The first text of an edit that does not stand exactly once in its file, as this is once the edit's earlier texts are changed."""
    folder, path, texts = os.path.join(ROOT, 'crates', crate), None, {}
    for line in open(os.path.join(folder, 'must-fail', edit + '.edit'), encoding='utf-8').read().split('\n'):
        kind, _, text = line.partition(': ')
        if kind == 'file':
            path = os.path.join(folder, text.strip())
            if path not in texts:
                texts[path] = open(path, encoding='utf-8').read() if os.path.exists(path) else ''
        elif kind == 'old':
            old = text
            if texts[path].count(old) != 1:
                return old
        elif kind in ('new', 'new:'):
            texts[path] = texts[path].replace(old, text)
    return None


def main():
    there, said = set(files()), set(named(open(os.path.join(ROOT, 'docs', 'PROMISES.md'), encoding='utf-8').read()))
    wrong = [f'no row of docs/PROMISES.md: {crate}/{edit}' for crate, edit in sorted(there - said)]
    wrong += [f'no such edit: {crate}/{edit}' for crate, edit in sorted(said - there)]
    wrong += [f'{crate}/{edit}: not once in its file: {old}' for crate, edit in sorted(there) for old in [misplaced(crate, edit)] if old is not None]
    if wrong:
        sys.exit('\n'.join(wrong))
    print(f'edits: {len(there)}, each named in docs/PROMISES.md, its old text once in its file')


if __name__ == '__main__':
    main()
