#!/usr/bin/env python3
"""Counts the lines of crates/label/specs that a reader must believe, and those of crates/glyph_label/specs for the calls for C.

  believe.py

specs/Lib.antt and the files that it names for a folder are tables of contents: the line before each module says where in the papers it belongs, what it is, and
a mark. What is marked "believe" has to be read beside the papers; "proved equal" is proved to come to the same as what is believed; a "statement" is what is
proved of the definitions; "computed" is what they come to on rows. Code lines are counted: not blank, no comment, no import, no `pub mod`. Fails when a module
has no mark.
"""
import os, re, sys

ROOT = os.path.dirname(os.path.dirname(os.path.abspath(__file__)))
SPECS = os.path.join(ROOT, 'crates', 'label', 'specs')
FOR_C = os.path.join(ROOT, 'crates', 'glyph_label', 'specs')
MARKS = ('believe', 'proved equal', 'statement', 'computed')


def lines_of(path):
    return open(os.path.join(SPECS, path), encoding='utf-8').read().splitlines()


def code_lines(path):
    return sum(bool(s) and not s.startswith(('--', 'use ', 'pub mod ')) for s in (line.strip() for line in lines_of(path)))


def modules(contents, folder, unmarked):
    """The files that a table of contents names, with their marks, in its order."""
    before = ''
    for line in lines_of(contents):
        if line.startswith('pub mod '):
            path = os.path.join(folder, line.split()[2])
            said = re.fullmatch(r'-- [^:]+: .+; (.+)', before)
            if not said or said.group(1) not in MARKS:
                unmarked.append(path + '.antt')
            else:
                yield path + '.antt', said.group(1)
            if os.path.isdir(os.path.join(SPECS, path)):
                yield from modules(path + '.antt', path, unmarked)
        before = line


def main():
    unmarked, totals = [], dict.fromkeys(MARKS, 0)
    named = list(modules('Lib.antt', '', unmarked))
    for path, mark in named:
        count = code_lines(path)
        totals[mark] += count
        if mark == 'believe' and count:
            print(f'{count:6} {path}')
    there = {os.path.relpath(os.path.join(folder, name), SPECS) for folder, _, names in os.walk(SPECS) for name in names}
    unmarked += sorted(there - {path for path, _ in named} - {'Lib.antt'} - set(unmarked))
    if unmarked:
        sys.exit('believe: no mark in a table of contents: ' + ' '.join(unmarked))
    print('believe: ' + ', '.join(f'{totals[mark]} lines {mark}' for mark in MARKS))
    for_c = sum(code_lines(os.path.join(FOR_C, name)) for name in ('Answers.antt', 'CallContracts.antt'))
    print(f'believe: {for_c} lines more for the calls for C, in Answers and CallContracts of glyph_label')


if __name__ == '__main__':
    main()
