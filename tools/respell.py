#!/usr/bin/env python3
"""Brings the names of this repository's own definitions, lemmas, fields and constructors to snake case, after port.py.

use: python3 tools/respell.py          at the top of the repository, once: rewrites crates/*/specs, crates/*/proofs, the clauses of crates/*/src and the
                                       texts of crates/*/must-fail in place, and prints what it renamed and what it left
     python3 tools/respell.py --docs   the same names between backticks in README.md and docs/*.md, by the table that the first form wrote

A name is turned where a file of specs/ or of proofs/ (not of the proof of one function) declares it: fooBar and foo-bar become foo_bar. Operators, types,
modules, names of functions and of what Rattle makes of the source stay. A name whose new spelling another name of the repository, or one that a file imports
from elsewhere, has already is listed as falling together: the definition has the plain spelling, a law or a field beside it `_holds` after it.
"""

import collections, os, re, sys

ROOT = os.path.dirname(os.path.dirname(os.path.abspath(__file__)))
TABLE = os.path.join(ROOT, 'tools', 'respelled.tsv')
NAME = r"[^\s(){}\[\].;,\"`]+"
WORDS = r'(?:pub|abbrev|unfoldable|private)'
DECLARED = re.compile(r'^( *)(?:%s )*(%s(?: %s)*) : ' % (WORDS, NAME, NAME))
TURNED = re.compile(r'^[a-z][a-zA-Z0-9\'′]*(?:[-_][a-zA-Z0-9\'′]+)*$')
LAW = '_holds'


def snake(name):
    name = name.replace('getD', 'get_or')
    name = re.sub(r'(?<=[a-z0-9])(?=[A-Z])', '_', name)
    return name.replace('-', '_').lower()


def files(kind):
    for folder, folders, names in os.walk(os.path.join(ROOT, 'crates')):
        folders[:] = sorted(f for f in folders if f != 'out')
        for n in sorted(names):
            if n.endswith(kind):
                yield os.path.join(folder, n)


def of_a_function(path):
    """Whether the file is part of the proof of one function."""
    return re.search(r'/proofs/[a-z+][^/]*/', path) is not None


def imported(text):
    """What a file imports, with the module it comes from."""
    for m in re.finditer(r'^(?:pub )?(?:ghost )?use ([\w.+]+)\.\{([^}]*)\}', text, re.M):
        for n in m.group(2).split(','):
            yield m.group(1), n.split(' as ')[0].strip()


def code(text):
    return re.sub(r'--.*', '', text)


def declared():
    """Names to turn, names that stay."""
    turn, stay = {}, collections.defaultdict(set)
    for path in files('.antt'):
        text = open(path, encoding='utf-8').read()
        for module, n in imported(text):
            if not module.startswith('Rattle.') or module.startswith('Rattle.std'):
                stay[n].add(module)
        for line in code(text).split('\n'):
            m = DECLARED.match(line)
            if not m or line.lstrip().startswith('use '):
                continue
            for n in m.group(2).split(' '):
                if of_a_function(path):
                    continue
                if TURNED.match(n) and snake(n) != n:
                    turn.setdefault(n, set()).add(path)
                else:
                    stay[n].add(path)
    return turn, stay


def table():
    """The names to turn; names in snake case that make way, in .antt files and not as members; and what fell together."""
    turn, stay = declared()
    new, aside, said = {}, {}, []
    groups = collections.defaultdict(list)
    for n in sorted(turn):
        if any(not s.startswith('/') for s in stay.get(n, ())):
            said.append(f'left: {n} is also a name of {sorted(stay[n])[0]}')
        else:
            groups[snake(n)].append(n)
    for to, ns in sorted(groups.items()):
        there = stay.get(to, set())
        foreign = [s for s in there if not s.startswith('/')]
        if foreign:
            said.append(f'together: {", ".join(ns)} with {to} of {foreign[0]}')
        # a definition in camel case is first, then one that is there in specs/
        ns.sort(key=lambda n: '-' in n)
        first = None if foreign or ('-' in ns[0] and there) else ns[0]
        for n in ns:
            new[n] = to if n == first else to + LAW
        if first and there:
            aside[to] = to + LAW
        if len(ns) > 1 or there:
            said.append(f'together: {", ".join(ns + ([to] if there else []))}: {", ".join(f"{k} is now {v}" for k, v in [(n, new[n]) for n in ns] + ([(to, aside[to])] if to in aside else []))}')
        for n in ns:
            if new[n].endswith(LAW) and (new[n] in stay or new[n] in groups):
                sys.exit(f'respell: {new[n]} is there already')
    return new, aside, said


def turned(text, new, aside, of_function, dashes):
    """The text with the names turned, but for strings. In the proof of one function a member with a dash is a name of a goal or a step and stays."""
    def one(m):
        name, member = m.group(0), m.string[m.start() - 1:m.start()] == '.'
        if of_function and member and '-' in name:
            return name
        if name in aside and not member:
            return aside[name]
        return new.get(name, name)
    return '\n'.join(''.join(p if p.startswith('"') and not line.lstrip().startswith(dashes) else re.sub(r"(?<![\w'′-])[a-z][\w'′-]*", one, p)
                             for p in re.split(r'("[^"]*")', line)) for line in text.split('\n'))


def moved():
    """Rattle makes a module `specs.contracts`, so the file Contracts.antt of glyph_label is CallContracts.antt."""
    old, new = (os.path.join(ROOT, 'crates/glyph_label/specs', n + '.antt') for n in ('Contracts', 'CallContracts'))
    if not os.path.exists(old):
        return
    os.rename(old, new)
    yield f'{os.path.relpath(old, ROOT)} is now {os.path.relpath(new, ROOT)}'
    for path in list(files('.antt')) + list(files('.rt')):
        text = open(path, encoding='utf-8').read()
        to = text.replace('Rattle.glyph_label.specs.Contracts.', 'Rattle.glyph_label.specs.CallContracts.')
        if path.endswith('glyph_label/specs/Lib.antt'):
            to = re.sub(r'^pub mod Contracts$', 'pub mod CallContracts', to, flags=re.M)
        if to != text:
            open(path, 'w', encoding='utf-8').write(to)


def main():
    if sys.argv[1:] == ['--docs']:
        new = dict(l.rstrip('\n').split('\t') for l in open(TABLE, encoding='utf-8'))
        for folder in ('.', 'docs'):
            for n in sorted(os.listdir(os.path.join(ROOT, folder))):
                if n.endswith('.md') and n != 'PORT.md':
                    path = os.path.join(ROOT, folder, n)
                    text = open(path, encoding='utf-8').read()
                    to = re.sub(r'`[^`\n]+`', lambda m: turned(m.group(0), new, {}, False, '--'), text)
                    if to != text:
                        open(path, 'w', encoding='utf-8').write(to)
        return
    new, aside, said = table()
    print('\n'.join(said))
    for path in list(files('.antt')) + list(files('.rt')) + list(files('.edit')):
        text = open(path, encoding='utf-8').read()
        to = turned(text, new, aside if path.endswith('.antt') else {}, of_a_function(path), '--' if path.endswith('.antt') else '//')
        if to != text:
            open(path, 'w', encoding='utf-8').write(to)
    for path in moved():
        print(f'respell: {path}')
    with open(TABLE, 'w', encoding='utf-8') as f:
        f.writelines(f'{n}\t{new[n]}\n' for n in sorted(new))
    print(f'respell: {len(new)} names, listed in {os.path.relpath(TABLE, ROOT)}')


if __name__ == '__main__':
    main()
