#!/usr/bin/env python3
"""Lists the lemmas and definitions of specs/ and proofs/ that nothing cites.

  unused.py            of all crates
  unused.py CRATE..    of these; cited from anywhere

A line is a crate, a file and a name; in parentheses stand the statement that it is a value of, and the documents and must-fail edits that name it, which do
not count. What counts is another declaration of its file, a file of any crate that imports the name and uses it, and `x.name` where its file is imported as x.
Answers to goals are left out, as the check asks for them. A lemma that only listed ones cite is listed when they are gone: take them out and look again.
"""
import argparse, os, re, subprocess

ROOT = os.path.dirname(os.path.dirname(os.path.abspath(__file__)))
PART = r'[^\s(){}\[\],;.]+'
PATH = re.compile(rf'\.?{PART}(?:\.{PART})*')  # a name, or x.name; what a dot begins is a field
IMPORT = re.compile(r'^\s*(?:ghost )?(?:pub )?use (Rattle\.[^\s;{]*[^\s;{.])(?:\.\{([^}]*)\})?(?: as ([^\s;]+))?;?$', re.M)
COMMENT = {'.antt': re.compile(r'(?:(?<=\s)|^)--(?=\s|$).*$', re.M), '.rt': re.compile(r'//.*$', re.M)}
DECLARED = re.compile(r'(?:(?:abbrev|unfoldable|pub) )*(?:(?:record|data) (\S+)|(\S+) :(?= (?!goal\.)|$))')
ANSWER = re.compile(r'(?:(?:abbrev|pub) )*\S+ : goal\.')
# where a text gives names to things of its own
BOUND = [re.compile(pattern, re.M) for pattern in (
    r'[({]([^(){}\[\]:=\n]+) : ',  # (x y : A)
    r'λ ([^.(\n]*)\. ',
    r'let ([^=:\n]*?) [:=] ',
    r'^ +(?:pub )?([^\s:]+) : ',  # a field, or a name behind `where`
    r'^ *[^\s=(]+ ((?:(?!let |λ)[^=:\n])*) = ',  # what a clause takes
)]


def code(path):
    """The text of a file without comments, strings, and the names of fields where `record` gives them."""
    text = COMMENT[os.path.splitext(path)[1]].sub('', open(os.path.join(ROOT, path), encoding='utf-8').read())
    return re.sub(rf'([{{;]\s*){PART} = ', r'\1', re.sub(r'"(?:\\.|[^"\\])*"', '""', text))


def names(text):
    """The names in a text: x.y is one, and its x."""
    found = {path for path in PATH.findall(text) if not path.startswith('.')}
    return found | {path.split('.')[0] for path in found}


def bound(text):
    return {name for pattern in BOUND for found in pattern.findall(text) for name in names(found)}


def stands(name, found):
    """Whether a name is among those found; of an operator, as ◌+◌, its sign is."""
    return name in found or '◌' in name and all(sign in found for sign in name.split('◌') if sign)


def declarations(text):
    """The declarations of a file in pieces: the name (None of an answer, and of what a `module _` is given), the text, and the names bound around it."""
    levels, pieces, header = [(0, set())], [(None, '', set())], False
    for line in filter(str.strip, text.split('\n')):
        inner = line.lstrip()
        depth = len(line) - len(inner)
        if not header:
            if levels[-1][0] is None:
                levels[-1] = (depth, levels[-1][1])
            while depth < levels[-1][0]:
                levels.pop()
            declared = DECLARED.match(inner)
            if depth == levels[-1][0] and (inner.startswith('module ') or declared or ANSWER.match(inner)):
                header = inner.startswith('module ')
                name = (declared.group(1) or declared.group(2)) if declared and not header else None
                pieces.append((name, '', set().union(*(around for _, around in levels))))
        name, before, around = pieces[-1]
        pieces[-1] = (name, before + line + '\n', around)
        if header and line.endswith(' where'):
            levels.append((None, bound(pieces[-1][1])))
            header = False
    return pieces


def module(path):
    return 'Rattle.' + os.path.splitext(path)[0].removeprefix('crates/').replace('/', '.')


def citations(path, modules):
    """What a file cites of other files, as pairs of module and name."""
    text = code(path)
    found = names(IMPORT.sub('', text))
    opened = {}  # modules by the names that they have here
    for source, items, known in IMPORT.findall(text):
        if not items:
            opened[known or source.rsplit('.', 1)[1]] = source
        for item in filter(None, map(str.strip, items.split(','))):
            name, local = (item.split(' as ') * 2)[:2]
            if f'{source}.{name}' in modules:
                opened[local] = f'{source}.{name}'
            elif stands(local, found):
                yield source, name
    for first, rest in (name.split('.', 1) for name in found if '.' in name):
        if first in opened:
            yield opened[first], rest.split('.')[0]


def pages(paths):
    """The words of must-fail edits, and those between backquotes of documents, but for the section that only lists all public names."""
    for path in paths:
        if path.endswith(('.md', '.edit')):
            text = open(os.path.join(ROOT, path), encoding='utf-8').read().split('\n## Names\n')[0]
            if path.endswith('.md'):
                text = ' '.join(re.findall(r'`[^`\n]*`', text))
            yield path, set(re.split(r"[^\w'◌-]+", text))


def main():
    parser = argparse.ArgumentParser(description=__doc__, formatter_class=argparse.RawDescriptionHelpFormatter)
    parser.add_argument('crates', nargs='*', metavar='CRATE')
    asked = parser.parse_args().crates
    listed = subprocess.run(['git', 'ls-files', '-co', '--exclude-standard'], cwd=ROOT, capture_output=True, text=True, check=True).stdout.split('\n')
    paths = [path for path in listed if os.path.isfile(os.path.join(ROOT, path))]
    sources = [path for path in paths if re.fullmatch(r'crates/.*\.(antt|rt)', path)]
    modules = {module(path) for path in sources}
    cited = {pair for path in sources for pair in citations(path, modules)}
    named, count, total = dict(pages(paths)), 0, 0
    for path in sources:
        crate, file = path.split('/', 2)[1:]
        if path.endswith('.rt') or asked and crate not in asked:
            continue
        pieces = declarations(IMPORT.sub('', code(path)))
        uses = [(name, names(text) - bound(text) - around) for name, text, around in pieces]
        total += sum(name is not None for name, _, _ in pieces)
        for name, text, _ in pieces:
            if name and (module(path), name) not in cited and not any(other != name and stands(name, found) for other, found in uses):
                statement = re.search(r' : ([A-Z]\S*)$', text.split('\n')[0])
                beside = ['a value of ' + statement.group(1)] if statement else []
                beside += [page for page, words in named.items() if name in words]
                print(crate, file, name + (f'  ({", ".join(beside)})' if beside else ''))
                count += 1
    print(f'unused: {count} of {total} lemmas and definitions')


if __name__ == '__main__':
    main()
