#!/usr/bin/env python3
"""Writes the section "Names" of docs/DEFINITIONS.md: every public name of crates/label/specs outside Rows/, with the first row above that names it.

  names.py           writes the section anew
  names.py --check   only fails when a name has no row, or the section is not what would be written

A row is looked at in order: its sentence stands in the first cell, its definitions in the second, as `File: names; File: names`, its remarks in the third.
"""
import os, re, sys

ROOT = os.path.dirname(os.path.dirname(os.path.abspath(__file__)))
SPECS = os.path.join(ROOT, 'crates', 'label', 'specs')
PAGE = os.path.join(ROOT, 'docs', 'DEFINITIONS.md')
INTRODUCTION = '''## Names

Every public name of `crates/label/specs/` outside `Rows/`, by file, in the order of `Lib.antt`. Behind a record are its fields, behind a datatype its cases. \
Beside it is the first row above that names it: its section and its sentence. `tools/names.py` writes this section.
'''


def lines_of(path):
    return open(path, encoding='utf-8').read().split('\n')


def modules(contents='Lib', folder=''):
    """The modules of a table of contents, in its order, without Rows/."""
    for line in lines_of(os.path.join(SPECS, contents + '.antt')):
        if not line.startswith('pub mod '):
            continue
        module = folder + line.split()[2]
        if os.path.isdir(os.path.join(SPECS, module)):
            if module != 'Rows':
                yield from modules(module, module + '/')
        else:
            yield module


def names(module):
    """The public names of a module, each with its fields or cases."""
    found = []
    for line in lines_of(os.path.join(SPECS, module + '.antt')):
        declared = re.match(r'(?:abbrev |unfoldable )?pub (?:record |data )?(\S+)', line)
        part = re.match(r"  (?:pub )?([\w'-]+) : ", line)
        if declared and declared.group(1) != 'mod':
            found.append((declared.group(1), []))
        elif part and found and re.match(r'  ', line):
            found[-1][1].append(part.group(1))
    return found


def shortened(sentence):
    """A sentence of a row, cut behind some ten words."""
    if len(sentence) <= 70:
        return sentence
    return sentence[:62].rsplit(' ', 1)[0].rstrip(',;:') + ' …"'


def rows(page):
    """The rows above "Names": section, sentence, and the names in the other cells, each with the file before it."""
    section = ''
    for line in page[:page.index('## Names')].split('\n'):
        if line.startswith('## '):
            section = line[3:]
        if line.startswith('### '):
            section = re.sub(r'^(CR \d+),.*', r'\1', line[4:])
        cells = re.split(r'(?<!\\) \| ', line.strip().strip('|').strip()) if line.startswith('| ') else []
        if len(cells) >= 2:
            named = []
            for cell in cells[1:]:
                module = ''
                for token in re.finditer(r'([A-Z][\w/]*): |`([^`]+)`', cell):
                    if token.group(1):
                        module = token.group(1)
                    else:
                        named.append((module, token.group(2)))
            yield section, cells[0].strip(), named


def place(module, name, table):
    """The first row that names it with its file, or else without one."""
    short = module.split('/')[-1]
    for strict in (True, False):
        for section, sentence, named in table:
            for file, token in named:
                if (token == name or token.startswith(name + '.')) and (file in (module, short) or not strict):
                    return f'{section}: {shortened(sentence)}'
    return None


def written(page):
    table, text, missing = list(rows(page)), INTRODUCTION, []
    for module in modules():
        found = names(module)
        if not found:
            continue
        text += f'\n### {module}\n\n| Name | Where |\n|---|---|\n'
        for name, fields in found:
            where = place(module, name, table)
            if where is None:
                missing.append(f'{module}: {name}')
            inner = f" ({', '.join(f'`{field}`' for field in fields)})" if fields else ''
            text += f'| `{name}`{inner} | {where} |\n'
    if missing:
        sys.exit('names: no row of docs/DEFINITIONS.md names ' + ', '.join(missing))
    return text


def main():
    page = open(PAGE, encoding='utf-8').read()
    text = page[:page.index('## Names')] + written(page)
    if '--check' not in sys.argv:
        open(PAGE, 'w', encoding='utf-8').write(text)
    elif text != page:
        sys.exit('names: the section "Names" of docs/DEFINITIONS.md is not up to date: run tools/names.py')
    print(f"names: {text[text.index('## Names'):].count(chr(10) + '| `')} public names of the definitions, each with its row")


if __name__ == '__main__':
    main()
