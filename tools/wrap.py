#!/usr/bin/env python3
"""Breaks lines of above 160 characters in definitions and proofs.

  wrap.py CRATE..     in the .antt files of specs/ and proofs/

Terms are broken between arguments, lists of what a proof unfolds are filled anew, and so is the rest of a comment. Imports stay. Prints the files that it writes.
Run `rt fmt` afterwards, and check the crate.
"""
import argparse, glob, os, re

ROOT = os.path.dirname(os.path.dirname(os.path.abspath(__file__)))
WIDTH = 160


def cuts(line, indent):
    """Where a line may be cut: how deep in parentheses, whether it is a poor place, and the column."""
    depth = 0
    for k, char in enumerate(line[:WIDTH + 1]):
        if char in '([{':
            depth += 1
        elif char in ')]}':
            depth -= 1
        elif char == ' ' and k > indent + 20 and not re.match(r' (\.|in\b|=|:|;|,|\)|≤|≡|<|\+|×|&&)', line[k:]):
            before = line[:k]
            joins = before.endswith((',', ';', '&&', '||', '>>', '++')) or re.match(r' [→∙]', line[k:])
            if not joins and re.search(r'(λ[^.]*|λ .*\.|let \S*|→|∙|≡|≤|<|[-+*×=:]|record|\bap|\brw|\bomega)$', before):
                continue
            yield depth, not joins, k


def declares(line):
    """Whether a line begins a declaration, so that what follows stands deeper."""
    text, depth = line.lstrip(), 0
    if text.startswith(('let ', '(', '→', '∙', 'λ')):
        return False
    for k, char in enumerate(text):
        depth += (char in '([{') - (char in ')]}')
        if depth == 0 and re.match(r' [=:] ', text[k:]):
            return True
    return text.startswith('module ')


def broken(line):
    """A long line in pieces, cut as far outside of parentheses as can be: behind a comma or a joining operator or before an arrow, or else between arguments."""
    if len(line) <= WIDTH or line.lstrip().startswith('use '):
        return [line]
    indent = len(line) - len(line.lstrip())
    found = list(cuts(line, indent))
    if not found:
        return [line]
    low = min(depth for depth, _, _ in found)
    for depth in range(low, low + 8):
        good = [k for d, poor, k in found if d <= depth and not poor and k > indent + 40]
        others = [k for d, _, k in found if d <= depth and k > indent + 60]
        if good or others:
            cut = max(good or others)
            break
    else:
        cut = max(k for _, _, k in found)
    rest = ' ' * (indent + (4 if declares(line) else 0)) + line[cut + 1:]
    return [line[:cut]] + broken(rest)


def filled(words, first, rest):
    """Words in lines of at most the width, behind what begins the first line and the others."""
    lines = [first]
    for word in words:
        if len(lines[-1]) + 1 + len(word) > WIDTH:
            lines.append(rest)
        lines[-1] += (' ' if lines[-1].strip() else '') + word
    return lines


def wrapped(lines):
    done, k = [], 0
    while k < len(lines):
        line, last = lines[k], k + 1
        indent = line[:len(line) - len(line.lstrip())]
        if line.lstrip().startswith('unfolding '):
            while last < len(lines) and lines[last].startswith(indent + '    ') and lines[last].strip():
                last += 1
            words = ' '.join(lines[k:last]).split()
            if any(len(long) > WIDTH for long in lines[k:last]):
                done += filled(words[1:], indent + words[0], indent + '    ')
            else:
                done += lines[k:last]
        elif len(line) > WIDTH and line.lstrip().startswith('-- '):
            while last < len(lines) and lines[last].startswith(indent + '-- ') and not lines[last].startswith(indent + '-- ──'):
                last += 1
            done += filled([word for long in lines[k:last] for word in long.split()[1:]], indent + '--', indent + '--')
        else:
            done += broken(line)
        k = last
    return done


def main():
    parser = argparse.ArgumentParser(description=__doc__, formatter_class=argparse.RawDescriptionHelpFormatter)
    parser.add_argument('crates', nargs='+', metavar='CRATE')
    for crate in parser.parse_args().crates:
        for folder in ('specs', 'proofs'):
            for path in sorted(glob.glob(os.path.join(ROOT, 'crates', crate, folder, '**', '*.antt'), recursive=True)):
                before = open(path, encoding='utf-8').read()
                after = '\n'.join(wrapped(before.split('\n')))
                if after != before:
                    open(path, 'w', encoding='utf-8').write(after)
                    print(f'wrote {os.path.relpath(path, ROOT)}')


if __name__ == '__main__':
    main()
