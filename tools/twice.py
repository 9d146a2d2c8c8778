#!/usr/bin/env python3
"""Finds text that stands twice in code, definitions and proofs.

  twice.py [--most N]           the whole of crates/, at most N rows (40)
  twice.py [--most N] BASE      only where six of the lines on one side were added since the commit BASE

Prints pairs of places that share six or more lines in a row, the longest first: the same lines, or lines that differ only in names and numbers, each name
and number of one place standing for one of the other. Lines of few words, as the fields of a struct, and names given to what is known in a proof, as
`let at = c.args.at in`, count only where they are the same. Passed over are blank lines, comments, imports, lists of what a proof unfolds and what the check
prints in a proof file: the signatures of goals, invariants and measures, and `search rules`. A text that stands more than twice is a row for each place but the
first.
"""
import argparse, collections, os, re, subprocess

ROOT = os.path.dirname(os.path.dirname(os.path.abspath(__file__)))
LEAST = 6  # lines in a row
NAMES = 20  # names and numbers in them, where they are not the same
PASSED = re.compile(r'\s*(--.*|//.*|(ghost |pub |unfoldable )*use .*|pub mod .*|[\W_]*|else \{'
                    r'|(abbrev )?(pub )?\S+ : goal\.\S+|\S+( t)? c = search rules)\s*')
LISTS = re.compile(r'^( *)unfolding .*(\n\1 +\S.*)*$', re.M)  # what a proof unfolds, over several lines
PLACE = re.compile(r'let \S+ = c(\.[\w-]+)* in')
WORD = re.compile(r"[^\W\d][\w'₀-₉-]*|\d[\w.]*|\S")
# words of the languages and of their tactics: these are never taken for another's name
KEPT = set('let in where record data abbrev unfoldable unfolding pub module λ if else while loop for return match fn mut struct enum impl const true false'
           ' requires ensures bounds now old new result goal args invariant omega arith search rules grind rw simp cc refl sym ap subst cond'.split())


def telling_lines(path):
    """The lines of a file that are compared, with their numbers."""
    text = open(path, encoding='utf-8').read()
    text = LISTS.sub(lambda found: '\n' * found.group(0).count('\n'), text)
    return [(k, line.strip()) for k, line in enumerate(text.split('\n'), 1) if not PASSED.fullmatch(line)]


def shape(lines):
    """Lines with each name and number told by where it first stands; as they are where there are few names in them."""
    numbered, words, names = {}, [], 0
    for line in lines:
        for word in [line] if PLACE.fullmatch(line) else WORD.findall(line) + ['\n']:
            if word not in KEPT and re.fullmatch(r'[^\W_]\S*', word):
                word, names = str(numbered.setdefault(word, len(numbered))), names + 1
            words.append(word)
    return ' '.join(words) if names >= NAMES else '\n'.join(lines)


def files():
    listed = subprocess.run(['git', 'ls-files', '-co', '--exclude-standard', 'crates'], cwd=ROOT, capture_output=True, text=True, check=True).stdout
    return [path for path in listed.split('\n') if path.endswith(('.rt', '.antt')) and os.path.exists(os.path.join(ROOT, path))]


def matches(texts):
    """Pairs of places with equal shapes: (path, first line, path, first line, how many), each run of lines as long as it goes."""
    places = collections.defaultdict(list)
    for path, lines in texts.items():
        for k in range(len(lines) - LEAST + 1):
            places[shape([line for _, line in lines[k:k + LEAST]])].append((path, k))
    partner = {}  # of each window its partner: the first window of that shape that does not overlap it
    for found in places.values():
        for path, k in found[1:]:
            first = next(((other, j) for other, j in found if other != path or j + LEAST <= k), None)
            if first and first != (path, k):
                partner[path, k] = first
    for (path, k), (other, j) in partner.items():
        if partner.get((path, k - 1)) == (other, j - 1):
            continue
        count = LEAST
        while partner.get((path, k + count - LEAST + 1)) == (other, j + count - LEAST + 1):
            count += 1
        yield other, j, path, k, count


def added_lines(base):
    """The numbers of the lines of each file that were added since a commit."""
    added = collections.defaultdict(set)
    diff = subprocess.run(['git', 'diff', '-U0', base, '--', 'crates'], cwd=ROOT, capture_output=True, text=True, check=True).stdout
    for line in diff.split('\n'):
        if line.startswith('+++ b/'):
            path = line[6:]
        hunk = re.match(r'@@ \S+ \+(\d+)(?:,(\d+))? @@', line)
        if hunk:
            start, count = int(hunk.group(1)), int(hunk.group(2) or 1)
            added[path].update(range(start, start + count))
    new = subprocess.run(['git', 'ls-files', '-o', '--exclude-standard', 'crates'], cwd=ROOT, capture_output=True, text=True, check=True).stdout
    for path in new.split():
        added[path] = range(1, 10 ** 6)
    return added


def main():
    parser = argparse.ArgumentParser(description=__doc__, formatter_class=argparse.RawDescriptionHelpFormatter)
    parser.add_argument('base', nargs='?')
    parser.add_argument('--most', type=int, default=40)
    asked = parser.parse_args()
    texts = {path: telling_lines(os.path.join(ROOT, path)) for path in files()}
    added = added_lines(asked.base) if asked.base else None
    rows = []
    for a, j, b, k, count in matches(texts):
        sides = [texts[a][j:j + count], texts[b][k:k + count]]
        if added is not None and max(sum(n in added[path] for n, _ in side) for path, side in zip((a, b), sides)) < LEAST:
            continue
        same = [line for _, line in sides[0]] == [line for _, line in sides[1]]
        rows.append((count, same, f'{a}:{sides[0][0][0]}-{sides[0][-1][0]}', f'{b}:{sides[1][0][0]}-{sides[1][-1][0]}'))
    rows.sort(key=lambda row: (-row[0], not row[1], row[2:]))
    for count, same, a, b in rows[:asked.most]:
        print(f'{count:4} lines, {"the same   " if same else "other names"}  {a}  {b}')
    print(f'twice: {len(rows)} pairs, {sum(row[0] for row in rows)} lines')


if __name__ == '__main__':
    main()
