#!/usr/bin/env python3
"""Makes small changes to the code and shows that the prover refuses each.

  mutate.py [--seed N] [--count N] [--crate NAME]..

A change is one operator, bound or number of a line of crates/*/src/*.rt outside contracts and comments. It is made in a copy of the repository, and only its
crate is checked (the last crate of crates.txt is tried first); the checks begin with what earlier ones on this machine kept. Printed for each: refused by a
fact, refused because a proof names what the change took away, refused by the compiler, or NOT REFUSED, which is looked at by hand: such a change must not change
what the code does. A check that gives no verdict, as where it is killed, is printed as UNKNOWN, and fails as NOT REFUSED does.
"""
import argparse, os, random, re, shutil, subprocess, sys, tempfile

# an error in a proof that names what the code no longer has, and one that only follows from another
NAMES = re.compile(r'(note: )?(\./)?proofs/.*(has no field|is not in scope|has no `|was not admitted)')
ROOT = os.path.dirname(os.path.dirname(os.path.dirname(os.path.abspath(__file__))))
SWAPS = [(' < ', ' <= '), (' <= ', ' < '), (' == ', ' != '), (' != ', ' == '), (' + ', ' - '), (' - ', ' + '), (' += ', ' -= '), (' -= ', ' += '),
         (' * ', ' + '), (' / ', ' % '), (' % ', ' / '), (' & ', ' | '), (' | ', ' & '), (' << ', ' >> '), (' >> ', ' << '), ('true', 'false'), ('false', 'true'),
         ('if !', 'if ')]


def crates():
    """The crates whose functions promise something, in the order of crates.txt: each behind those that it is built on."""
    names = [line.split(':')[0].split()[0] for line in open(os.path.join(ROOT, 'crates.txt'), encoding='utf-8') if ':' in line and not line.startswith('#')]
    sources = {name: os.path.join(ROOT, 'crates', name, 'src') for name in names}
    return [name for name in names if any('ensures' in open(os.path.join(sources[name], f), encoding='utf-8').read() for f in os.listdir(sources[name]))]


def code_lines(lines):
    """The numbers of lines that hold code: no comment, no contract, no declaration."""
    inside = False
    for k, line in enumerate(lines):
        s = line.strip()
        if re.match(r'(pub )?(extern "C" )?fn ', s):
            inside = s.endswith('{')
            continue
        if s == '{':
            inside = True
            continue
        if not inside or s.startswith(('//', 'ensures', 'requires', 'ghost', 'use ', '#', 'pub ', 'fn ', 'const')):
            continue
        if not s:
            continue
        yield k


def changes(path):
    lines = open(path, encoding='utf-8').read().split('\n')
    for k in code_lines(lines):
        for old, new in SWAPS:
            for m in re.finditer(re.escape(old), lines[k]):
                yield k, lines[k][:m.start()] + new + lines[k][m.end():]
        for m in re.finditer(r'(?<![\w.])(0x[0-9a-f_]+|\d[\d_]*)(?![\w.])', lines[k]):
            n = int(m.group(1).replace('_', ''), 0)
            yield k, lines[k][:m.start()] + str(n + 1) + lines[k][m.end():]
            if n > 0:
                yield k, lines[k][:m.start()] + str(n - 1) + lines[k][m.end():]


def kind_of(status, out):
    """What a check of a changed crate shows."""
    if status == 0:
        return 'NOT REFUSED'
    said = [line for line in out.split('\n') if re.match(r'(note: )?\S+:\d+:\d+:', line)]
    said = [line for line in said if ': error' in line or line.startswith('note: ')] or said
    if status != 1:
        return 'UNKNOWN'
    if re.search(r'^logic=not-proved', out, re.M):
        return 'shape' if said and all(NAMES.match(line) for line in said) else 'fact'
    return 'compiler' if re.search(r'\berror\[[\w-]+\]', out) else 'UNKNOWN'


def try_change(folder, crate, path, k, line):
    whole = os.path.join(folder, path)
    before = open(whole, encoding='utf-8').read()
    lines = before.split('\n')
    old, lines[k] = lines[k], line
    open(whole, 'w', encoding='utf-8').write('\n'.join(lines))
    done = subprocess.run(['rt', 'check'], cwd=os.path.join(folder, 'crates', crate), capture_output=True, text=True)
    open(whole, 'w', encoding='utf-8').write(before)
    kind = kind_of(done.returncode, done.stdout + done.stderr)
    print(f'{kind:12} {path}:{k + 1}: {old.strip()}  ->  {line.strip()}', flush=True)
    return kind


def main():
    parser = argparse.ArgumentParser()
    parser.add_argument('--seed', type=int, default=1)
    parser.add_argument('--count', type=int, default=40)
    order = crates()
    parser.add_argument('--crate', action='append', choices=order)
    args = parser.parse_args()
    rng = random.Random(args.seed)
    found = []
    for crate in args.crate or order:
        src = os.path.join('crates', crate, 'src')
        for name in sorted(os.listdir(os.path.join(ROOT, src))):
            found += [(crate, os.path.join(src, name), k, line) for k, line in changes(os.path.join(ROOT, src, name))]
    picked = rng.sample(found, min(args.count, len(found)))
    totals = {}
    with tempfile.TemporaryDirectory() as folder:
        subprocess.run(['git', 'init', '-q', folder], check=True)
        shutil.copytree(os.path.join(ROOT, 'crates'), os.path.join(folder, 'crates'), ignore=shutil.ignore_patterns('must-fail', 'out'))
        shutil.copy(os.path.join(ROOT, 'crates.txt'), folder)
        for change in sorted(picked, key=lambda c: (-order.index(c[0]), c)):
            kind = try_change(folder, *change)
            totals[kind] = totals.get(kind, 0) + 1
    print(f'mutation, seed {args.seed}: {len(picked)} of {len(found)} changes tried: ' + ', '.join(f'{n} {kind}' for kind, n in sorted(totals.items())))
    sys.exit('NOT REFUSED' in totals or 'UNKNOWN' in totals)


if __name__ == '__main__':
    main()
