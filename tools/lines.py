#!/usr/bin/env python3
"""Looks for lines of above 160 characters in crates/.

  lines.py               fails where the definitions of `label` (crates/label/specs) have one; how many the others have is only printed
  lines.py --specs       fails for every crate's specs/
  lines.py --proofs      .. proofs/
  lines.py --sources     .. src/
  lines.py --all         fails for all three

Lines that it fails for are named. Imports (`use`, `ghost use`) are left out.
"""
import argparse, glob, os, re, sys

ROOT = os.path.dirname(os.path.dirname(os.path.abspath(__file__)))
WIDTH = 160
KINDS = {'specs': 'crates/*/specs/**/*.antt', 'proofs': 'crates/*/proofs/**/*.antt', 'sources': 'crates/*/src/**/*.rt'}
DEFINITIONS = os.path.join('crates', 'label', 'specs', '')
LEFT_OUT = re.compile(r'\s*(ghost |pub |unfoldable )*use ')


def long_lines(pattern):
    """The long lines of these files: path, line number, length."""
    for path in sorted(glob.glob(os.path.join(ROOT, pattern), recursive=True)):
        for number, line in enumerate(open(path, encoding='utf-8').read().splitlines(), 1):
            if len(line) > WIDTH and not LEFT_OUT.match(line):
                yield os.path.relpath(path, ROOT), number, len(line)


def main():
    parser = argparse.ArgumentParser(description=__doc__, formatter_class=argparse.RawDescriptionHelpFormatter)
    for kind in KINDS:
        parser.add_argument('--' + kind, action='store_true')
    parser.add_argument('--all', action='store_true')
    asked = vars(parser.parse_args())
    found = {kind: list(long_lines(pattern)) for kind, pattern in KINDS.items()}
    definitions = [line for line in found['specs'] if line[0].startswith(DEFINITIONS)]
    print(f'lines: above {WIDTH} characters: {len(definitions)} in the definitions of label, {len(found["specs"]) - len(definitions)} in other specs, '
          f'{len(found["proofs"])} in proofs, {len(found["sources"])} in sources')
    failed = [line for kind in KINDS if asked[kind] or asked['all'] for line in found[kind]]
    failed += [line for line in definitions if line not in failed]
    if failed:
        sys.exit('\n'.join(f'{path}:{number}: {length} characters' for path, number, length in failed))


if __name__ == '__main__':
    main()
