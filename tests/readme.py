#!/usr/bin/env python3
"""Runs the commands of README.md whose output it shows, and compares.

  readme.py

A command is a fenced block whose last line runs one of the programs below; what it prints is the block that follows. What it says before that, to build the
program, is run as well: tools/build.sh makes only what is missing or older than the crates.
"""
import os, re, subprocess, sys

ROOT = os.path.dirname(os.path.dirname(os.path.abspath(__file__)))
PROGRAMS = ('target/plotter', 'target/bin/relabel', 'bin/labels')


def blocks():
    """The fenced blocks of README.md, in order."""
    text = open(os.path.join(ROOT, 'README.md'), encoding='utf-8').read()
    return re.findall(r'^```\w*\n(.*?)^```$', text, re.M | re.S)


def runs_program(line):
    return any(re.search(rf'(^|\| ?|&& ){program} ?', line) for program in PROGRAMS)


def main():
    found, wrong = blocks(), 0
    shown = [(command, output) for command, output in zip(found, found[1:]) if runs_program(command.strip().split('\n')[-1])]
    for command, output in shown:
        done = subprocess.run(['bash', '-c', command], cwd=ROOT, capture_output=True, text=True)
        if done.stdout != output:
            wrong += 1
            print(f'readme: {command.strip()}\nprints\n{done.stdout}{done.stderr}and README shows\n{output}')
    if wrong or not shown:
        sys.exit(f'readme: {wrong} of {len(shown)} commands print something else')
    print(f'readme: {len(shown)} commands print what README shows')


if __name__ == '__main__':
    main()
