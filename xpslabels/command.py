"""The command line of `labels`."""

import argparse
import os
import resource
import sys
from contextlib import ExitStack
from textwrap import fill

from . import limits
from .comparison import Comparison
from .html_report import HtmlReport
from .library import VARIABLE, Library
from .progress import Progress
from .text_report import TextReport
from .trouble import Unreadable
from .tsv_report import TsvReport
from .walk import Sums, findings_of, opened
from .words import COUNTING, PROVED, shown

ACCEPTED, REFUSED, UNREADABLE = 0, 1, 2         # the exit status

TOO_LARGE = f'takes more memory than the limit, {limits.MEMORY_BYTES // limits.MIB:,} MiB or what the machine has'
ABOUT = 'Reports on every label (Glyphs element) of .xps and .oxps files: which can be trusted, and which glyph is tied to which characters.'
RUN = ('A run is what a label stands for: the same characters tied to the same glyphs with the same sizes are one run, however they are written. '
       'Every run has one normal writing, by which --compare tells it.')
HELP_WIDTH = 83
USAGE = """\
labels [--all] [--tsv] FILE [FILE..]
       labels --html OUT FILE [FILE..]
       labels --compare A B
       labels --help"""
MORE = f"""\
Exit status: 0 all labels accepted (--compare: all the same); 1 some refused (some
differ); 2 a file that cannot be read, or wrong arguments.

{fill(COUNTING, HELP_WIDTH)}

{fill(RUN, HELP_WIDTH)}

{fill(PROVED, HELP_WIDTH)}

Nothing is fetched, and nothing is extracted to disk. Sizes are bounded:
{limits.SENTENCES}

The library is the shared object libglyph_label.so: the one that the variable
{VARIABLE} names, the installed one, or that of the clone, in target/.
"""


def parser():
    made = argparse.ArgumentParser(prog='labels', description=ABOUT, epilog=MORE, formatter_class=argparse.RawDescriptionHelpFormatter,
                                   usage=USAGE, allow_abbrev=False)
    made.add_argument('files', metavar='FILE', nargs='*', help='an .xps or .oxps file')
    made.add_argument('--all', action='store_true', help='every tie, not only those that are not 1:1; the page of --html draws every tie anyway')
    forms = made.add_mutually_exclusive_group()
    forms.add_argument('--tsv', action='store_true', help='one line a label, columns between tabs, for a spreadsheet')
    forms.add_argument('--html', metavar='OUT', help='a page with a picture of each label, written to OUT')
    forms.add_argument('--compare', metavar=('A', 'B'), nargs=2, help='labels of two files, in order: the same run or not')
    return made


def arguments(given):
    """The arguments, or the end of the program with its usage."""
    made = parser()
    found = made.parse_args(given)
    if found.compare and (found.files or found.all):
        made.error('--compare takes two files and nothing else')
    if found.html == '':
        made.error('--html has an empty name')
    if not found.compare and not found.files:
        made.error('no FILE')
    return found


def say(path, sentence):
    """A sentence on standard error."""
    if sys.stderr is not None:
        print(f'labels: {shown(path)}: {sentence}' if path else f'labels: {sentence}', file=sys.stderr, flush=True)


def make_report(found, library, stack):
    """The report that is asked for."""
    if found.html is not None:
        return HtmlReport(stack.enter_context(open_page(found)), sys.stdout, library)
    if found.tsv:
        sys.stdout.reconfigure(encoding='utf-8', errors='backslashreplace', newline='')
        return TsvReport(sys.stdout, library, found.all)
    return TextReport(sys.stdout, library, found.all)


def open_page(found):
    """The file that a page is written to; never one of those that are read."""
    for path in found.files:
        if os.path.exists(path) and os.path.exists(found.html) and os.path.samefile(path, found.html):
            raise Unreadable(f'{shown(found.html)}: the page would overwrite a file that is to be read')
    try:
        return open(found.html, 'w', encoding='utf-8')
    except OSError as error:
        raise Unreadable(f'{shown(found.html)}: the page cannot be written: {error.strerror}') from None


def report_file(path, library, report, progress, every):
    """Reports on one file: its sums, and the trouble that ended it, if any."""
    sums, trouble = Sums(), None
    progress.file = shown(os.path.basename(path))
    try:
        with opened(path, progress) as source:
            report.begin(path, source)
            for page, labels in source.labels():
                if report.PRINTS_LABELS:
                    progress.make_way()
                findings = findings_of(library, labels, every, sums)
                report.page(page, len(labels), progress.through(findings, f'page {page.number}: {{:,}} labels reported', report.PRINTS_LABELS))
    except Unreadable as error:
        trouble = error
    except MemoryError:
        trouble = Unreadable(TOO_LARGE)
    progress.make_way()
    report.end(path, sums, trouble)
    return sums, trouble


def report_files(found, library, progress):
    """Reports on all files."""
    whole, troubles = Sums(), 0
    with ExitStack() as stack:
        report = make_report(found, library, stack)
        for path in found.files:
            sums, trouble = report_file(path, library, report, progress, found.all or found.html is not None)
            whole.include(sums)
            if trouble is not None:
                troubles += 1
                sys.stdout.flush()
                if found.tsv or not sys.stdout.isatty():        # else the report's own sentence is before one's eyes
                    progress.clear()
                    say(path, trouble)
        progress.make_way()
        report.finish(len(found.files), whole)
    return UNREADABLE if troubles else REFUSED if whole.refused else ACCEPTED


def compare_files(paths, library, progress):
    """Compares two files."""
    with ExitStack() as stack:
        sources = []
        for path in paths:
            try:
                sources.append(stack.enter_context(opened(path, progress)))
            except Unreadable as error:
                raise Unreadable(f'{shown(path)}: {error}') from None
        progress.file = ' | '.join(shown(os.path.basename(path)) for path in paths)
        same = Comparison(sys.stdout, library, paths).run(sources, progress)
    return ACCEPTED if same else REFUSED


def run(given):
    """The program: its exit status."""
    found = arguments(given)
    try:
        library = Library()
        with Progress(sys.stderr, sys.stdout) as progress:
            status = compare_files(found.compare, library, progress) if found.compare else report_files(found, library, progress)
        sys.stdout.flush()
        return status
    except Unreadable as error:
        say('', error)
    except MemoryError:
        say('', f'one of the files {TOO_LARGE}')
    except OSError as error:
        say('', f'the report cannot be written: {error.strerror or error}')
        os.dup2(os.open(os.devnull, os.O_WRONLY), sys.stdout.fileno())      # what is left of it is not tried again at the end
    return UNREADABLE


def bound_memory():
    """Bounds the process's own memory: what would take more ends with a sentence."""
    bound, most = resource.getrlimit(resource.RLIMIT_AS)
    if bound == resource.RLIM_INFINITY or bound > limits.MEMORY_BYTES:
        resource.setrlimit(resource.RLIMIT_AS, (limits.MEMORY_BYTES, most))


def main():
    """Runs the program; whatever goes wrong is one sentence."""
    if sys.stdout is None:
        say('', 'standard output is closed')
        return UNREADABLE
    sys.stdout.reconfigure(errors='backslashreplace')
    if sys.stderr is not None:
        sys.stderr.reconfigure(errors='backslashreplace')
    try:
        return run(sys.argv[1:])
    except KeyboardInterrupt:
        return 130
    except Exception as error:
        say('', f'an error of the program itself: {type(error).__name__}: {shown(str(error))}')
        return UNREADABLE
