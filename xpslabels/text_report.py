"""The report for people: a line a label, its ties or its fault below it, and the sums."""

from .faults import fault_of, fault_words
from .ties import listed, tie_words, ties_of
from .words import counted, named, quoted, refusal, shown

INDENT, WIDTH, GAP = ' ' * 4, 110, ' ' * 3


def sums_words(sums):
    return (f'{counted(sums.labels, "label")}, {sums.accepted:,} accepted, {sums.refused:,} refused, '
            f'{counted(sums.rounded, "value")} finer than thousandths')


def place_words(label):
    """Page and line, and what else is to be said of where a label stands."""
    words = f'page {label.page.number}, line {label.line}'
    if label.part != label.page.part:
        words += f' of {named(label.part)}'
    return words + (f' (in {label.within})' if label.within else '')


def absent_words(label):
    """Which attributes a refused label does not have; else they look as empty ones."""
    return ''.join(f'  (no {name})' for name in label.absent)


def filled(words):
    """The words in lines of a width, with a gap between two."""
    line = ''
    for word in words:
        if line and len(line) + len(GAP) + len(word) > WIDTH:
            yield INDENT + line
            line = ''
        line += (GAP if line else '') + word
    if line:
        yield INDENT + line


class TextReport:
    """Prints page by page. `every` lists each tie."""
    PRINTS_LABELS = True                # a line or more on standard output for each

    def __init__(self, out, library, every):
        self.out, self.library, self.every = out, library, every

    def begin(self, path, source):
        pages = f'{counted(len(source.pages), "page")} in {counted(source.documents, "document")}'
        self.out.write('\n'.join([f'{shown(path)}: {pages}', *(f'note: {note}' for note in source.notes), '']))

    def page(self, page, count, findings):
        self.out.write(f'page {page.number} is {named(page.part)}: {counted(count, "label")}\n')
        for finding in findings:
            self.out.write('\n'.join([*self.lines_of(finding), '']))

    def lines_of(self, finding):
        label = finding.label
        text = quoted(label.text.decode('utf-8'))
        if finding.number == 0:
            yield f'{place_words(label)}: ok  {text}'
            if finding.reading is not None:
                yield from filled(map(tie_words, listed(ties_of(label, finding.reading), self.every)))
            return
        yield f'{place_words(label)}: NO  {text}{absent_words(label)}'
        yield INDENT + refusal(finding.number, finding.place)
        fault = fault_of(self.library, label, finding.number, finding.place)
        if fault is not None:
            yield INDENT + fault_words(fault)

    def end(self, path, sums, trouble):
        if trouble is not None:
            self.out.write(f'{shown(path)}: UNREADABLE: {trouble}\n')
        if trouble is None or sums.labels:
            self.out.write(f'{shown(path)}: {"up to there " if trouble else ""}{sums_words(sums)}\n')

    def finish(self, files, sums):
        if files > 1:
            self.out.write(f'all {files} files: {sums_words(sums)}\n')
