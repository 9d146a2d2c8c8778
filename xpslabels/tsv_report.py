"""One line a label, for a spreadsheet: columns between tabs, UTF-8, the first line their names."""

from .faults import fault_of
from .text_report import absent_words
from .ties import listed, tie_words, ties_of
from .words import CAUSES

COLUMNS = ('file', 'document', 'page', 'part', 'line', 'column', 'within', 'answer', 'number', 'place', 'cause', 'offending',
           'finer than thousandths', 'ties', 'UnicodeString', 'Indices')
CONTROLS = *range(0x20), *range(0x7f, 0xa0)
ESCAPES = {**{code: f'\\x{code:02x}' for code in CONTROLS},
           **str.maketrans({'\\': '\\\\', '\t': '\\t', '\n': '\\n', '\r': '\\r', '\u2028': '\\u2028', '\u2029': '\\u2029'})}
TAKEN = tuple('=+-@\'"')        # a spreadsheet may take a cell that begins so for a formula, or for one that goes on to the next quote


def cell(value):
    """One cell: `\\` stands before what would end it, and `'` before what a spreadsheet would not take as it stands."""
    text = value if isinstance(value, str) else str(value)
    text = text.translate(ESCAPES)
    return "'" + text if text.startswith(TAKEN) else text


class TsvReport:
    PRINTS_LABELS = True

    def __init__(self, out, library, every):
        self.out, self.library, self.every, self.path = out, library, every, ''
        self.line(COLUMNS)

    def line(self, cells):
        self.out.write('\t'.join(map(cell, cells)) + '\n')

    def begin(self, path, source):
        self.path = path.encode('utf-8', 'backslashreplace').decode('utf-8')

    def page(self, page, count, findings):
        for finding in findings:
            self.line(self.cells(page, finding))

    def cells(self, page, finding):
        label = finding.label
        where = self.path, page.document or '', page.number, label.part, label.line, label.column, label.within
        values = label.text.decode('utf-8'), label.indices.decode('utf-8')
        if finding.number != 0:
            fault = fault_of(self.library, label, finding.number, finding.place)
            cause = CAUSES[finding.number] + absent_words(label)
            return *where, 'NO', finding.number, finding.place, cause, fault.part if fault else '', 0, '', *values
        ties = listed(ties_of(label, finding.reading), self.every) if finding.reading else []
        rounded = finding.reading.rounded if finding.reading else 0
        return *where, 'ok', 0, 0, '', '', rounded, '; '.join(map(tie_words, ties)), *values

    def end(self, path, sums, trouble):
        """The sums of a table are the spreadsheet's."""

    def finish(self, files, sums):
        """Nothing follows the last label."""
