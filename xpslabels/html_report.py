"""A page with a picture of each label: one file, without scripts, that needs no network."""

from html import escape

from . import limits
from .faults import fault_of, shown_around
from .picture import picture_of_refused, picture_of_ties
from .text_report import TextReport, absent_words, place_words, sums_words
from .ties import FONT, Tie, listed, sides, ties_of
from .words import COUNTING, PROVED, counted, named, refusal, shown, shortened

LISTED = 200                    # refused labels that the list of a file has
WRITTEN = 60                    # ties that are written above a picture
SAMPLE = (Tie('o', 1, (82,), False), Tie('fl', 2, (192,), False), Tie('\u0e33', 1, (59, 86), False), Tie('\u0e49\u0e33', 2, (59, 49, 86), False),
          Tie('w', 1, (FONT,), False), Tie('m', 1, (FONT,), True), Tie('\U0001f600', 2, (FONT,), True))

STYLE = """
:root { color-scheme: light; }
body { margin: 0 auto; padding: 1.5rem 2rem 4rem; max-width: 1000px; font: 15px/1.45 system-ui, "Noto Sans", sans-serif; color: #1c2430; background: #fff; }
h1 { font-size: 1.5rem; margin: 0 0 .4rem; }
h2 { font-size: 1.2rem; margin: 2.2rem 0 .3rem; padding-top: .8rem; border-top: 2px solid #1c2430; overflow-wrap: anywhere; }
h3 { font-size: 1rem; margin: 1.6rem 0 .5rem; color: #4a5566; overflow-wrap: anywhere; }
p { margin: .3rem 0; overflow-wrap: anywhere; }
.quiet { color: #5b6675; }
.sums { font-weight: 600; }
.ties span { display: inline-block; margin-right: 1.6em; color: #1f4f9f; }
.trouble { color: #8c1010; background: #fdeeee; border-left: 4px solid #c22; padding: .5rem .8rem; }
article { border: 1px solid #d5dbe3; border-radius: 6px; margin: .6rem 0; padding: .5rem .8rem .3rem; background: #fff; }
article.no { border-color: #c22; background: #fff8f8; }
article header { display: flex; gap: .7rem; align-items: baseline; }
article header .where { flex: none; color: #5b6675; font-size: .85rem; }
article header bdi { overflow-wrap: anywhere; white-space: pre-wrap; }
.answer { flex: none; font: 700 .8rem/1.5 ui-monospace, monospace; border-radius: 4px; padding: 0 .45rem; color: #fff; background: #1a7f4b; }
.no .answer { background: #c22; }
.cause { color: #8c1010; }
.fault { font: .85rem/1.5 ui-monospace, "Noto Sans Mono", monospace; }
.fault mark { background: #f9c6c6; color: #8c1010; }
.scroll { overflow: auto; max-height: 24rem; margin-top: .25rem; }
svg { display: block; }
svg text { text-anchor: middle; }
.c { font-size: 20px; fill: #10161f; }
.u { font: 9px ui-monospace, "DejaVu Sans Mono", monospace; fill: #7a8594; }
.g { font: 12px ui-monospace, "DejaVu Sans Mono", monospace; fill: #10161f; }
.r { font-size: 12px; fill: #5b6675; }
svg path { fill: none; stroke: #b3bcc8; stroke-width: 1; }
.m path { stroke: #1f5fbf; stroke-width: 2; }
.m .g, .m .c { fill: #1f4f9f; font-weight: 600; }
.f path { stroke-dasharray: 2 2; }
.f .g { font-style: italic; fill: #7a6a3a; }
.tail { fill: #faf5e4; }
.e { fill: #fff; stroke: #c9d0d9; }
.x .e { fill: #f9c6c6; stroke: #c22; stroke-width: 2; }
.x .c, .x .g { fill: #b01010; font-weight: 700; }
.x .u { fill: #b01010; }
"""

POLICY = "default-src 'none'; style-src 'unsafe-inline'"        # the browser fetches nothing and runs nothing
LEGEND = ('Characters with their code points above, glyph indices below, a bracket for each cluster; ties that are not 1:1 are blue. '
          '“font” is a glyph that the label leaves to the font; the ground of the unwritten tail, which is the font’s, is yellow. '
          'Columns follow the label’s own order from the left, in a right-to-left script too. ' + COUNTING)


def tie_written(tie):
    """A tie whose characters, whatever their direction, stand before its indices."""
    characters, indices = sides(tie)
    return f'<span><bdi>{escape(shortened(characters, 60))}</bdi> = {escape(shortened(indices, 120))}</span>'


def marked(fault):
    """The offending part of a fault marked."""
    before, part, behind = map(escape, shown_around(fault))
    return f'{fault.where}: {before}<mark>{part or "&#160;"}</mark>{behind}'


class HtmlReport:
    """Writes the page as the labels come, and the sums on standard output as well."""
    PRINTS_LABELS = False

    def __init__(self, page, out, library):
        self.to, self.library, self.drawn, self.files = page, library, 0, 0
        self.began, self.refused, self.links = None, 0, []          # of the present file: its name, its refused labels, links to some of them
        self.words = TextReport(out, library, False)
        self.write(f'<!DOCTYPE html>\n<html lang="en">\n<head>\n<meta charset="utf-8">\n<title>Labels</title>\n'
                   f'<meta http-equiv="Content-Security-Policy" content="{POLICY}">\n'
                   f'<meta name="viewport" content="width=device-width, initial-scale=1">\n<style>{STYLE}</style>\n</head>\n<body>\n'
                   f'<h1>Labels</h1>\n<p class="quiet">{escape(PROVED)}</p>\n'
                   f'<h2>How to read the pictures</h2>\n<div class="scroll">{picture_of_ties(SAMPLE)}</div>\n<p class="quiet">{escape(LEGEND)}</p>')

    def write(self, text):
        self.to.write(text + '\n')

    def heading(self, path):
        self.files += 1
        self.began, self.refused, self.links = path, 0, []
        self.write(f'<h2>{escape(shown(path))}</h2>')

    def begin(self, path, source):
        self.heading(path)
        self.write(f'<p class="quiet">{counted(len(source.pages), "page")} in '
                   f'{counted(source.documents, "document")}; <a href="#sums{self.files}">sums and refused labels</a></p>')
        for note in source.notes:
            self.write(f'<p class="quiet">Note: {escape(note)}</p>')

    def page(self, page, count, findings):
        document = f'document {page.document}' if page.document else 'in no document'
        self.write(f'<h3>Page {page.number}, {document}, {escape(named(page.part))}: {counted(count, "label")}</h3>')
        for finding in findings:
            self.label(finding)

    def label(self, finding):
        """One label: answer, place, text; cause and fault where it is refused; its picture."""
        label, refused = finding.label, finding.number != 0
        self.refused += refused
        name = f'refused{self.files}-{self.refused}'
        text = escape(shown(shortened(label.text.decode('utf-8'), 200)))
        self.write((f'<article class="no" id="{name}">' if refused else '<article>') + f'<header><span class="answer">{"NO" if refused else "ok"}</span>'
                   f'<span class="where">{escape(place_words(label))}</span><bdi>{text}</bdi></header>')
        if refused:
            self.refusal(finding, name)
        else:
            self.ties(finding)
        self.write('</article>')

    def refusal(self, finding, name):
        fault = fault_of(self.library, finding.label, finding.number, finding.place)
        cause = escape(refusal(finding.number, finding.place))
        if len(self.links) < LISTED:
            self.links.append(f'<a href="#{name}">{escape(place_words(finding.label))}</a>: {cause}')
        self.write(f'<p class="cause">{cause}{absent_words(finding.label)}</p>')
        if fault is not None:
            self.write(f'<p class="fault"><bdi>{marked(fault)}</bdi></p>')
        self.drawing(min(len(finding.label.text), limits.DRAWN_OF_LABEL), lambda: picture_of_refused(finding.label, fault))

    def ties(self, finding):
        ties = ties_of(finding.label, finding.reading)
        odd = listed(ties, False)
        if odd:
            more = f'<span>and {len(odd) - WRITTEN:,} more</span>' if len(odd) > WRITTEN else ''
            self.write(f'<p class="ties">{"".join(map(tie_written, odd[:WRITTEN]))}{more}</p>')
        self.drawing(min(len(ties), limits.DRAWN_OF_LABEL), lambda: picture_of_ties(ties))

    def drawing(self, size, draw):
        """A picture, as long as the page has drawn less than its limit."""
        self.drawn += size
        if self.drawn > limits.DRAWN:
            self.write(f'<p class="quiet">No picture: a page draws {limits.DRAWN:,} ties.</p>')
            return
        self.write(f'<div class="scroll">{draw()}</div>')

    def end(self, path, sums, trouble):
        self.words.end(path, sums, trouble)
        if self.began != path:
            self.heading(path)
        self.write(f'<div id="sums{self.files}">')
        if trouble is not None:
            self.write(f'<p class="trouble">This file cannot be read: {escape(str(trouble))}</p>')
        if trouble is None or sums.labels:
            self.sums(sums, 'Up to there ' if trouble else '')
        self.write('</div>')
        self.began = None
        if self.refused:
            items = ''.join(f'<li>{link}</li>' for link in self.links)
            more = f'<p class="quiet">and {self.refused - LISTED:,} more</p>' if self.refused > LISTED else ''
            self.write(f'<p>Refused:</p>\n<ul>{items}</ul>{more}')

    def sums(self, sums, before=''):
        self.write(f'<p class="sums">{before}{escape(sums_words(sums))}</p>')

    def finish(self, files, sums):
        if files > 1:
            self.write(f'<h2>All {files} files</h2>')
            self.sums(sums)
        self.write('</body>\n</html>')
        self.to.flush()
        self.words.finish(files, sums)
