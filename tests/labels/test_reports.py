"""What is printed: the report, --all, --tsv, --html, --compare; and many labels at once."""

import csv
import glob
import io
import json
import os
import re
import shutil
import subprocess
import time
import unittest
from html import escape
from unittest import mock
from xml.dom import minidom

from support import ROOT, SCRIBUS, Case, glyphs, page, parts_of

from xpslabels import limits, words
from xpslabels.library import Library

BROWSER = next(filter(None, map(shutil.which, ('chromium', 'chromium-browser', 'google-chrome'))), None)
HOSTILE = ('<script>alert(1)</script>', '"><img src=x onerror=alert(1)>', ']]>', '&amp;', '\u202eabc\u2066', '\x9b31m', '\u200d\u200d', "it's",
           '\U0001f600' * 3)


MEASURE = """
const found = { outside: [], met: [], texts: 0, wide: Math.max(0, document.documentElement.scrollWidth - window.innerWidth) };
document.querySelectorAll('svg').forEach((svg, n) => {
    const frame = svg.getBoundingClientRect();
    svg.querySelectorAll('text').forEach(text => {
        const box = text.getBoundingClientRect();
        found.texts += 1;
        if (box.left < frame.left - 2 || box.right > frame.right + 2 || box.bottom > frame.bottom + 2) found.outside.push([n, text.textContent]);
    });
    const latin = n < 9, columns = [...svg.querySelectorAll('g')].map(g => g.getBoundingClientRect());
    columns.forEach((box, k) => {
        const next = columns[k + 1];
        if (latin && next && Math.abs(next.bottom - box.bottom) < 5 && next.left > box.left && box.right > next.left + 2) found.met.push([n, k]);
    });
});
document.title = JSON.stringify(found);
"""


class Text(Case):
    def test_refusals(self):
        """Each number that a page can give, with place, cause and the offending part."""
        cases = (
            (('{a', ''), '4 at 0: the text begins with `{` and not with `{}`', 'text: >>{a<<'),
            (('A' * 4097, ''), '5 at 0: above 4,096 code units', None),
            (('', ''), '6 at 0: no code units and no bytes of indices', None),
            (('AB', '5;x y'), '7 at entry 1: entry not well formed', 'indices: 5; >>x y<<'),
            (('AB', '5;\u0e19;7'), '7 at entry 1: entry not well formed', 'indices: 5; >>\u0e19<< ;7'),
            (('AB', '65536;6'), '8 at entry 0: index above 65,535', 'indices: >>65536<< ;6'),
            (('A', '5,1e7'), '9 at entry 0: number with above 18 digits', 'indices: >>5,1e7<<'),
            (('A', '(0)5'), '10 at entry 0: a count of the map is 0', 'indices: >>(0)5<<'),
            (('AB', '(2:2)5;'), '11 at entry 1: a map or a missing index', 'indices: (2:2)5; >><<'),
            (('AB', '1;2;(2)3;4'), '12 at entry 2: the cluster passes the end', 'indices: 1;2; >>(2)3<< ;4'),
            (('{}A\U0001f600B', '5;6'), '13 at code unit 2: the cluster ends inside a pair', 'text: {}A >>\U0001f600<< B'),
            (('AB', '(2:2)5'), '14 at entry 0: the last cluster lacks glyphs', 'indices: >>(2:2)5<<'),
            (('A', '(1:5000)' + '5;' * 4999 + '5'), '15 at 0: above 4,096 glyphs, the tail included', None))
        status, out, _ = self.labels(self.package(*(glyphs(*label) for label, _, _ in cases)))
        self.assertEqual(status, 1)
        blocks = [block.splitlines() for block in re.split(r'(?=^page 1, line)', out, flags=re.MULTILINE)[1:]]
        for line, (block, (_, cause, part)) in enumerate(zip(blocks, cases), 2):
            self.assertTrue(block[0].startswith(f'page 1, line {line}: NO  "'), block)
            self.assertTrue(block[1].startswith('    ' + cause), block)
            self.assertEqual(block[2] if part else None, '    ' + part if part else None)

    def test_ties(self):
        path = self.package(glyphs('flow', '(2:1)192;07,+55.50,,0'), glyphs('A\U0001f600 ', '5'), glyphs('', '5;6'), glyphs('AB', ';6'))
        out = self.labels(path)[1]
        self.assertIn('    fl = 192\n', out)
        self.assertIn('    \U0001f600 = font\n', out)
        self.assertIn('    no characters = 5+6\n', out)
        out = self.labels('--all', path)[1]
        self.assertIn('    fl = 192   o = 7   w = font\n', out)
        self.assertIn('    A = 5   \U0001f600 = font   U+0020 = font\n', out)
        self.assertIn('    no characters = 5   no characters = 6\n', out)
        self.assertIn('    A = font   B = 6\n', out)

    def test_a_page_s_part_is_named(self):
        out = self.labels(self.zip(parts_of([page(glyphs('A'), glyphs('{a'))], [page()])))[1]
        self.assertIn('page 1 is /Documents/1/Pages/1.fpage: 2 labels\npage 1, line 2: ok', out)
        self.assertIn('page 2 is /Documents/2/Pages/1.fpage: 0 labels\n', out)

    def test_a_line_is_a_line(self):
        """No text of a label breaks a line or reaches the terminal as a control."""
        status, out, _ = self.labels(self.package(*map(glyphs, HOSTILE), glyphs('a\n\rb\tc\x85\u2028d')))
        self.assertEqual((status, len(out.splitlines()), out.count('\n')), (0, out.count('\n'), out.count('\n')))
        self.assertNotRegex(out, '[\x00-\x09\x0b-\x1f\x7f-\x9f\u202e\u2066\u2028]')
        self.assertIn('"a U+000A U+000D b U+0009 c U+0085 U+2028 d"', out)

    def test_names_of_files(self):
        path = self.package(glyphs('A'), name='a\n\x1b[31mb.xps')
        status, out, _ = self.labels(path)
        self.assertEqual((status, out.count('\n')), (0, 4))
        self.assertNotIn('\x1b', out)
        os.rename(path, os.fsencode(self.folder) + b'/\xff.xps')
        self.assertEqual(self.labels(self.folder + '/\udcff.xps')[0], 0)

    def test_ten_thousand(self):
        """Judged by the sheet call, those with maps and points read by themselves. The time is printed, not judged."""
        rows = [glyphs(f'{k / 100:.2f}', ';'.join(f'{19 + k % 7},55.5{k % 10}' for _ in range(4))) for k in range(5000)]
        rows += [glyphs(f'fl{k}', '(2)192') if k % 10 else glyphs('{x') for k in range(5000)]
        path = self.package(*rows)
        started = time.monotonic()
        status, out, _ = self.program(path)
        took = time.monotonic() - started
        self.assertEqual(status, 1)
        self.assertIn(f'{path}: 10,000 labels, 9,500 accepted, 500 refused, 0 values finer than thousandths', out)
        print(f'10,000 labels in {took:.2f} s', end=' ', flush=True)


class Table(Case):
    def test_cells(self):
        texts = ('=1+1', '+5', '-3.20', '@a', "'q", 'a\tb', 'a\nb', 'a\\b', '"q"', '\u2028', '"12', 'B', '"C', 'D', 'a"b', '""', '"\t"')
        path = self.package(*map(glyphs, texts))
        rows, status = self.rows(path)
        self.assertEqual([row['UnicodeString'] for row in rows],
                         ["'=1+1", "'+5", "'-3.20", "'@a", "''q", 'a\\tb', 'a\\nb', 'a\\\\b', '\'"q"', '\\u2028', '\'"12', 'B', '\'"C', 'D', 'a"b',
                          '\'""', '\'"\\t"'])
        self.assertEqual(list(csv.DictReader(io.StringIO(self.labels('--tsv', path)[1], newline=''), dialect='excel-tab')), rows)

    def test_rows(self):
        rows, status = self.rows(SCRIBUS)
        self.assertEqual((status, len(rows), sum(int(row['finer than thousandths']) for row in rows)), (1, 12, 126))
        refused = [row for row in rows if row['answer'] == 'NO']
        self.assertEqual([(row['line'], row['number'], row['place'], row['cause'], row['offending']) for row in refused],
                         [('14', '4', '0', 'the text begins with `{` and not with `{}`', '{braced} & <less> "quoted" \'a\'')])
        self.assertEqual(rows[5]['ties'], '\u25cc\u0e49\u0e33 = 59+49+86; \u0e33 = 59+86')


class Pages(Case):
    def html(self, *paths):
        """The page made of these files, its pictures checked as XML."""
        status, out, err = self.labels('--html', self.path('out.html'), *paths)
        with open(self.path('out.html'), encoding='utf-8') as file:
            made = file.read()
        pictures = re.findall(r'<svg .*?</svg>', made, re.DOTALL)
        for picture in pictures:
            minidom.parseString(picture)
        self.assertEqual(made.count('<svg'), len(pictures))
        return status, out, made, pictures

    def test_scribus(self):
        status, out, made, pictures = self.html(SCRIBUS)
        self.assertEqual((status, len(pictures)), (1, 13))
        self.assertIn('12 labels, 11 accepted, 1 refused, 126 values finer than thousandths', out)
        self.assertIn('12 labels, 11 accepted, 1 refused, 126 values finer than thousandths', made)
        self.assertEqual((made.count('<article>'), made.count('<article class="no"')), (11, 1))
        self.assertIn('<mark>{braced}', made)
        self.assertIn('<h2>How to read the pictures</h2>\n<div class="scroll"><svg', made)
        for sentence in (words.PROVED, words.COUNTING):
            self.assertIn(escape(sentence), made)
        self.assertNotRegex(made, r'(?i)<script|\bsrc=|href="(?!#)|url\(|@import')

    def test_pictures(self):
        label = glyphs('fl\u0e33o', '(2)192;(1:2)59;86')
        *_, pictures = self.html(self.package(label, glyphs('AB', '5;x'), glyphs('{a'), glyphs('A\U0001f600', '5;6'), glyphs(None, '5')))
        self.assertEqual(len(re.findall('<g class="m"', pictures[1])), 2)
        self.assertEqual(len(re.findall('<g class="f"', pictures[1])), 1)
        self.assertRegex(pictures[2], r'<g class="x"[^>]*><rect[^>]*/><text[^>]*>x</text>')
        self.assertEqual(pictures[3].count('<g class="x"'), 2)
        self.assertRegex(pictures[4], '<g class="x"[^>]*><text[^>]*>\U0001f600')

    def test_marks_in_values(self):
        made = self.html(self.package(glyphs('{>>a<<b'), glyphs('ABC', '>>;<<')))[2]
        self.assertIn('text: <mark>{&gt;&gt;a&lt;&lt;b</mark>', made)
        self.assertIn('indices: <mark>&gt;&gt;</mark>;&lt;&lt;', made)

    def test_hostile(self):
        status, _, made, _ = self.html(self.package(*map(glyphs, HOSTILE), *(glyphs('A', text) for text in HOSTILE)))
        self.assertEqual(status, 1)
        self.assertNotIn('<script', made)
        self.assertNotIn('<img', made)
        self.assertNotRegex(made, '[\x00-\x08\x0b-\x1f\x7f-\x9f\u202e\u2066]')

    def test_long_labels(self):
        status, _, made, pictures = self.html(self.package(glyphs('A' * 4096), glyphs('A' * 9000, '5;' * 3000 + 'x')))
        self.assertIn('3,584 more ties', made)
        self.assertLess(len(made), 400_000)
        for picture in pictures:
            self.assertLessEqual(int(re.search(r'width="(\d+)"', picture)[1]), 920)

    def test_many_labels(self):
        before, limits.DRAWN = limits.DRAWN, 10
        try:
            made = self.html(self.package(*[glyphs('ABCD')] * 4))[2]
        finally:
            limits.DRAWN = before
        self.assertEqual(made.count('No picture: a page draws 10 ties.'), 2)

    def test_unreadable(self):
        bad = self.file(b'no zip', 'bad.xps')
        status, out, made, _ = self.html(bad, SCRIBUS)
        self.assertEqual(status, 2)
        self.assertIn('This file cannot be read: is not a zip', made)
        self.assertIn('All 2 files', made)
        self.assertNotIn('Up to there', made)
        parts = parts_of([page(glyphs('A')), page('<')])
        self.assertIn('Up to there 1 label, 1 accepted', self.html(self.zip(parts))[2])
        parts['Documents/1/Pages/1.fpage'] = '<'
        made = self.html(self.zip(parts))[2]
        self.assertEqual(('Up to there' in made, made.count('href="#sums1"'), made.count('id="sums1"')), (False, 1, 1))

    def test_where_it_is_written(self):
        status, _, err = self.labels('--html', self.path('no/folder.html'), SCRIBUS)
        self.assertEqual((status, 'cannot be written: No such file or directory' in err), (2, True))
        status, out, err = self.labels('--html', '', SCRIBUS)
        self.assertEqual((status, out, 'labels: error: --html has an empty name\n' in err), (2, '', True))
        path = self.package(glyphs('A'))
        status, _, err = self.labels('--html', path, path)
        self.assertEqual((status, 'would overwrite a file that is to be read' in err), (2, True))
        self.assertEqual(self.labels(path)[0], 0)

    def browsed(self, *options):
        """What a browser without a head prints."""
        given = [BROWSER, '--headless', '--no-sandbox', '--disable-gpu', '--disable-dev-shm-usage', '--hide-scrollbars', '--window-size=1000,1400',
                 f'--user-data-dir={self.path("profile")}']
        return subprocess.run([*given, *options], check=True, capture_output=True, timeout=60, env={**os.environ, 'HOME': self.folder}).stdout

    @unittest.skipUnless(BROWSER, 'no browser here')
    def test_in_a_browser(self):
        """A browser draws the page: no text leaves its picture, no column meets the next, the page is not wider than its window."""
        latin = [glyphs('WWWWiiii@@@@', '(4)65535;' + ';'.join(['65535'] * 8)), glyphs('fl' * 30, '(2)192;' * 29 + '(2)192'), glyphs('A' * 3000),
                 glyphs('AB', '5;x'), glyphs('word ' * 60, ';' * 100 + '(2:3)1;2;3'), glyphs(None, '5;6'),
                 glyphs('A' * 200, '65536,1000000.25,-3,4;' * 9), glyphs('{' * 90)]
        made = self.html(self.package(*latin), SCRIBUS)[2]
        shot = self.path('shot.png')
        self.browsed(f'--screenshot={shot}', 'file://' + self.path('out.html'))
        with open(shot, 'rb') as file:
            self.assertEqual(file.read(8), b'\x89PNG\r\n\x1a\n')
        self.assertGreater(os.path.getsize(shot), 20_000)
        self.file(re.sub('<meta http-equiv[^>]*>', '', made).replace('</body>', f'<script>{MEASURE}</script></body>').encode('utf-8'), 'measured.html')
        title = re.search(rb'<title>(\{.*?\})</title>', self.browsed('--dump-dom', 'file://' + self.path('measured.html')))[1]
        found = json.loads(title)
        self.assertEqual((found['outside'], found['wide']), ([], 0))
        self.assertEqual(found['met'], [])
        self.assertGreater(found['texts'], 1000)


class Compared(Case):
    def compare(self, one, two):
        return self.labels('--compare', self.package(*one, name='a.xps'), self.package(*two, name='b.xps'))

    def test_same(self):
        status, out, _ = self.compare([glyphs('{}flow', '(2:1)192;07,+55.50,,0'), glyphs('{a'), glyphs('A', '5,.0015')],
                                      [glyphs('flow', '(2)192;7,55.5'), glyphs('{a'), glyphs('A', '5,.002')])
        self.assertEqual((status, out.count(': same  ')), (0, 3))
        self.assertIn('label 1: same  page 1, line 2 | page 1, line 2  "{}flow"\n', out)
        self.assertIn('label 2: same  page 1, line 3 | page 1, line 3  "{a"  refused: 4 at 0: the text begins', out)
        self.assertTrue(out.endswith(f'3 labels compared: 2 same, 1 same but refused in both, 0 other, 0 only in {self.path("a.xps")}, '
                                     f'0 only in {self.path("b.xps")}\n'))

    def test_refused_labels_are_the_same_only_byte_for_byte(self):
        """Number and place are equal in each pair; only the last has equal values."""
        status, out, _ = self.compare([glyphs('12.4', 'x'), glyphs('{12.4}'), glyphs('8.1', '70000'), glyphs('8.1', 'x')],
                                      [glyphs('99.9', 'x'), glyphs('{99.9}'), glyphs('8.1', '80000'), glyphs('8.1', 'x')])
        self.assertEqual((status, out.count(': OTHER  '), out.count(': same  ')), (1, 3, 1))
        self.assertIn('    A: "12.4"  x  refused: 7 at entry 0: entry not well formed\n    B: "99.9"  x  refused: 7 at entry 0', out)
        self.assertIn('    A: "8.1"  70000  refused: 8 at entry 0: index above 65,535\n    B: "8.1"  80000  refused: 8', out)
        self.assertIn('4 labels compared: 0 same, 1 same but refused in both, 3 other, ', out)

    def test_a_difference_far_from_the_start_is_shown(self):
        entries = ['20,55.5,1,2'] * 33
        other = [*entries[:24], '20,55.5,1,3', *entries[25:]]
        status, out, _ = self.compare([glyphs('A' * 33, ';'.join(entries)), glyphs('A' * 99 + 'B'), glyphs('A' * 99), glyphs('A' * 99, '5' + ';' * 98 + 'x')],
                                      [glyphs('A' * 33, ';'.join(other)), glyphs('A' * 99 + 'C'), glyphs('A' * 100), glyphs('A' * 99, '5' + ';' * 98 + 'y')])
        self.assertEqual((status, out.count(': OTHER  ')), (1, 4))
        pairs = re.findall('^    A: (.*)\n    B: (.*)$', out, re.MULTILINE)
        self.assertEqual(len(pairs), 4)
        for a, b in pairs:
            self.assertNotEqual(a, b)
            self.assertIn('…', a)
        self.assertRegex(pairs[0][0], r'^"A{33}"  ….{24}2;20,55.5,1,2;')
        self.assertRegex(pairs[0][1], r'^"A{33}"  ….{24}3;20,55.5,1,2;')
        self.assertEqual(pairs[1], ('"…' + 'A' * 24 + 'B"', '"…' + 'A' * 24 + 'C"'))
        self.assertEqual(pairs[2], ('"…' + 'A' * 24 + '"', '"…' + 'A' * 25 + '"'))

    def test_each_label_is_read_once(self):
        with mock.patch.object(Library, 'call_reading', autospec=True, side_effect=Library.call_reading) as readings:
            self.compare([glyphs('A', '5'), glyphs('{a'), glyphs('B')], [glyphs('A', '05'), glyphs('{b'), glyphs('B')])
        self.assertEqual(readings.call_count, 5)

    def test_other(self):
        status, out, _ = self.compare([glyphs('AB', '5;6'), glyphs('AB', '5'), glyphs('A', '5')], [glyphs('AB', '5;7'), glyphs('AB', '(2:2)5'), glyphs('A')])
        self.assertEqual((status, out.count(': OTHER  ')), (1, 3))
        self.assertIn('    A: "AB"  5;6\n    B: "AB"  5;7\n', out)
        self.assertIn('    A: "AB"  5\n    B: "AB"  (2:2)5  refused: 14 at entry 0: the last cluster lacks glyphs\n', out)

    def test_only_in_one(self):
        status, out, _ = self.compare([glyphs('A')], [glyphs('A'), glyphs('B')])
        self.assertEqual(status, 1)
        self.assertIn(f'label 2: ONLY in {self.path("b.xps")}  page 1, line 3  "B"', out)

    def test_unreadable(self):
        status, out, err = self.labels('--compare', SCRIBUS, self.path('none.xps'))
        self.assertEqual((status, out, err), (2, '', f'labels: {self.path("none.xps")}: cannot be opened: No such file or directory\n'))
        late = self.zip(parts_of([page(glyphs('A')), page('<')]), 'late.xps')
        status, out, err = self.labels('--compare', late, late)
        self.assertEqual(status, 2)
        self.assertIn(f'labels: {late}: page 2, /Documents/1/Pages/2.fpage: line 2, column 2: not well-formed XML: invalid token', err)

    def test_a_file_with_itself(self):
        self.assertEqual(self.labels('--compare', SCRIBUS, SCRIBUS)[0], 0)


class Documents(Case):
    def test_lines(self):
        """No line above 160 characters."""
        for pattern in ('bin/labels', 'xpslabels/*.py', 'tests/labels/*', 'install.sh', 'tools/shared.sh'):
            for path in glob.glob(os.path.join(ROOT, pattern)):
                if os.path.isfile(path):
                    with open(path, encoding='utf-8') as file:
                        self.assertEqual([line for line in file if len(line) > 161], [], path)


if __name__ == '__main__':
    unittest.main()
