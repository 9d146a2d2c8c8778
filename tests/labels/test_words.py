"""The program's words, numbers and versions are those of include/glyph_label.h."""

import os
import re
import subprocess
import sys
import unittest

from support import ROOT, Case

from xpslabels import library, words


def header():
    with open(os.path.join(ROOT, 'include', 'glyph_label.h'), encoding='utf-8') as file:
        return file.read()


class Words(Case):
    def test_causes_are_the_header_s(self):
        printed = subprocess.run([sys.executable, 'tests/c/causes.py'], cwd=ROOT, capture_output=True, text=True, check=True).stdout
        table = dict((int(number), cause) for number, cause in (line.split(' ', 1) for line in printed.splitlines()))
        self.assertEqual(words.CAUSES, {number: table[number] for number in range(1, 16)})

    def test_places_count_what_the_header_says(self):
        rows = re.findall(r'^ \* +(\d+)  .*?  ((?:number of the|byte of the) [a-z ]+?)(?: where|,|$| that)', header(), re.MULTILINE)
        counted = {int(number): place.split(' of the ') for number, place in rows if int(number) <= 15}
        self.assertEqual({number: 'byte' if first == 'byte' else second for number, (first, second) in counted.items()}, words.PLACES)

    def test_version_and_sizes(self):
        defined = dict(re.findall(r'#define GLYPH_LABEL_(\w+) (\d+)', header()))
        self.assertEqual(library.VERSION, int(defined['VERSION']))
        self.assertEqual(library.ROOMS, tuple(int(defined[name + '_MAX']) for name in ('UNITS', 'CLUSTERS', 'GLYPHS')))
        self.assertEqual(library.OUTPUTS, (int(defined['TEXT_MAX']), int(defined['INDICES_MAX'])))

    def test_structs_are_declared_so(self):
        structs = {name: re.sub(r'\s+', ' ', fields).strip() for fields, name in re.findall(r'typedef struct \{(.*?)\} (\w+);', header(), re.DOTALL)}
        for answer, name in ((library.ReadingAnswer, 'reading'), (library.WritingAnswer, 'writing'), (library.FilledAnswer, 'filled'),
                             (library.PartAnswer, 'part')):
            declared = [field.strip() for run in structs['glyph_label_' + name].split(';') for field in re.sub(r'^ *\w+ ', '', run).split(',')]
            self.assertEqual([field for field, _ in answer._fields_], [field for field in declared if field])

    def test_the_man_page_says_how_places_are_counted(self):
        with open(os.path.join(ROOT, 'man', 'labels.1'), encoding='utf-8') as file:
            self.assertIn(words.COUNTING, ' '.join(file.read().split()))
        without = ', '.join(str(number) for number in words.CAUSES if number not in words.PLACES)
        self.assertEqual(without, '1, 4, 5, 6, 15')

    def test_shown(self):
        self.assertEqual(words.shown('a\u200db'), 'a U+200D b')
        self.assertEqual(words.shown('\u202e\u009b'), 'U+202E U+009B')
        self.assertEqual(words.shown('  a\u200d '), '  a U+200D  ')
        self.assertEqual(words.shown_alone('\u0e49\u0e33'), '\u25cc\u0e49\u0e33')
        self.assertEqual(words.shown_alone(' '), 'U+0020')
        self.assertEqual(words.refusal(12, 2), '12 at entry 2: the cluster passes the end of the text')


if __name__ == '__main__':
    unittest.main()
