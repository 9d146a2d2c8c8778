"""Files that cannot be read: one clear sentence each, status 2, never a trace; the other files are still reported."""

import fcntl
import os
import random
import struct
import subprocess
import sys
import termios
import unittest
import zipfile
import zlib
from unittest import mock

import support
from support import OXPS, PROGRAM, RELS, ROOT, SCRIBUS, Case, glyphs, page, parts_of

from xpslabels import limits, progress
from xpslabels.command import MORE
from xpslabels.words import COUNTING


class Files(Case):
    def test_no_file(self):
        self.unreadable(self.path('missing.xps'), 'cannot be opened: No such file or directory')
        self.unreadable(self.folder, 'is a folder, a pipe or a device')
        os.mkfifo(self.path('pipe'))
        self.unreadable(self.path('pipe'), 'is a folder, a pipe or a device')
        self.unreadable('/dev/null', 'is a folder, a pipe or a device')

    def test_no_zip(self):
        self.unreadable(self.file(b''), 'is empty')
        self.unreadable(self.file(b'%PDF-1.4 and so on'), 'is not a zip')
        self.unreadable(self.file(b'PK\5\6' + b'\0' * 17), 'is not a zip')
        self.unreadable(self.zip({'a.txt': 'a'}), 'no package: it has no /[Content_Types].xml')

    def test_truncated_zip(self):
        with open(SCRIBUS, 'rb') as file:
            whole = file.read()
        for size in (4, 100, 2000, len(whole) - 1):
            self.unreadable(self.file(whole[:size]), 'it is cut off')
        self.unreadable(self.file(whole + b'\0' * 70_000), 'its end is missing: it is cut off, or something follows it')

    def test_damaged_zip(self):
        """Whatever byte is damaged, the report is that of the file, or a sentence."""
        with open(SCRIBUS, 'rb') as file:
            whole = bytearray(file.read())
        rng, statuses = random.Random(1), []
        for _ in range(300):
            data = bytearray(whole)
            for _ in range(rng.choice((1, 1, 2, 8))):
                data[rng.randrange(len(data))] = rng.choice((0, 1, 255, rng.randrange(256)))
            statuses.append(self.labels(self.file(bytes(data)))[0])
        self.assertEqual({1, 2}, set(statuses) - {0})

    def test_damaged_pages(self):
        """As above, of the bytes of a page."""
        rng, content = random.Random(2), page(glyphs('น้ำ', '71;(2:3)59;49;86'), glyphs('A&<>"')).encode('utf-8')
        for _ in range(200):
            data = bytearray(content)
            data[rng.randrange(len(data))] = rng.choice(b'<>&"\'/ =\0\xff\xfe\x80:;')
            self.assertIn(self.labels(self.zip(parts_of([bytes(data)])))[0], (0, 1, 2))

    def test_methods_and_encryption(self):
        parts = parts_of([page(glyphs('A'))])
        for method in (zipfile.ZIP_BZIP2, zipfile.ZIP_LZMA):
            self.unreadable(self.zip(parts, method=method), 'is packed by method')
        self.zip(parts)
        with open(self.path('file.xps'), 'rb') as file:
            data = file.read()
        at = data.index(b'PK\1\2') + 8
        self.unreadable(self.file(data[:at] + b'\1\0' + data[at + 2:]), 'is encrypted')

    def test_the_others_are_reported(self):
        bad = self.file(b'no zip', 'bad.xps')
        status, out, err = self.labels(bad, SCRIBUS, self.package(glyphs('A')))
        self.assertEqual(status, 2)
        self.assertIn('12 labels, 11 accepted', out)
        self.assertIn('all 3 files: 13 labels, 12 accepted, 1 refused', out)
        self.assertEqual(err, f'labels: {bad}: is not a zip, so not a package\n')

    def test_labels_before_the_trouble_are_reported(self):
        status, out, err = self.labels(self.zip(parts_of([page(glyphs('A')), page('<Canvas>')])))
        self.assertEqual(status, 2)
        self.assertIn('page 1, line 2: ok  "A"', out)
        self.assertIn('up to there 1 label, 1 accepted', out)

    def test_a_missing_page_or_document_hides_no_page_before_it(self):
        whole = parts_of([page(glyphs('A')), page(glyphs('B')), page(glyphs('C'))], [page(glyphs('D'))])
        cases = (('Documents/1/Pages/2.fpage', 1, 'page 2, ', 'Documents/1/Fixed.fdoc', '4 pages in 2 documents'),
                 ('Documents/2/Pages/1.fpage', 3, 'page 4, ', 'Documents/2/Fixed.fdoc', '4 pages in 2 documents'),
                 ('Documents/2/Fixed.fdoc', 3, ': ', 'Sequence.fdseq', '3 pages in 1 document'))
        for name, labels, before, referrer, counts in cases:
            path = self.zip({part: content for part, content in whole.items() if part != name})
            self.unreadable(path, f'{before}/{name}: the part is missing; /{referrer} refers to it')
            out = self.labels(path)[1]
            self.assertEqual((out.count(': ok  '), f'{path}: {counts}' in out), (labels, True), out)
            self.assertIn(f'{path}: up to there {labels} label', out)
        self.unreadable(self.zip({**whole, 'Documents/2/Fixed.fdoc': '<'}), '/Documents/2/Fixed.fdoc: line 1, column 1: not well-formed XML')
        self.assertEqual(self.labels('--compare', path, path)[1].count(': same  '), 3)


class Bombs(Case):
    def test_a_part_that_is_too_large(self):
        path = self.zip(parts_of([page(glyphs('A') + ' ' * limits.PART_BYTES)]))
        self.unreadable(path, 'page 1, /Documents/1/Pages/1.fpage: unpacks to more than', 'the limit')

    def test_ratio(self):
        self.unreadable(self.zip(parts_of([page(' ' * (limits.RATIO_FROM + 1_000_000))])), 'more than 200 times its packed size')

    def test_many_pages(self):
        with mock.patch.object(limits, 'PACKAGE_BYTES', 100_000):
            self.unreadable(self.zip(parts_of([page(' ' * 30_000) for _ in range(5)])), 'the parts unpack to more than 100,000 bytes, the limit of a package')

    def test_pieces(self):
        parts = parts_of([page()])
        del parts['Documents/1/Pages/1.fpage']
        parts.update({f'Documents/1/Pages/1.fpage/[{k}].piece': b' ' * 30_000 for k in range(4)})
        parts['Documents/1/Pages/1.fpage/[4].last.piece'] = b' '
        with mock.patch.object(limits, 'PART_BYTES', 100_000):
            self.unreadable(self.zip(parts), 'its pieces unpack to more than 100,000 bytes')

    def test_entries(self):
        with mock.patch.object(limits, 'FILE_ENTRIES', 4):
            self.unreadable(self.zip(parts_of([page()])), 'entries, above the limit of 4')

    def test_directory(self):
        size = limits.DIRECTORY_BYTES + 1
        with open(self.path('file.xps'), 'wb') as out:
            out.truncate(size)
            out.seek(size)
            out.write(struct.pack('<4s4H2LH', b'PK\5\6', 0, 0, 65535, 65535, size, 0, 0))
        self.unreadable(self.path('file.xps'), 'the zip has a directory of 16,777,217 bytes, above the limit of 16,777,216')

    def test_labels_and_references(self):
        with mock.patch.object(limits, 'LABELS', 3):
            self.unreadable(self.zip(parts_of([page(glyphs('A'), glyphs('B')), page(glyphs('C'), glyphs('D'))])),
                            '/Documents/1/Pages/2.fpage: line 3, column 1: with this label the package has above 3, the limit')
        with mock.patch.object(limits, 'REFERENCES', 3):
            self.unreadable(self.zip(parts_of([page()] * 4)), 'above 3 references, the limit')
            self.assertEqual(self.labels(self.zip(parts_of(*[[page()] * 3] * 3)))[0], 0)         # the limit is of each part

    def test_entities(self):
        """Nothing is expanded: the declaration itself is refused."""
        laughs = '<!DOCTYPE a [<!ENTITY a "ha">' + ''.join(f'<!ENTITY {chr(98 + k)} "{f"&{chr(97 + k)};" * 10}">' for k in range(9)) + ']>'
        self.unreadable(self.zip(parts_of([laughs + page(glyphs('A'))])), '/Documents/1/Pages/1.fpage: line 1, column 13: has a DTD')

    def test_memory(self):
        """What takes more memory than the limit ends with a sentence; here the limit is the machine's."""
        path = self.zip(parts_of([page('<Glyphs ' + ' '.join(f'a{k}=""' for k in range(1_500_000)) + '/>')]), method=zipfile.ZIP_STORED)
        done = subprocess.run(f'ulimit -v 300000; "{PROGRAM}" "{path}"', shell=True, capture_output=True, text=True, timeout=60)
        self.assertEqual((done.returncode, done.stderr.count('\n')), (2, 1), done.stderr)
        self.assertIn('takes more memory than the limit', done.stderr)

    def test_memory_that_ends_while_unpacking(self):
        """A lack of memory is not taken for damage, whoever notices it."""
        path = self.package(glyphs('A'))
        for place, error in (('ZipFile', MemoryError()), ('ZipFile.open', MemoryError('Unable to allocate output buffer.')),
                             ('ZipFile.open', zlib.error('Error -4 while decompressing data'))):
            with mock.patch('zipfile.' + place, side_effect=error):
                self.assertNotIn('damaged', self.unreadable(path, 'takes more memory than the limit'))
        with mock.patch('zipfile.ZipFile.open', side_effect=zlib.error('Error -3 while decompressing data')):
            self.unreadable(path, '/[Content_Types].xml: the zip is damaged here: Error -3')

    def test_long_names(self):
        """A name space of a million characters, and names of parts and references above the limit."""
        many = page(f'<a xmlns="{"u" * 1_000_000}" xmlns:p="{"v" * 1_000_000}">' + '<a p:b=""/>' * 200_000 + f'</a>{glyphs("A")}')
        self.assertEqual(self.program(self.zip(parts_of([many])))[0], 0)
        parts = parts_of([page(glyphs('A'))])
        self.assertEqual(self.labels(self.zip({**parts, 'x' * 60_000 + '.fpage': page()}))[0], 0)
        parts['Documents/1/Fixed.fdoc'] = parts['Documents/1/Fixed.fdoc'].replace('Pages', 'x' * 1000)
        self.unreadable(self.zip(parts), 'a reference above 1,000 characters')

    def test_deep_and_wide(self):
        """Elements in elements, names and attributes without end: read, or refused, and soon."""
        for depth, status in ((limits.DEPTH - 2, 0), (limits.DEPTH - 1, 2), (1_000_000, 2)):
            deep = page('<Canvas>' * depth + glyphs('A') + '</Canvas>' * depth)
            self.assertEqual(self.labels(self.zip(parts_of([deep])))[0], status)
        foreign = page('<a xmlns="urn:a">' * 900 + f'<Glyphs xmlns="{OXPS}" UnicodeString="A"/>' + '</a>' * 900)
        self.assertEqual(self.rows(self.zip(parts_of([foreign])))[0][0]['within'], 'a, a, a, a')
        wide = page('<Glyphs ' + ' '.join(f'a{k}="1"' for k in range(50_000)) + ' UnicodeString="A"/>')
        self.assertEqual(self.rows(self.zip(parts_of([wide])))[1], 0)
        self.assertEqual(self.rows(self.package(glyphs('A' * 3_000_000)))[1], 1)


class Markup(Case):
    def bad_page(self, content, *words):
        return self.unreadable(self.zip(parts_of([page(glyphs('A')), content])), 'page 2, /Documents/1/Pages/2.fpage: line ', *words)

    def test_not_well_formed(self):
        self.bad_page(page('<Canvas>', '<Glyphs/>'), 'line 4, column 3: not well-formed XML: mismatched tag')
        self.bad_page(page('<Glyphs UnicodeString="a<b"/>'), 'line 2, column 25: not well-formed XML')
        self.bad_page(page('<Glyphs UnicodeString="A" UnicodeString="B"/>'), 'line 2, column 27: not well-formed XML: duplicate attribute')
        self.bad_page(page('<Glyphs UnicodeString="&nbsp;"/>'), 'undefined entity')
        self.bad_page(page('<Glyphs UnicodeString="&#0;"/>'), 'reference to invalid character number')
        self.bad_page(page('<Glyphs UnicodeString="&#xD800;"/>'), 'reference to invalid character number')
        self.bad_page(page('<Glyphs UnicodeString="\x01"/>'), 'line 2, column 24: not well-formed XML')
        self.bad_page(page('<x:Glyphs/>'), 'line 2, column 1: not well-formed XML: unbound prefix x')
        self.bad_page(page('<Glyphs x:Name="A"/>'), 'unbound prefix x')
        self.bad_page(page('<a xmlns:x="urn:x"/>', '<x:b/>'), 'line 3, column 1: not well-formed XML: unbound prefix x')
        self.bad_page(page() + '<more/>', 'junk after document element')
        self.bad_page('', 'no element found')
        self.bad_page('\0' * 100, 'not well-formed XML')

    def test_dtd(self):
        for doctype in ('<!DOCTYPE FixedPage>', '<!DOCTYPE FixedPage SYSTEM "http://127.0.0.1:9/x.dtd">',
                        '<!DOCTYPE a [<!ENTITY e SYSTEM "file:///etc/passwd">]>',
                        '<!DOCTYPE a [<!ENTITY % p SYSTEM "http://127.0.0.1:9/"> %p;]>', '<!DOCTYPE a PUBLIC "x" "y" ['):
            self.bad_page(doctype + page('<Glyphs UnicodeString="&e;"/>'), 'has a DTD, which may not be (ECMA-388, M2.71)')

    def test_encodings(self):
        declared = '<?xml version="1.0" encoding="{}"?>'
        for name in ('ISO-8859-1', 'windows-1252', 'utf-7', 'UTF-16LE', 'UTF-32', 'x'):
            self.bad_page(declared.format(name) + page(), f'the declaration says {name}; only UTF-8 and UTF-16 may be')
        self.bad_page(declared.format('UTF-16') + page(), 'the declaration says UTF-16, but the part is in UTF-8')
        self.bad_page((declared.format('UTF-8') + page()).encode('utf-16'), 'the declaration says UTF-8, but the part is in UTF-16')
        self.bad_page(page('<!-- \u00e9 -->').encode('latin-1'), 'line 2, column 6: not UTF-8: byte ')
        self.bad_page(page('<!-- \ud800 -->').encode('utf-16', 'surrogatepass'), 'not UTF-16')
        self.bad_page(page().encode('utf-16')[:-1], 'not UTF-16')
        self.bad_page(page().encode('utf-32'), 'not well-formed XML')

    def test_roots(self):
        self.bad_page(f'<FixedDocument xmlns="{OXPS}"/>', 'the root element is FixedDocument, not FixedPage')
        self.bad_page('<FixedPage/>', 'the root element FixedPage is in no name space, not in that of OpenXPS or XPS')
        self.bad_page('<FixedPage xmlns="urn:x"/>', 'the root element FixedPage is in the name space urn:x, not in that of OpenXPS or XPS')


class Packages(Case):
    def changed(self, *words, **changes):
        names = {'types': '[Content_Types].xml', 'rels': '_rels/.rels', 'sequence': 'Sequence.fdseq', 'document': 'Documents/1/Fixed.fdoc'}
        parts = parts_of([page(glyphs('A'))])
        for name, content in changes.items():
            parts[names[name]] = content
            if content is None:
                del parts[names[name]]
        return self.unreadable(self.zip(parts), *words)

    def relationship(self, **attributes):
        fields = {'Id': 'r', 'Type': OXPS + '/fixedrepresentation', 'Target': '/Sequence.fdseq', **attributes}
        return f'<Relationships xmlns="{RELS}"><Relationship ' + ' '.join(f'{k}="{v}"' for k, v in fields.items()) + '/></Relationships>'

    def test_start_part(self):
        self.changed('has no relationships of the package', rels=None)
        self.changed('a package without a start part (ECMA-388, M2.13)', rels=self.relationship(Type='urn:other'))
        self.changed('/Nowhere.fdseq: the part is missing; the package refers to it', rels=self.relationship(Target='Nowhere.fdseq'))
        self.changed('outside the package; nothing is fetched', rels=self.relationship(Target='http://127.0.0.1:9/s', TargetMode='External'))
        self.changed('leads outside the package; nothing is fetched', rels=self.relationship(Target='http://127.0.0.1:9/s'))
        self.changed('leads outside the package', rels=self.relationship(Target='//host/s'))
        self.changed('leads outside the package', rels=self.relationship(Target='file:///etc/passwd'))
        self.changed('an empty reference', rels=self.relationship(Target=''))
        self.changed('/_rels/.rels: line 1, column 85: Relationship has no Target', rels=self.relationship().replace('Target="/Sequence.fdseq"', ''))
        self.changed('/_rels/.rels: line 1', rels='<Relationships')
        self.changed('has a DTD', rels='<!DOCTYPE a>' + self.relationship())

    def test_references(self):
        self.changed('/Nowhere.fdoc: the part is missing; /Sequence.fdseq refers to it',
                     sequence=f'<FixedDocumentSequence xmlns="{OXPS}"><DocumentReference Source="Nowhere.fdoc"/></FixedDocumentSequence>')
        self.changed('page 1, /Documents/1/Pages/2.fpage: the part is missing; /Documents/1/Fixed.fdoc refers to it',
                     document=f'<FixedDocument xmlns="{OXPS}"><PageContent Source="Pages/2.fpage"/></FixedDocument>')
        self.changed('/Documents/1/Fixed.fdoc: line 2, column 1: PageContent has no Source',
                     document=f'<FixedDocument xmlns="{OXPS}">\n<PageContent/></FixedDocument>')
        self.changed('leads outside the package', document=f'<FixedDocument xmlns="{OXPS}"><PageContent Source="https://127.0.0.1:9/p.fpage"/></FixedDocument>')
        self.changed('/etc/passwd: the part is missing',
                     document=f'<FixedDocument xmlns="{OXPS}"><PageContent Source="{"../" * 20}etc/passwd"/></FixedDocument>')
        self.changed("its content type is application/vnd.ms-package.xps-fixeddocumentsequence+xml, not that of a document",
                     sequence=f'<FixedDocumentSequence xmlns="{OXPS}"><DocumentReference Source="Sequence.fdseq"/></FixedDocumentSequence>')

    def test_types(self):
        self.changed('/Sequence.fdseq: its content type is not given', types='<Types xmlns="http://schemas.openxmlformats.org/package/2006/content-types"/>')
        self.changed('/[Content_Types].xml: line 1', types='<Types>')

    def test_no_pages(self):
        parts = parts_of([])
        self.unreadable(self.zip(parts), 'the package has no pages')

    def test_two_parts_of_one_name(self):
        parts = list(parts_of([page(glyphs('A'))]).items()) + [('documents/1/PAGES/1.fpage', page(glyphs('B')))]
        self.unreadable(self.zip(parts), 'the package has this part more than once')

    def test_a_sequence_of_itself(self):
        parts = parts_of([page(glyphs('A'))])
        again = '<DocumentReference Source="Documents/1/Fixed.fdoc"/>' * 3
        parts['Sequence.fdseq'] = f'<FixedDocumentSequence xmlns="{OXPS}">{again}</FixedDocumentSequence>'
        status, out, _ = self.labels(self.zip(parts))
        self.assertEqual((status, out.count(': ok  '), out.count('M3.3')), (0, 1, 2))


class Program(Case):
    """In a process of its own: the library, standard streams, arguments."""

    def environment(self, **changes):
        return {**os.environ, **changes}

    def test_library(self):
        status, _, err = self.program(SCRIBUS, env=self.environment(GLYPH_LABEL_LIBRARY=self.path('none.so')))
        self.assertEqual((status, err.count('\n')), (2, 1))
        self.assertIn('none.so cannot be used', err)
        status, _, err = self.program(SCRIBUS, env=self.environment(GLYPH_LABEL_LIBRARY=self.file(b'no object')))
        self.assertEqual(status, 2)

    def test_library_of_another_version(self):
        source, made = self.path('other.c'), self.path('other.so')
        calls = ' '.join(f'int glyph_label_{name}(void) {{ return 0; }}' for name in ('read', 'write', 'sheet', 'fault'))
        with open(source, 'w') as out:
            out.write(f'unsigned glyph_label_version(void) {{ return 99; }} {calls}')
        subprocess.run([os.environ.get('CC', 'cc'), '-shared', '-fPIC', '-o', made, source], check=True)
        status, _, err = self.program(SCRIBUS, env=self.environment(GLYPH_LABEL_LIBRARY=made))
        self.assertEqual(status, 2)
        self.assertIn('has version 99 of the calls; this program is written for 1', err)
        with open(source, 'w') as out:
            out.write('unsigned glyph_label_version(void) { return 1; }')
        subprocess.run([os.environ.get('CC', 'cc'), '-shared', '-fPIC', '-o', made + '2', source], check=True)
        status, _, err = self.program(SCRIBUS, env=self.environment(GLYPH_LABEL_LIBRARY=made + '2'))
        self.assertEqual((status, 'cannot be used' in err), (2, True))

    def test_arguments(self):
        for given in ((), ('--compare', SCRIBUS), ('--compare', SCRIBUS, SCRIBUS, SCRIBUS), ('--tsv', '--html', 'x', SCRIBUS), ('--no', SCRIBUS)):
            status, out, err = self.labels(*given)
            self.assertEqual((status, out), (2, ''))
            self.assertIn('usage: labels', err)
        status, out, err = self.labels('--help')
        self.assertEqual((status, err), (0, ''))
        for sentence in ('What is proved ends at the library', '64 MiB', '65,535 entries', 'Exit status: 0', COUNTING, 'A run is what a label stands for',
                         'a sequence or a document 65,535 references, a package 500,000 labels', 'labels --html OUT FILE'):
            self.assertIn(sentence, ' '.join(out.split()))
        self.assertLessEqual(max(len(line) for line in MORE.split('\n')), 90)

    def test_streams(self):
        status, out, err = self.program(SCRIBUS)
        self.assertEqual((status, err), (1, ''))
        with open('/dev/full', 'w') as full:
            status, _, err = self.program(SCRIBUS, stdout=full)
        self.assertEqual((status, err), (2, 'labels: the report cannot be written: No space left on device\n'))
        status, out, err = self.program(SCRIBUS, env=self.environment(PYTHONIOENCODING='ascii'))
        self.assertEqual((status, err), (1, ''))
        self.assertIn('\\u25cc\\u0e49\\u0e33 = 59+49+86', out)
        done = subprocess.run(f'"{PROGRAM}" "{SCRIBUS}" >&-', shell=True, capture_output=True, text=True)
        self.assertEqual((done.returncode, done.stderr), (2, 'labels: standard output is closed\n'))
        done = subprocess.run(f'"{PROGRAM}" "{SCRIBUS}" | head -c 10', shell=True, capture_output=True, text=True)
        self.assertEqual(done.stderr, '')

    def test_nothing_is_left_beside_the_program(self):
        self.assertFalse(os.path.exists(os.path.join(ROOT, 'xpslabels', '__pycache__')))

    def states(self, *arguments, terminals=('stderr',), every=0):
        """What progress shows where these streams are terminals; '' is where it takes the line away."""
        def isatty(stream):
            return any(stream is getattr(sys, name) for name in terminals)
        with mock.patch.object(progress, 'EVERY', every), mock.patch.object(progress, 'STEP', 1000), mock.patch.object(support.Stream, 'isatty', isatty):
            status, out, err = self.labels(*arguments)
        self.assertEqual((status, out.count('\r')), (0, 0))
        return err.split('\r\033[K')[1:]

    def test_progress_is_for_a_terminal(self):
        """It goes on while labels are judged and written, and is taken away at the end, or before what is printed on the same terminal."""
        path = self.package(*[glyphs('A', '5,1.5')] * 3000)
        found = [f'page 1{words}: file.xps' for words in (' of 1', ': 1,024 labels found', ': 2,048 labels found')]
        reported = [f'page 1: {count} labels reported: file.xps' for count in ('1,000', '2,000')]
        for form in ((), ('--all',), ('--tsv',), ('--html', self.path('out.html'))):
            self.assertEqual(self.states(*form, path), [*found, *reported, ''])
        both = {'terminals': ('stderr', 'stdout')}
        self.assertEqual(self.states(path, **both), [*found, ''])
        self.assertEqual(self.states('--html', self.path('out.html'), path, **both), [*found, *reported, ''])
        self.assertEqual(self.labels(path)[2], '')
        self.assertEqual(self.states(path, every=1000), [])

    def test_progress_of_many_pages_and_files(self):
        path = self.zip(parts_of([page(glyphs('A'))] * 3), 'a.xps')
        shown = [f'page {k} of 3: a.xps' for k in (1, 2, 3)]
        self.assertEqual(self.states(path, path), [*shown, *shown, ''])
        self.assertEqual(self.states(path, terminals=('stderr', 'stdout')), [word for state in shown for word in (state, '')])
        compared = self.states('--compare', path, path)
        self.assertEqual((compared[-1], '' in compared[:-1], compared[0]), ('', False, 'page 1 of 3: a.xps | a.xps'))

    def test_progress_of_a_comparison(self):
        path = self.package(*[glyphs('A')] * 1500, name='a.xps')
        self.assertEqual(self.states('--compare', path, path)[-2:], ['1,000 labels compared: a.xps | a.xps', ''])
        self.assertNotIn('1,000 labels compared: a.xps | a.xps', self.states('--compare', path, path, terminals=('stderr', 'stdout')))

    def test_progress_is_taken_away_before_a_sentence(self):
        late = self.zip(parts_of([page(glyphs('A')), page('<')]), 'late.xps')
        with mock.patch.object(progress, 'EVERY', 0), mock.patch.object(support.Stream, 'isatty', lambda stream: stream is sys.stderr):
            for arguments in ((late,), ('--compare', late, late)):
                self.assertRegex(self.labels(*arguments)[2], r'\r\033\[Klabels: [^\r]*not well-formed XML: invalid token\n$')

    def test_progress_fits_the_terminal(self):
        self.assertEqual(progress.fitted('page 1 of 2: ' + 'x' * 90, 80), 'page 1 of 2: ' + 'x' * 66)
        self.assertEqual(progress.fitted('\u6c34' * 50, 80), '\u6c34' * 39)
        self.assertEqual(progress.width_of(support.Stream()), 80)
        master, terminal = os.openpty()
        self.addCleanup(os.close, master)
        with open(terminal, 'w') as stream:
            fcntl.ioctl(terminal, termios.TIOCSWINSZ, struct.pack('4H', 24, 40, 0, 0))
            self.assertEqual(progress.width_of(stream), 40)
            fcntl.ioctl(terminal, termios.TIOCSWINSZ, struct.pack('4H', 0, 0, 0, 0))
            self.assertEqual(progress.width_of(stream), 80)


if __name__ == '__main__':
    unittest.main()
