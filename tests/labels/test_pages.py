"""Pages are found by content type and relationship, labels with their page and line, values as the parser gives them."""

import os
import re
import sys
import unittest

from support import MC, OXPS, SCRIBUS, XPS, Case, glyphs, page, parts_of

sys.path.insert(0, os.path.join(os.path.dirname(os.path.abspath(__file__)), '..', 'independent'))
import attributes as resolving                                                  # noqa: E402


class Pages(Case):
    def test_scribus(self):
        status, out, err = self.labels(SCRIBUS)
        self.assertEqual((status, err), (1, ''))
        lines = out.splitlines()
        self.assertEqual(lines[-1], f'{SCRIBUS}: 12 labels, 11 accepted, 1 refused, 126 values finer than thousandths')
        self.assertIn('    4 at 0: the text begins with `{` and not with `{}`', lines)
        self.assertIn('    text: >>{braced} & <less> "quoted" \'a\'<<', lines)
        for tie in ('e\u0301 = 171', 'a\u0308 = 166', '\u25cc\u0e49\u0e33 = 59+49+86', '\u0644\u0627 = 5366', '\u0915\u094d\u0937 = 179'):
            self.assertIn(tie, out)
        self.assertEqual(sum(': ok  ' in line for line in lines), 11)
        self.assertEqual(sum(': NO  ' in line for line in lines), 1)

    def test_both_name_spaces(self):
        for space in (OXPS, XPS):
            rows, status = self.rows(self.package(glyphs('A', '5'), glyphs('AB', '5'), space=space))
            self.assertEqual((status, len(rows)), (0, 2))

    def test_other_name_spaces_have_no_labels(self):
        rows, _ = self.rows(self.package('<Glyphs xmlns="urn:other" UnicodeString="A"/>', '<o:Glyphs xmlns:o="urn:o"/>', glyphs('B')))
        self.assertEqual([row['UnicodeString'] for row in rows], ['B'])

    def test_prefixes(self):
        """A prefix stands for what the innermost element around says, and for what it did before behind that element."""
        elements = (f'<p:Glyphs xmlns:p="{XPS}" UnicodeString="1"/>',
                    f'<a xmlns="urn:a"><Glyphs/><b xmlns="{OXPS}"><Glyphs UnicodeString="2"/></b><Glyphs/></a>',
                    f'<q:a xmlns:q="urn:q"><q:Glyphs/><q:b xmlns:q="{OXPS}"><q:Glyphs UnicodeString="3"/></q:b><q:Glyphs/></q:a>',
                    '<Glyphs UnicodeString="4" xml:lang="en" xmlns:r="urn:r" r:UnicodeString="no"/>')
        rows, status = self.rows(self.package(*elements))
        self.assertEqual((status, [row['UnicodeString'] for row in rows]), (0, ['1', '2', '3', '4']))

    def test_two_documents(self):
        parts = parts_of([page(glyphs('1')), page(glyphs('2'), glyphs('3'))], [page(glyphs('4'))])
        rows, _ = self.rows(self.zip(parts))
        self.assertEqual([(r['document'], r['page'], r['line'], r['UnicodeString']) for r in rows],
                         [('1', '1', '2', '1'), ('1', '2', '2', '2'), ('1', '2', '3', '3'), ('2', '3', '2', '4')])

    def test_order_is_the_documents_own(self):
        parts = parts_of([page(glyphs('1')), page(glyphs('2'))])
        sources = 'Pages/2.fpage', '../1/./Pages/1.fpage'
        parts['Documents/1/Fixed.fdoc'] = f'<FixedDocument xmlns="{OXPS}">' + ''.join(f'<PageContent Source="{s}"/>' for s in sources) + '</FixedDocument>'
        rows, _ = self.rows(self.zip(parts))
        self.assertEqual([r['UnicodeString'] for r in rows], ['2', '1'])

    def test_names_by_case_and_escape(self):
        parts = parts_of([page(glyphs('1'))])
        parts['DOCUMENTS/1/Pages/Page%20one.FPAGE'] = parts.pop('Documents/1/Pages/1.fpage')
        parts['Documents/1/Fixed.fdoc'] = f'<FixedDocument xmlns="{OXPS}"><PageContent Source="pages/%50age one.fpage"/></FixedDocument>'
        self.assertEqual(len(self.rows(self.zip(parts))[0]), 1)

    def test_content_type_by_override(self):
        parts = parts_of([page(glyphs('1'))])
        parts['Documents/1/Pages/1'] = parts.pop('Documents/1/Pages/1.fpage')
        parts['Documents/1/Fixed.fdoc'] = parts['Documents/1/Fixed.fdoc'].replace('1.fpage', '1')
        self.unreadable(self.zip(parts), '/Documents/1/Pages/1: its content type is not given, not that of a page')
        override = '<Override PartName="/documents/1/pages/1" ContentType="application/vnd.ms-package.xps-fixedpage+xml"/></Types>'
        parts['[Content_Types].xml'] = parts['[Content_Types].xml'].replace('</Types>', override)
        self.assertEqual(len(self.rows(self.zip(parts))[0]), 1)

    def test_page_in_no_document(self):
        parts = parts_of([page(glyphs('1'))])
        parts['Lost.fpage'] = page(glyphs('lost'))
        status, out, _ = self.labels(self.zip(parts))
        self.assertEqual(status, 0)
        self.assertIn('note: page 2, /Lost.fpage, is in no document: a viewer does not show it', out)
        self.assertIn('page 2, line 2: ok  "lost"', out)

    def test_a_page_is_reported_once(self):
        parts = parts_of([page(glyphs('1'))])
        parts['Documents/1/Fixed.fdoc'] = f'<FixedDocument xmlns="{OXPS}">' + '<PageContent Source="Pages/1.fpage"/>' * 60 + '</FixedDocument>'
        status, out, _ = self.labels(self.zip(parts))
        self.assertEqual((status, out.count(': ok  '), out.count('note: ')), (0, 1, 21))

    def test_interleaved(self):
        parts, pieces = parts_of([page(glyphs('1'), glyphs('\u0e19')), page(glyphs('2'))]), []
        for name, content in parts.items():
            data = content.encode('utf-8')
            cuts = [data[:7], data[7:-40], data[-40:]]                          # through elements and through a character
            pieces += [(f'{name}/[{k}]{".last" if k == 2 else ""}.piece', cut) for k, cut in enumerate(cuts)]
        pieces.sort(key=lambda piece: (piece[0][-12:], piece[0]))               # those of one part lie apart
        rows, status = self.rows(self.zip(pieces))
        self.assertEqual((status, [row['UnicodeString'] for row in rows]), (0, ['1', '\u0e19', '2']))

    def test_pieces_that_are_no_part(self):
        whole = parts_of([page(glyphs('1'))])
        data = whole.pop('Documents/1/Pages/1.fpage').encode('utf-8')
        base = 'Documents/1/Pages/1.fpage/'
        for names, words in ((('[0].piece', '[1].piece'), 'none of them is marked as the last'), (('[0].piece', '[2].last.piece'), 'piece 1 is missing'),
                             (('[0].last.piece', '[1].last.piece'), 'more than one'), (('[0].last.piece', '[1].piece'), 'behind its last'),
                             (('[0].last.piece', '[0].LAST.piece'), 'more than once')):
            parts = {**whole, **{base + name: data for name in names}}
            self.unreadable(self.zip(parts), words)
        self.unreadable(self.zip([*whole.items(), (base[:-1], data), (base + '[0].last.piece', data)]), 'more than once')

    def test_utf16_page(self):
        content = '<?xml version="1.0" encoding="UTF-16"?>\n' + page(glyphs('น้ำ', '71;(2:3)59;49;86'), '', glyphs('\U0001f600'))
        for codec, mark in (('utf-16-le', b'\xff\xfe'), ('utf-16-be', b'\xfe\xff'), ('utf-16-le', b''), ('utf-16-be', b'')):
            rows, status = self.rows(self.zip(parts_of([mark + content.encode(codec)])))
            self.assertEqual((status, [(row['line'], row['ties']) for row in rows]), (0, [('3', '\u25cc\u0e49\u0e33 = 59+49+86'), ('5', '\U0001f600 = font')]))
        for declared in ('utf-8', 'UTF-8'):
            content = f'<?xml version="1.0" encoding="{declared}"?>' + page(glyphs('A'))
            self.assertEqual(self.rows(self.zip(parts_of([b'\xef\xbb\xbf' + content.encode('utf-8')])))[1], 0)

    def test_values_as_the_parser_gives_them(self):
        raw = (b'a > b', b'&amp;&lt;&gt;&quot;&apos;', b'&#65;&#x42;', b'tab\tand\nline', b'one\r\ntwo\rthree', b'&#9;&#10;&#13;', b"it's", '\u0e19'.encode())
        lines = [f'<Glyphs UnicodeString="{value.decode()}"/>'.encode() for value in raw]
        rows, _ = self.rows(self.zip(parts_of([page('@').encode().replace(b'@', b''.join(lines))])))
        wanted = [resolving.resolve(value)[1].decode('utf-8') for value in raw]
        escapes = {'\\t': '\t', '\\n': '\n', '\\r': '\r'}
        given = [re.sub(r'\\[tnr]', lambda found: escapes[found[0]], row['UnicodeString']) for row in rows]
        self.assertEqual(given, wanted)

    def test_attributes_missing(self):
        rows, status = self.rows(self.package(glyphs(), glyphs(''), glyphs(None, ''), glyphs('{}'), glyphs(None, '5'), glyphs('A')))
        self.assertEqual((status, [(row['answer'], row['number']) for row in rows]), (1, [('NO', '6')] * 4 + [('ok', '0')] * 2))
        self.assertEqual(rows[4]['ties'], 'no characters = 5')
        cause = 'no code units and no bytes of indices'
        self.assertEqual([row['cause'] for row in rows[:2]], [cause + '  (no UnicodeString)  (no Indices)', cause + '  (no Indices)'])
        status, out, _ = self.labels(self.package(glyphs(), glyphs('', ''), glyphs('{a'), glyphs(None, 'x'), glyphs(None, '5'), glyphs('A')))
        answers = re.findall(': (?:NO|ok)  .*', out)
        self.assertEqual((status, answers), (1, [': NO  ""  (no UnicodeString)  (no Indices)', ': NO  ""', ': NO  "{a"  (no Indices)',
                                                 ': NO  ""  (no UnicodeString)', ': ok  ""', ': ok  "A"']))
        self.labels('--html', self.path('out.html'), self.path('file.xps'))
        with open(self.path('out.html'), encoding='utf-8') as made:
            self.assertEqual(re.findall(r'\(no \w+\)', made.read()), ['(no UnicodeString)', '(no Indices)', '(no Indices)', '(no UnicodeString)'])

    def test_line_and_column(self):
        content = f'<FixedPage xmlns="{OXPS}">\r\n<!-- นนน -->  <Glyphs\n UnicodeString="A"/>\r<Canvas><Glyphs UnicodeString="B"/></Canvas></FixedPage>'
        rows, _ = self.rows(self.zip(parts_of([content])))
        self.assertEqual([(row['line'], row['column']) for row in rows], [('2', '15'), ('4', '9')])

    def test_alternate_content(self):
        content = page(f'<mc:AlternateContent xmlns:mc="{MC}"><mc:Choice Requires="o3d">{glyphs("A")}</mc:Choice><mc:Fallback><Canvas>{glyphs("B")}'
                       f'</Canvas></mc:Fallback></mc:AlternateContent>', f'<x:Box xmlns:x="urn:x">{glyphs("C")}</x:Box>', glyphs('D'))
        rows, status = self.rows(self.zip(parts_of([content])))
        self.assertEqual((status, [row['within'] for row in rows]), (0, ['Choice o3d', 'Fallback', 'Box', '']))
        self.assertIn('page 1, line 2 (in Choice o3d): ok  "A"', self.labels(self.path('file.xps'))[1])

    def test_alternate_content_in_a_document(self):
        """Pages of all branches, in their order."""
        parts = parts_of([page(glyphs(name)) for name in 'ABC'])
        parts['Documents/1/Fixed.fdoc'] = (
            f'<FixedDocument xmlns="{OXPS}" xmlns:mc="{MC}"><mc:AlternateContent><mc:Choice Requires="o3d"><PageContent Source="Pages/2.fpage"/></mc:Choice>'
            '<mc:Fallback><PageContent Source="Pages/1.fpage"/></mc:Fallback></mc:AlternateContent><PageContent Source="Pages/3.fpage"/></FixedDocument>')
        rows, status = self.rows(self.zip(parts))
        self.assertEqual((status, [(row['document'], row['page'], row['UnicodeString']) for row in rows]),
                         (0, [('1', '1', 'B'), ('1', '2', 'A'), ('1', '3', 'C')]))
        self.assertNotIn('note: ', self.labels(self.path('file.xps'))[1])

    def test_dictionaries(self):
        here = f'<FixedPage.Resources><ResourceDictionary>{glyphs("inline")}</ResourceDictionary></FixedPage.Resources>'
        remote = '<FixedPage.Resources><ResourceDictionary Source="../../../Resources/Shapes.dict"/></FixedPage.Resources>'
        parts = parts_of([page(here), page(remote, glyphs('own')), page(remote)])
        self.unreadable(self.zip(parts), '/Resources/Shapes.dict: the part is missing; /Documents/1/Pages/2.fpage refers to it')
        parts['Resources/Shapes.dict'] = f'<ResourceDictionary xmlns="{OXPS}">\n{glyphs("remote")}</ResourceDictionary>'
        rows, _ = self.rows(self.zip(parts))
        self.assertEqual([(r['page'], r['part'], r['UnicodeString']) for r in rows],
                         [('1', '/Documents/1/Pages/1.fpage', 'inline'), ('2', '/Documents/1/Pages/2.fpage', 'own'), ('2', '/Resources/Shapes.dict', 'remote')])
        self.assertIn('page 2, line 2 of /Resources/Shapes.dict: ok  "remote"', self.labels(self.path('file.xps'))[1])

    def test_texts_above_a_record(self):
        """A text above 65,535 bytes cannot stand in a sheet; it is refused with 1 all the same, and its neighbours keep their answers."""
        labels = ('A', '5'), ('A' * 65535, ''), ('A' * 65536, ''), ('A', 'x'), ('A', '5;' * 131073), ('B', '')
        rows, status = self.rows(self.package(*(glyphs(*label) for label in labels)))
        self.assertEqual((status, [row['number'] for row in rows]), (1, ['0', '1', '1', '7', '1', '0']))


if __name__ == '__main__':
    unittest.main()
