"""What the tests of `labels` share: packages made from pages, and the program run on them."""

import io
import os
import re
import subprocess
import sys
import tempfile
import unittest
import zipfile
from html import escape

ROOT = os.path.dirname(os.path.dirname(os.path.dirname(os.path.abspath(__file__))))
sys.dont_write_bytecode = True
sys.path.insert(0, ROOT)

from xpslabels import command                                                   # noqa: E402

PROGRAM = os.path.join(ROOT, 'bin', 'labels')
SCRIBUS = os.path.join(ROOT, 'tests', 'data', 'scribus.xps')
OXPS, XPS = 'http://schemas.openxps.org/oxps/v1.0', 'http://schemas.microsoft.com/xps/2005/06'
RELS = 'http://schemas.openxmlformats.org/package/2006/relationships'
MC = 'http://schemas.openxmlformats.org/markup-compatibility/2006'
TYPES = '<Types xmlns="http://schemas.openxmlformats.org/package/2006/content-types">' + ''.join(
    f'<Default Extension="{extension}" ContentType="application/vnd.{name}+xml"/>' for extension, name in (
        ('rels', 'openxmlformats-package.relationships'), ('fdseq', 'ms-package.xps-fixeddocumentsequence'),
        ('fdoc', 'ms-package.xps-fixeddocument'), ('fpage', 'ms-package.xps-fixedpage'), ('dict', 'ms-package.xps-resourcedictionary'))) + '</Types>'


def glyphs(text=None, indices=None):
    """A Glyphs element with these values, or without them."""
    values = (('UnicodeString', text), ('Indices', indices))
    return '<Glyphs' + ''.join(f' {name}="{spelled(value)}"' for name, value in values if value is not None) + '/>'


def spelled(value):
    """An attribute value that resolves to this one."""
    return re.sub('[\t\n\r]', lambda found: f'&#{ord(found[0])};', escape(value))


def page(*elements, space=OXPS, more=''):
    """A page with an element a line, from line 2 on."""
    return f'<FixedPage xmlns="{space}"{more}>\n' + '\n'.join(elements) + '\n</FixedPage>'


def parts_of(*documents, space=OXPS):
    """The parts of a package: documents are lists of pages."""
    parts = {
        '[Content_Types].xml': TYPES,
        '_rels/.rels': f'<Relationships xmlns="{RELS}"><Relationship Id="r" Type="{space}/fixedrepresentation" Target="/Sequence.fdseq"/></Relationships>',
        'Sequence.fdseq': f'<FixedDocumentSequence xmlns="{space}">' + ''.join(
            f'<DocumentReference Source="Documents/{d}/Fixed.fdoc"/>' for d in range(1, len(documents) + 1)) + '</FixedDocumentSequence>'}
    for d, pages in enumerate(documents, 1):
        parts[f'Documents/{d}/Fixed.fdoc'] = f'<FixedDocument xmlns="{space}">' + ''.join(
            f'<PageContent Source="Pages/{p}.fpage"/>' for p in range(1, len(pages) + 1)) + '</FixedDocument>'
        for p, content in enumerate(pages, 1):
            parts[f'Documents/{d}/Pages/{p}.fpage'] = content
    return parts


class Stream(io.TextIOWrapper):
    """A standard stream that is kept in memory."""

    def __init__(self):
        super().__init__(io.BytesIO(), 'utf-8', newline='')


class Case(unittest.TestCase):
    """A test with a folder of its own."""

    def setUp(self):
        folder = tempfile.TemporaryDirectory()
        self.addCleanup(folder.cleanup)
        self.folder = folder.name

    def path(self, name):
        return os.path.join(self.folder, name)

    def file(self, data, name='file.xps'):
        with open(self.path(name), 'wb') as out:
            out.write(data)
        return self.path(name)

    def zip(self, parts, name='file.xps', method=zipfile.ZIP_DEFLATED):
        """A zip of these parts, given by name or as pairs."""
        with zipfile.ZipFile(self.path(name), 'w', method) as out:
            for part, content in parts.items() if isinstance(parts, dict) else parts:
                out.writestr(part, content if isinstance(content, bytes) else content.encode('utf-8'))
        return self.path(name)

    def package(self, *elements, name='file.xps', space=OXPS):
        """A package of one page with these elements."""
        return self.zip(parts_of([page(*elements, space=space)], space=space), name)

    def labels(self, *arguments):
        """Status, standard output and standard error of the program, run in this process."""
        kept = sys.argv, sys.stdout, sys.stderr
        sys.argv, sys.stdout, sys.stderr = ['labels', *arguments], Stream(), Stream()
        try:
            status = command.main()
        except SystemExit as end:
            status = end.code
        finally:
            streams = sys.stdout, sys.stderr
            sys.argv, sys.stdout, sys.stderr = kept
        out, err = (self.bytes_of(stream).decode('utf-8') for stream in streams)
        self.assertNotIn('Traceback', out + err)
        self.assertNotIn('an error of the program itself', err)
        return status, out, err

    def bytes_of(self, stream):
        stream.flush()
        return stream.buffer.getvalue()

    def program(self, *arguments, **options):
        """The program in a process of its own."""
        done = subprocess.run([PROGRAM, *arguments], stdout=options.pop('stdout', subprocess.PIPE), stderr=subprocess.PIPE, timeout=60, **options)
        self.assertNotIn(b'Traceback', (done.stdout or b'') + done.stderr)
        return done.returncode, (done.stdout or b'').decode('utf-8'), done.stderr.decode('utf-8')

    def rows(self, *arguments):
        """The lines of --tsv as dictionaries, and the status."""
        status, out, err = self.labels('--tsv', *arguments)
        head, *lines = (line.split('\t') for line in out.split('\n')[:-1])
        for line in lines:
            self.assertEqual(len(line), len(head))
        return [dict(zip(head, line)) for line in lines], status

    def unreadable(self, path, *words):
        """The file cannot be read, and the sentence has these words."""
        status, out, err = self.labels(path)
        self.assertEqual(status, 2, out + err)
        self.assertIn('UNREADABLE', out)
        for word in words:
            self.assertIn(word, err)
        self.assertEqual(err.count('\n'), 1, err)
        return err
