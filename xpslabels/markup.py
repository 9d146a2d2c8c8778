"""A part's XML, parsed by expat: UTF-8 or UTF-16, without DTD. References are resolved and attribute values normalised by the parser,
as XML 1.0 says; nothing is fetched."""

from xml.parsers import expat

from . import limits
from .namespaces import NameSpaces, Unbound
from .trouble import Unreadable
from .words import named

OUT_OF_MEMORY = expat.errors.codes['out of memory']
CHUNK = 1024 * 1024     # bytes parsed at a time: expat heeds an error at the end of a chunk, and scans a long attribute once for each
ENCODINGS = (           # by the first bytes: how many of them are a byte order mark, the codec, the name in a declaration
    (b'\xef\xbb\xbf', 3, 'utf-8', 'UTF-8'), (b'\xff\xfe', 2, 'utf-16-le', 'UTF-16'), (b'\xfe\xff', 2, 'utf-16-be', 'UTF-16'),
    (b'<\0', 0, 'utf-16-le', 'UTF-16'), (b'\0<', 0, 'utf-16-be', 'UTF-16'), (b'', 0, 'utf-8', 'UTF-8'))


def at(part, line, column, sentence):
    return Unreadable(f'{part}: line {line}, column {column}: {sentence}')


def decoded(part, data):
    """The characters of a part, and the name of its encoding."""
    _, mark, codec, name = next(row for row in ENCODINGS if data.startswith(row[0]))
    try:
        return data[mark:].decode(codec), name
    except UnicodeDecodeError as error:
        before = data[mark:mark + error.start].decode(codec)
        line, column = before.count('\n') + 1, len(before) - (before.rfind('\n') + 1) + 1
        raise at(part, line, column, f'not {name}: byte {mark + error.start:,} of the part starts no character') from None


class Markup:
    """One parse of one part. A reader of elements sets `start` and `end` and asks for the place of what it is handed."""

    def __init__(self, part, data):
        self.part = part
        self.text, self.encoding = decoded(part, data)
        self.parser, self.spaces = expat.ParserCreate('utf-8'), NameSpaces()
        self.depth = 0                                  # elements that are open
        self.parser.XmlDeclHandler = self.declaration
        self.parser.StartDoctypeDeclHandler = self.doctype

    def place(self):
        """Line and column of what is being handled, both from 1."""
        return self.parser.CurrentLineNumber, self.parser.CurrentColumnNumber + 1

    def trouble(self, sentence):
        return at(self.part, *self.place(), sentence)

    def declaration(self, version, encoding, standalone):
        if encoding is None or encoding.upper() == self.encoding:
            return
        if encoding.upper() in ('UTF-8', 'UTF-16'):
            raise self.trouble(f'the declaration says {encoding.upper()}, but the part is in {self.encoding}')
        raise self.trouble(f'the declaration says {named(encoding)}; only UTF-8 and UTF-16 may be (ECMA-388, M2.70)')

    def doctype(self, *_):
        """Before any declaration in it is seen."""
        raise self.trouble('has a DTD, which may not be (ECMA-388, M2.71); nothing of it is read')

    def parse(self, start, end=None):
        """Calls `start(element, attributes)` and `end()` for each element, which is a pair of its name space and its local name."""
        def enter(name, attributes):
            self.depth += 1
            if self.depth > limits.DEPTH:
                raise self.trouble(f'above {limits.DEPTH:,} elements inside one another, the limit')
            try:
                element = self.spaces.enter(name, attributes)
            except Unbound as prefix:
                raise self.trouble(f'not well-formed XML: unbound prefix {named(str(prefix))}') from None
            start(element, attributes)

        def leave(name):
            if end is not None:
                end()
            self.spaces.leave()
            self.depth -= 1

        self.parser.StartElementHandler, self.parser.EndElementHandler = enter, leave
        try:
            self.feed()
        except expat.ExpatError as error:
            if error.code == OUT_OF_MEMORY:
                raise MemoryError from None
            words = expat.ErrorString(error.code).replace('not well-formed (invalid token)', 'invalid token')
            raise at(self.part, error.lineno, error.offset + 1, f'not well-formed XML: {words}') from None
        finally:
            self.parser.StartElementHandler = self.parser.EndElementHandler = None

    def feed(self):
        data, self.text = memoryview(self.text.encode('utf-8')), ''
        for start in range(0, len(data), CHUNK):
            self.parser.Parse(data[start:start + CHUNK], False)
        self.parser.Parse(b'', True)


def local(element):
    """The local name of an element, for a sentence."""
    return named(element[1])
