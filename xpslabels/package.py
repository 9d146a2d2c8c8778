"""The parts of a package (Open Packaging Conventions): their names, their pieces, their content types, and the package's relationships."""

import re

from . import limits
from .markup import Markup
from .namespaces import SPACES
from .trouble import Unreadable
from .words import named

CONTENT_TYPES = 'http://schemas.openxmlformats.org/package/2006/content-types'
RELATIONSHIPS = 'http://schemas.openxmlformats.org/package/2006/relationships'
TYPES_NAME = '/[Content_Types].xml'
START_PARTS = tuple(space + '/fixedrepresentation' for space in SPACES)

PIECE = re.compile(r'(.*)/\[(0|[1-9][0-9]{0,8})\](\.last)?\.piece', re.IGNORECASE | re.DOTALL)
ESCAPED = re.compile(rb'%(?!2f|5c|25)([0-9a-f]{2})', re.IGNORECASE)     # but `/`, `\` and `%`, which would be read as another name
SCHEME = re.compile(r'[A-Za-z][A-Za-z0-9+.-]*:')


def key_of(name):
    """Equal for two spellings of one part name: neither the case of ASCII letters nor the escaping of a character tells them apart."""
    written = name.encode('utf-8', 'surrogatepass')
    return ESCAPED.sub(lambda found: bytes([int(found[1], 16)]), written).lower()


def resolved(base, reference):
    """The name of the part that a reference in the part `base` leads to."""
    path = reference.strip(' \t\r\n').split('#', 1)[0]
    if len(path) > limits.NAME:
        raise Unreadable(f'{named(base)}: a reference above {limits.NAME:,} characters, the limit of a name')
    if SCHEME.match(path) or path.startswith('//'):
        raise Unreadable(f'{named(base)}: the reference {named(path)} leads outside the package; nothing is fetched')
    if not path:
        raise Unreadable(f'{named(base)}: an empty reference leads to no part')
    names = []
    folder = '' if path.startswith('/') else base.rpartition('/')[0]
    for name in f'{folder}/{path}'.split('/'):
        if name == '..':
            del names[-1:]
        elif name not in ('', '.'):
            names.append(name)
    return '/' + '/'.join(names)


class Part:
    """A part as it lies in the zip: one entry, or pieces by their numbers."""

    def __init__(self, name):
        self.name, self.entries, self.pieces, self.last = name, [], {}, []

    def add(self, entry, piece=None, last=False):
        if piece is None:
            self.entries.append(entry)
            return
        self.pieces.setdefault(piece, []).append(entry)
        if last:
            self.last.append(piece)

    def in_order(self):
        """Its entries, one or a whole row of pieces; anything else is no part."""
        if not self.pieces and len(self.entries) == 1:
            return self.entries
        name = named(self.name)
        if self.entries or any(len(entries) > 1 for entries in self.pieces.values()):
            raise Unreadable(f'{name}: the package has this part more than once')
        if len(self.last) != 1:
            raise Unreadable(f'{name}: the part is in pieces, and {"none" if not self.last else "more than one"} of them is marked as the last')
        missing = next((k for k in range(self.last[0]) if k not in self.pieces), None)
        if missing is not None:
            raise Unreadable(f'{name}: the part is in pieces, and piece {missing} is missing')
        if len(self.pieces) > self.last[0] + 1:
            raise Unreadable(f'{name}: the part has pieces behind its last')
        return [self.pieces[k][0] for k in range(self.last[0] + 1)]


class Package:
    """The parts of a container. An entry with a name above the limit is none: no reference leads to it."""

    def __init__(self, container):
        self.container, self.parts = container, {}
        for entry in container.entries:
            if len(entry.filename) > limits.NAME:
                continue
            found = PIECE.fullmatch(entry.filename)
            name = '/' + (found[1] if found else entry.filename).lstrip('/')
            part = self.parts.setdefault(key_of(name), Part(name))
            part.add(entry, *((int(found[2]), found[3] is not None) if found else ()))
        if key_of(TYPES_NAME) not in self.parts:
            raise Unreadable(f'is a zip, but no package: it has no {TYPES_NAME}')
        self.defaults, self.overrides = {}, {}
        self.read_types()

    def has(self, name):
        return key_of(name) in self.parts

    def read(self, name):
        """The bytes of a part that is there."""
        chunks, size = [], 0
        for entry in self.parts[key_of(name)].in_order():
            chunks.append(self.container.read(entry))
            size += len(chunks[-1])
            if size > limits.PART_BYTES:
                raise Unreadable(f'{named(name)}: its pieces unpack to more than {limits.PART_BYTES:,} bytes, the limit of a part')
        return b''.join(chunks)

    def read_types(self):
        """Content types by extension and by part name."""
        def start(element, attributes):
            content_type = attributes.get('ContentType', '').strip().lower()
            if element == (CONTENT_TYPES, 'Default'):
                self.defaults.setdefault(key_of(attributes.get('Extension', '')), content_type)
            if element == (CONTENT_TYPES, 'Override'):
                self.overrides.setdefault(key_of(attributes.get('PartName', '')), content_type)
        Markup(TYPES_NAME, self.read(TYPES_NAME)).parse(start)

    def type_of(self, key):
        """The content type of a part, lower case; empty where it has none."""
        if key in self.overrides:
            return self.overrides[key]
        _, dot, extension = key.rpartition(b'/')[2].rpartition(b'.')
        return self.defaults.get(extension, '') if dot else ''

    def names_of_type(self, content_type):
        """The names of all parts of a content type, in the zip's order."""
        return [part.name for key, part in self.parts.items() if self.type_of(key) == content_type]

    def start_parts(self):
        """The names of the parts that the package's StartPart relationships lead to, each once."""
        rels, found = '/_rels/.rels', {}
        if not self.has(rels):
            raise Unreadable(f'has no relationships of the package ({rels}), so no start part')
        def start(element, attributes):
            if element != (RELATIONSHIPS, 'Relationship') or attributes.get('Type', '').strip() not in START_PARTS:
                return
            if attributes.get('TargetMode', '').strip().lower() == 'external':
                raise markup.trouble('the start part lies outside the package; nothing is fetched')
            if 'Target' not in attributes:
                raise markup.trouble('Relationship has no Target, which it must have')
            target = resolved('/', attributes['Target'])
            found.setdefault(key_of(target), target)
        markup = Markup(rels, self.read(rels))
        markup.parse(start)
        if not found:
            raise Unreadable('is a package without a start part (ECMA-388, M2.13): neither .oxps nor .xps')
        return list(found.values())
