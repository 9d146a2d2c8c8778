"""From a package to its pages, and from a page to the Glyphs elements on it (ECMA-388, clauses 9, 10 and 12)."""

from typing import NamedTuple

from . import limits
from .markup import Markup, local
from .namespaces import SPACES
from .package import key_of, resolved
from .trouble import Unreadable
from .words import named, shortened, shown

COMPATIBILITY = 'http://schemas.openxmlformats.org/markup-compatibility/2006'


class Kind(NamedTuple):
    """A kind of part: its name for people, its content type, its root element, the elements that refer to further parts."""
    name: str
    content_type: str
    root: str
    refers: str

    def is_root(self, element):
        return element in elements(self.root)


def elements(name):
    """An element in both name spaces."""
    return frozenset((space, name) for space in SPACES)


def kind(name, root, refers):
    return Kind(name, f'application/vnd.ms-package.xps-{root.lower()}+xml', root, refers)


SEQUENCE = kind('a sequence of documents', 'FixedDocumentSequence', 'DocumentReference')
DOCUMENT = kind('a document', 'FixedDocument', 'PageContent')
PAGE = kind('a page', 'FixedPage', 'ResourceDictionary')
DICTIONARY = kind('a resource dictionary', 'ResourceDictionary', '')
GLYPHS = elements('Glyphs')


class Page(NamedTuple):
    """A page, numbered through the whole package from 1; `document` is 0 where no document refers to it, `referrer` the document's part."""
    number: int
    document: int
    part: str
    referrer: str


class Label(NamedTuple):
    """A Glyphs element: where it stands, and the two values that a reading takes, in UTF-8. `within` names the branches of
    AlternateContent and the elements of other name spaces around it, `absent` the attributes that it does not have."""
    page: Page
    part: str
    line: int
    column: int
    within: str
    absent: tuple
    text: bytes
    indices: bytes


def absent_of(attributes):
    return tuple(name for name in ('UnicodeString', 'Indices') if name not in attributes)


def values_of(attributes):
    """What a reading takes of a Glyphs element. An attribute that is missing is as an empty one (ECMA-388, M5.2).
    BidiLevel and IsSideways are to be passed on from here, once a reading takes them."""
    return attributes.get('UnicodeString', '').encode('utf-8'), attributes.get('Indices', '').encode('utf-8')


def open_part(package, name, wanted, referrer):
    """The markup of a part that another refers to, if it is there and of the wanted kind."""
    where = named(name)
    if not package.has(name):
        raise Unreadable(f'{where}: the part is missing; {named(referrer)} refers to it')
    found = package.type_of(key_of(name))
    if found != wanted.content_type:
        raise Unreadable(f'{where}: its content type is {named(found) or "not given"}, not that of {wanted.name} ({wanted.content_type})')
    return Markup(where, package.read(name))


def check_root(markup, wanted, element):
    if wanted.is_root(element):
        return
    if element[1] != wanted.root:
        raise markup.trouble(f'the root element is {local(element)}, not {wanted.root} of OpenXPS or XPS')
    space = f'the name space {named(element[0])}' if element[0] else 'no name space'
    raise markup.trouble(f'the root element {wanted.root} is in {space}, not in that of OpenXPS or XPS')


def references(package, name, wanted, referrer):
    """The names of the parts that a sequence or a document refers to, in order."""
    markup, found = open_part(package, name, wanted, referrer), []
    refers = elements(wanted.refers)

    def start(element, attributes):
        if markup.depth == 1:
            check_root(markup, wanted, element)
        if element not in refers:
            return
        if 'Source' not in attributes:
            raise markup.trouble(f'{wanted.refers} has no Source, which it must have')
        found.append(resolved(name, attributes['Source']))
        if len(found) > limits.REFERENCES:
            raise markup.trouble(f'above {limits.REFERENCES:,} references, the limit')

    markup.parse(start)
    return found


class Outline:
    """The pages of a package in order: those of its documents, then parts of a page's content type that no document refers to.
    A part is a page once; where something is left out or odd, a note says so. Trouble with a sequence or a document ends the list
    and is kept, so that pages before it are reported."""

    def __init__(self, package):
        self.pages, self.notes, self.documents, self.trouble = [], [], 0, None
        seen = set()
        try:
            self.add_documents(package, seen)
            self.add_others(package, seen)
        except Unreadable as trouble:
            self.trouble = trouble
        if not self.pages:
            raise self.trouble or Unreadable('the package has no pages')

    def add_documents(self, package, seen):
        for sequence in package.start_parts():
            for document in references(package, sequence, SEQUENCE, 'the package'):
                self.add_document(package, document, sequence, seen)

    def add_others(self, package, seen):
        """Pages that no document refers to."""
        for name in package.names_of_type(PAGE.content_type):
            if key_of(name) not in seen:
                self.pages.append(Page(len(self.pages) + 1, 0, name, ''))
                self.note(f'page {len(self.pages)}, {named(name)}, is in no document: a viewer does not show it')

    def add_document(self, package, document, sequence, seen):
        if key_of(document) in seen:
            self.note(f'{named(sequence)} refers to {named(document)} again, which may not be (ECMA-388, M3.3); it is reported once')
            return
        seen.add(key_of(document))
        names = references(package, document, DOCUMENT, sequence)
        self.documents += 1
        for name in names:
            if key_of(name) in seen:
                self.note(f'{named(document)} refers to {named(name)} again, which may not be (ECMA-388, M3.6); it is reported once')
                continue
            seen.add(key_of(name))
            self.pages.append(Page(len(self.pages) + 1, self.documents, name, document))

    def note(self, sentence):
        """Notes are few: a hostile document may repeat a reference thousands of times."""
        if len(self.notes) <= limits.NOTES:
            self.notes.append(sentence if len(self.notes) < limits.NOTES else 'further notes of this kind are left out')


class LabelReader:
    """The labels of one part, and the remote dictionaries that it refers to."""

    def __init__(self, package, page, part, wanted, referrer, room, progress):
        self.page, self.part, self.wanted, self.room, self.progress = page, part, wanted, room, progress
        self.labels, self.dictionaries = [], {}
        self.around, self.within = [], ''               # the elements around that are named with a label, with their depth; their names
        self.markup = open_part(package, part, wanted, referrer)
        self.refers = elements(wanted.refers)
        self.markup.parse(self.start, self.end)

    def start(self, element, attributes):
        if self.markup.depth == 1:
            check_root(self.markup, self.wanted, element)
        if element in GLYPHS:
            self.add(attributes)
        elif element[0] not in SPACES:
            self.enter(element, attributes)
        elif element in self.refers and 'Source' in attributes:
            name = resolved(self.part, attributes['Source'])
            self.dictionaries.setdefault(key_of(name), name)

    def end(self):
        if self.around and self.around[-1][0] == self.markup.depth:
            self.around.pop()
            self.describe()

    def enter(self, element, attributes):
        """An element of another name space: a branch is told by what it requires."""
        if element == (COMPATIBILITY, 'AlternateContent'):
            return
        name = element[1]
        if element == (COMPATIBILITY, 'Choice'):
            name = f'Choice {attributes.get("Requires", "")}'.strip()
        self.around.append((self.markup.depth, shortened(shown(name), 40)))
        self.describe()

    def describe(self):
        """The innermost elements around, once for all labels in them."""
        self.within = ', '.join(name for _, name in self.around[-4:])

    def add(self, attributes):
        if len(self.labels) >= self.room:
            raise self.markup.trouble(f'with this label the package has above {limits.LABELS:,}, the limit')
        self.labels.append(Label(self.page, self.part, *self.markup.place(), self.within, absent_of(attributes), *values_of(attributes)))
        if len(self.labels) % 1024 == 0:
            self.progress.show(f'page {self.page.number}: {len(self.labels):,} labels found')


class Source:
    """The labels of a package, page by page. Those of a remote dictionary come with the first page that refers to it."""

    def __init__(self, package, progress):
        self.package, self.progress, self.seen, self.room = package, progress, set(), limits.LABELS
        outline = Outline(package)
        self.pages, self.notes, self.documents, self.trouble = outline.pages, outline.notes, outline.documents, outline.trouble

    def labels(self):
        """A page and its labels, for each page; then the trouble that ended the list of pages, if any."""
        for page in self.pages:
            self.progress.show(f'page {page.number} of {len(self.pages)}')
            reader = self.read(page, page.part, PAGE, page.referrer)
            labels = reader.labels
            for key, name in reader.dictionaries.items():
                if key not in self.seen:
                    self.seen.add(key)
                    labels = labels + self.read(page, name, DICTIONARY, page.part).labels
            yield page, labels
        if self.trouble is not None:
            raise self.trouble

    def read(self, page, name, wanted, referrer):
        """The labels of a part; trouble with it begins with the page's number."""
        try:
            reader = LabelReader(self.package, page, name, wanted, referrer, self.room, self.progress)
        except Unreadable as trouble:
            raise Unreadable(f'page {page.number}, {trouble}') from None
        self.room -= len(reader.labels)
        return reader
