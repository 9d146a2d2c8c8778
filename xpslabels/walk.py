"""A file from its start to its end: its pages, what the library says of their labels, and the sums."""

import re
from contextlib import contextmanager
from typing import NamedTuple, Optional

from .container import Container
from .library import Reading
from .package import Package
from .pages import Label, Source

MAY_ROUND_OR_MAP = re.compile(rb'[(.eE]')
FOUR_BYTES = re.compile(rb'[\xf0-\xff]')


class Finding(NamedTuple):
    """A label, and number and place of its refusal, 0 and 0 where it is accepted; its reading, where that was made."""
    label: Label
    number: int
    place: int
    reading: Optional[Reading]


class Sums:
    """Labels, accepted, refused, values finer than thousandths."""

    def __init__(self):
        self.labels = self.accepted = self.refused = self.rounded = 0

    def add(self, finding):
        self.labels += 1
        self.refused += finding.number != 0
        self.accepted += finding.number == 0
        self.rounded += finding.reading.rounded if finding.reading is not None else 0

    def include(self, other):
        for name in vars(self):
            setattr(self, name, getattr(self, name) + getattr(other, name))


def is_plain(label):
    """Whether every tie is 1:1 and no value is finer than thousandths, if the label is accepted: that shows without a reading in a
    text of single code units with indices that have no map, no point and no exponent."""
    return label.text not in (b'', b'{}') and not MAY_ROUND_OR_MAP.search(label.indices) and not FOUR_BYTES.search(label.text)


def findings_of(library, labels, every, sums):
    """What the library says of the labels, one by one, added to the sums: runs are large, and none is kept. A label is read by itself only
    where its ties or its rounded values are wanted."""
    for label, (number, place) in zip(labels, library.judge(labels)):
        wanted = number == 0 and (every or not is_plain(label))
        finding = Finding(label, number, place, library.read(label) if wanted else None)
        sums.add(finding)
        yield finding


@contextmanager
def opened(path, progress):
    """The labels of a file; it is closed behind."""
    container = Container(path)
    try:
        yield Source(Package(container), progress)
    finally:
        container.close()
