"""The calls of include/glyph_label.h, through the shared object that is made of the archive."""

import ctypes
import os
import struct
from typing import NamedTuple

from .trouble import Unreadable
from .words import shown

VERSION = 1                                     # of the calls that this program is written for
VARIABLE = 'GLYPH_LABEL_LIBRARY'
ROOT = os.path.dirname(os.path.dirname(os.path.abspath(__file__)))
INSTALLED = os.path.join('share', 'glyph_label')
FILE = 'libglyph_label.so'

ROOMS = 8192, 32768, 65536                      # bytes that hold the units, the clusters and the glyphs of every run
STEPS = 2, 8, 16                                # bytes of a unit, of a cluster, of a glyph
OUTPUTS = 16384, 262144                         # bytes that hold the text and the indices of every normal writing
SHEET, RECORD, ANSWER = b'SLB\1\0', struct.Struct('<HI'), struct.Struct('<ii')
RECORD_TEXT = 65535                             # the largest text that a record of a sheet can have


def struct_of(name, **fields):
    return type(name, (ctypes.Structure,), {'_fields_': list(fields.items())})


U32, SIZE = ctypes.c_uint32, ctypes.c_size_t
BUFFER = ctypes.c_void_p, SIZE
ReadingAnswer = struct_of('ReadingAnswer', number=U32, place=U32, units=U32, clusters=U32, glyphs=U32, rounded=U32)
WritingAnswer = struct_of('WritingAnswer', number=U32, place=U32, text=U32, indices=U32)
FilledAnswer = struct_of('FilledAnswer', number=U32, place=SIZE, filled=SIZE)
PartAnswer = struct_of('PartAnswer', in_indices=U32, start=SIZE, length=SIZE)
CALLS = {
    'version': (U32,), 'read': (ReadingAnswer, *BUFFER * 5), 'write': (WritingAnswer, *BUFFER * 5),
    'sheet': (FilledAnswer, *BUFFER * 2), 'fault': (PartAnswer, *BUFFER * 2, U32, SIZE)}


class Reading(NamedTuple):
    """A run as bytes, and how many given values were finer than thousandths."""
    units: bytes
    clusters: bytes
    glyphs: bytes
    rounded: int


def find():
    """The shared object's path: the variable's, the installed one, or that of the clone."""
    if VARIABLE in os.environ:
        return os.environ[VARIABLE]
    is_installed = ROOT.endswith(os.sep + INSTALLED)
    path = os.path.join(ROOT[:-len(INSTALLED)], 'lib', FILE) if is_installed else os.path.join(ROOT, 'target', FILE)
    if os.path.isfile(path):
        return path
    advice = 'install it again' if is_installed else 'make it with `sh tools/shared.sh`'
    raise Unreadable(f'the library {shown(path)} is not there: {advice}, or name it in {VARIABLE}')


class Library:
    """The calls, with buffers that are large enough for every label."""

    def __init__(self):
        path = find()
        try:
            loaded = ctypes.CDLL(os.path.abspath(path))
            for name, (result, *arguments) in CALLS.items():
                call = getattr(loaded, 'glyph_label_' + name)
                call.restype, call.argtypes = result, arguments
                setattr(self, 'call_' + name, call)
        except (OSError, AttributeError) as error:
            raise Unreadable(f'the library {shown(path)} cannot be used: {shown(str(error))}') from None
        if self.call_version() != VERSION:
            raise Unreadable(f'the library {shown(path)} has version {self.call_version()} of the calls; this program is written for {VERSION}')
        self.run = [ctypes.create_string_buffer(room) for room in ROOMS]
        self.outputs = [ctypes.create_string_buffer(room) for room in OUTPUTS]

    def judge(self, labels):
        """Number and place of each label's refusal, 0 and 0 where it is accepted, by one call for all of them. A text that no record
        can hold is read by itself."""
        records = [label for label in labels if len(label.text) <= RECORD_TEXT]
        file = b''.join([SHEET, *(piece for label in records for piece in
                                  (RECORD.pack(len(label.text), len(label.indices)), label.text, label.indices))])
        answers = ctypes.create_string_buffer(ANSWER.size * len(records) + 1)
        filled = self.call_sheet(file, len(file), answers, ANSWER.size * len(records))
        if filled.number != 0 or filled.filled != 2 * len(records):
            raise Unreadable(f'the library refuses the sheet of {len(records):,} labels with {filled.number} at {filled.place}')
        found = ANSWER.iter_unpack(ctypes.string_at(answers, ANSWER.size * len(records)))
        return [next(found) if len(label.text) <= RECORD_TEXT else self.answer(label)[:2] for label in labels]

    def call_reading(self, label):
        """One reading, into the buffers that all readings share."""
        rooms = (argument for buffer, room in zip(self.run, ROOMS) for argument in (buffer, room))
        return self.call_read(label.text, len(label.text), label.indices, len(label.indices), *rooms)

    def answer(self, label):
        """Number and place of a label's refusal, and None; or 0, 0 and its reading."""
        answer = self.call_reading(label)
        if answer.number != 0:
            return answer.number, answer.place, None
        counts = answer.units, answer.clusters, answer.glyphs
        run = (ctypes.string_at(buffer, step * count) for buffer, step, count in zip(self.run, STEPS, counts))
        return 0, 0, Reading(*run, answer.rounded)

    def read(self, label):
        """The reading of an accepted label."""
        number, place, reading = self.answer(label)
        if reading is None:
            raise Unreadable(f'the library refuses with {number} at {place} a label that it accepted')
        return reading

    def write(self, reading):
        """The normal writing of a run: its text and its indices."""
        run = (argument for part in reading[:3] for argument in (part, len(part)))
        rooms = (argument for buffer, room in zip(self.outputs, OUTPUTS) for argument in (buffer, room))
        answer = self.call_write(*run, *rooms)
        if answer.number != 0:
            raise Unreadable(f'the library refuses with {answer.number} at {answer.place} to write a run that it read')
        return tuple(ctypes.string_at(buffer, size) for buffer, size in zip(self.outputs, (answer.text, answer.indices)))

    def fault(self, label, number, place):
        """The part that a refusal is about: whether it is of the indices, where it starts, how long it is."""
        part = self.call_fault(label.text, len(label.text), label.indices, len(label.indices), number, place)
        return part.in_indices != 0, part.start, part.length
