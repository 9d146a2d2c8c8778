"""A zip file: its entries, and the bytes of one, read within bounds. Nothing is extracted to disk."""

import os
import stat
import zipfile

from . import limits
from .trouble import Unreadable
from .words import named, shown

CHUNK = 256 * 1024
ENCRYPTED = 0x1                                             # flag of an entry
OUT_OF_MEMORY = 'Error -4 '                                 # of zlib, which has no error of its own for it
METHODS = zipfile.ZIP_STORED, zipfile.ZIP_DEFLATED          # the two that the Open Packaging Conventions allow


class Bounded:
    """A file that hands out no more than a zip's directory may have at once: zipfile reads that in one piece."""

    def __init__(self, file):
        self.file, self.seek, self.tell, self.seekable = file, file.seek, file.tell, file.seekable

    def read(self, size=-1):
        if size is None or size < 0:
            size = limits.DIRECTORY_BYTES
        if size > limits.DIRECTORY_BYTES:
            raise Unreadable(f'the zip has a directory of {size:,} bytes, above the limit of {limits.DIRECTORY_BYTES:,}')
        return self.file.read(size)


def open_regular(path):
    """Opens a regular file; a pipe or a device is not waited for."""
    try:
        descriptor = os.open(path, os.O_RDONLY | os.O_NONBLOCK | os.O_CLOEXEC)
    except OSError as error:
        raise Unreadable(f'cannot be opened: {error.strerror}') from None
    file = os.fdopen(descriptor, 'rb') if stat.S_ISREG(os.fstat(descriptor).st_mode) else os.close(descriptor)
    if file is None:
        raise Unreadable('is a folder, a pipe or a device, not a file')
    return file


def not_a_zip(file):
    """What a file is that has no zip's end."""
    file.seek(0)
    start = file.read(4)
    if not start:
        return 'is empty'
    if start == b'PK\3\4':
        return 'begins as a zip, but its end is missing: it is cut off, or something follows it'
    return 'is not a zip, so not a package'


class Container:
    """The entries of a zip file, in its order."""

    def __init__(self, path):
        self.spent = 0                                      # bytes unpacked so far
        file = open_regular(path)
        try:
            self.zip = zipfile.ZipFile(Bounded(file))
        except (Unreadable, MemoryError):
            file.close()
            raise
        except Exception as error:                          # zipfile raises errors of many kinds on hostile bytes
            sentence = not_a_zip(file)
            file.close()
            if 'is not a zip file' not in str(error):
                sentence = f'is a damaged zip: {shown(str(error)) or type(error).__name__}'
            raise Unreadable(sentence) from None
        self.file = file
        self.entries = [entry for entry in self.zip.infolist() if not entry.filename.endswith('/')]
        if len(self.zip.infolist()) > limits.FILE_ENTRIES:
            self.close()
            raise Unreadable(f'the zip has {len(self.zip.infolist()):,} entries, above the limit of {limits.FILE_ENTRIES:,}')

    def close(self):
        self.file.close()

    def read(self, entry):
        """The bytes of an entry."""
        name = named('/' + entry.filename.lstrip('/'))
        if entry.flag_bits & ENCRYPTED:
            raise Unreadable(f'{name}: is encrypted')
        if entry.compress_type not in METHODS:
            raise Unreadable(f'{name}: is packed by method {entry.compress_type}; packages have stored and deflated entries')
        try:
            return b''.join(self.unpack(entry, name))
        except (Unreadable, MemoryError):
            raise
        except Exception as error:                          # as above
            if OUT_OF_MEMORY in str(error):
                raise MemoryError from None
            raise Unreadable(f'{name}: the zip is damaged here: {shown(str(error)) or type(error).__name__}') from None

    def unpack(self, entry, name):
        """The entry's bytes in chunks. Sizes are counted on what comes out, not believed."""
        size = 0
        with self.zip.open(entry) as packed:
            while chunk := packed.read(CHUNK):
                size += len(chunk)
                self.spent += len(chunk)
                self.judge(name, size, entry.compress_size)
                yield chunk

    def judge(self, name, size, packed):
        if size > limits.PART_BYTES:
            raise Unreadable(f'{name}: unpacks to more than {limits.PART_BYTES:,} bytes, the limit of a part')
        if self.spent > limits.PACKAGE_BYTES:
            raise Unreadable(f'{name}: with it the parts unpack to more than {limits.PACKAGE_BYTES:,} bytes, the limit of a package')
        if size > limits.RATIO_FROM and size > limits.RATIO * packed:
            raise Unreadable(f'{name}: unpacks to more than {limits.RATIO} times its packed size, the limit above {limits.RATIO_FROM:,} bytes')
