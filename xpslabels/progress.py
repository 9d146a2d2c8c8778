"""How far the program has come: one line on standard error, only where that is a terminal."""

import os
import time
from itertools import accumulate
from unicodedata import east_asian_width

EVERY = 0.2             # seconds between two states of the line
STEP = 256              # labels between two looks at the clock
WIDTH = 80              # columns, where the terminal does not tell


def width_of(terminal):
    try:
        return os.get_terminal_size(terminal.fileno()).columns or WIDTH
    except OSError:
        return WIDTH


def fitted(text, width):
    """As much of the text as leaves a column free: a line that wraps cannot be taken away."""
    ends = accumulate(2 if east_asian_width(character) in 'WF' else 1 for character in text)
    return ''.join(character for character, end in zip(text, ends) if end < width)


class Progress:
    """The line; taken away at the end of a `with`. Where standard output is a terminal too, the line makes way for what is printed there."""

    def __init__(self, stream, output):
        self.stream = stream if stream is not None and stream.isatty() else None
        self.beside = output.isatty()
        self.file, self.next, self.visible = '', time.monotonic() + EVERY, False

    def __enter__(self):
        return self

    def __exit__(self, *_):
        self.clear()

    def show(self, words):
        """Shows the words and the file's name, unless something was shown just now."""
        if self.stream is None or time.monotonic() < self.next:
            return
        self.next = time.monotonic() + EVERY
        self.stream.write('\r\033[K' + fitted(f'{words}: {self.file}', width_of(self.stream)))
        self.stream.flush()
        self.visible = True

    def through(self, labels, words, printed):
        """Hands the labels on and shows how many were; not where each is printed on the terminal."""
        for count, label in enumerate(labels):
            if count and count % STEP == 0 and not (printed and self.beside):
                self.show(words.format(count))
            yield label

    def make_way(self):
        """Takes the line away where something else is printed on the terminal."""
        if self.beside:
            self.clear()

    def clear(self):
        if self.visible:
            self.stream.write('\r\033[K')
            self.stream.flush()
            self.visible = False
