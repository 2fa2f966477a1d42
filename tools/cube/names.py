"""The names to list, in blocks: those given as words, then those of a file of names, as they come."""
import os

from .files import shown
from .trouble import Trouble, reason

BLOCK = 1024


def blocks_of(names, size=BLOCK):
    """Names in blocks of some size; standard input's block, `-`, stays one."""
    for i in range(0, len(names), size):
        yield names[i:i + size]


def from_words(words):
    """Blocks of the words given: `-`, standard input as a tape, is a block by itself."""
    plain = []
    for word in words:
        if word == "-":
            yield from blocks_of(plain)
            yield "-"
            plain = []
        else:
            plain.append(os.fsencode(word))
    yield from blocks_of(plain)


def from_file(name, separator):
    """Blocks of the names in a file, each as soon as it is there, so that a slow source is followed."""
    try:
        fd = 0 if name == "-" else os.open(name, os.O_RDONLY)
        try:
            rest = b""
            while True:
                part = os.read(fd, 1 << 16)
                if not part:
                    break
                *whole, rest = (rest + part).split(separator)
                yield from blocks_of(whole)
            if rest:
                yield [rest]
        finally:
            if fd:
                os.close(fd)
    except OSError as e:
        raise Trouble("%s: %s" % (shown(name), reason(e)))
