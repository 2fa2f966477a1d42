"""What can go wrong, as one sentence and a status; and saying it."""
import os

FINE, TROUBLE, USAGE, INTERRUPTED, TERMINATED = 0, 1, 2, 130, 143


class Trouble(Exception):
    """Something could not be read, written or built: a sentence for standard error, and status 1."""


def reason(error):
    """The system's own words for an OSError."""
    return error.strerror or str(error)


def put_error(text):
    """Text on standard error, where that can be written."""
    try:
        os.write(2, text.encode("utf-8", "surrogateescape"))
    except OSError:
        pass


def say(sentence):
    put_error("cube: %s\n" % sentence)
