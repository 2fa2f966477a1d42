"""Reading and writing with nothing lost in silence: each failure is a Trouble that names the file."""
import os
import select
import stat
import tempfile

from .trouble import Trouble, reason

LONGEST_TAPE = 65536
LONGEST_TEXT = 16 << 20


def guard_standard_files():
    """A standard file that was closed is opened on nothing, so that no other file takes its number and a write to it fails. A directory
    as standard input comes under another number (see `cube`)."""
    if os.environ.pop("CUBE_STDIN", None) == "3":
        os.dup2(3, 0)
        os.close(3)
    for fd in (0, 1, 2):
        try:
            os.fstat(fd)
        except OSError:
            os.dup2(os.open(os.devnull, os.O_RDONLY), fd)


def shown(name):
    """A name as it is printed."""
    return "standard input" if name == "-" else name


def write_all(fd, data, name):
    view = memoryview(data)
    while view:
        try:
            view = view[os.write(fd, view):]
        except BlockingIOError:
            select.select([], [fd], [])
        except OSError as e:
            raise Trouble("%s: %s" % (name, reason(e)))


def put(data):
    """Bytes onto standard output."""
    write_all(1, data, "standard output")


def put_text(text):
    put(text.encode("utf-8", "surrogateescape"))


def in_memory(data=b""):
    """A file in memory with these bytes, at its start. It spares the waiting for each other that a pipe brings."""
    file = open(os.memfd_create("cube"), "w+b", buffering=0)
    write_all(file.fileno(), data, "a file in memory")
    file.seek(0)
    return file


def bytes_of(name, most):
    """The bytes of a file, `-` being standard input: at most one more than `most`, so that a longer one shows."""
    fd = 0 if name == "-" else os.open(name, os.O_RDONLY)
    try:
        parts, left = [], most + 1
        while left > 0:
            part = os.read(fd, min(left, 1 << 20))
            if not part:
                break
            parts.append(part)
            left -= len(part)
        return b"".join(parts)
    finally:
        if fd:
            os.close(fd)


def read(name, most):
    """Those bytes, or a Trouble that names the file."""
    try:
        return bytes_of(name, most)
    except OSError as e:
        raise Trouble("%s: %s" % (shown(name), reason(e)))
    except ValueError:
        raise Trouble("%r: no file has such a name" % name)


def read_tape(name):
    return read(name, LONGEST_TAPE)


def read_text(name):
    data = read(name, LONGEST_TEXT)
    if len(data) > LONGEST_TEXT:
        raise Trouble("%s: a text of more than %d bytes is none of a tape" % (shown(name), LONGEST_TEXT))
    return data.decode("utf-8", "replace")


def is_plain(name):
    """A regular file, or none yet: one that may be replaced whole."""
    try:
        return stat.S_ISREG(os.stat(name).st_mode)
    except OSError:
        return True


def write(name, data):
    """A file's new bytes: all of them, or the file stays as it was."""
    if name == "-":
        return put(data)
    try:
        if not is_plain(name):
            with open(name, "wb", buffering=0) as f:
                return write_all(f.fileno(), data, name)
        whole = os.path.realpath(name)
        fd, part = tempfile.mkstemp(prefix=".cube-", dir=os.path.dirname(whole))
        try:
            with open(fd, "wb", buffering=0) as f:
                write_all(fd, data, name)
                umask = os.umask(0)
                os.umask(umask)
                os.fchmod(fd, os.stat(whole).st_mode & 0o777 if os.path.exists(whole) else 0o666 & ~umask)
            os.rename(part, whole)
        except BaseException:
            os.unlink(part)
            raise
    except OSError as e:
        raise Trouble("%s: %s" % (name, reason(e)))
