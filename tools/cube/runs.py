"""Runs of the proved programs: one tape through `runner`, many through `evening`, a trace, a watch, a move or the participants through `desk`."""
import contextlib
import errno
import itertools
import os
import re
import subprocess
import tempfile

from .files import LONGEST_TAPE, bytes_of, in_memory
from .listing import Listing, Unreadable, WithFirms, refusal
from .trouble import Trouble, reason

COUNTS = ["tapes", "refused", "time", "same", "opposite", "improve", "unreadable"]
SUMMARY = "tapes %d, refused %d, ended by time %d, by same %d, by opposite %d, by improve %d, unreadable %d"
SUMMARY_LINE = re.compile(SUMMARY.replace("%d", r"(\d+)").encode() + rb"\n\Z")
REFUSED_LINE = re.compile(rb"REFUSED \d+\n")
PATH_MAX = 4096


def ended(program, process, said):
    """Why a program did not do its work."""
    said = said.decode("utf-8", "replace").strip()
    if said.startswith(program + ": "):
        said = said[len(program) + 2:]
    if process.returncode < 0:
        return "%s was ended by signal %d%s" % (program, -process.returncode, ": " + said if said else "")
    return said or "%s ended with status %d and said nothing" % (program, process.returncode)


@contextlib.contextmanager
def ours(process):
    """What is done with a program: it does not outlive a failure there."""
    try:
        yield
    except BaseException:
        process.kill()
        process.wait()
        raise


def finish(process, given=None):
    """What a program wrote and said."""
    with ours(process):
        return process.communicate(given)


def one(engine, name, stdin=subprocess.PIPE, tape=None):
    """The listing of one tape, given as bytes or as an open file."""
    process = engine.start("runner", stdin=stdin)
    text, said = finish(process, tape)
    if said.startswith(b"runner: standard input: "):
        return Unreadable(name, said.split(b": ", 2)[2].decode("utf-8", "replace").strip())
    if said or process.returncode != 0 or not text:
        raise Trouble(ended("runner", process, said))
    return Listing(name, text)


def desk(engine, word, tape):
    """The lines of `desk trace`, `desk watch` or `desk firms`."""
    process = engine.start("desk", [word])
    text, said = finish(process, tape)
    if said or process.returncode != 0 or not text:
        raise Trouble(ended("desk", process, said))
    return text.decode("ascii").splitlines()


def moved(engine, form, tape):
    """The tape that `desk move` makes, and None; or None, and the line that refuses it."""
    process = engine.start("desk", ["move", form])
    made, said = finish(process, tape)
    if process.returncode == 0 and not made and REFUSED_LINE.fullmatch(said):
        return None, said.decode("ascii")
    if said or process.returncode != 0 or not made:
        raise Trouble(ended("desk", process, said))
    return made, None


@contextlib.contextmanager
def live(engine, *words):
    """The lines of `desk live`, each as soon as it is written; the word `new` is for records of the new form. Its standard input is that of cube."""
    process, shown = engine.start("desk", ["live", *words], stdin=0), itertools.count()
    with ours(process):
        yield (line.decode("ascii").rstrip("\n") for line, _ in zip(process.stdout, shown))
        _, said = process.communicate()
    if said or process.returncode != 0 or next(shown) == 0:
        raise Trouble(ended("desk", process, said))


def fault(name):
    """Why no file can have such a name, or 0: `evening` is not asked about it then."""
    if b"\0" in name:
        return errno.EINVAL
    return errno.ENAMETOOLONG if len(name) >= PATH_MAX else 0


def is_text(names):
    """Whether the bytes are UTF-8, as every name is that `evening` opens."""
    try:
        names.decode("utf-8")
        return True
    except UnicodeDecodeError:
        return False


def link(name, path):
    """A link to a file, by a name that is seen from the folder in which a program runs; the name itself where it is too long for a link to lead to it."""
    to = name if name.startswith(b"/") else b"/proc/self/cwd/" + name
    if len(to) >= PATH_MAX:
        return name
    os.symlink(to, path)
    return os.fsencode(path)


@contextlib.contextmanager
def called(names):
    """The names by which `evening` is asked for these: a link of ours leads to a file whose name is no text."""
    with contextlib.ExitStack() as until:
        if not is_text(b"\0".join(names)):
            try:
                folder = until.enter_context(tempfile.TemporaryDirectory(prefix="cube-"))
                names = [name if is_text(name) else link(name, os.path.join(folder, str(k))) for k, name in enumerate(names)]
            except OSError as e:
                raise Trouble("no link can be made to a file whose name is no text: %s" % reason(e))
        yield names


class Evening:
    """One run of `evening` over a block of names: what it wrote, and its counts."""

    def __init__(self, engine, names):
        self.names = self.sent = names
        if b"\0".join(names).count(b"\0") != len(names) - 1 or max(map(len, names)) >= PATH_MAX:
            self.sent = [b"" if fault(n) else n for n in names]
        with called(self.sent) as self.sent:
            self.run(engine, b"\0".join(self.sent) + b"\0")

    def run(self, engine, given):
        with in_memory(given) as stdin, in_memory() as stdout:
            process = engine.start("evening", ["-0"], stdin=stdin, stdout=stdout)
            _, said = finish(process)
            stdout.seek(0)
            self.text = stdout.read()
        summary = SUMMARY_LINE.search(said)
        if process.returncode != 0 or not summary:
            raise Trouble(ended("evening", process, said))
        self.counts = [int(n) for n in summary.groups()]

    def is_plain(self):
        """Every name was listed, under its own name: what was written can go out as it is."""
        return self.counts[-1] == 0 and self.sent == self.names

    def __iter__(self):
        """What is listed of each name, in order. A name may hold anything, so each is stepped over by its own length."""
        at = 0
        for name, sent in zip(self.names, self.sent):
            at += len(b"TAPE " + sent + b"\n")
            printed = os.fsdecode(name)
            if self.text.startswith(b"UNREADABLE ", at):
                number = self.text[at + 11:self.text.index(b" ", at + 11)]
                end = at + len(b"UNREADABLE " + number + b" " + sent + b"\n")
                yield Unreadable.by_number(printed, fault(name) or int(number))
            else:
                last = at if self.text.startswith(b"REFUSED ", at) else self.text.index(b"\nTOTAL ", at) + 1
                end = self.text.index(b"\n", last) + 1
                yield Listing(printed, self.text[at:end])
            at = end


def counts_of(listed):
    """The counts of one tape."""
    words = [] if isinstance(listed, Unreadable) else listed.lines()
    end = next((w.split()[1] for w in words if w.startswith("END ")), "refused" if words else "unreadable")
    return [1] + [int(key == end) for key in COUNTS[1:]]


class Singly:
    """A block whose tapes were listed one by one."""

    def __init__(self, listed):
        self.listed = listed
        self.counts = [sum(n) for n in zip(*map(counts_of, listed))]

    def is_plain(self):
        return False

    def __iter__(self):
        return iter(self.listed)


def one_with_firms(engine, name):
    """The listing of one tape with its participants. The tape is read once, so that `runner` and `desk` have the same bytes; a pipe's, too."""
    printed = os.fsdecode(name)
    try:
        tape = bytes_of(name, LONGEST_TAPE)
    except OSError as e:
        return Unreadable(printed, reason(e))
    except ValueError:
        return Unreadable.by_number(printed, errno.EINVAL)
    listed = one(engine, printed, tape=tape)
    return listed if refusal(listed.lines()[0]) is not None else WithFirms(listed, desk(engine, "firms", tape))


def run_block(engine, block, firms=False):
    """What is listed of a block: that of standard input, `-`, or of names; with the participants, where they are asked for."""
    if firms:
        return Singly([one_with_firms(engine, name) for name in ([block] if block == "-" else block)])
    return Singly([one(engine, "-", stdin=0)]) if block == "-" else Evening(engine, block)
