"""What the tests of `cube` share: running it, sample tapes, random tapes."""
import functools
import glob
import os
import random
import re
import shutil
import struct
import subprocess
import sys
import tempfile
import unittest

ROOT = os.path.dirname(os.path.dirname(os.path.dirname(os.path.realpath(__file__))))
CUBE = os.path.join(ROOT, "cube")
DATA = os.path.join(ROOT, "crates", "evening", "data")
sys.path.insert(0, os.path.join(ROOT, "tools"))
# the Python that runs the tests, and no wrapper of it
os.environ["PATH"] = os.path.dirname(sys.executable) + os.pathsep + os.environ["PATH"]

TEXT = """\
order side=buy mode=auto-match size=10 limit=110 nbb=100 nbo=110 bb=100 bo=110 time=34200000 open=34200000 close=57600000 interval=100
gtx sequence=1 time=20 side=sell size=3 price=105
gtx sequence=1 time=20 side=sell size=3 price=105
"""
LISTING = """\
AUCTION buy size 10 range 101 to 109
EVENT 1 taken
EVENT 1 refused 33
END time range 101 to 109
FILL contra 105 3
FILL 1 105 3
FILL contra 109 4
TOTAL 10
"""


def cube(*words, given=b"", cwd=None, env=None, stdin=None, stdout=subprocess.PIPE, program=CUBE):
    """Runs cube; what it wrote is bytes."""
    how = {"stdin": stdin} if stdin is not None else {"input": given}
    return subprocess.run([program] + list(words), cwd=cwd, env=env, stdout=stdout, stderr=subprocess.PIPE, timeout=120, **how)


def programs():
    """The folder of the programs that cube runs now."""
    from cube import engine
    return os.path.join(engine.BUILT, engine.fingerprint())


def samples():
    return sorted(glob.glob(os.path.join(DATA, "*.tape")))


class Case(unittest.TestCase):
    """A test with a folder of its own, in which c.tape is README's auction."""

    def setUp(self):
        self.folder = tempfile.mkdtemp(prefix="cube-test-")
        self.addCleanup(shutil.rmtree, self.folder, ignore_errors=True)
        self.tape = self.path("c.tape")
        self.write("c.tape", tape_of(TEXT))

    def path(self, name):
        return os.path.join(self.folder, name)

    def write(self, name, data):
        path = os.path.join(os.fsencode(self.folder), name if isinstance(name, bytes) else os.fsencode(name))
        with open(path, "wb") as f:
            f.write(data)
        return path

    def ends(self, made, status, stdout=None, stderr=None):
        """The status; all of standard output; a part of standard error. Never a traceback."""
        said = made.stderr.decode("utf-8", "replace")
        self.assertNotIn("Traceback", said)
        self.assertEqual(made.returncode, status, said)
        if stdout is not None:
            self.assertEqual(made.stdout, stdout.encode() if isinstance(stdout, str) else stdout)
        if stderr is not None:
            self.assertIn(stderr, said)


def tape_of(text):
    from cube import form
    return form.make(text)


def new_text(text):
    """The text as that of a new tape: each event's participant is 70 more than its sequence."""
    return "tape new\n" + re.sub(r"(?m)^\w+ sequence=(\d+) .*$", lambda m: "%s participant=%d" % (m[0], 70 + int(m[1])), text)


def records_of(tape):
    """The event records of a tape that opens, of either form."""
    length, (at, n) = 40 if tape[-16:-12] == b"CUB2" else 32, struct.unpack("<II", tape[-12:-4])
    return [tape[at + 64 + length * k:][:length] for k in range(n)]


@functools.lru_cache(maxsize=None)
def native():
    """The programs as cube starts them."""
    from cube import engine
    return engine.Engine()


class StandIn:
    """An engine whose programs are a line of shell, in which $0 is the program's name."""

    def __init__(self, script):
        self.script = script

    def start(self, program, words=(), **how):
        how = dict({"stdin": subprocess.PIPE, "stdout": subprocess.PIPE, "stderr": subprocess.PIPE}, **how)
        return subprocess.Popen(["sh", "-c", self.script, program, *words], **how)


def random_event(r, k):
    kind = r.choice([1, 1, 1, 2, 3, 3, 4, 5, 6, 6, 7])
    sided, marks = kind in (1, 3, 4), {1: 1, 3: 3, 4: 1, 5: 12}.get(kind, 0) & r.randrange(16)
    price = lambda: r.choice([r.randint(95, 115), r.randint(1, 999999)])
    fields = {1: [r.randint(1, 90), price()], 2: [r.randint(1, 9)], 3: [r.randint(1, 90), price()], 4: [r.randint(1, 90)],
              5: [r.randint(95, 105), r.randint(105, 115), r.randint(95, 105), r.randint(105, 115)], 6: [r.randint(1, 9), r.randint(1, 90), price()]}.get(kind, [])
    record = struct.pack("<II", r.choice([k + 1, k + 1, k + 1, r.randint(0, 9)]), k * 7 + r.randint(0, 9))
    record += bytes([kind, marks, r.choice([1, 2]) if sided else 0, 0]) + struct.pack("<5I", *(fields + [0] * (5 - len(fields))))
    if r.randrange(12) == 0:
        at = r.randrange(32)
        record = record[:at] + bytes([r.randrange(256)]) + record[at + 1:]
    return record


def random_tape(r):
    """A tape of any kind and of either form, most of them auctions."""
    mode = r.choice([1, 2, 3])
    order = bytes([r.choice([1, 2]), mode, r.choice([0] * 9 + [1, 2, 4, 8, 12]), 0]) + struct.pack(
        "<11I", r.randint(1, 200), r.randint(99, 112), 0 if mode == 2 else r.randint(99, 112), 100, 110, 100, 110, 34200000, 34200000, 57600000, r.choice([100, 300, 1000]))
    order += bytes(16)
    if r.randrange(15) == 0:
        at = r.randrange(64)
        order = order[:at] + bytes([r.randrange(256)]) + order[at + 1:]
    own = bytes(r.randrange(256) for _ in range(r.choice([0, 0, 0, 5, 31])))
    events, word = [random_event(r, k) for k in range(r.randrange(14))], r.choice([b"CUBT", b"CUB2"])
    if word == b"CUB2":
        events = [e + struct.pack("<II", r.choice([0, r.randint(1, 99), r.randrange(1 << 32)]), r.choice([0] * 19 + [1 << 24])) for e in events]
    tape = own + order + b"".join(events) + word + struct.pack("<III", len(own), len(events), 0)
    return tape if r.randrange(20) else tape[:-r.randint(1, 20)]


def random_tapes(count, seed):
    r = random.Random(seed)
    return [random_tape(r) for _ in range(count)]
