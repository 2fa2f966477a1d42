"""move: there and back, every refusal, and files that stay as they were."""
import os
import struct

from support import LISTING, TEXT, Case, StandIn, cube, native, new_text, random_tapes, records_of, samples, tape_of

ORDER, GTX = TEXT.splitlines()[:2]
ODD = "record hex=" + "07" * 32
# the recorder's own bytes, every kind, a mark, and records out of form
ALL = "own bytes=00ff43554254\n" + "\n".join([ORDER, GTX, "cancel sequence=2 time=30 of=1", "limit sequence=3 time=40 side=buy size=5 price=103 nonroutable=yes",
                                              "market sequence=4 time=50 side=sell size=4", "quotes sequence=5 time=60 nbb=100 nbo=110 bb=100 bo=110",
                                              "amend sequence=6 time=70 of=1 size=2 price=104", ODD, "gtx sequence=9 time=80 side=sell size=0 price=0"]) + "\n"


def put_together(tape, records, word):
    """The tape with other event records and another first word of the trailer."""
    head = struct.unpack("<I", tape[-12:-8])[0] + 64
    return tape[:head] + b"".join(records) + word + tape[-12:]


def moved(to, tape):
    """The moved tape, or the number that refuses it, by document 02."""
    if not 16 <= len(tape) <= 65536:
        return 21
    word, (at, n, last) = tape[-16:-12], struct.unpack("<III", tape[-12:])
    if word != {"new": b"CUBT", "old": b"CUB2"}[to] or last:
        return 22
    if at + 64 + {"new": 32, "old": 40}[to] * n + 16 != len(tape):
        return 23
    if to == "new":
        made = put_together(tape, [r + bytes(8) for r in records_of(tape)], b"CUB2")
        return made if len(made) <= 65536 else 26
    if any(any(r[32:]) for r in records_of(tape)):
        return 25
    return put_together(tape, [r[:32] for r in records_of(tape)], b"CUBT")


def of_length(events, own, form=str):
    return tape_of(form("own bytes=%s\n" % ("ab" * own) + ORDER + "\n" + (GTX + "\n") * events))


class Moving(Case):
    def test_there_and_back(self):
        """The recorder's own bytes and records out of form come back as they were."""
        for text in (ALL, TEXT, ORDER + "\n"):
            old = tape_of(text)
            new = put_together(old, [r + bytes(8) for r in records_of(old)], b"CUB2")
            self.assertEqual(len(new), len(old) + 8 * len(records_of(old)))
            self.ends(cube("move", "--to", "new", given=old), 0, new)
            self.ends(cube("move", "--to", "old", given=new), 0, old)

    def test_names_and_files(self):
        old = tape_of(ALL)
        new = moved("new", old)
        self.write("a", old)
        for words in (["--to", "new", "a"], ["a", "--to", "new"], ["--to", "new", "a", "-o", "-"]):
            self.ends(cube("move", *words, cwd=self.folder), 0, new, "")
        for words in (["--to", "new", "a", "-o", "b"], ["--to", "new", "-o", "b", "-"], ["-o", "b", "--to=new"]):
            self.ends(cube("move", *words, cwd=self.folder, given=old), 0, b"")
            self.holds("b", new)
            os.unlink(self.path("b"))
        self.ends(cube("move", "--to", "new", "a", "-o", "a", cwd=self.folder), 0, b"")
        self.holds("a", new)
        self.ends(cube("move", "--to", "old", "a", "-o", "a", cwd=self.folder), 0, b"")
        self.holds("a", old)
        self.assertEqual(sorted(os.listdir(self.folder)), ["a", "c.tape"])

    def holds(self, name, data):
        with open(self.path(name), "rb") as f:
            self.assertEqual(f.read(), data)

    def test_any_tape(self):
        """By the modules that cube runs, random tapes and all samples, both ways; what was moved moves back, and is listed as before."""
        from cube import runs
        tapes, seen = random_tapes(150, 41), {}
        for name in samples():
            with open(name, "rb") as f:
                tapes.append(f.read())
        tapes += [t for t in (moved("new", t) for t in tapes) if isinstance(t, bytes)][:100]
        for tape in tapes:
            for to, back in (("new", "old"), ("old", "new")):
                want = moved(to, tape)
                made, refused = runs.moved(native(), to, tape)
                self.assertEqual((made, refused), (None, "REFUSED %d\n" % want) if isinstance(want, int) else (want, None))
                if made is not None:
                    self.assertEqual(runs.moved(native(), back, made), (tape, None))
                    self.assertEqual(runs.one(native(), "-", tape=made).text, runs.one(native(), "-", tape=tape).text)
                seen[want if made is None else to] = True
        self.assertLessEqual({"new", "old", 22, 25}, set(seen))

    def refused(self, to, tape, number):
        """Status 1, one line on standard error, and no file made or changed."""
        self.assertEqual(moved(to, tape), number)
        self.write("a", tape)
        self.write("before", b"as it was")
        for words in ([], ["-o", "out"], ["-o", "before"], ["-o", "a"]):
            made = cube("move", "--to", to, "a", *words, cwd=self.folder)
            self.ends(made, 1, b"")
            self.assertEqual(made.stderr, b"REFUSED %d\n" % number)
        self.assertEqual(sorted(os.listdir(self.folder)), ["a", "before", "c.tape"])
        self.holds("before", b"as it was")
        self.holds("a", tape)
        self.ends(cube("move", "--to", to, given=tape), 1, b"", "REFUSED %d\n" % number)

    def test_21(self):
        for to, word in (("new", b"CUBT"), ("old", b"CUB2")):
            for tape in (b"", word + bytes(11), bytes(65537 - 16) + word + bytes(12)):
                self.refused(to, tape, 21)
            self.refused(to, bytes(16), 22)

    def test_22(self):
        old, new = tape_of(TEXT), tape_of(new_text(TEXT))
        for to, tape in (("new", old), ("old", new)):
            self.refused(to, tape[:-16] + b"CUB3" + tape[-12:], 22)
            self.refused(to, tape[:-1] + b"\1", 22)
            self.refused(to, tape[:-4] + b"\1" + tape[-3:], 22)
        self.refused("old", old, 22)
        self.refused("new", new, 22)
        self.refused("old", b"x" + old, 22)     # before 23
        self.refused("new", b"x" + new, 22)

    def test_23(self):
        old, new = tape_of(TEXT), tape_of(new_text(TEXT))
        self.refused("new", b"x" + old, 23)
        self.refused("old", b"x" + new, 23)     # before 25
        self.refused("new", old[1:], 23)
        # by the length of the form that the tape has
        self.refused("old", old[:-16] + b"CUB2" + old[-12:], 23)
        self.refused("new", new[:-16] + b"CUBT" + new[-12:], 23)
        self.refused("new", old[:-12] + struct.pack("<III", 0xFFFFFFF0, 2, 0), 23)

    def test_25(self):
        plain = moved("new", tape_of(ALL))
        records = records_of(plain)
        for k in (0, 2, len(records) - 1):
            for at in (32, 35, 36, 39):
                odd = records[k][:at] + b"\1" + records[k][at + 1:]
                self.refused("old", put_together(plain, records[:k] + [odd] + records[k + 1:], b"CUB2"), 25)
        self.refused("old", tape_of(new_text(TEXT)), 25)

    def test_26(self):
        """A moved tape may have 65,536 bytes, and no more."""
        longest = of_length(1636, 16)
        made = cube("move", "--to", "new", given=longest)
        self.ends(made, 0, moved("new", longest))
        self.assertEqual(len(made.stdout), 65536)
        self.ends(cube("move", "--to", "old", given=made.stdout), 0, longest)
        self.refused("new", of_length(1636, 17), 26)
        self.refused("new", of_length(1637, 0), 26)
        self.refused("new", of_length(2045, 16), 26)

    def test_listings_stay(self):
        self.ends(cube("move", "--to", "new", self.tape, "-o", self.tape), 0)
        self.ends(cube(self.tape), 0, LISTING)
        self.ends(cube("show", self.tape), 0, "tape new\n" + TEXT)

    def test_no_file(self):
        self.ends(cube("move", "--to", "new", "nowhere", "-o", "out", cwd=self.folder), 1, b"", "cube: nowhere: No such file or directory\n")
        self.ends(cube("move", "--to", "new", self.folder), 1, b"", "Is a directory")
        self.ends(cube("move", "--to", "new", "c.tape", "-o", "no/such/folder", cwd=self.folder), 1, b"", "No such file or directory")
        self.assertEqual(os.listdir(self.folder), ["c.tape"])

    def test_usage(self):
        for words, said in ((["c.tape"], "--to"), (["--to", "newer", "c.tape"], "invalid choice: 'newer'"), (["--to", "new", "c.tape", "d"], "unrecognized arguments: d")):
            made = cube("move", *words, cwd=self.folder)
            self.ends(made, 2, b"", said)
            self.assertIn(b"usage: cube move", made.stderr)

    def test_a_desk_that_fails(self):
        """A refusal is one line by itself; all else is a trouble, and never a tape."""
        from cube import runs
        from cube.trouble import Trouble
        self.assertEqual(runs.moved(StandIn("echo REFUSED 22 >&2"), "new", b""), (None, "REFUSED 22\n"))
        for script, words in (("printf x; echo 'desk: standard output: why' >&2", "^standard output: why$"), ("printf x; echo REFUSED 22 >&2", "^REFUSED 22$"),
                              ("echo REFUSED 22 >&2; exit 3", "^REFUSED 22$"), ("printf x; kill -9 $$", "^desk was ended by signal 9$"),
                              ("printf x; exit 3", "^desk ended with status 3 and said nothing$"), ("exit 0", "^desk ended with status 0 and said nothing$")):
            with self.assertRaisesRegex(Trouble, words):
                runs.moved(StandIn(script), "new", b"")
