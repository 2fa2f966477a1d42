"""make, show and check: round trips, and all that can be wrong with a text."""
import os
import re
import struct

from support import LISTING, TEXT, Case, cube, new_text, random_tapes, tape_of

ALL = """\
# every kind and mark
own bytes=00ff
order side=sell mode=auto-match-limit size=10 limit=101 stop=104 nbb=100 nbo=110 bb=100 bo=110 time=34200000 open=34200000 close=57600000 interval=100 displayed=101 collar=3 halted=yes \
another=yes customer-at-bb=yes customer-at-bo=yes
gtx sequence=1 time=20 side=buy size=3 price=105 customer=yes

cancel sequence=2 time=30 of=1
limit sequence=3 time=40 side=buy size=5 price=103 customer=yes nonroutable=yes
market sequence=4 time=50 side=sell size=4 customer=yes
quotes sequence=5 time=60 nbb=100 nbo=110 bb=100 bo=110 customer-at-bb=yes customer-at-bo=yes
amend sequence=6 time=70 of=1 size=2 price=104
record hex=0700000032000000090000000000000000000000000000000000000000000000
"""
NEW = """\
tape new
own bytes=00ff
order side=buy mode=auto-match size=10 limit=110 nbb=100 nbo=110 bb=100 bo=110 time=34200000 open=34200000 close=57600000 interval=100
gtx sequence=1 time=20 side=sell size=3 price=105 participant=77 customer=yes
cancel sequence=2 time=30 of=1 participant=1
limit sequence=3 time=40 side=buy size=5 price=103 participant=4294967295 customer=yes nonroutable=yes
market sequence=4 time=50 side=sell size=4 participant=5
quotes sequence=5 time=60 nbb=100 nbo=110 bb=100 bo=110 participant=6 customer-at-bb=yes
amend sequence=6 time=70 of=1 size=2 price=104 participant=7
amend sequence=7 time=70 of=1 size=2 price=104
record hex=07000000320000000900000000000000000000000000000000000000000000004d00000000000000
"""
NO_PARTICIPANT = "participant belongs to a tape of the new form: a line `tape new` at the start"
ORDER, GTX = TEXT.splitlines()[:2]
AMEND = "amend sequence=2 time=30 of=1 size=4 price=104"
AMENDED = """\
AUCTION buy size 10 range 101 to 109
EVENT 1 taken
EVENT 2 taken
END time range 101 to 109
FILL contra 104 4
FILL 2 104 4
FILL contra 109 2
TOTAL 10
"""


def lines_of(*lines):
    return "".join(line + "\n" for line in lines)


class Texts(Case):
    def test_make_and_show(self):
        self.write("c.txt", TEXT.encode())
        tape = tape_of(TEXT)
        self.ends(cube("make", given=TEXT.encode()), 0, tape)
        self.ends(cube("make", "-", given=TEXT.encode()), 0, tape)
        self.ends(cube("make", "c.txt", cwd=self.folder), 0, tape)
        self.ends(cube("make", "c.txt", "-o", "d.tape", cwd=self.folder), 0, b"")
        self.ends(cube("make", "-o", "-", "c.txt", cwd=self.folder), 0, tape)
        self.ends(cube("show", "d.tape", cwd=self.folder), 0, TEXT)
        self.ends(cube("show", given=tape), 0, TEXT)
        self.ends(cube("show", "-", given=tape), 0, TEXT)

    def test_every_kind_and_mark(self):
        made = cube("make", given=ALL.encode())
        self.ends(made, 0)
        kept = "".join(line + "\n" for line in ALL.splitlines() if line and not line.startswith("#"))
        self.ends(cube("show", given=made.stdout), 0, kept)

    def test_round_trips(self):
        """Each random tape that opens comes back whole from its text, by the modules that cube runs; some of them by cube itself."""
        from cube import form
        tapes, shown = random_tapes(3000, 11), 0
        for k, tape in enumerate(tapes):
            try:
                text = form.show(tape)
            except form.Wrong:
                continue
            self.assertEqual(form.make(text), tape)
            if k % 200 == 0:
                self.ends(cube("show", given=tape), 0, text)
                self.ends(cube("make", given=text.encode()), 0, tape)
            shown += 1
        self.assertGreater(shown, 2500)

    def wrong(self, text, *sentences):
        """make names the first, check all of them; nothing is made."""
        made = cube("make", given=text.encode("utf-8", "surrogateescape"))
        self.ends(made, 1, b"", "cube: " + sentences[0] + "\n")
        checked = cube("check", given=text.encode("utf-8", "surrogateescape"))
        self.ends(checked, 1)
        self.assertEqual(checked.stdout.decode().splitlines()[:-1], list(sentences))

    def test_wrong_texts(self):
        order, gtx = ORDER, GTX
        self.wrong("", "there is no order: a line that begins with order")
        self.wrong(gtx + "\n" + order, "line 1: the order stands before the events: a line that begins with order")
        self.wrong(order + "\n" + order, "line 2: there is one order, and it stands before the events")
        self.wrong(TEXT.replace("size=3", "size=three", 1), "line 2: size=three is not a number from 0 to 4294967295")
        self.wrong(TEXT.replace("size=3", "size=4294967296", 1), "line 2: size=4294967296 is not a number from 0 to 4294967295")
        self.wrong(TEXT.replace("size=3", "size=-3", 1), "line 2: size=-3 is not a number from 0 to 4294967295")
        self.wrong(TEXT.replace("size=3", "size=\u0663", 1), "line 2: size=\u0663 is not a number from 0 to 4294967295")
        self.wrong(TEXT.replace("size=3", "size=" + "9" * 9000, 1), "line 2: size=%s.. is not a number from 0 to 4294967295" % ("9" * 40))
        self.wrong(TEXT.replace("side=buy", "side=both"), "line 1: side=both is none of buy, sell")
        self.wrong(TEXT.replace(" size=10", ""), "line 1: size is missing")
        self.wrong(order + "\n" + gtx + " price=1 colour=red fish", "line 2: price stands twice", "line 2: 'fish' is not key=value", "line 2: colour does not belong here")
        self.wrong(order + "\ngtx\noops a=1\nrecord hex=00\nown bytes=00", "line 2: sequence is missing", "line 2: time is missing", "line 2: side is missing", "line 2: size is missing",
                   "line 2: price is missing", "line 3: 'oops' is none of gtx, cancel, limit, market, quotes, amend, record", "line 4: a record here has 32 bytes, and this has 1",
                   "line 5: the recorder's own bytes stand before the order, and once")
        self.wrong(order + " halted=no", "line 1: halted=no: a mark is yes or left out")
        self.wrong(order.replace("auto-match", "stop"), "line 1: stop is missing")
        self.wrong("own bytes=xx\n" + order, "line 1: bytes=xx is not hex")
        self.wrong(order + "\n" + (gtx + "\n") * 2046, "the tape would have 65552 bytes, and may have 65,536")
        self.wrong("\udcff\udcfe", "line 1: the order stands before the events: a line that begins with order", "there is no order: a line that begins with order")

    def test_check_says_what_the_engine_refuses(self):
        made = cube("check", given=("# c\n" + TEXT).encode())
        self.ends(made, 0, "line 4: the engine refuses event 1 by 33: sequence not above the highest taken (0 before any)\n"
                           "a tape of 144 bytes can be made: an order and 2 events\n")
        made = cube("check", given=TEXT.replace("halted", "").replace("interval=100", "interval=100 halted=yes").encode())
        self.ends(made, 0, "line 1: the engine refuses the order by 6: halted, (b)(10)\na tape of 144 bytes can be made: an order and 2 events\n")
        self.write("c.txt", TEXT.splitlines()[0].encode())
        self.ends(cube("check", "c.txt", cwd=self.folder), 0, "a tape of 80 bytes can be made: an order and 0 events\n")
        self.assertEqual(sorted(os.listdir(self.folder)), ["c.tape", "c.txt"])

    def test_new_tapes(self):
        """Every kind may have a participant; the records and the trailer are document 02's."""
        made = cube("make", given=NEW.encode())
        self.ends(made, 0)
        self.ends(cube("show", given=made.stdout), 0, NEW)
        tape = made.stdout
        self.assertEqual((len(tape), tape[-16:]), (2 + 64 + 8 * 40 + 16, b"CUB2" + struct.pack("<III", 2, 8, 0)))
        self.assertEqual(tape[66:106], struct.pack("<II4B5I", 1, 20, 1, 1, 2, 0, 3, 105, 0, 0, 0) + struct.pack("<II", 77, 0))
        self.assertEqual([struct.unpack("<II", tape[66 + 40 * k + 32:][:8]) for k in range(8)], [(n, 0) for n in (77, 1, 4294967295, 5, 6, 7, 0, 77)])
        self.ends(cube("check", given=new_text(TEXT).encode()), 0, "line 4: the engine refuses event 1 by 33: sequence not above the highest taken (0 before any)\n"
                                                                   "a tape of 160 bytes can be made: an order and 2 events\n")
        self.ends(cube(given=tape_of(new_text(TEXT))), 0, LISTING)
        for text in ("tape new\n" + TEXT, "tape new\n" + lines_of(ORDER), "# first\n\n tape  new \n" + TEXT):
            self.ends(cube("show", given=tape_of(text)), 0, text[text.index("tape"):].replace("tape  new ", "tape new"))
        self.assertEqual(tape_of("tape new\n" + TEXT), tape_of(new_text(TEXT.replace("sequence=1", "sequence=1 participant=0")).replace(" participant=71", "")))

    def test_old_tapes_by_name(self):
        """`tape old` says what is the case without it, and is left out of what show prints."""
        self.assertEqual(tape_of("tape old\n" + ALL), tape_of(ALL))
        self.ends(cube("make", given=("tape old\n" + TEXT).encode()), 0, tape_of(TEXT))
        self.ends(cube("show", given=tape_of("tape old\n" + TEXT)), 0, TEXT)
        self.wrong("tape old\n" + new_text(TEXT)[9:], "line 3: " + NO_PARTICIPANT, "line 4: " + NO_PARTICIPANT)

    def test_wrong_participants_and_forms(self):
        self.wrong(lines_of(ORDER, GTX + " participant=7"), "line 2: " + NO_PARTICIPANT)
        self.wrong(lines_of(ORDER, GTX + " participant=0"), "line 2: " + NO_PARTICIPANT)
        self.wrong(lines_of(ORDER, GTX + " participant=x"), "line 2: " + NO_PARTICIPANT)
        self.wrong(lines_of("tape new", ORDER + " participant=7"), "line 2: participant does not belong here")
        for value in ("4294967296", "-1", "x", ""):
            self.wrong(lines_of("tape new", ORDER, GTX + " participant=" + value), "line 3: participant=%s is not a number from 0 to 4294967295" % value)
        self.wrong(lines_of("tape new", ORDER, GTX + " participant=1 participant=1"), "line 3: participant stands twice")
        first = "the tape's form stands first, and once"
        self.wrong(lines_of("tape new", "tape new", ORDER), "line 2: " + first)
        self.wrong(lines_of("own bytes=00", "tape new", ORDER), "line 2: " + first)
        self.wrong(lines_of(ORDER, "tape new", GTX), "line 2: " + first)
        self.wrong(lines_of(ORDER, GTX, "tape old"), "line 3: " + first)
        self.wrong(lines_of("tape new", "own bytes=00", "own bytes=00", ORDER), "line 3: the recorder's own bytes stand before the order, and once")
        for words in ("tape", "tape newer", "tape new old", "tape form=new"):
            self.wrong(lines_of(words, ORDER), "line 1: '%s' is none of tape old, tape new" % words)
        self.wrong("tape new\n", "there is no order: a line that begins with order")
        self.wrong(lines_of("tape new", ORDER, "record hex=" + "00" * 32), "line 3: a record here has 40 bytes, and this has 32")
        self.wrong(lines_of(ORDER, "record hex=" + "00" * 40), "line 2: a record here has 32 bytes, and this has 40")
        self.wrong(lines_of("tape new", ORDER, *[GTX] * 1637), "the tape would have 65560 bytes, and may have 65,536")
        self.assertEqual(len(tape_of(lines_of("tape new", ORDER, *[GTX] * 1636))), 65520)

    def test_new_records_out_of_form(self):
        """A record whose word 28 or last word is not zero is shown in hex, and the engine refuses it."""
        tape = tape_of(lines_of("tape new", ORDER, GTX))
        for at in (*range(28, 32), *range(36, 40)):
            place = len(tape) - 56 + at
            odd = tape[:place] + b"\x01" + tape[place + 1:]
            shown = cube("show", given=odd)
            self.ends(shown, 0, lines_of("tape new", ORDER, "record hex=" + odd[-56:-16].hex()))
            self.ends(cube("make", given=shown.stdout), 0, odd)
            self.assertIn(b"EVENT 1 refused 32\n", cube(given=odd).stdout)

    def test_collared_order(self):
        """The record of document 02, W-205: the displayed price at 48, the collar at 52; each is left out of the text where it is 0. The range and the numbers are the document's."""
        sell = ORDER.replace("side=buy", "side=sell").replace("limit=110", "limit=100")
        why = lambda n: re.match(r"\d+  \(order\) (.*)\n", cube("why", str(n)).stdout.decode()).group(1)
        for order, words, said in ((ORDER, "displayed=109 collar=3", "range 101 to 105"), (sell, "displayed=101 collar=3", "range 105 to 109"), (ORDER, "displayed=104 collar=3", 13),
                                   (sell, "displayed=106 collar=3", 13), (ORDER, "displayed=109", 1), (ORDER, "collar=3", 1), (ORDER, "displayed=109 collar=109", 1),
                                   (sell, "displayed=999998 collar=2", 1), (sell, "displayed=999998 collar=1", 13), (ORDER, "displayed=4294967295 collar=4294967295", 1)):
            text = order + " " + words + "\n"
            made = cube("make", given=text.encode())
            fields = dict(re.findall(r"(\w+)=(\d+)", words))
            self.ends(made, 0)
            self.assertEqual(made.stdout[48:64], struct.pack("<4I", int(fields.get("displayed", 0)), int(fields.get("collar", 0)), 0, 0))
            self.ends(cube("show", given=made.stdout), 0, text)
            listed, last = cube(given=made.stdout), "a tape of 80 bytes can be made: an order and 0 events"
            if isinstance(said, int):
                self.ends(listed, 0, "REFUSED %d\n" % said)
                self.ends(cube("check", given=text.encode()), 0, lines_of("line 1: the engine refuses the order by %d: %s" % (said, why(said)), last))
            else:
                self.assertIn(said.encode(), listed.stdout.split(b"\n")[0])
                self.ends(cube("check", given=text.encode()), 0, lines_of(last))
        none = cube("make", given=(ORDER + " displayed=0 collar=0\n").encode()).stdout
        self.ends(cube("show", given=none), 0, lines_of(ORDER))
        self.wrong(ORDER + " displayed=-1 collar=x", "line 1: displayed=-1 is not a number from 0 to 4294967295", "line 1: collar=x is not a number from 0 to 4294967295")
        self.wrong(ORDER + " displayed=1 displayed=2", "line 1: displayed stands twice")
        for at in range(56, 64):
            odd = none[:at] + b"\x01" + none[at + 1:]
            self.ends(cube("show", given=odd), 0, lines_of("record hex=" + odd[:64].hex()))
            self.ends(cube(given=odd), 0, "REFUSED 1\n")

    def test_amend(self):
        """The record of document 02: kind 6 with the name, the size and the price in fields 12, 16 and 20. Its fills are those of a response sent so at once."""
        text = lines_of(ORDER, GTX, AMEND)
        made = cube("make", given=text.encode())
        self.ends(made, 0)
        self.assertEqual(made.stdout[-48:-16], struct.pack("<II4B5I", 2, 30, 6, 0, 0, 0, 1, 4, 104, 0, 0))
        self.ends(cube("show", given=made.stdout), 0, text)
        self.ends(cube("check", given=text.encode()), 0, "a tape of 144 bytes can be made: an order and 2 events\n")
        self.ends(cube(given=made.stdout), 0, AMENDED)
        at_once = cube(given=tape_of(lines_of(ORDER, "gtx sequence=2 time=30 side=sell size=4 price=104"))).stdout.decode()
        self.assertEqual(at_once[at_once.index("END "):], AMENDED[AMENDED.index("END "):])

    def test_wrong_amends(self):
        missing = ["line 3: %s is missing" % key for key in ("sequence", "time", "of", "size", "price")]
        self.wrong(lines_of(ORDER, GTX, "amend"), *missing)
        for key, sentence in zip(("sequence", "time", "of", "size", "price"), missing):
            self.wrong(lines_of(ORDER, GTX, re.sub(r" %s=\d+" % key, "", AMEND)), sentence)
        self.wrong(lines_of(ORDER, GTX, AMEND + " side=sell customer=yes"), "line 3: customer, side does not belong here")
        self.wrong(lines_of(ORDER, GTX, AMEND + " of=1"), "line 3: of stands twice")
        self.wrong(lines_of(ORDER, GTX, AMEND.replace("of=1", "of=4294967296")), "line 3: of=4294967296 is not a number from 0 to 4294967295")
        self.wrong(lines_of(ORDER, AMEND.replace("size=4", "size=-4")), "line 2: size=-4 is not a number from 0 to 4294967295")
        self.wrong(lines_of(AMEND, ORDER), "line 1: the order stands before the events: a line that begins with order")

    def test_amends_that_the_engine_refuses(self):
        """Numbers that only fit their fields are made; the numbers that refuse them are document 02's, in the words of why."""
        amends = [("sequence=2 time=30 of=1 size=0 price=104", 32), ("sequence=2 time=30 of=1 size=100001 price=104", 32), ("sequence=2 time=30 of=1 size=4294967295 price=104", 32),
                  ("sequence=2 time=30 of=1 size=4 price=0", 32), ("sequence=2 time=30 of=1 size=4 price=1000000", 32), ("sequence=2 time=86400001 of=1 size=4 price=104", 32),
                  ("sequence=1 time=30 of=1 size=4 price=104", 33), ("sequence=2 time=19 of=1 size=4 price=104", 34), ("sequence=2 time=30 of=1 size=4 price=110", 36),
                  ("sequence=2 time=30 of=9 size=4 price=110", 36), ("sequence=2 time=30 of=0 size=4 price=104", 37), ("sequence=2 time=30 of=2 size=4 price=104", 37),
                  ("sequence=2 time=30 of=4294967295 size=4 price=104", 37), ("sequence=2 time=30 of=1 size=100000 price=109", None), ("sequence=2 time=30 of=1 size=100000 price=109", 33),
                  ("sequence=3 time=40 of=1 size=4 price=104", 37), ("sequence=3 time=40 of=2 size=1 price=1", None)]
        text = lines_of(ORDER, GTX, *["amend " + words for words, _ in amends])
        self.ends(cube("show", given=tape_of(text)), 0, text)
        want = []
        for i, (words, number) in enumerate(amends, 3):
            if number is not None:
                when = re.match(r"\d+  \(event\) (.*)\n", cube("why", str(number)).stdout.decode()).group(1)
                want.append("line %d: the engine refuses event %s by %d: %s" % (i, re.match(r"sequence=(\d+)", words).group(1), number, when))
        made = cube("check", given=text.encode())
        self.ends(made, 0, lines_of(*want, "a tape of %d bytes can be made: an order and %d events" % (80 + 32 * (len(amends) + 1), len(amends) + 1)))

    def test_amends_out_of_form(self):
        """A record of kind 6 that the line can't say is shown in hex, and the engine refuses it."""
        tape = tape_of(lines_of(ORDER, GTX, AMEND))
        for at in (9, 10, 11, *range(24, 32)):
            place = len(tape) - 48 + at
            odd = tape[:place] + b"\x01" + tape[place + 1:]
            shown = cube("show", given=odd)
            self.ends(shown, 0, lines_of(ORDER, GTX, "record hex=" + odd[-48:-16].hex()))
            self.ends(cube("make", given=shown.stdout), 0, odd)
            self.assertIn(b"EVENT 2 refused 32\n", cube(given=odd).stdout)

    def test_show_of_no_tape(self):
        tape = tape_of(TEXT)
        self.ends(cube("show", given=b""), 1, b"", "cube: 21: a tape has 16 to 65,536 bytes, and this has 0")
        self.ends(cube("show", given=tape[:-1] + b"x"), 1, b"", "cube: 22: ")
        self.ends(cube("show", given=b"x" + tape), 1, b"", "cube: 23: ")
        self.ends(cube("show", given=tape[:-16] + b"CUB3" + tape[-12:]), 1, b"", "cube: 22: ")
        self.ends(cube("show", given=tape[:-16] + b"CUB2" + tape[-12:]), 1, b"", "cube: 23: ")
        new = tape_of(new_text(TEXT))
        self.ends(cube("show", given=new[:-1] + b"x"), 1, b"", "cube: 22: ")
        self.ends(cube("show", given=b"x" + new), 1, b"", "cube: 23: ")
        self.ends(cube("show", given=new[:-16] + b"CUBT" + new[-12:]), 1, b"", "cube: 23: ")
        self.ends(cube("show", "nowhere", cwd=self.folder), 1, b"", "cube: nowhere: No such file or directory")
        self.ends(cube("make", "nowhere", cwd=self.folder), 1, b"", "cube: nowhere: No such file or directory")

    def test_a_listing_at_once(self):
        made = cube("make", given=TEXT.encode())
        self.ends(cube("list", given=made.stdout), 0, LISTING)
