"""watch: the listing, with the contracts on offer against a sum that is kept here; live: each line before the next record is sent."""
import os
import re
import select
import signal
import subprocess
import time

from support import CUBE, LISTING, TEXT, Case, StandIn, cube, native, new_text, random_tapes, samples, tape_of

ORDER = "order side=buy mode=stop size=100 limit=110 stop=108 nbb=100 nbo=110 bb=100 bo=110 time=34200000 open=34200000 close=57600000 interval=100\n"
# an event, and what is on offer after it
STEPS = [
    ("gtx sequence=1 time=10 side=sell size=30 price=105", 30),
    ("gtx sequence=2 time=12 side=sell size=250 price=108", 130),               # capped at the order's size
    ("gtx sequence=2 time=12 side=sell size=250 price=108", 130),               # sent again
    ("limit sequence=3 time=14 side=sell size=170 price=109", 300),             # with its whole size
    ("limit sequence=4 time=16 side=sell size=40 price=112", 300),              # takes no place
    ("limit sequence=5 time=18 side=buy size=5 price=103", 300),
    ("amend sequence=6 time=20 of=1 size=400 price=106", 370),                  # capped, too
    ("amend sequence=7 time=20 of=1 size=1 price=106", 370),
    ("cancel sequence=7 time=22 of=2", 270),
    ("cancel sequence=8 time=22 of=3", 270),                                    # a limit order
    ("gtx sequence=8 time=24 side=buy size=1 price=105", 270),
    ("gtx sequence=8 time=24 side=sell size=1 price=111", 270),
    ("gtx sequence=8 time=21 side=sell size=1 price=105", 270),                 # back in time
    ("gtx sequence=8 time=24 side=sell size=0 price=105", 270),
    ("quotes sequence=8 time=26 nbb=100 nbo=110 bb=100 bo=110", 270),
    ("amend sequence=9 time=28 of=6 size=20 price=107", 190),
    ("gtx sequence=10 time=30 side=sell size=1 price=104 customer=yes", 191),
]
# a last event: its ending, and what is on offer then
ENDINGS = [
    ("cancel sequence=11 time=40 of=10", "time", 190),                          # closed by hand
    ("limit sequence=11 time=40 side=sell size=160 price=100", "opposite", 351),    # takes a place, and ends it
    ("market sequence=11 time=40 side=sell size=4", "opposite", 191),
    ("market sequence=11 time=40 side=buy size=4", "same", 191),
    ("limit sequence=11 time=40 side=buy size=5 price=110", "same", 191),
    ("quotes sequence=11 time=40 nbb=111 nbo=112 bb=111 bo=112", "improve", 191),
    ("gtx sequence=11 time=100 side=sell size=9 price=105", "time", 191),       # late
]
AFTER = "gtx sequence=12 time=50 side=sell size=7 price=105\ncancel sequence=12 time=50 of=10\n"
MOST = ORDER.replace("size=100", "size=100000") + "".join("gtx sequence=%d time=10 side=sell size=100000 price=105\n" % k for k in range(1, 66)) + "cancel sequence=66 time=10 of=64\n"
REFUSED = TEXT.replace("interval=100", "interval=100 halted=yes")


def joined(lines):
    return "".join(line + "\n" for line in lines)


def mirrored(text):
    """The same auction for a sell: the quotes are 100 and 110, so a price p becomes 210 - p."""
    text = re.sub(r"side=(buy|sell)", lambda m: "side=" + {"buy": "sell", "sell": "buy"}[m[1]], text)
    text = re.sub(r"\b(price|limit|stop)=(\d+)", lambda m: "%s=%d" % (m[1], 210 - int(m[2])), text)
    return re.sub(r"\b(n?b)b=(\d+) \1o=(\d+)", lambda m: "%sb=%d %so=%d" % (m[1], 210 - int(m[3]), m[1], 210 - int(m[2])), text)


def texts():
    """Auctions with each ending, some with records after it; for a buy and for a sell."""
    begun = ORDER + joined(line for line, _ in STEPS)
    for text in [begun + line + "\n" + after for line, _, _ in ENDINGS for after in ("", AFTER)] + [TEXT, MOST, ORDER]:
        yield text
        yield mirrored(text)


def events(lines):
    return [line for line in lines if line.startswith("EVENT ")]


def is_last(event):
    """Its line says that it ended the auction."""
    return event.split(" ")[2] in ("ended", "late")


def offers(lines):
    return [int(line.split(" on offer ")[1]) for line in events(lines)]


def listed(tape):
    """The listing, by the modules that cube runs."""
    from cube import runs
    return runs.one(native(), "-", tape=tape).lines()


def watched(tape):
    """The watch, by the modules that cube runs."""
    from cube import runs
    return runs.desk(native(), "watch", tape)


def records(tape):
    """The order record and the event records, as they are sent one by one."""
    from cube import form
    _, order, found = form.parts(tape)
    return [order] + found


def sums(tape, lines):
    """The contracts on offer after each event, from the records and the listing's answers. On the order's other side a limit order takes a place up to
    the initiating price, with which the range ends for a buy and begins for a sell."""
    from cube import form
    order, *found = records(tape)
    size, buy = form.order_fields(order)["size"], order[0] == 1
    low, high = map(int, re.search(r"range (\d+) to (\d+)", lines[0]).groups())
    standing = {}
    for record, line in zip(map(form.event_fields, found), events(lines)):
        if line.split(" ")[2] in ("taken", "ended"):
            if record["kind"] in ("cancel", "amend"):
                del standing[record["of"]]
            if record["kind"] in ("gtx", "amend"):
                standing[record["sequence"]] = min(record["size"], size)
            if record["kind"] == "limit" and record["side"] == ("sell" if buy else "buy") and (record["price"] <= high if buy else record["price"] >= low):
                standing[record["sequence"]] = record["size"]
        yield sum(standing.values())


def in_live_order(lines):
    """A watch's lines as --live has them: those of the end stand where an event ended the auction."""
    found = events(lines)
    at = next((k + 1 for k, line in enumerate(found) if is_last(line)), len(found))
    return lines[:1] + found[:at] + lines[len(found) + 1:] + found[at:]


class Watching(Case):
    def test_the_example_of_document_01(self):
        want = LISTING.replace("EVENT 1 taken", "EVENT 1 taken on offer 3").replace("refused 33", "refused 33 on offer 3")
        self.ends(cube("watch", self.tape), 0, want)
        for words in (["watch"], ["watch", "-"]):
            self.ends(cube(*words, given=tape_of(TEXT)), 0, want)

    def test_figures(self):
        """What is on offer after each event, in numbers worked out by hand; for a buy and for a sell."""
        for last, ending, offered in ENDINGS:
            text = ORDER + joined(line for line, _ in STEPS) + last
            for text in (text, mirrored(text)):
                lines = watched(tape_of(text))
                self.assertEqual(offers(lines), [n for _, n in STEPS] + [offered], last)
                self.assertIn("END %s range" % ending, joined(lines))
        self.assertEqual(offers(watched(tape_of(MOST)))[-3:], [6400000, 6400000, 6300000])

    def agrees(self, tape, lines):
        """The watch is the listing, with the sum at the end of each EVENT line."""
        plain = listed(tape)
        answers = events(plain)
        shown = ["%s on offer %d" % both for both in zip(answers, sums(tape, plain))] if answers else []
        self.assertEqual(lines, plain[:1] + shown + plain[1 + len(answers):])

    def test_against_the_listing_and_a_sum(self):
        for text in texts():
            made = cube("watch", given=tape_of(text))
            self.ends(made, 0)
            self.agrees(tape_of(text), made.stdout.decode().splitlines())
            self.assertEqual(watched(tape_of(new_text(text))), made.stdout.decode().splitlines())

    def test_other_tapes_against_the_listing_and_a_sum(self):
        for tape in random_tapes(100, 31) + [open(s, "rb").read() for s in samples()]:
            self.agrees(tape, watched(tape))

    def test_refused(self):
        self.ends(cube("watch", given=tape_of(REFUSED)), 0, "REFUSED 6\n")
        self.ends(cube("watch", given=b""), 0, "REFUSED 21\n")
        self.ends(cube("watch", given=tape_of(TEXT)[:-1]), 0, "REFUSED 22\n")
        self.ends(cube("watch", given=b"x" + tape_of(TEXT)), 0, "REFUSED 23\n")

    def test_no_file(self):
        self.ends(cube("watch", "nowhere", cwd=self.folder), 1, b"", "cube: nowhere: No such file or directory\n")
        self.ends(cube("watch", self.folder), 1, b"", "Is a directory")

    def test_why(self):
        """Beside each refusal stands its condition, as `cube list --why` has it; live, too."""
        for text in (TEXT, ORDER + joined(line for line, _ in STEPS), REFUSED):
            tape = tape_of(text)
            plain, told = (cube("watch", *words, given=tape).stdout.decode().splitlines() for words in ([], ["--why"]))
            others = cube("list", "--why", given=tape).stdout.decode().splitlines()
            self.assertEqual((len(plain), len(told)), (len(others), len(others)))
            for line, words, other in zip(plain, told, others):
                number = re.match(r"(?:REFUSED|EVENT \d+ refused) (\d+)", line)
                self.assertTrue(words.startswith(line))
                self.assertEqual(words[len(line):].strip(), re.split(" {2,}", other)[1] if number else "")
            self.ends(cube("watch", "--live", "--why", given=b"".join(records(tape))), 0, joined(told))

    def test_a_desk_that_fails(self):
        """What it said, or how it ended, is the trouble."""
        from cube import runs
        from cube.trouble import Trouble
        for script, words in (("echo AUCTION; echo desk: standard output: full >&2", "standard output: full"), ("echo AUCTION; kill -9 $$", "desk was ended by signal 9"),
                              ("echo AUCTION; exit 3", "desk ended with status 3 and said nothing")):
            with self.assertRaisesRegex(Trouble, words + "$"):
                runs.desk(StandIn(script), "watch", b"")
            with self.assertRaisesRegex(Trouble, "^%s$" % words), runs.live(StandIn(script)) as lines:
                self.assertEqual(list(lines), ["AUCTION"])


class Screen:
    """cube watch --live, and the other ends of its pipes. It is the first of its own group of processes."""

    def __init__(self, case, *words):
        self.process = subprocess.Popen([CUBE, "watch", "--live", *words], stdin=subprocess.PIPE, stdout=subprocess.PIPE, stderr=subprocess.PIPE, bufsize=0, start_new_session=True,
                                        preexec_fn=lambda: signal.signal(signal.SIGINT, signal.SIG_DFL))
        case.addCleanup(self.stop)

    def send(self, data):
        self.process.stdin.write(data)

    def has_more(self, wait):
        return bool(select.select([self.process.stdout], [], [], wait)[0])

    def line(self):
        return self.process.stdout.readline().decode().rstrip("\n") if self.has_more(60) else "nothing within a minute"

    def end(self):
        """What is left of standard output, what was said, and the status."""
        rest, said = self.process.communicate(timeout=60)
        return rest.decode(), said.decode(), self.process.returncode

    def is_alone(self):
        """No process of its group is left, some time after it has ended."""
        for _ in range(100):
            try:
                os.killpg(self.process.pid, 0)
            except ProcessLookupError:
                return True
            time.sleep(0.1)
        return False

    def stop(self):
        if self.process.poll() is None:
            os.killpg(self.process.pid, signal.SIGKILL)
        self.process.communicate()


class Live(Case):
    def test_each_line_before_the_next_record(self):
        """Each record is sent in two halves: after the first nothing is shown, after the second its line; where it ends the auction, those of the end, too."""
        for last, _, _ in (ENDINGS[0], ENDINGS[1], ENDINGS[-1]):
            text = ORDER + joined(line for line, _ in STEPS[:4]) + last + "\n" + AFTER
            self.follows(tape_of(text))
            self.follows(tape_of(new_text(text)), "--new")

    def follows(self, tape, *words):
        want, screen = watched(tape), Screen(self, *words)
        answers, ends = events(want), [line for line in want[1:] if line not in events(want)]
        for record, line in zip(records(tape), want[:1] + answers):
            half = len(record) // 2
            screen.send(record[:half])
            self.assertFalse(screen.has_more(0.1))
            screen.send(record[half:])
            self.assertEqual(screen.line(), line)
            if line in answers and is_last(line):
                self.assertEqual([screen.line() for _ in ends], ends)
                ends = []
        self.assertFalse(screen.has_more(0.1))
        self.assertEqual(screen.end(), (joined(ends), "", 0))

    def test_against_the_watch(self):
        """The same lines; those of records after the ending come after TOTAL."""
        for text in texts():
            lines = watched(tape_of(text))
            self.assertEqual(in_live_order(lines) == lines, " refused 31 " not in joined(lines))
            self.ends(cube("watch", "--live", given=b"".join(records(tape_of(text)))), 0, joined(in_live_order(lines)))
            self.ends(cube("watch", "--live", "--new", given=b"".join(records(tape_of(new_text(text))))), 0, joined(in_live_order(lines)))

    def test_cut_records(self):
        """Inside the order record it is REFUSED 24. Inside an event record the auction is not closed. Either is said."""
        want = watched(tape_of(TEXT))
        for words, form, length in (([], str, 32), (["--new"], new_text, 40)):
            live = lambda given: cube("watch", "--live", *words, given=given)
            sent = b"".join(records(tape_of(form(TEXT))))
            for n in (0, 1, 63):
                self.ends(live(sent[:n]), 1, "REFUSED 24\n", "cube: standard input ended inside the order record\n")
            for n in (65, 63 + length, 65 + length, 63 + 2 * length):
                made = live(sent[:n])
                self.ends(made, 1, joined(want[:1 + (n - 64) // length]))
                self.assertEqual(made.stderr, b"cube: standard input ended inside an event record; the auction was not closed\n")
            ended = b"".join(records(tape_of(form(TEXT + "market sequence=2 time=30 side=buy size=1\n"))))
            self.ends(live(ended + b"x"), 1, stderr="cube: standard input ended inside an event record\n")
            self.ends(live(sent[:64]), 0, joined(want[:1]) + "END time range 101 to 109\nFILL contra 109 10\nTOTAL 10\n")

    def test_new_records_out_of_form(self):
        """Any participant is taken; a last word that is not zero is not."""
        order, event, _ = records(tape_of(new_text(TEXT)))
        head = "AUCTION buy size 10 range 101 to 109\n"
        for participant, last, answer in ((b"\xff" * 4, bytes(4), "taken on offer 3"), (bytes(4), b"\1\0\0\0", "refused 32 on offer 0"), (bytes(4), b"\0\0\0\1", "refused 32 on offer 0")):
            made = cube("watch", "--live", "--new", given=order + event[:32] + participant + last)
            self.ends(made, 0)
            self.assertEqual(made.stdout.decode()[:len(head) + 8 + len(answer)], head + "EVENT 1 " + answer)

    def test_a_refused_order(self):
        self.ends(cube("watch", "--live", given=records(tape_of(REFUSED))[0]), 0, "REFUSED 6\n")
        self.ends(cube("watch", "--live", given=bytes(64)), 0, "REFUSED 1\n")

    def test_usage(self):
        self.ends(cube("watch", "--live", "c.tape", cwd=self.folder), 2, b"", "usage: cube watch")
        self.ends(cube("watch", "c.tape", "--live", cwd=self.folder), 2, b"", "--live follows standard input, and takes no tape")
        self.ends(cube("watch", "--live", "-", given=b""), 1, "REFUSED 24\n")
        self.ends(cube("watch", "--new", "c.tape", cwd=self.folder), 2, b"", "--new goes with --live")
        self.ends(cube("watch", "--new", given=tape_of(new_text(TEXT))), 2, b"", "usage: cube watch")

    def test_standard_output_that_can_not_be_written(self):
        sent = b"".join(records(tape_of(TEXT)))
        with open("/dev/full", "wb") as full:
            self.ends(cube("watch", "--live", given=sent, stdout=full), 1, stderr="cube: standard output: No space left on device\n")
        order, event, _ = records(tape_of(TEXT))
        screen = Screen(self)
        screen.send(order)
        self.assertTrue(screen.line().startswith("AUCTION "))
        screen.process.stdout.close()
        screen.send(event)
        self.assertEqual((screen.process.wait(60), screen.process.stderr.read()), (1, b"cube: standard output: Broken pipe\n"))
        self.assertTrue(screen.is_alone())

    def test_interrupted(self):
        """By a signal to cube alone, and to all of its group as a terminal does it: no process is left to take a record of the next screen."""
        for kill, number, status in ((os.kill, signal.SIGINT, 130), (os.killpg, signal.SIGINT, 130), (os.kill, signal.SIGTERM, 143)):
            screen = Screen(self)
            screen.send(records(tape_of(TEXT))[0])
            self.assertTrue(screen.line().startswith("AUCTION "))
            kill(screen.process.pid, number)
            self.assertEqual((screen.process.wait(60), screen.process.stderr.read()), (status, b""))
            self.assertTrue(screen.is_alone())
