"""list --firms: the participant behind each response that traded, against the tape's own records."""
import csv
import io
import json
import os
import random
import subprocess

from pictures import amending
from support import CUBE, LISTING, TEXT, Case, StandIn, cube, new_text, random_tapes, records_of, samples, tape_of
from watching import texts

FIRMS = LISTING.replace("FILL 1 105 3", "FILL 1 105 3 participant 71")
NONE = LISTING.replace("FILL 1 105 3", "FILL 1 105 3 participant 0")
ORDER = "order side=buy mode=stop size=100 limit=110 stop=108 nbb=100 nbo=110 bb=100 bo=110 time=34200000 open=34200000 close=57600000 interval=100\n"
# a response that stays, one that is amended, a limit order, one without a participant, and the market order that ends it
MANY = "tape new\n" + ORDER + """\
gtx sequence=1 time=10 side=sell size=10 price=105 participant=4294967295
gtx sequence=2 time=15 side=sell size=20 price=107 participant=12 customer=yes
limit sequence=3 time=20 side=sell size=30 price=106 participant=77
gtx sequence=4 time=22 side=sell size=5 price=104
amend sequence=5 time=25 of=2 size=8 price=107 participant=13
gtx sequence=6 time=26 side=sell size=1 price=111 participant=14
market sequence=7 time=30 side=sell size=4 participant=99
"""
MANY_FILLS = ["FILL 7 104 4", "FILL 4 104 5 participant 0", "FILL 1 105 10 participant 4294967295", "FILL 3 106 30 participant 77", "FILL 5 107 8 participant 13", "FILL contra 108 43"]


def behind(tape, lines):
    """The participants by the sequences of the events that were taken and are none but GTX, limit orders and amends."""
    answers = [line.split(" ")[2] for line in lines if line.startswith("EVENT ")]
    return {str(int.from_bytes(r[:4], "little")): int.from_bytes(r[32:36], "little")
            for r, answer in zip(records_of(tape), answers) if answer in ("taken", "ended") and r[8] in (1, 3, 6)} if answers else {}


def joined(tape, lines):
    """A listing's lines with the participants, and the participants by the parties that have one, in the order of the fills."""
    known, out, firms = behind(tape, lines), [], {}
    for line in lines:
        words = line.split(" ")
        if words[0] == "FILL" and words[1] in known:
            firms[words[1]] = known[words[1]]
            line += " participant %d" % known[words[1]]
        out.append(line)
    return out, firms


class Firms(Case):
    def setUp(self):
        super().setUp()
        self.write("n.tape", tape_of(new_text(TEXT)))

    def test_one_tape(self):
        self.ends(cube("list", "--firms", "n.tape", cwd=self.folder), 0, FIRMS)
        self.ends(cube("--firms", "n.tape", cwd=self.folder), 0, FIRMS)
        self.ends(cube("list", "--firms", "c.tape", cwd=self.folder), 0, NONE)
        self.ends(cube("list", "n.tape", cwd=self.folder), 0, LISTING)

    def test_standard_input(self):
        for words in (["list", "--firms"], ["list", "--firms", "-"], ["--firms"]):
            self.ends(cube(*words, given=tape_of(new_text(TEXT))), 0, FIRMS)
        made = cube("list", "--firms", "n.tape", "-", "c.tape", cwd=self.folder, given=tape_of(new_text(TEXT)))
        self.ends(made, 0, "TAPE n.tape\n" + FIRMS + "TAPE -\n" + FIRMS + "TAPE c.tape\n" + NONE, "tapes 3, refused 0, ended by time 3,")

    def test_a_pipe_by_name(self):
        """What can be read only once is listed, too."""
        process = subprocess.Popen([CUBE, "list", "--firms", "/dev/fd/0"], stdin=subprocess.PIPE, stdout=subprocess.PIPE)
        self.assertEqual(process.communicate(tape_of(new_text(TEXT)))[0], FIRMS.encode())

    def test_who_has_a_participant(self):
        """An amended response has the amend's; a limit order on the board has one; the Contra Order and a market order have none, and stay as they are."""
        made = cube("list", "--firms", given=tape_of(MANY))
        self.ends(made, 0)
        self.assertEqual([line for line in made.stdout.decode().splitlines() if line.startswith("FILL")], MANY_FILLS)
        plain = cube("list", given=tape_of(MANY)).stdout.decode()
        self.assertNotIn("participant", plain)
        self.assertEqual([line.split(" participant ")[0] for line in made.stdout.decode().splitlines()], plain.splitlines())

    def test_csv_and_json(self):
        self.write("m.tape", tape_of(MANY))
        self.write("o.tape", tape_of(ORDER))
        names = ["m.tape", "c.tape", "o.tape", "nowhere", "empty"]
        self.write("empty", b"")
        made = cube("list", "--firms", "--format", "csv", *names, cwd=self.folder)
        self.ends(made, 1)
        rows = list(csv.reader(io.StringIO(made.stdout.decode())))
        self.assertEqual([r[-1] for r in rows], ["firms", "4:0 1:4294967295 3:77 5:13", "1:0", "", "", ""])
        plain = cube("list", "--format", "csv", *names, cwd=self.folder)
        self.assertEqual([r[:-1] for r in rows], list(csv.reader(io.StringIO(plain.stdout.decode()))))
        self.assertEqual(made.stderr, plain.stderr)
        made = cube("list", "--firms", "--format", "json", *names, cwd=self.folder)
        things = [json.loads(line) for line in made.stdout.splitlines()]
        self.assertEqual([t["firms"] for t in things], [{"4": 0, "1": 4294967295, "3": 77, "5": 13}, {"1": 0}, {}, None, None])
        self.assertEqual(list(things[0]["firms"]), ["4", "1", "3", "5"])
        self.assertEqual(list(things[0])[-2:], ["firms", "lines"])
        self.assertEqual([line for line in things[0]["lines"] if line.startswith("FILL")], MANY_FILLS)
        for row, thing in zip(rows[1:], things):
            self.assertEqual("" if thing["total"] is None else str(thing["total"]), row[-2])

    def test_why(self):
        made = cube("list", "--firms", "--why", "n.tape", cwd=self.folder)
        self.ends(made, 0, FIRMS.replace("EVENT 1 refused 33\n", "EVENT 1 refused 33                    sequence not above the highest taken (0 before any)\n"))

    def test_names_unreadable_and_refused(self):
        """As without --firms, but for the participants; a file whose name is `-` in a file of names, too."""
        self.write("-", tape_of(new_text(TEXT)))
        self.write("short", b"CUB2")
        names = ["n.tape", "nowhere", ".", "short", "-", "", "x" * 5000, "c.tape/x"]
        self.write("names", "".join(n + "\n" for n in names).encode() + b"with\0zero\n")
        plain, made = (cube("list", "--names", "names", *more, cwd=self.folder) for more in ([], ["--firms"]))
        self.ends(made, 1)
        self.assertEqual(made.stdout, plain.stdout.replace(LISTING.encode(), FIRMS.encode()))
        self.assertEqual(made.stdout.count(FIRMS.encode()), 2)
        self.assertEqual(made.stderr, plain.stderr)
        plain, made = (cube("list", *more, "nowhere", cwd=self.folder) for more in ([], ["--firms"]))
        self.assertEqual((made.returncode, made.stdout, made.stderr), (plain.returncode, plain.stdout, plain.stderr))
        self.ends(cube("list", "--firms", "short", cwd=self.folder), 0, "REFUSED 21\n")
        self.ends(cube("list", "--firms", "-H", "n.tape", "--summary", "-", cwd=self.folder), 0,
                  "TAPE n.tape\n" + FIRMS + "tapes 1, refused 0, ended by time 1, by same 0, by opposite 0, by improve 0, unreadable 0\n")

    def test_against_the_records(self):
        """Every ending and many amends with participants, random tapes of both forms, and samples; in every format, and with more jobs the same bytes."""
        r, names = random.Random(53), []
        tapes = [tape_of(new_text(text)) for text in (*texts(), *[amending(r) for _ in range(20)])] + random_tapes(40, 47)
        for name in samples()[::6]:
            with open(name, "rb") as f:
                tapes.append(f.read())
        for k, tape in enumerate(tapes):
            self.write("%d.tape" % k, tape)
            names.append("%d.tape" % k)
        given = "".join(n + "\n" for n in names).encode()
        listed = lambda *words: cube("list", "--names", "-", *words, cwd=self.folder, given=given)
        plain = [json.loads(line) for line in listed("--format", "json").stdout.splitlines()]
        want = [joined(tape, thing["lines"]) for tape, thing in zip(tapes, plain)]
        self.assertGreater(sum(any(firms.values()) for _, firms in want), 30)
        text = "".join("TAPE %s\n" % n + "".join(line + "\n" for line in lines) for n, (lines, _) in zip(names, want))
        self.ends(listed("--firms"), 0, text)
        things = [json.loads(line) for line in listed("--firms", "--format", "json").stdout.splitlines()]
        for thing, one, (lines, firms) in zip(things, plain, want):
            self.assertEqual(thing, dict(one, lines=lines, firms=None if one["refused"] else firms))
        rows = list(csv.DictReader(io.StringIO(listed("--firms", "--format", "csv").stdout.decode())))
        self.assertEqual([r["firms"] for r in rows], [" ".join("%s:%d" % f for f in firms.items()) for _, firms in want])
        for words in ([], ["--format", "csv"], ["--format", "json"], ["--why"]):
            one, many = listed("--firms", *words), listed("--firms", "--jobs", "3", *words)
            self.assertEqual((many.returncode, many.stdout, many.stderr), (0, one.stdout, one.stderr))

    def test_programs_that_do_not_agree(self):
        """A listing is not put together with participants of other parties."""
        from cube import runs
        from cube.trouble import Trouble
        fine = "FIRM contra\\nFIRM 1 77\\nFIRM contra\\n"
        script = "if [ $0 = runner ]; then printf '%s'; else printf '%%s'; fi" % LISTING.replace("\n", "\\n")
        found = list(runs.run_block(StandIn(script % fine), [os.fsencode(self.tape)], firms=True))[0]
        self.assertEqual((found.firms, found.lines()), ({"1": 77}, FIRMS.replace("71", "77").splitlines()))
        for said in (fine.replace("1", "2"), fine.replace("FIRM 1 77\\n", ""), fine + "FIRM contra\\n", "FIRM 1 77\\nFIRM contra\\nFIRM contra\\n", "REFUSED 23\\n"):
            with self.assertRaisesRegex(Trouble, "^.*c.tape: the parties of desk firms are not those of the listing's fills$"):
                runs.run_block(StandIn(script % said), [os.fsencode(self.tape)], firms=True)
        with self.assertRaisesRegex(Trouble, "^desk ended with status 0 and said nothing$"):
            runs.run_block(StandIn(script % ""), [os.fsencode(self.tape)], firms=True)
