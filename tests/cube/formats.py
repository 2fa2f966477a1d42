"""csv and JSON against the text listings; -H; why."""
import csv
import io
import json
import re

from fractions import Fraction

from support import ROOT, TEXT, Case, cube, random_tapes, samples, tape_of

KEYS = "name,refused,ending,low,high,events_taken,events_refused,contra,others,average,total".split(",")


def sections(text):
    """The lines under each line `TAPE name`."""
    found = []
    for line in text.decode().splitlines():
        if line.startswith("TAPE "):
            found.append((line[5:], []))
        else:
            found[-1][1].append(line)
    return found


def expected(name, lines):
    """The fields of a text listing, worked out line by line."""
    want = dict.fromkeys(KEYS, "")
    want["name"] = name
    if lines[0].startswith("UNREADABLE "):
        return dict(want, refused="unreadable")
    if lines[0].startswith("REFUSED "):
        return dict(want, refused=lines[0].split()[1])
    end = re.fullmatch(r"END (\w+) range (\d+) to (\d+)", [x for x in lines if x.startswith("END")][0])
    fills = [x.split()[1:] for x in lines if x.startswith("FILL ")]
    total = sum(int(q) for _, _, q in fills)
    mean = Fraction(sum(int(p) * int(q) for _, p, q in fills), total)
    return dict(want, ending=end[1], low=end[2], high=end[3], events_taken=str(sum(x.endswith(" taken") for x in lines)),
                events_refused=str(sum(bool(re.fullmatch(r"EVENT \d+ refused \d+", x)) for x in lines)), contra=str(sum(int(q) for w, _, q in fills if w == "contra")),
                others=str(sum(int(q) for w, _, q in fills if w != "contra")), average="%d.%04d" % divmod((mean * 10000 + Fraction(1, 2)) // 1, 10000), total=str(total))


class Formats(Case):
    def setUp(self):
        super().setUp()
        self.names = samples() + ["nowhere", self.folder]
        for k, tape in enumerate(random_tapes(400, 7)):
            self.write("%d.tape" % k, tape)
            self.names.append(self.path("%d.tape" % k))
        self.given = "".join(n + "\n" for n in self.names).encode()

    def listed(self, *words):
        made = cube("list", "--names", "-", *words, given=self.given)
        self.ends(made, 1)
        return made.stdout

    def test_csv_and_json_against_the_text(self):
        text = sections(self.listed())
        self.assertEqual([n for n, _ in text], self.names)
        table = self.listed("--format", "csv").decode()
        self.assertEqual(table.split("\n", 1)[0], ",".join(KEYS))
        rows = list(csv.DictReader(io.StringIO(table)))
        objects = [json.loads(line) for line in self.listed("--format", "json").splitlines()]
        self.assertEqual((len(rows), len(objects)), (len(text), len(text)))
        for (name, lines), row, thing in zip(text, rows, objects):
            want = expected(name, lines)
            self.assertEqual(row, want)
            self.assertEqual(list(thing), KEYS + ["lines"])
            self.assertEqual(thing["lines"], lines)
            for key in KEYS:
                value = thing[key]
                self.assertEqual("" if value is None else "%.4f" % value if key == "average" else str(value), want[key])

    def test_kinds_of_values(self):
        one = json.loads(cube("list", "--format", "json", self.tape).stdout)
        self.assertEqual(one, {"name": self.tape, "refused": None, "ending": "time", "low": 101, "high": 109, "events_taken": 1, "events_refused": 1, "contra": 7, "others": 3,
                               "average": 106.6, "total": 10, "lines": cube(self.tape).stdout.decode().splitlines()})

    def test_names_in_csv_and_json(self):
        odd = 'a,"b"\nc'
        self.write(odd, open(self.tape, "rb").read())
        rows = list(csv.reader(io.StringIO(cube("list", "--format", "csv", odd, cwd=self.folder).stdout.decode())))
        self.assertEqual((len(rows), rows[1][0]), (2, odd))
        self.assertEqual(json.loads(cube("list", "--format", "json", odd, cwd=self.folder).stdout)["name"], odd)

    def test_why_beside_the_lines(self):
        plain, told = self.listed().decode().splitlines(), self.listed("--why").decode().splitlines()
        self.assertEqual(len(plain), len(told))
        for line, words in zip(plain, told):
            self.assertTrue(words.startswith(line))
            self.assertEqual(words != line, bool(re.match(r"REFUSED \d|EVENT \d+ refused", line)), words)
        self.assertIn(b"EVENT 1 refused 33                    sequence not above the highest taken (0 before any)\n", cube("list", "--why", self.tape).stdout)


class Why(Case):
    def test_every_number_of_document_01(self):
        every = list(range(1, 14)) + list(range(21, 27)) + list(range(31, 41))
        text = cube("why").stdout.decode()
        self.assertEqual(sorted(int(n) for n in re.findall(r"^(\d+)  \(\w+\) .+\n    .+\.$", text, re.M)), every)
        from cube.reasons import REASONS, line
        self.assertEqual(text, "".join(line(n) for n in REASONS))
        self.ends(cube("why", "33", "1"), 0, line(33) + line(1))

    def test_amends(self):
        """What why says of 36 and 37 names amends, and stands beside the engine's refusals of them."""
        text = TEXT + "amend sequence=2 time=30 of=1 size=3 price=110\namend sequence=3 time=30 of=9 size=3 price=105\n"
        listed = cube("list", "--why", given=tape_of(text)).stdout.decode().splitlines()
        for line, number in zip(listed[3:5], (36, 37)):
            when, meaning = re.fullmatch(r"%d  \(event\) (.*)\n    (.*)\n" % number, cube("why", str(number)).stdout.decode()).groups()
            self.assertRegex(line, r"EVENT \d refused %d +%s$" % (number, re.escape(when)))
            self.assertIn("amend", when)
            self.assertIn("amended", meaning)

    def test_every_number_that_the_engine_gives(self):
        """The refusals of the engine are those that why knows, by their numbers."""
        with open(ROOT + "/crates/base/src/refusal.rt") as f:
            found = re.findall(r"^    \w+ = (\d+),$", f.read(), re.M)
        from cube.reasons import REASONS
        self.assertEqual({int(n) for n in found}, set(REASONS))
