"""The picture, taken apart again: what it shows is what the listing and the tape say."""
import random
import re
import xml.etree.ElementTree as tree

from support import TEXT, Case, cube, new_text, random_tapes, samples, tape_of

SVG = "{http://www.w3.org/2000/svg}"
FULL = """\
order side=buy mode=stop size=100 limit=110 stop=108 nbb=100 nbo=110 bb=100 bo=110 time=34200000 open=34200000 close=57600000 interval=100
gtx sequence=1 time=10 side=sell size=30 price=105
gtx sequence=2 time=15 side=sell size=60 price=108
gtx sequence=2 time=15 side=sell size=60 price=108
gtx sequence=3 time=20 side=sell size=40 price=109 customer=yes
limit sequence=4 time=30 side=buy size=5 price=103
cancel sequence=5 time=40 of=3
cancel sequence=6 time=45 of=3
quotes sequence=8 time=55 nbb=104 nbo=110 bb=104 bo=110 customer-at-bb=yes
gtx sequence=9 time=60 side=sell size=40 price=104
market sequence=11 time=80 side=sell size=4
gtx sequence=12 time=90 side=sell size=4 price=106
"""
AMENDED = """\
order side=buy mode=stop size=100 limit=110 stop=108 nbb=100 nbo=110 bb=100 bo=110 time=34200000 open=34200000 close=57600000 interval=100
gtx sequence=1 time=10 side=sell size=30 price=105
gtx sequence=2 time=15 side=sell size=60 price=108
gtx sequence=3 time=20 side=sell size=40 price=109 customer=yes
limit sequence=4 time=30 side=sell size=20 price=106
amend sequence=5 time=35 of=3 size=200 price=107
amend sequence=6 time=40 of=2 size=20 price=108
amend sequence=7 time=45 of=2 size=20 price=107
amend sequence=7 time=48 of=2 size=20 price=111
amend sequence=7 time=50 of=4 size=20 price=103
amend sequence=8 time=55 of=5 size=30 price=104
cancel sequence=9 time=65 of=6
amend sequence=10 time=100 of=8 size=40 price=102
"""


def amending(r):
    """A text with many amends and cancels, most of them of responses that stand."""
    side, other = r.choice([("buy", "sell"), ("sell", "buy")])
    lines, last, names = [AMENDED.splitlines()[0].replace("side=buy", "side=" + side).replace("limit=110 stop=108", "limit=105 stop=105")], 0, [1]
    for time in sorted(r.sample(range(102), r.randint(8, 20))):
        sequence, of = last + r.choice([1, 1, 1, 1, 1, 0]), r.choice(names[-3:] * 3 + [r.randint(1, last + 1)])
        kind, price = r.choice(["gtx", "gtx", "limit", "cancel", "amend", "amend", "amend"]), r.randint(*((101, 106) if side == "buy" else (104, 109)))
        words = "of=%d" % of if kind in ("cancel", "amend") else "side=" + other
        words += "" if kind == "cancel" else " size=%d price=%d" % (r.randint(1, 130), price)
        lines.append("%s sequence=%d time=%d %s%s" % (kind, sequence, time, words, r.choice(["", " customer=yes"]) if kind in ("gtx", "limit") else ""))
        last = max(last, sequence)
        if kind == "gtx" or kind == "amend" and of in names:
            names = [n for n in names if kind == "gtx" or n != of] + [sequence]
    return "\n".join(lines) + "\n"


class Drawn:
    """The picture of a tape."""

    def __init__(self, case, tape):
        made = cube("draw", given=tape)
        case.ends(made, 0)
        self.root = tree.fromstring(made.stdout)
        self.texts = [(t.text or "") for t in self.root.iter(SVG + "text")]

    def groups(self, kind):
        return [g for g in self.root.iter(SVG + "g") if g.get("class", "").split()[:1] == [kind] and any(k.startswith("data-") for k in g.keys())]

    def data(self, kind, *keys):
        return [tuple(g.get("data-" + k) for k in keys) for g in self.groups(kind)]

    def within(self, key):
        """The responses that have a path with such a key, and its value there."""
        return [(g.get("data-sequence"), p.get("data-" + key)) for g in self.groups("response") for p in g.iter(SVG + "path") if p.get("data-" + key)]

    def customers(self):
        return [g.get("data-sequence") for g in self.groups("response") if "customer" in g.get("class").split()]

    def titles(self, kind):
        return [g.find(SVG + "title").text for g in self.groups(kind)]

    def boxes(self):
        """Where each text stands, near enough."""
        for t in self.root.iter(SVG + "text"):
            if t.get("transform"):
                continue
            size = float(t.get("font-size") or {"title": 16, "under": 12, "axis": 12, "ended": 12}.get(t.get("class", "").split(" ")[0], 11))
            width = 0.55 * size * len(t.text)
            left = float(t.get("x")) - {"middle": width / 2, "end": width}.get(t.get("text-anchor"), 0)
            yield t.text, (left, float(t.get("y")) - 0.75 * size, left + width, float(t.get("y")) + 0.1 * size)


class Pictures(Case):
    def test_everything_is_shown(self):
        drawn = Drawn(self, tape_of(FULL))
        self.assertEqual(drawn.root.tag, SVG + "svg")
        self.assertEqual(drawn.data("response", "sequence", "size", "price", "begin", "end"),
                         [("1", "30", "105", "10", "80"), ("2", "60", "108", "15", "80"), ("3", "40", "109", "20", "40"), ("9", "40", "104", "60", "80")])
        self.assertEqual(drawn.data("range", "steps"), [("0:100:110 30:103:110 55:105:110",)])
        self.assertEqual(drawn.data("refusal", "sequence", "number", "time"), [("2", "33", "15"), ("6", "37", "45"), ("12", "31", "90")])
        self.assertEqual(drawn.data("event", "sequence", "kind"), [("4", "limit"), ("8", "quotes"), ("11", "market")])
        self.assertEqual(drawn.within("of"), [("3", "3")])
        self.assertEqual(drawn.customers(), ["3"])
        self.assertEqual(drawn.titles("refusal")[1], "cancel 6 of 3 refused by 37: cancel or amend names no live GTX")
        ending = [x for x in drawn.root.iter(SVG + "line") if x.get("data-ending")]
        self.assertEqual([(x.get("data-ending"), x.get("data-time")) for x in ending], [("opposite", "80")])
        for words in ("END opposite", "price, cents", "time since the start, ms", "1: 30", "2: 60", "3: 40", "9: 40", "2 refused 33", "stop 108", "Buy 100, stop 108, limit 110"):
            self.assertIn(words, drawn.texts)

    def test_a_collared_order(self):
        """The heading names it, and the range is the one that it makes."""
        order = FULL.splitlines()[0].replace("size=100", "size=49").replace("stop=108", "stop=104")
        drawn = Drawn(self, tape_of(order + " displayed=109 collar=3\n"))
        self.assertTrue([t for t in drawn.texts if "exchange 100 / 110. Collared order: displayed 109, collar 3. Interval" in t], drawn.texts)
        self.assertEqual(drawn.data("range", "steps"), [("0:101:105",)])
        self.assertFalse([t for t in Drawn(self, tape_of(order + "\n")).texts if "Collared" in t])

    def test_amended_responses(self):
        """An amended response ends in a square, from which a line leads to the one that came; that one keeps the Customer mark."""
        drawn = Drawn(self, tape_of(AMENDED))
        self.assertEqual(drawn.data("response", "sequence", "size", "price", "begin", "end"),
                         [("1", "30", "105", "10", "100"), ("2", "60", "108", "15", "40"), ("3", "40", "109", "20", "35"), ("4", "20", "106", "30", "100"),
                          ("5", "100", "107", "35", "55"), ("6", "20", "108", "40", "65"), ("8", "30", "104", "55", "100")])
        self.assertEqual(drawn.within("amended-by"), [("2", "6"), ("3", "5"), ("5", "8")])
        self.assertEqual(drawn.within("amends"), [("5", "3"), ("6", "2"), ("8", "5")])
        self.assertEqual(drawn.within("of"), [("6", "6")])
        self.assertEqual(drawn.customers(), ["3", "5", "8"])
        titles = drawn.titles("response")
        self.assertEqual(titles[1], "response 2: 60 at 108, from 15 ms to 40 ms, amended by 6")
        self.assertEqual(titles[4:6], ["response 5: 100 at 107, from 35 ms to 55 ms, amends 3, amended by 8", "response 6: 20 at 108, from 40 ms to 65 ms, amends 2, cancelled"])
        self.assertEqual(drawn.data("refusal", "sequence", "number", "time"), [("7", "37", "45"), ("7", "36", "48"), ("7", "37", "50")])
        self.assertEqual(drawn.titles("refusal")[1], "amend 7 of 2 refused by 36: GTX or amend above the initiating price")
        self.assertEqual(drawn.data("event", "sequence", "kind"), [("10", "amend")])
        for words in ("5: 100", "6: 20", "8: 30", "7 refused 37", "7 refused 36", "10 amend", "amended: the old one ends, the new one begins"):
            self.assertIn(words, drawn.texts)
        self.joined(drawn)

    def test_firms(self):
        """A response of a new tape names its participant, an amended one the amend's; nothing else in the picture differs. Where it has none, nothing is named."""
        old, drawn = Drawn(self, tape_of(AMENDED)), Drawn(self, tape_of(new_text(AMENDED)))
        self.assertEqual(drawn.data("response", "sequence", "firm"), [(s, str(70 + int(s))) for s, in old.data("response", "sequence")])
        self.assertEqual(drawn.titles("response")[4], "response 5: 100 at 107, from 35 ms to 55 ms, firm 75, amends 3, amended by 8")
        for words in ("1: 30, firm 71", "5: 100, firm 75", "a response that stands, as sequence: size, firm"):
            self.assertIn(words, drawn.texts)
        self.assertEqual([re.sub(r", firm \d+", "", t) for t in drawn.titles("response")], old.titles("response"))
        self.assertEqual(drawn.customers(), old.customers())
        for kind, keys in (("response", ("sequence", "size", "price", "begin", "end")), ("refusal", ("sequence", "number")), ("fill", ("party", "price", "quantity"))):
            self.assertEqual(drawn.data(kind, *keys), old.data(kind, *keys))
        for none in (old, Drawn(self, tape_of("tape new\n" + AMENDED))):
            self.assertFalse([t for t in none.texts + none.titles("response") if "firm" in t])
            self.assertEqual({f for f, in none.data("response", "firm")}, {None})

    def joined(self, drawn):
        """Each square stands where its response ends, and the line from it goes to where the next begins."""
        lines = {g.get("data-sequence"): g.find(SVG + "line") for g in drawn.groups("response")}
        for g in drawn.groups("response"):
            for p in g.iter(SVG + "path"):
                points = [tuple(map(float, xy.split())) for xy in p.get("d").strip("M Z").split(" L")]
                if p.get("data-amended-by"):
                    self.assertEqual(tuple(round(sum(v) / 4, 2) for v in zip(*points)), self.ends_of(lines[g.get("data-sequence")])[1])
                if p.get("data-amends"):
                    self.assertEqual(points, [self.ends_of(lines[p.get("data-amends")])[1], self.ends_of(lines[g.get("data-sequence")])[0]])

    def ends_of(self, line):
        return [tuple(float(line.get(k + n)) for k in "xy") for n in "12"]

    def test_amends_against_listings(self):
        """What the listing takes of the text's amends and cancels is what the picture shows; a Customer's stays a Customer's."""
        r, links = random.Random(5), 0
        for text in [amending(r) for _ in range(40)]:
            tape = tape_of(text)
            lines = cube(given=tape).stdout.decode().splitlines()
            drawn, amends, cancels, customer = Drawn(self, tape), [], [], {}
            for line, answer in zip(text.splitlines()[1:], [x.split()[2] for x in lines if x.startswith("EVENT ")]):
                kind, *words = line.split()
                word = dict(w.split("=") for w in words)
                sequence = word["sequence"]
                if answer in ("refused", "late"):
                    continue
                if kind == "amend":
                    amends.append((sequence, word["of"]))
                    customer[sequence] = customer[word["of"]]
                elif kind == "cancel":
                    cancels.append(word["of"])
                else:
                    customer[sequence] = "customer" in word
            self.assertEqual(drawn.within("amends"), amends)
            self.assertEqual(sorted(drawn.within("amended-by")), sorted((old, new) for new, old in amends))
            self.assertEqual(sorted(s for s, _ in drawn.within("of")), sorted(cancels))
            self.assertEqual(drawn.customers(), [s for s, in drawn.data("response", "sequence") if customer[s]])
            self.assertEqual(drawn.data("refusal", "sequence", "number"), [(x.split()[1], x.split()[3]) for x in lines if re.match(r"EVENT \d+ refused", x)])
            self.joined(drawn)
            links += len(amends)
        self.assertGreater(links, 40)

    def test_no_labels_overlap(self):
        for text in (FULL, TEXT, AMENDED, new_text(FULL), new_text(AMENDED)):
            boxes = list(Drawn(self, tape_of(text)).boxes())
            for i, (one, a) in enumerate(boxes):
                for two, b in boxes[:i]:
                    self.assertFalse(a[0] < b[2] and b[0] < a[2] and a[1] < b[3] and b[1] < a[3], (one, two))

    def test_pictures_against_listings(self):
        tapes = [open(s, "rb").read() for s in samples()[::6]] + random_tapes(12, 23)
        for tape in tapes:
            lines = cube(given=tape).stdout.decode().splitlines()
            drawn = Drawn(self, tape)
            if lines[0].startswith("REFUSED"):
                self.assertIn("No auction: refused by " + lines[0].split()[1], drawn.texts)
                continue
            fills = [tuple(x.split()[1:]) for x in lines if x.startswith("FILL ")]
            self.assertEqual(sorted(drawn.data("fill", "party", "price", "quantity")), sorted(fills))
            refused = [(x.split()[1], x.split()[3]) for x in lines if re.match(r"EVENT \d+ refused", x)]
            self.assertEqual(drawn.data("refusal", "sequence", "number"), refused)
            steps = drawn.data("range", "steps")[0][0].split()
            self.assertTrue(steps[0].endswith(":%s:%s" % re.search(r"range (\d+) to (\d+)", lines[0]).groups()))
            end = next(x for x in lines if x.startswith("END "))
            self.assertTrue(steps[-1].endswith(":%s:%s" % re.search(r"range (\d+) to (\d+)", end).groups()))
            self.assertIn("END " + end.split()[1], drawn.texts)
            taken = {x.split()[1] for x in lines if x.startswith("EVENT ") and "refused" not in x}
            self.assertLessEqual({s for s, in drawn.data("response", "sequence")}, taken)

    def test_files_and_odd_names(self):
        name = "a<b>&\"c\x01\n.tape"
        self.write(name, tape_of(TEXT))
        made = cube("draw", name, "-o", "out.svg", cwd=self.folder)
        self.ends(made, 0, b"")
        tree.parse(self.path("out.svg"))
        self.ends(cube("draw", "nowhere", cwd=self.folder), 1, b"", "nowhere: No such file or directory")
