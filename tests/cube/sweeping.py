"""The sweep against single runs: each row is the listing of the tape whose text has that value."""
import csv
import io
import json
import os
import re

from decimal import Decimal

from support import TEXT, Case, cube, new_text, tape_of

KEYS = "value,refused,ending,low,high,contra,others,average,improvement,total".split(",")
ORDERS = [
    "order side=buy mode=stop size=100 limit=110 stop=108 nbb=100 nbo=110 bb=100 bo=110 time=34200000 open=34200000 close=57600000 interval=100",
    "order side=sell mode=stop size=100 limit=102 stop=104 nbb=101 nbo=110 bb=100 bo=110 time=34200000 open=34200000 close=57600000 interval=100",
    "order side=buy mode=auto-match-limit size=200 limit=110 stop=103 nbb=100 nbo=110 bb=100 bo=110 time=34200000 open=34200000 close=57600000 interval=100",
]
COLLARED = [
    "order side=buy mode=auto-match size=10 limit=110 nbb=100 nbo=110 bb=100 bo=110 time=34200000 open=34200000 close=57600000 interval=100 displayed=109 collar=3",
    "order side=sell mode=stop size=49 limit=100 stop=105 nbb=100 nbo=110 bb=100 bo=110 time=34200000 open=34200000 close=57600000 interval=100 displayed=101 collar=3",
    "order side=buy mode=stop size=50 limit=110 stop=105 nbb=100 nbo=110 bb=100 bo=110 time=34200000 open=34200000 close=57600000 interval=100 displayed=109 collar=3",
]
EVENTS = """
gtx sequence=1 time=10 side=%(other)s size=30 price=105
gtx sequence=2 time=15 side=%(other)s size=60 price=%(near)d
limit sequence=3 time=20 side=%(other)s size=40 price=%(near)d customer=yes
amend sequence=4 time=25 of=1 size=35 price=106
amend sequence=5 time=25 of=1 size=20 price=106
"""


def text_of(order):
    buy = "side=buy" in order
    return order + EVENTS % {"other": "sell" if buy else "buy", "near": 108 if buy else 103}


class Sweeping(Case):
    def rows(self, text, *words):
        made = cube("sweep", "-", "--format", "csv", *words, given=tape_of(text))
        self.ends(made, 0)
        self.assertEqual(made.stdout.decode().split("\n", 1)[0], ",".join(KEYS))
        return list(csv.DictReader(io.StringIO(made.stdout.decode())))

    def compare(self, text, rows, key):
        """Each row against a single run of the tape with that text."""
        names = []
        for k, row in enumerate(rows):
            value = row["value"]
            changed = re.sub(r"\b%s=\S+" % key, "%s=%s" % (key, value), text, count=1)
            if key == "mode" and value == "auto-match":
                changed = re.sub(r" stop=\S+", "", changed, count=1)
            if key == "displayed" and value == "0":
                changed = re.sub(r" collar=\S+", "", changed, count=1)
            self.write("%d.tape" % k, tape_of(changed))
            names.append("%d.tape" % k)
        single = list(csv.DictReader(io.StringIO(cube("list", "--format", "csv", *names, cwd=self.folder).stdout.decode())))
        nbb, nbo = (int(re.search(r"\b%s=(\d+)" % q, text).group(1)) for q in ("nbb", "nbo"))
        for row, one in zip(rows, single):
            for field in ("refused", "ending", "low", "high", "contra", "others", "average", "total"):
                self.assertEqual(row[field], one[field], row)
            if one["average"]:
                average = Decimal(one["average"])
                self.assertEqual(Decimal(row["improvement"]), nbo - average if "order side=buy" in text else average - nbb)
            else:
                self.assertEqual(row["improvement"], "")

    def test_against_single_runs(self):
        for order in ORDERS:
            text = text_of(order)
            for key, values, count in (("stop", "95..115", 21), ("limit", "95..115", 21), ("size", "0..120..10", 13), ("mode", "stop,auto-match,auto-match-limit", 3)):
                rows = self.rows(text, "--" + key, values)
                self.assertEqual(len(rows), count)
                self.compare(text, rows, key)

    def test_new_tapes(self):
        """Participants change no row."""
        for order in ORDERS:
            for words in (["--stop", "95..115"], ["--mode", "stop,auto-match,auto-match-limit"]):
                self.assertEqual(self.rows(new_text(text_of(order)), *words), self.rows(text_of(order), *words))
        self.compare(new_text(text_of(ORDERS[0])), self.rows(new_text(text_of(ORDERS[0])), "--size", "50..60"), "size")

    def test_collared_orders(self):
        for order in COLLARED:
            text = text_of(order)
            for key, values, count in (("displayed", "0,95..115", 22), ("collar", "0..20", 21), ("size", "48..51", 4)):
                rows = self.rows(text, "--" + key, values)
                self.assertEqual(len(rows), count)
                self.compare(text, rows, key)
        rows = self.rows(text_of(COLLARED[0]), "--collar", "0..10")
        self.assertEqual([r["refused"] for r in rows], ["1"] + [""] * 7 + ["13"] * 3)
        self.assertEqual([r["high"] for r in rows[1:8]], ["107", "106", "105", "104", "103", "102", "101"])
        self.assertEqual([r["refused"] for r in self.rows(text_of(COLLARED[0]), "--displayed", "0")], [""])
        self.assertEqual([r["refused"] for r in self.rows(text_of(COLLARED[0]), "--displayed", "0", "--collar", "3..4")], ["1", "1"])
        self.assertEqual(self.rows(text_of(ORDERS[0]).replace("size=100", "size=10").replace("stop=108", "stop=103"), "--displayed", "109", "--collar", "1..7"),
                         self.rows(text_of(ORDERS[0].replace("interval=100", "interval=100 displayed=109 collar=1")).replace("size=100", "size=10").replace("stop=108", "stop=103"), "--collar", "1..7"))

    def test_values(self):
        rows = self.rows(text_of(ORDERS[0]), "--stop", "101,103..105,110..116..3")
        self.assertEqual([r["value"] for r in rows], ["101", "103", "104", "105", "110", "113", "116"])
        self.assertEqual([r["value"] for r in self.rows(text_of(ORDERS[0]), "--mode", "2,1")], ["auto-match", "stop"])
        self.assertEqual(len(self.rows(text_of(ORDERS[0]), "--stop", "105")), 1)

    def test_other_options_set_one_value(self):
        with_stop = self.rows(TEXT, "--mode", "stop", "--stop", "101..109")
        want = self.rows(TEXT.replace("mode=auto-match", "mode=stop stop=1"), "--stop", "101..109")
        self.assertEqual(with_stop, want)
        self.assertEqual({r["refused"] for r in self.rows(TEXT, "--stop", "101..109")}, {"1"})

    def test_thousands_of_values(self):
        rows = self.rows(text_of(ORDERS[0]), "--stop", "1..4000")
        self.assertEqual(len(rows), 4000)
        self.assertEqual({r["refused"] for r in rows[110:]}, {"11"})

    def test_table(self):
        self.write("a.tape", tape_of(text_of(ORDERS[0])))
        made = cube("sweep", "a.tape", "--stop", "99..112", cwd=self.folder)
        self.ends(made, 0)
        lines = made.stdout.decode().splitlines()
        self.assertEqual(lines[0].split(), ["stop"] + KEYS[1:])
        rows = self.rows(text_of(ORDERS[0]), "--stop", "99..112")
        best = max(Decimal(r["improvement"]) for r in rows if r["improvement"])
        for line, row in zip(lines[1:], rows):
            self.assertEqual(line.startswith("*"), row["improvement"] != "" and Decimal(row["improvement"]) == best)
            self.assertEqual(line[1:].split(), [v for v in row.values() if v])
            self.assertEqual(len(line), len(lines[0]) if row["total"] else len(line))
        self.assertEqual(lines[-1], "refused by 11: stop or auto-match limit > initiating price, (c)(1)")

    def test_json(self):
        made = cube("sweep", "-", "--stop", "105..106", "--format", "json", given=tape_of(text_of(ORDERS[0])))
        things = [json.loads(line) for line in made.stdout.splitlines()]
        self.assertEqual([t["value"] for t in things], [105, 106])
        self.assertEqual(list(things[0]), KEYS)

    def test_no_tape(self):
        self.ends(cube("sweep", "nowhere", "--stop", "1", cwd=self.folder), 1, b"", "nowhere: No such file or directory")
        self.ends(cube("sweep", "-", "--stop", "1", given=b"x" * 20), 1, b"", "standard input: there is no order to change: 22: ")

    def test_nothing_is_left(self):
        self.write("a.tape", tape_of(text_of(ORDERS[0])))
        os.mkdir(self.path("tmp"))
        self.ends(cube("sweep", "a.tape", "--stop", "101..109", cwd=self.folder, env=dict(os.environ, TMPDIR=self.path("tmp"))), 0)
        self.assertEqual(os.listdir(self.path("tmp")), [])
