"""cube sweep: the same tape with another stop, limit, size, mode, displayed price or collar: which value would have given what."""
import itertools
import os
import struct
import tempfile

from . import files, form, listing, reasons, runs
from .engine import Engine
from .trouble import FINE, Trouble, reason

NAME = "sweep"
SUMMARY = "what other stops, limits, sizes, modes or collared orders would have given"
DESCRIPTION = """\
Lists the tape once for each value, with that value in its order and all else as it stands, and prints a row for each. VALUES are numbers and
ranges, with a step if wanted: `101..109`, `100,110,120`, `50..500..50`; modes are stop, auto-match and auto-match-limit. One of the options may
have several values; the others then set one. The average is in cents; the improvement is the order's NBO less the average (for a sell
the average less its NBB). In the table a star marks the rows with the most improvement."""
EXAMPLES = [("cube sweep c.tape --stop 101..109", "the desk's own question: which stop would have given what"),
            ("cube sweep c.tape --mode stop --stop 101..109 --format csv", "the same for a tape in another mode"),
            ("cube sweep c.tape --displayed 104..112 --collar 3", "what a collared order on the other side would have moved")]
KEYS = ["value", "refused", "ending", "low", "high", "contra", "others", "average", "improvement", "total"]
# the option's field in the order record: where it stands, and its form
FIELDS = {"stop": (12, "<I"), "limit": (8, "<I"), "size": (4, "<I"), "displayed": (48, "<I"), "collar": (52, "<I"), "mode": (1, "<B")}
HELP = {"stop": "the order's stop, or auto-match limit", "limit": "the order's limit", "size": "the order's size",
        "displayed": "the displayed price of a collared order on the other side; 0: there is none, so the collar is then 0", "collar": "one Trading Collar, in cents"}
MOST = 100000


def span(word):
    """The values of `3`, `3..9` or `3..9..2`."""
    ends = word.split("..")
    if len(ends) > 3 or not all(e.isascii() and e.isdigit() and len(e) <= 10 for e in ends):
        raise ValueError
    first, last = int(ends[0]), int(ends[1] if len(ends) > 1 else ends[0])
    step = int(ends[2]) if len(ends) > 2 else 1
    if first > last or last > 0xFFFFFFFF or step < 1:
        raise ValueError
    return range(first, last + 1, step)


def numbers(word):
    spans = [span(part) for part in word.split(",")]
    if sum(len(s) for s in spans) > MOST:
        raise ValueError
    return [n for s in spans for n in s]


def modes(word):
    numbered = {str(n): n for n in form.MODES.values()}
    try:
        return [numbered[w] if w in numbered else form.MODES[w] for w in word.split(",")]
    except KeyError:
        raise ValueError


numbers.__name__ = "list of values"
modes.__name__ = "list of modes"


def add(parser):
    parser.add_argument("tape", metavar="TAPE", help="the tape's file; - is standard input")
    for option, words in HELP.items():
        parser.add_argument("--" + option, metavar="VALUES", type=numbers, help=words)
    parser.add_argument("--mode", metavar="MODES", type=modes, help="the order's mode, by name or number; auto-match has no stop, so the stop is then 0")
    parser.add_argument("--format", choices=["text", "csv", "json"], default="text", help="an aligned table, csv, or one JSON object to a line")


def changed(tape, at, swept, values):
    """The tape with other values in its order record, which stands at `at`. Where modes are swept, or no stop is given, auto-match has stop 0; a
    displayed price of 0 has collar 0 in the same way."""
    out = bytearray(tape)
    for option, value in values.items():
        place, packing = FIELDS[option]
        struct.pack_into(packing, out, at + place, value)
    for option, none, beside in (("mode", 2, "stop"), ("displayed", 0, "collar")):
        if values.get(option) == none and (swept == option or beside not in values):
            struct.pack_into("<I", out, at + FIELDS[beside][0], 0)
    return bytes(out)


def wanted(args, parser):
    """The option that is swept and its values, and what the others set."""
    given = {o: getattr(args, o) for o in FIELDS if getattr(args, o) is not None}
    if not given:
        parser.error("one of %s is needed" % ", ".join("--" + o for o in FIELDS))
    many = [o for o in given if len(given[o]) > 1]
    if len(many) > 1:
        parser.error("--%s and --%s both have several values; one of them may" % tuple(many[:2]))
    swept = many[0] if many else next(iter(given))
    return swept, given[swept], {o: v[0] for o, v in given.items() if o != swept}


def listed(engine, tape, at, swept, values):
    """What the engine says of the tape as it is, and of each changed tape: one run of evening over files of a passing folder."""
    try:
        with tempfile.TemporaryDirectory(prefix="cube-") as folder:
            names = []
            for k, data in enumerate(itertools.chain([tape], (changed(tape, at, swept, v) for v in values))):
                names.append(os.fsencode(os.path.join(folder, str(k))))
                with open(names[-1], "wb") as f:
                    f.write(data)
            return list(runs.Evening(engine, names))
    except OSError as e:
        raise Trouble("the changed tapes can't be kept in %s: %s" % (tempfile.gettempdir(), reason(e)))


def place_of_order(tape, name):
    try:
        own, order, _ = form.parts(tape)
    except form.Wrong as w:
        raise Trouble("%s: there is no order to change: %s" % (files.shown(name), w))
    return len(own), form.order_fields(order)


def row(value, swept, result, order):
    found = listing.row(result)
    found["value"] = form.name_of(form.MODES, value) if swept == "mode" else value
    found["improvement"] = None
    if found["average"] is not None:
        better = order["nbo"] * 10000 - found["average"] if order["side"] == 1 else found["average"] - order["nbb"] * 10000
        found["improvement"] = better
    return found


def table(rows, swept):
    """An aligned table: the best rows marked, the refusals in words below it."""
    best = max((r["improvement"] for r in rows if r["improvement"] is not None), default=None)
    heads = [swept] + KEYS[1:]
    cells = [heads] + [[listing.cell(r, k) for k in KEYS] for r in rows]
    widths = [max(len(c[i]) for c in cells) for i in range(len(heads))]
    stars = [" "] + ["*" if best is not None and r["improvement"] == best else " " for r in rows]
    for star, line in zip(stars, cells):
        words = [c.ljust(w) if heads[i] == "ending" or swept == "mode" and i == 0 else c.rjust(w) for i, (c, w) in enumerate(zip(line, widths))]
        yield (star + " " + "  ".join(words)).rstrip() + "\n"
    for number in sorted({r["refused"] for r in rows if r["refused"] is not None}):
        yield "refused by %s: %s\n" % (number, reasons.condition(number))


def run(args, parser):
    swept, values, others = wanted(args, parser)
    tape = files.read_tape(args.tape)
    at, order = place_of_order(tape, args.tape)
    results = listed(Engine(), tape, at, swept, [dict(others, **{swept: v}) for v in values])[1:]
    for r in results:
        if isinstance(r, listing.Unreadable):
            raise Trouble("a changed tape can't be read again: " + r.why)
    rows = [row(v, swept, r, order) for v, r in zip(values, results)]
    if args.format == "csv":
        files.put_text(listing.csv_line(KEYS) + "".join(listing.csv_row(r, KEYS) for r in rows))
    elif args.format == "json":
        files.put_text("".join(listing.json_row(r, KEYS) for r in rows))
    else:
        files.put_text("".join(table(rows, swept)))
    return FINE
