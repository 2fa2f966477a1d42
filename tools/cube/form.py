"""A tape as text, and back. One line for the order, one for each event, `key=value` after the first word:

    tape new                                the tape's form, new or old (the first line; left out where it is old)
    own bytes=..                            the recorder's own bytes before the order, in hex (may be left out)
    order side=buy mode=auto-match size=10 limit=110 nbb=100 nbo=110 bb=100 bo=110 time=1000 open=0 close=86400000 interval=100
    gtx sequence=1 time=20 side=sell size=3 price=105
    cancel sequence=2 time=30 of=1
    limit sequence=3 time=40 side=buy size=5 price=103
    market sequence=4 time=50 side=sell size=4
    quotes sequence=5 time=60 nbb=100 nbo=110 bb=100 bo=110
    amend sequence=6 time=70 of=1 size=2 price=104
    record hex=..                           a record that the forms above cannot say

An order's mode is stop, auto-match or auto-match-limit, the first and the last with stop=PRICE. A collared order on the other side is
displayed=PRICE collar=CENTS, each left out where it is 0. Marks are `key=yes`: halted, another,
customer-at-bb, customer-at-bo (order); customer (gtx, limit, market); nonroutable (limit); customer-at-bb, customer-at-bo (quotes).
In a tape of the new form every event may have participant=N, left out where it is 0; its record has 40 bytes, and 32 in the old form.
A number only has to fit its field: what is out of form is the engine's to refuse. Lines that are empty or begin with # are passed over.
"""
import struct

SIDES = {"buy": 1, "sell": 2}
MODES = {"stop": 1, "auto-match": 2, "auto-match-limit": 3}
ORDER_WORDS = ["size", "limit", "stop", "nbb", "nbo", "bb", "bo", "time", "open", "close", "interval", "displayed", "collar"]
# which of them may be left out, and are then 0
ORDER_OPTIONS = ["displayed", "collar"]
ORDER_MARKS = {"halted": 0, "another": 1, "customer-at-bb": 2, "customer-at-bo": 3}
# a kind: its name, its fields 12, 16, 20, 24, whether it has a side, its marks
KINDS = {1: ("gtx", ["size", "price"], True, {"customer": 0}),
         2: ("cancel", ["of"], False, {}),
         3: ("limit", ["size", "price"], True, {"customer": 0, "nonroutable": 1}),
         4: ("market", ["size"], True, {"customer": 0}),
         5: ("quotes", ["nbb", "nbo", "bb", "bo"], False, {"customer-at-bb": 2, "customer-at-bo": 3}),
         6: ("amend", ["of", "size", "price"], False, {})}
# a form of tapes: the trailer's first word, and the length of an event record
FORMS = {"old": (b"CUBT", 32), "new": (b"CUB2", 40)}
LONGEST = 65536


class Wrong(Exception):
    """Why a text is none of a tape, or a tape can't be shown."""


def name_of(table, value):
    return next((name for name, n in table.items() if n == value), None)


class Line:
    """The words of one line, taken one by one; what is wrong with them is gathered."""

    def __init__(self, words):
        self.wrong = []
        self.found = {}
        for w in words:
            key, eq, value = w.partition("=")
            if not eq or not key:
                self.wrong.append("'%s' is not key=value" % w)
            elif key in self.found:
                self.wrong.append("%s stands twice" % key)
            else:
                self.found[key] = value

    def take(self, key):
        if key not in self.found:
            self.wrong.append("%s is missing" % key)
        return self.found.pop(key, None)

    def number(self, key):
        text = self.take(key)
        if text is None:
            return 0
        digits = text.lstrip("0") or "0"
        if not (text.isascii() and text.isdigit()) or len(digits) > 10 or int(digits) > 0xFFFFFFFF:
            self.wrong.append("%s=%s is not a number from 0 to 4294967295" % (key, text if len(text) < 40 else text[:40] + ".."))
            return 0
        return int(digits)

    def choice(self, key, table):
        value = self.take(key)
        if value is not None and value not in table:
            self.wrong.append("%s=%s is none of %s" % (key, value, ", ".join(table)))
        return table.get(value, 0)

    def marks(self, table):
        bits = 0
        for key, bit in table.items():
            value = self.found.pop(key, None)
            if value is not None and value != "yes":
                self.wrong.append("%s=%s: a mark is yes or left out" % (key, value))
            bits |= (value is not None) << bit
        return bits

    def bytes(self, key, length=None):
        value = self.take(key)
        try:
            data = bytes.fromhex(value or "")
        except ValueError:
            self.wrong.append("%s=%s is not hex" % (key, value if len(value) < 40 else value[:40] + ".."))
            return b""
        if length is not None and value is not None and len(data) != length:
            self.wrong.append("a record here has %d bytes, and this has %d" % (length, len(data)))
        return data

    def done(self):
        if self.found:
            self.wrong.append("%s does not belong here" % ", ".join(sorted(self.found)))


def form_of(tape):
    """The name of a tape's form, by its trailer's first word; None where it is neither."""
    return next((name for name, (word, _) in FORMS.items() if tape[-16:-12] == word), None)


def order_record(line):
    side, mode = line.choice("side", SIDES), line.choice("mode", MODES)
    for word in ORDER_OPTIONS + (["stop"] if mode == 2 else []):
        line.found.setdefault(word, "0")
    bits = line.marks(ORDER_MARKS)
    return bytes([side, mode, bits, 0]) + struct.pack("<13I", *[line.number(w) for w in ORDER_WORDS]) + bytes(8)


def participant_words(line, form):
    """The words of an event record after those that both forms have."""
    if form == "new":
        line.found.setdefault("participant", "0")
        return struct.pack("<II", line.number("participant"), 0)
    if line.found.pop("participant", None) is not None:
        line.wrong.append("participant belongs to a tape of the new form: a line `tape new` at the start")
    return b""


def event_record(kind, line, form):
    name, fields, sided, table = KINDS[kind]
    sequence, time = line.number("sequence"), line.number("time")
    side = line.choice("side", SIDES) if sided else 0
    bits = line.marks(table)
    values = [line.number(w) for w in fields] + [0] * (4 - len(fields))
    return struct.pack("<II", sequence, time) + bytes([kind, bits, side, 0]) + struct.pack("<5I", *values, 0) + participant_words(line, form)


class Text:
    """What a text says: the tape's `form`, `own`, `order`, `events` as bytes, each event's line, and all that is wrong, as (line's number, why)."""

    def __init__(self, text):
        self.form, self.own, self.order, self.events, self.order_line, self.event_lines, self.wrong = "old", b"", None, [], 0, [], []
        self.formed = self.begun = self.ordered = False
        for i, line in enumerate(text.split("\n"), 1):
            words = line.split()
            if words and not words[0].startswith("#"):
                if words[0] == "tape":
                    self.read_form(i, words[1:])
                else:
                    self.read(i, words[0], Line(words[1:]))
        if not self.ordered:
            self.wrong.append((0, "there is no order: a line that begins with order"))
        elif not self.wrong and len(self.tape()) > LONGEST:
            self.wrong.append((0, "the tape would have %d bytes, and may have 65,536" % len(self.tape())))

    def read_form(self, i, words):
        if self.formed or self.begun:
            self.wrong.append((i, "the tape's form stands first, and once"))
        self.formed = True
        if len(words) == 1 and words[0] in FORMS:
            self.form = words[0]
        else:
            self.wrong.append((i, "'%s' is none of %s" % (" ".join(["tape"] + words), ", ".join("tape " + name for name in FORMS))))

    def read(self, i, word, line):
        if word == "own":
            if self.begun:
                line.wrong.append("the recorder's own bytes stand before the order, and once")
            self.own = line.bytes("bytes")
        elif not self.ordered:
            if word not in ("order", "record"):
                line.wrong, line.found = ["the order stands before the events: a line that begins with order"], {}
            else:
                self.order, self.order_line, self.ordered = order_record(line) if word == "order" else line.bytes("hex", 64), i, True
        elif word == "order":
            line.wrong, line.found = ["there is one order, and it stands before the events"], {}
        elif word == "record":
            self.event(i, line.bytes("hex", FORMS[self.form][1]))
        else:
            kind = next((k for k, v in KINDS.items() if v[0] == word), None)
            if kind is None:
                line.wrong, line.found = ["'%s' is none of %s, record" % (word, ", ".join(v[0] for v in KINDS.values()))], {}
            else:
                self.event(i, event_record(kind, line, self.form))
        line.done()
        self.begun = True
        self.wrong += [(i, w) for w in line.wrong]

    def event(self, i, record):
        self.events.append(record)
        self.event_lines.append(i)

    def tape(self):
        return self.own + self.order + b"".join(self.events) + FORMS[self.form][0] + struct.pack("<III", len(self.own), len(self.events), 0)


def at_line(i, why):
    return "line %d: %s" % (i, why) if i else why


def make(text):
    """The tape of a text, or Wrong with the number of the first line that is wrong."""
    found = Text(text)
    if found.wrong:
        raise Wrong(at_line(*found.wrong[0]))
    return found.tape()


def order_line(b):
    side, mode, bits = name_of(SIDES, b[0]), name_of(MODES, b[1]), b[2]
    if side is None or mode is None or bits > 15 or b[3] or any(b[56:]):
        return "record hex=" + b.hex()
    left_out = ORDER_OPTIONS + (["stop"] if mode == "auto-match" else [])
    values = [(w, n) for w, n in zip(ORDER_WORDS, struct.unpack("<13I", b[4:56])) if n or w not in left_out]
    words = ["side=" + side, "mode=" + mode] + ["%s=%d" % v for v in values]
    return " ".join(["order"] + words + [m + "=yes" for m, bit in ORDER_MARKS.items() if bits >> bit & 1])


def participant(b):
    """The participant of an event record; one of the old form has 0."""
    return int.from_bytes(b[32:36], "little")


def event_line(b):
    sequence, time = struct.unpack("<II", b[:8])
    kind, bits, side = b[8], b[9], b[10]
    values = struct.unpack("<4I", b[12:28])
    if kind in KINDS:
        name, fields, sided, table = KINDS[kind]
        allowed = sum(1 << bit for bit in table.values())
        plain = not b[11] and not any(b[28:32] + b[36:]) and not bits & ~allowed and not any(values[len(fields):])
        if plain and (name_of(SIDES, side) is not None if sided else side == 0):
            words = ["sequence=%d" % sequence, "time=%d" % time] + (["side=" + name_of(SIDES, side)] if sided else [])
            words += ["%s=%d" % v for v in zip(fields, values)] + ["participant=%d" % n for n in [participant(b)] if n]
            return " ".join([name] + words + [m + "=yes" for m, bit in table.items() if bits >> bit & 1])
    return "record hex=" + b.hex()


def parts(tape):
    """The own bytes, the order record and the event records of a tape, or Wrong with the number that refuses it."""
    if not 16 <= len(tape) <= LONGEST:
        raise Wrong("21: a tape has 16 to 65,536 bytes, and this has %s" % (len(tape) if len(tape) <= LONGEST else "more"))
    form, (at, n, last) = form_of(tape), struct.unpack("<III", tape[-12:])
    if form is None or last:
        raise Wrong("22: the trailer's first or last word is wrong")
    length, first = FORMS[form][1], at + 64
    if first + length * n + 16 != len(tape):
        raise Wrong("23: the lengths don't add up")
    return tape[:at], tape[at:first], [tape[k:k + length] for k in range(first, len(tape) - 16, length)]


def show(tape):
    """The text of a tape, or Wrong with the number that refuses it."""
    own, order, events = parts(tape)
    lines = ["tape new"] * (form_of(tape) == "new") + ["own bytes=" + own.hex()] * bool(own) + [order_line(order)] + [event_line(e) for e in events]
    return "\n".join(lines) + "\n"


def order_fields(b):
    """The fields of an order record by their names; side and mode are their numbers."""
    return dict(zip(ORDER_WORDS, struct.unpack("<13I", b[4:56])), side=b[0], mode=b[1])


def event_fields(b):
    """The fields of an event record by their names; what its kind does not have is not there."""
    sequence, time = struct.unpack("<II", b[:8])
    name, fields, sided, table = KINDS.get(b[8], ("record", [], False, {}))
    found = dict(zip(fields, struct.unpack("<4I", b[12:28])), sequence=sequence, time=time, kind=name, participant=participant(b))
    if sided:
        found["side"] = name_of(SIDES, b[10])
    found.update((mark, bool(b[9] >> bit & 1)) for mark, bit in table.items())
    return found
