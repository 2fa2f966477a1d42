#!/usr/bin/env python3
"""The cases of crates/tape_cases and what they must print, from document 01 and document 02's W-201, W-205 and W-206 alone (it knows nothing of the
crates).

    tests/tape_cases.py            writes crates/tape_cases/stdin and stdout
    tests/tape_cases.py --check    says whether the two files are what it would write; exit status 1 where they are not
"""
import os
import struct
import sys

ROOT = os.path.dirname(os.path.dirname(os.path.abspath(__file__)))
WHAT = {"order": 1, "event old": 2, "event new": 12, "trailer": 3, "open": 4, "put order": 5, "put event old": 6, "put event new": 16,
        "put trailer old": 7, "put trailer new": 17, "move old": 8, "move new": 18}
U32 = 2 ** 32 - 1
DAY = 86400000

# ---- document 01, "The tape", W-201 for kind 6, W-205 for the order's fields 48 and 52, W-206 for the new form

# the two forms: the trailer's first word, and the length of an event record
FORMS = {"old": (b"CUBT", 32), "new": (b"CUB2", 40)}

ORDER = ["side", "mode", "marks", "size", "limit", "stop", "nbb", "nbo", "bb", "bo", "time", "open", "close", "L", "displayed", "collar"]
ORDER_AT = {"side": 0, "mode": 1, "marks": 2, "size": 4, "limit": 8, "stop": 12, "nbb": 16, "nbo": 20, "bb": 24, "bo": 28,
            "time": 32, "open": 36, "close": 40, "L": 44, "displayed": 48, "collar": 52}
EVENT = ["sequence", "time", "kind", "marks", "side", "f12", "f16", "f20", "f24", "participant"]
EVENT_AT = {"sequence": 0, "time": 4, "kind": 8, "marks": 9, "side": 10, "f12": 12, "f16": 16, "f20": 20, "f24": 24, "participant": 32}
SMALL = {"side", "mode", "marks", "kind"}


def a_size(x):
    return 1 <= x <= 100000


def price(x):
    return 1 <= x <= 999999


def collar_formed(o):
    if o["displayed"] == 0 and o["collar"] == 0:
        return True
    result = o["displayed"] - o["collar"] if o["side"] == 1 else o["displayed"] + o["collar"]
    return price(o["displayed"]) and price(o["collar"]) and price(result)


def order_formed(o):
    stop = o["stop"] == 0 if o["mode"] == 2 else price(o["stop"])
    return (o["side"] in (1, 2) and o["mode"] in (1, 2, 3) and o["marks"] < 16 and o["size"] <= 100000 and price(o["limit"])
            and stop and price(o["nbb"]) and price(o["nbo"]) and 0 <= o["bb"] <= 999999 and 1 <= o["bo"] <= 1000000
            and o["time"] <= DAY and o["open"] <= DAY and o["close"] <= DAY and o["open"] < o["close"]
            and 100 <= o["L"] <= 1000 and collar_formed(o))


def event_formed(e):
    size, cost = a_size(e["f12"]), price(e["f16"])
    late = e["f20"] == 0 and e["f24"] == 0
    sided, plain = e["side"] in (1, 2), e["side"] == 0
    only = lambda bits: e["marks"] & ~bits == 0
    if e["time"] > DAY:
        return False
    if e["kind"] == 1:
        return only(1) and sided and size and cost and late
    if e["kind"] == 2:
        return only(0) and plain and e["f16"] == 0 and late
    if e["kind"] == 3:
        return only(3) and sided and size and cost and late
    if e["kind"] == 4:
        return only(1) and sided and size and e["f16"] == 0 and late
    if e["kind"] == 5:
        return only(12) and plain and price(e["f12"]) and cost and e["f20"] <= 999999 and 1 <= e["f24"] <= 1000000
    if e["kind"] == 6:
        return only(0) and plain and a_size(e["f16"]) and price(e["f20"]) and e["f24"] == 0
    return False


def record(length, places, values):
    b = bytearray(length)
    for name, at in places.items():
        b[at:at + (1 if name in SMALL else 4)] = values[name].to_bytes(1 if name in SMALL else 4, "little")
    return bytes(b)


def order_bytes(o):
    return record(64, ORDER_AT, o)


def event_bytes(e, form="old"):
    return record(40, EVENT_AT, e)[:FORMS[form][1]]


def trailer_bytes(s, n, name=b"CUBT", last=0):
    return name + struct.pack("<III", s, n, last)


def event_spare(form):
    return [i for i in [11] + list(range(28, 32)) + list(range(36, 40)) if i < FORMS[form][1]]


def read(b, length, places, names, formed, spare, number, word):
    if len(b) < length:
        return "refused 24"
    v = {n: (b[places[n]] if n in SMALL else int.from_bytes(b[:length][places[n]:places[n] + 4], "little")) for n in names}
    if any(b[i] for i in spare) or not formed(v):
        return "refused %d" % number
    return word + "".join(" %d" % v[n] for n in names) + " same"


def read_order(b):
    return read(b, 64, ORDER_AT, ORDER, order_formed, [3] + list(range(56, 64)), 1, "order")


def read_event(b, form):
    return read(b, FORMS[form][1], EVENT_AT, EVENT, event_formed, event_spare(form), 32, "event")


def trailer_of(b):
    name, s, n, last = b[:4], *struct.unpack("<III", b[4:16])
    form = next((f for f, (word, _) in FORMS.items() if word == name), None)
    return None if form is None or last != 0 else (form, s, n)


def read_trailer(b):
    if len(b) < 16:
        return "refused 24"
    t = trailer_of(b)
    return "refused 22" if t is None else "trailer %s %d %d same" % t


def open_tape(b):
    if not 16 <= len(b) <= 65536:
        return "refused 21"
    t = trailer_of(b[-16:])
    if t is None:
        return "refused 22"
    form, s, n = t
    return "tape %s %d %d" % t if s + 64 + FORMS[form][1] * n + 16 == len(b) else "refused 23"


def moved(b, to):
    """The tape in the other form, or the number that refuses it, but for 24."""
    if not 16 <= len(b) <= 65536:
        return 21
    t = trailer_of(b[-16:])
    if t is None or t[0] == to:
        return 22
    form, s, n = t
    long = FORMS[form][1]
    if s + 64 + long * n + 16 != len(b):
        return 23
    records = [b[s + 64 + long * k:s + 64 + long * (k + 1)] for k in range(n)]
    if to == "old" and any(any(r[32:]) for r in records):
        return 25
    whole = b[:s + 64] + b"".join(r[:32] + bytes(FORMS[to][1] - 32) for r in records) + trailer_bytes(s, n, FORMS[to][0])
    return 26 if len(whole) > 65536 else whole


def move_into(b, to, n):
    """What is said of moving into a room of n sevens: the answer, and its bytes, of a long one those at its end."""
    whole, room = moved(b, to), b"\7" * n
    if isinstance(whole, int):
        answer = "refused %d" % whole
    elif n < len(whole):
        answer = "refused 24"
    else:
        answer, room = "moved %d" % len(whole), whole + room[len(whole):]
    return answer + "".join(" %d" % x for x in (room if n < 400 else room[n - 24:]))


def put(ok, number, rec, lent):
    if not ok:
        answer, after = "refused %d" % number, lent
    elif len(lent) < len(rec):
        answer, after = "refused 24", lent
    else:
        answer, after = "done", rec + lent[len(rec):]
    return answer + "".join(" %d" % x for x in after)


# ---- the cases

cases, answers = [], []


def case(what, answer, values=b"", lent=b"", tail=b"", length=None):
    n = len(lent) + len(tail) if length is None else length
    cases.append(struct.pack("<IIIII", WHAT[what], len(values), n, len(lent), len(tail)) + values + lent + tail)
    answers.append(answer)


def try_order(b):
    case("order", read_order(b), lent=b)


def try_event(b, form="old"):
    case("event " + form, read_event(b, form), lent=b)


def try_put_order(o, lent):
    fits = {n: (o[n] % 256 if n in SMALL else o[n]) for n in ORDER}
    case("put order", put(order_formed(fits), 1, order_bytes(fits), lent), b"".join(struct.pack("<I", o[n]) for n in ORDER), lent)


def try_put_event(e, lent, form="old"):
    fits = {n: (e[n] % 256 if n in SMALL else e[n]) for n in EVENT}
    held = event_formed(fits) and (form == "new" or fits["participant"] == 0)
    case("put event " + form, put(held, 32, event_bytes(fits, form), lent), b"".join(struct.pack("<I", e[n]) for n in EVENT), lent)


def try_move(b, to, room):
    start, end = b[:-16].rstrip(b"\0"), b[-16:]
    case("move " + to, move_into(b, to, room), struct.pack("<I", room), start, end, len(b))


def filler(n):
    return bytes((i * 37 + 165) % 256 for i in range(n))


GOOD = dict(side=1, mode=3, marks=5, size=100, limit=110, stop=105, nbb=100, nbo=110, bb=99, bo=111, time=34200000,
            open=34200000, close=57600000, L=100, displayed=0, collar=0)
GOOD_ORDERS = [GOOD, dict(GOOD, side=2, mode=2, stop=0, marks=15, size=0, bb=0, bo=1000000, L=1000),
               dict(GOOD, mode=1, limit=999999, stop=1, nbb=1, nbo=999999, bb=999999, bo=1, open=0, close=DAY, time=DAY),
               dict(GOOD, displayed=109, collar=3), dict(GOOD, side=2, displayed=101, collar=3)]
EDGES = {"side": [0, 1, 2, 3, 255], "mode": [0, 1, 2, 3, 4, 255], "marks": [0, 1, 2, 4, 8, 15, 16, 32, 64, 128],
         "size": [0, 1, 100000, 100001, U32], "limit": [0, 1, 999999, 1000000, U32], "stop": [0, 1, 999999, 1000000, U32],
         "nbb": [0, 1, 999999, 1000000, U32], "nbo": [0, 1, 999999, 1000000, U32], "bb": [0, 1, 999999, 1000000, U32],
         "bo": [0, 1, 1000000, 1000001, U32], "time": [0, DAY, DAY + 1, U32], "L": [0, 99, 100, 101, 999, 1000, 1001, U32],
         "open": [0, 57599999, 57600000, 57600001, U32], "close": [0, 34199999, 34200000, 34200001, DAY, DAY + 1, U32],
         "displayed": [0, 1, 2, 3, 4, 999998, 999999, 1000000, U32], "collar": [0, 1, 2, 108, 109, 110, 999898, 999899, 999999, 1000000, U32]}
# displayed price and collar: either alone, either end of both, either end of the result, and sums that pass 32 bits
COLLARS = [(0, 0), (0, 1), (1, 0), (1, 1), (2, 1), (1, 2), (999999, 1), (1, 999999), (999999, 999998), (999999, 999999), (999998, 1), (999998, 2),
           (1, 999998), (500000, 499999), (500000, 500000), (1000000, 1), (1000001, 1), (1, 1000000), (U32, 1), (1, U32), (U32, U32), (U32, 2), (2, U32),
           (2 ** 31, 2 ** 31), (U32 - 999998, 999999), (999999, U32 - 999998)]

GOOD_EVENTS = [dict(sequence=1, time=20, kind=1, marks=1, side=2, f12=3, f16=105, f20=0, f24=0, participant=0),
               dict(sequence=U32, time=0, kind=2, marks=0, side=0, f12=U32, f16=0, f20=0, f24=0, participant=0),
               dict(sequence=0, time=DAY, kind=3, marks=3, side=1, f12=100000, f16=999999, f20=0, f24=0, participant=0),
               dict(sequence=7, time=99, kind=4, marks=1, side=2, f12=1, f16=0, f20=0, f24=0, participant=0),
               dict(sequence=8, time=100, kind=5, marks=12, side=0, f12=999999, f16=1, f20=0, f24=1000000, participant=0),
               dict(sequence=9, time=101, kind=6, marks=0, side=0, f12=U32, f16=100000, f20=999999, f24=0, participant=0)]
EVENT_EDGES = {"sequence": [0, 1, U32], "time": [0, DAY, DAY + 1, U32], "kind": [0, 1, 2, 3, 4, 5, 6, 7, 255],
               "marks": list(range(17)) + [32, 64, 128, 255], "side": [0, 1, 2, 3, 255], "f12": [0, 1, 100000, 100001, 999999, 1000000, U32],
               "f16": [0, 1, 100000, 100001, 999999, 1000000, U32], "f20": [0, 1, 999999, 1000000, U32], "f24": [0, 1, 1000000, 1000001, U32],
               "participant": [0, 1, 77, 2 ** 31, U32]}


def make():
    for o in GOOD_ORDERS:
        try_order(order_bytes(o))
        try_order(order_bytes(o) + filler(9))
        for n in (64, 65, 80):
            try_put_order(o, filler(n))
    for base in (GOOD, GOOD_ORDERS[1], GOOD_ORDERS[3], GOOD_ORDERS[4]):
        for name in ORDER:
            for v in EDGES[name]:
                try_order(order_bytes(dict(base, **{name: v})))
                try_put_order(dict(base, **{name: v}), filler(66))
    for displayed, collar in COLLARS:
        for side in (1, 2):
            o = dict(GOOD, side=side, displayed=displayed, collar=collar)
            try_order(order_bytes(o))
            try_put_order(o, filler(66))
            try_order(order_bytes(dict(o, size=1)))
    for i in [3] + list(range(48, 64)):
        for v in (1, 128):
            try_order(order_bytes(GOOD)[:i] + bytes([v]) + order_bytes(GOOD)[i + 1:])
    for n in range(65):
        try_order(order_bytes(GOOD)[:n])
        try_put_order(GOOD, filler(n))
        try_put_order(dict(GOOD, L=1001), filler(n))
    for e in GOOD_EVENTS:
        for form, (_, long) in FORMS.items():
            try_event(event_bytes(e, form), form)
            try_event(event_bytes(e, form) + filler(9), form)
            for n in (long, long + 1, long + 8):
                try_put_event(e, filler(n), form)
            for name in EVENT:
                for v in EVENT_EDGES[name]:
                    try_event(event_bytes(dict(e, **{name: v}), form), form)
                    try_put_event(dict(e, **{name: v}), filler(long + 2), form)
            for i in event_spare(form):
                try_event(event_bytes(e, form)[:i] + b"\x01" + event_bytes(e, form)[i + 1:], form)
        # an old record is not looked at past its 32 bytes, whatever stands there
        try_event(event_bytes(dict(e, participant=77), "new"), "old")
    for form in FORMS:
        for n in range(41):
            try_event(event_bytes(GOOD_EVENTS[0], form)[:n], form)
            try_put_event(GOOD_EVENTS[0], filler(n), form)
            try_put_event(dict(GOOD_EVENTS[0], f12=0), filler(n), form)
            try_put_event(dict(GOOD_EVENTS[0], participant=77), filler(n), form)
    trailers = [trailer_bytes(0, 0), trailer_bytes(U32, U32), trailer_bytes(5, 6, b"CUB2"), trailer_bytes(U32, U32, b"CUB2"), trailer_bytes(5, 6, b"CUB3"),
                trailer_bytes(5, 6, b"CUB2", last=1), trailer_bytes(5, 6, b"TBUC"),
                trailer_bytes(5, 6, b"\x00\x00\x00\x00"), trailer_bytes(5, 6, last=1), trailer_bytes(5, 6, last=1 << 31)]
    for t in trailers:
        case("trailer", read_trailer(t), lent=t)
        case("trailer", read_trailer(t), lent=t + filler(3))
    for n in range(17):
        case("trailer", read_trailer(trailers[1][:n]), lent=trailers[1][:n])
        for s, k in ((0, 0), (1000, 62), (U32, U32)):
            for form, (word, _) in FORMS.items():
                case("put trailer " + form, put(True, 0, trailer_bytes(s, k, word), filler(n)), struct.pack("<II", s, k), filler(n))
    for form, (word, _) in FORMS.items():
        case("put trailer " + form, put(True, 0, trailer_bytes(3, 4, word), filler(20)), struct.pack("<II", 3, 4), filler(20))

    def tape(length, t):
        case("open", open_tape(bytes(max(0, length - len(t))) + t[max(0, len(t) - length):]), tail=t[max(0, len(t) - length):], length=length)
    for length in (0, 1, 15, 16, 79, 80, 81, 112, 113, 144, 65535, 65536, 65537):
        for word, long in FORMS.values():
            for s, n in ((0, 0), (0, 1), (1, 0), (length - 80, 0), (length - 80 - long, 1), (length - 80 - long * 1636, 1636), (length - 80 - long * 2045, 2045),
                         (length - 79, 0), (length - 81, 0), (U32, 0), (0, U32), (U32, U32), (2 ** 32 - 64 - 16 + length, 0), (length - 80, 2 ** 27),
                         (U32 - 79 + length - long, 1), (0, (length - 80) // long)):
                if 0 <= s <= U32 and 0 <= n <= U32:
                    tape(length, trailer_bytes(s, n, word))
        for t in trailers[2:]:
            tape(length, t)
    # lengths that would add up with records of another length
    for n in (1, 2, 10):
        for word, _ in FORMS.values():
            for long in (24, 32, 40, 48):
                tape(64 + long * n + 16, trailer_bytes(0, n, word))
    moves()


def moves():
    """Tapes through both moves: any bytes as prefix, order and records, out of form or not, into rooms of all lengths near the moved one's."""
    def whole(form, own, records, **how):
        word, long = FORMS[form]
        return own + filler(64) + b"".join(r + bytes(long - len(r)) for r in records) + trailer_bytes(len(own), len(records), how.get("word", word), how.get("last", 0))

    bare = [filler(40)[k:k + 32] for k in (0, 3, 8)]
    events = [event_bytes(e) for e in GOOD_EVENTS]
    for form, to in (("old", "new"), ("new", "old")):
        for own in (b"", b"\1", filler(77)):
            for records in ([], bare[:1], bare, events):
                tape = whole(form, own, records)
                long = len(moved(tape, to))
                for room in (0, 16, long - 1, long, long + 1, long + 24, 65540):
                    try_move(tape, to, room)
                # there already, and what is no tape
                try_move(tape, form, 65540)
                try_move(tape[:-1], to, 65540)
                try_move(tape[:-1], form, 65540)
                try_move(tape[1:], to, 65540)
                try_move(tape[1:], form, 65540)
                try_move(whole(form, own, records, last=1), to, 65540)
                try_move(whole(form, own, records, word=b"CUB1"), to, 65540)
    # moving back, each byte of the two words of the first event, of one in the midst and of the last
    for k in (0, 2, 5):
        for i in range(32, 40):
            full = [e + bytes(8) for e in events]
            full[k] = full[k][:i] + b"\1" + full[k][i + 1:]
            try_move(whole("new", filler(5), full), "old", 65540)
            try_move(whole("new", filler(5), full), "old", 0)
    # the longest that move, and those that would be too long, also where the room is too short
    for n, own in ((1636, 15), (1636, 16), (1636, 17), (1637, 0), (1637, 23), (2045, 0), (1, 65400), (1, 65416), (1, 65417), (0, 65456)):
        tape = filler(min(own, 9)).ljust(own + 64 + 32 * n, b"\0") + trailer_bytes(own, n)
        if len(tape) <= 65536:
            for room in (0, len(tape), 65535, 65536, 65540):
                try_move(tape, "new", room)
    for length in (0, 1, 15, 16, 80, 65537, 65540):
        for to in FORMS:
            try_move(bytes(length), to, 65540)
            try_move(bytes(length), to, 0)


def main():
    make()
    want = {"stdin": b"".join(cases), "stdout": ("\n".join(answers) + "\n").encode()}
    folder = os.path.join(ROOT, "crates", "tape_cases")
    if sys.argv[1:] == ["--check"]:
        for name, text in want.items():
            with open(os.path.join(folder, name), "rb") as f:
                if f.read() != text:
                    print("crates/tape_cases/%s is not what tests/tape_cases.py writes" % name)
                    sys.exit(1)
        print("tape_cases: %d cases as tests/tape_cases.py writes them" % len(cases))
        return
    for name, text in want.items():
        with open(os.path.join(folder, name), "wb") as f:
            f.write(text)
    print("%d cases" % len(cases))


main()
