"""The picture of an auction: where each thing stands, and how it looks. It is to be read in print, so shapes differ and not colours alone."""
from . import form, reasons
from .listing import decimals
from .svg import Canvas, spread, ticks

WIDTH, HEIGHT = 1040, 640
LEFT, RIGHT, TOP, BOTTOM = 78, 690, 96, 440     # the plot
LANE = 462                                      # events that have no price
BARS, LABELS, EDGE = 722, 830, 1034             # the fills: their bars, and what they are
STYLE = """
text { font-family: Helvetica, Arial, sans-serif; font-size: 11px; fill: #222 }
.title { font-size: 16px; font-weight: bold } .under { font-size: 12px } .axis { font-size: 12px; fill: #444 }
.label { paint-order: stroke; stroke: #fff; stroke-width: 2.2px; stroke-linejoin: round; stroke-opacity: 0.75 }
.band { fill: #d9e4ef } .edge { stroke: #3d5a80; stroke-width: 1.5; fill: none } .after { fill: #f1f1f1 }
.grid { stroke: #ddd; stroke-width: 0.6 } .frame { stroke: #444; stroke-width: 1; fill: none }
.response line { stroke: #222; stroke-width: 2 } .response circle { fill: #222; stroke: #222 } .customer circle { fill: #fff; stroke-width: 1.5 }
.cancel { stroke: #222; stroke-width: 1.6; fill: none } .amend { stroke: #222; stroke-width: 1; fill: none }
.refusal path { stroke: #b00020; stroke-width: 1.6; fill: #fff } .refusal text { fill: #b00020 }
.event path { stroke: #3d5a80; stroke-width: 1.4; fill: #fff } .event text { fill: #3d5a80 }
.stop { stroke: #222; stroke-width: 1; stroke-dasharray: 6 3 } .ending { stroke: #b00020; stroke-width: 1.8 } .ended { fill: #b00020; font-weight: bold; font-size: 12px }
.contra { fill: #444; stroke: #222; stroke-width: 0.6 } .other { fill: #c9c9c9; stroke: #222; stroke-width: 0.6 } .lead { stroke: #999; stroke-width: 0.6; stroke-dasharray: 2 2 }
"""
WORDS = {"gtx": "GTX", "cancel": "cancel", "limit": "limit", "market": "market", "quotes": "quotes", "amend": "amend", "record": "record"}


class Scales:
    """Time to across, price to up. A price far off the range stands at the edge."""

    def __init__(self, picture):
        prices = [p for _, low, high in picture.steps for p in (low, high)] + [price for price, _ in picture.levels()]
        low, high = min(prices), max(prices)
        reach = max(high - low, 4)
        near = [s.price for s in picture.spans if s.price is not None] + [m.price for m in picture.marks if m.price is not None]
        near = [p for p in near + [picture.order["stop"]] if low - reach // 2 <= p <= high + reach // 2 and p]
        low, high = min(near + [low]), max(near + [high])
        margin = max(1, (high - low) // 10)
        self.low, self.high, self.length = low - margin, high + margin, picture.length
        self.step = (BOTTOM - TOP) / (self.high - self.low)

    def x(self, time):
        return LEFT + (RIGHT - 24 - LEFT) * min(time, self.length * 1.03) / self.length

    def y(self, price):
        return BOTTOM - (min(max(price, self.low), self.high) - self.low) * self.step

    def off(self, price):
        """An arrow where the price is off the picture."""
        return " \u2193" if price < self.low else " \u2191" if price > self.high else ""


def heading(canvas, picture):
    order, row = picture.order, picture.row
    mode = form.name_of(form.MODES, order["mode"])
    stop = "" if order["mode"] == 2 else " %d" % order["stop"]
    side = form.name_of(form.SIDES, order["side"])
    canvas.text(LEFT, 28, "%s %d, %s%s, limit %d" % (side.capitalize(), order["size"], mode, stop, order["limit"]), class_="title")
    collared = " Collared order: displayed %d, collar %d." % (order["displayed"], order["collar"]) if order["displayed"] else ""
    canvas.text(LEFT, 48, "Quotes at arrival: national %d / %d, exchange %d / %d.%s Interval %d ms. Tape: %s" % (
        order["nbb"], order["nbo"], order["bb"], order["bo"], collared, order["interval"], picture.name if len(picture.name) < 60 else "\u2026" + picture.name[-58:]), class_="under")
    average = "" if row["average"] is None else ", average %s" % decimals(row["average"])
    canvas.text(LEFT, 65, "Ended by %s at %d ms, range %d to %d. Filled %d%s: Contra Order %d, others %d." % (
        row["ending"], picture.end, row["low"], row["high"], row["total"], average, row["contra"], row["others"]), class_="under")


def frame(canvas, scales):
    """Grid, axes and their numbers."""
    for price in ticks(scales.low, scales.high, 11):
        canvas.line(LEFT, scales.y(price), RIGHT, scales.y(price), "grid")
        canvas.line(BARS, scales.y(price), LABELS - 14, scales.y(price), "grid")
        canvas.text(LEFT - 7, scales.y(price) + 4, price, class_="axis price", anchor="end")
    for time in ticks(0, scales.length, 11):
        canvas.line(scales.x(time), BOTTOM, scales.x(time), BOTTOM + 5, "frame")
        canvas.text(scales.x(time), LANE + 30, time, class_="axis time", anchor="middle")
    canvas.text((LEFT + RIGHT) / 2, LANE + 48, "time since the start, ms", class_="axis", anchor="middle")
    canvas.add("text", "price, cents", class_="axis", text_anchor="middle", transform="translate(22 %d) rotate(-90)" % ((TOP + BOTTOM) / 2))
    canvas.text((BARS + EDGE) / 2, TOP - 10, "fills", class_="axis", anchor="middle")
    canvas.text(LEFT - 7, LANE + 4, "no price", class_="axis", anchor="end")
    for x, width in ((LEFT, RIGHT - LEFT), (BARS, EDGE - BARS)):
        canvas.add("rect", x=x, y=TOP, width=width, height=BOTTOM - TOP, class_="frame")


def band(canvas, picture, scales):
    """The range as it moved: a step at each change."""
    ends = [t for t, _, _ in picture.steps[1:]] + [picture.end]
    above, below = [], []
    for (begin, low, high), end in zip(picture.steps, ends):
        above += [(scales.x(begin), scales.y(high)), (scales.x(end), scales.y(high))]
        below += [(scales.x(begin), scales.y(low)), (scales.x(end), scales.y(low))]
    canvas.add("rect", x=scales.x(picture.end), y=TOP, width=RIGHT - scales.x(picture.end), height=BOTTOM - TOP, class_="after")
    canvas.open("range", "the range, %s" % ", ".join("%d to %d from %d ms" % (low, high, t) for t, low, high in picture.steps),
                data_steps=" ".join("%d:%d:%d" % s for s in picture.steps))
    canvas.path(above + below[::-1], "band", closed=True)
    canvas.path(above, "edge")
    canvas.path(below, "edge")
    canvas.close()


def around(x, y):
    """Places for a label beside a point: close by first, then farther up and down."""
    for far in range(0, 50, 12):
        for dy in ((-6 - far, 14 + far) if far else (-6, 14)):
            yield x + 5, y + dy, "start"
            yield x - 5, y + dy, "end"


ROOM = (LEFT + 1, TOP + 1, RIGHT - 1, BOTTOM - 1)


def firm_of(span):
    """The participant behind a response, where it has one."""
    return ", firm %d" % span.firm if span.firm else ""


def told(span):
    """A response in words, as it stood and as it went."""
    words = "response %d: %d at %d, from %d ms to %d ms" % (span.sequence, span.size, span.price, span.begin, span.end)
    words += firm_of(span)
    words += ", amends %d" % span.amends.sequence if span.amends else ""
    words += ", amended by %d" % span.amended.sequence if span.amended else ""
    return words + (", cancelled" if span.cancelled else "")


def square(canvas, x, y, **more):
    """The end of a response that was amended."""
    canvas.path([(x - 5, y - 5), (x + 5, y - 5), (x + 5, y + 5), (x - 5, y + 5)], "amend", closed=True, **more)


def responses(canvas, picture, scales):
    for span in picture.spans:
        x, y, end = scales.x(span.begin), scales.y(span.price), scales.x(span.end)
        canvas.open("response customer" if span.customer else "response", told(span),
                    data_sequence=span.sequence, data_size=span.size, data_price=span.price, data_begin=span.begin, data_end=span.end, data_firm=span.firm or None)
        canvas.line(x, y, end, y, "line")
        canvas.crossed(x, y, end, y)
        if span.amends:
            canvas.path([(x, scales.y(span.amends.price)), (x, y)], "amend", data_amends=span.amends.sequence)
            canvas.crossed(x, scales.y(span.amends.price), x, y)
        canvas.add("circle", cx=x, cy=y, r=3.2)
        canvas.taken(x - 4, y - 4, 8, 8)
        if span.cancelled:
            canvas.path([(end - 5, y - 5), (end + 5, y + 5)], "cancel")
            canvas.path([(end - 5, y + 5), (end + 5, y - 5)], "cancel", data_of=span.sequence)
            canvas.taken(end - 6, y - 6, 12, 12)
        if span.amended:
            square(canvas, end, y, data_amended_by=span.amended.sequence)
            canvas.taken(end - 4, y - 5, 8, 10)
        canvas.close()
    for span in picture.spans:
        x, y = scales.x(span.begin), scales.y(span.price)
        far = scales.off(span.price)
        short = "%d: %d%s" % (span.sequence, span.size, " at %d%s" % (span.price, far) if far else "")
        canvas.label(around(x, y), short + firm_of(span), limits=ROOM) or canvas.label(around(x, y), short, limits=ROOM)


def marks(canvas, picture, scales):
    """Events that placed nothing: refusals as triangles, others as diamonds; those without a price stand in the lane below."""
    for mark in picture.marks:
        x, y = place_of(mark, scales)
        words = "%s %d" % (WORDS[mark.kind], mark.sequence) + ("" if mark.of is None else " of %d" % mark.of)
        if mark.number is not None:
            canvas.open("refusal", "%s refused by %d: %s" % (words, mark.number, reasons.condition(mark.number)),
                        data_sequence=mark.sequence, data_number=mark.number, data_time=mark.time)
            canvas.path([(x, y - 5), (x + 5, y + 4), (x - 5, y + 4)], "shape", closed=True)
        else:
            canvas.open("event", "%s, %s" % (words, mark.answer), data_sequence=mark.sequence, data_kind=mark.kind, data_time=mark.time)
            canvas.path([(x, y - 5), (x + 5, y), (x, y + 5), (x - 5, y)], "shape", closed=True)
        canvas.taken(x - 5, y - 5, 10, 10)
        canvas.close()
    for mark in picture.marks:
        canvas.open("refusal" if mark.number is not None else "event")
        label_of(canvas, mark, *place_of(mark, scales))
        canvas.close()


def place_of(mark, scales):
    return scales.x(mark.time), LANE if mark.price is None else scales.y(mark.price)


def label_of(canvas, mark, x, y):
    if mark.number is not None:
        words = "%d refused %d" % (mark.sequence, mark.number)
        short = "no %d" % mark.number
    else:
        words = {"limit": "%s limit %s" % (mark.side, mark.size), "market": "%s market %s" % (mark.side, mark.size)}.get(mark.kind, WORDS[mark.kind])
        words, short = "%d %s" % (mark.sequence, words), WORDS[mark.kind]
    if mark.price is not None:
        return canvas.label(around(x, y), words, size=10, limits=ROOM) or canvas.label(around(x, y), short, size=10, limits=ROOM)
    room = (LEFT, LANE - 20, RIGHT, LANE + 19)
    places = [(x + 8, LANE + 4, "start"), (x, LANE - 8, "middle"), (x, LANE + 16, "middle"), (x - 8, LANE + 4, "end"), (x + 8, LANE - 8, "start"), (x + 8, LANE + 16, "start"),
              (x - 8, LANE - 8, "end"), (x - 8, LANE + 16, "end")]
    return canvas.label(places, words, size=10, limits=room) or canvas.label(places, short, size=10, limits=room)


def ending(canvas, picture, scales):
    x = scales.x(picture.end)
    canvas.taken(x - 1, TOP, 2, BOTTOM - TOP)
    canvas.line(x, TOP - 4, x, BOTTOM, "ending", data_ending=picture.row["ending"], data_time=picture.end)
    canvas.text(x, TOP - 10, "END %s" % picture.row["ending"], class_="ended", anchor="middle" if x < RIGHT - 60 else "end")


def stop(canvas, picture, scales):
    """The stop or auto-match limit, as the order has it."""
    price = picture.order["stop"]
    if picture.order["mode"] != 2 and scales.low <= price <= scales.high:
        y = scales.y(price)
        canvas.line(LEFT, y, RIGHT, y, "stop")
        word = "stop" if picture.order["mode"] == 1 else "auto-match limit"
        canvas.label([(LEFT + 4, y - 4, "start"), (LEFT + 4, y + 12, "start"), (RIGHT - 4, y - 4, "end"), (RIGHT - 4, y + 12, "end")], "%s %d" % (word, price), limits=ROOM)


def fills(canvas, picture, scales):
    """A bar for each price: the Contra Order's part dark, the others' light; beside it each party with its quantity."""
    levels = picture.levels()
    most = max(contra + sum(q for _, q in others) for _, (contra, others) in levels)
    thick = min(12, max(2, scales.step * 0.7))
    ends = {}
    for price, (contra, others) in levels:
        y, x = scales.y(price), BARS
        canvas.open("fills", data_price=price)
        canvas.line(scales.x(picture.end), y, BARS, y, "lead")
        for party, quantity in [("contra", contra)] * (contra > 0) + others:
            width = (LABELS - 20 - BARS) * quantity / most
            canvas.open("fill", "%s: %d at %d" % (party, quantity, price), data_party=party, data_price=price, data_quantity=quantity)
            canvas.add("rect", x=float(x), y=y - thick / 2, width=float(width), height=thick, class_="contra" if party == "contra" else "other")
            canvas.close()
            x += width
        ends[price] = x
        canvas.close()
    fill_labels(canvas, sorted(levels, reverse=True), ends, scales)


def fill_labels(canvas, levels, ends, scales):
    """What stands beside the bars, spread so that no two meet; where there are too many prices, those of the largest fills."""
    room = int((BOTTOM - TOP) / 13)
    sizes = sorted((-(contra + sum(q for _, q in others)), price) for price, (contra, others) in levels)
    kept = {price for _, price in sizes[:room]}
    levels = [(price, level) for price, level in levels if price in kept]
    places = spread([scales.y(price) for price, _ in levels], 13, TOP + 8, BOTTOM - 8)
    for (price, (contra, others)), y in zip(levels, places):
        whole = ["contra %d" % contra] * (contra > 0) + ["%s: %d" % o for o in others]
        words = ", ".join(whole)
        if len(words) > 23:
            words = ", ".join(whole[:contra > 0] + ["%d others %d" % (len(others), sum(q for _, q in others))])
        canvas.line(ends[price] + 1, scales.y(price), LABELS - 4, y, "lead")
        canvas.text(LABELS + 40, y + 4, price, class_="axis", anchor="end")
        canvas.text(LABELS + 48, y + 4, words)


def legend(canvas, picture):
    """What each shape means, in three columns."""
    one, two, three, y = LEFT, LEFT + 270, LEFT + 610, HEIGHT - 92
    canvas.add("rect", x=one, y=y - 9, width=16, height=10, class_="band")
    canvas.text(one + 24, y, "the range in which it may trade")
    canvas.open("response")
    canvas.line(two - 6, y - 4, two + 16, y - 4, "line")
    canvas.add("circle", cx=two - 6, cy=y - 4, r=3.2)
    canvas.close()
    canvas.text(two + 24, y, "a response that stands, as sequence: size" + (", firm" if any(s.firm for s in picture.spans) else ""))
    canvas.add("rect", x=three, y=y - 9, width=16, height=10, class_="contra")
    canvas.text(three + 24, y, "filled: the Contra Order")
    y += 20
    canvas.open("event")
    canvas.path([(one + 8, y - 9), (one + 13, y - 4), (one + 8, y + 1), (one + 3, y - 4)], "shape", closed=True)
    canvas.close()
    canvas.text(one + 24, y, "an event that places no response")
    canvas.open("response customer")
    canvas.add("circle", cx=two + 4, cy=y - 4, r=3.2)
    canvas.close()
    canvas.text(two + 24, y, "the same, a Customer's")
    canvas.add("rect", x=three, y=y - 9, width=16, height=10, class_="other")
    canvas.text(three + 24, y, "filled: others, as sequence: quantity")
    y += 20
    canvas.open("refusal")
    canvas.path([(one + 8, y - 9), (one + 13, y), (one + 3, y)], "shape", closed=True)
    canvas.close()
    canvas.text(one + 24, y, "refused, with its number")
    canvas.path([(two - 1, y - 9), (two + 9, y + 1)], "cancel")
    canvas.path([(two - 1, y + 1), (two + 9, y - 9)], "cancel")
    canvas.text(two + 24, y, "cancelled")
    canvas.line(three, y - 4, three + 16, y - 4, "stop")
    canvas.text(three + 24, y, "the stop or auto-match limit")
    y += 24
    canvas.open("response")
    canvas.line(two - 10, y - 9, two + 2, y - 9, "line")
    square(canvas, two + 2, y - 9)
    canvas.path([(two + 2, y - 9), (two + 2, y + 5)], "amend")
    canvas.add("circle", cx=two + 2, cy=y + 5, r=3.2)
    canvas.line(two + 2, y + 5, two + 16, y + 5, "line")
    canvas.close()
    canvas.text(two + 24, y, "amended: the old one ends, the new one begins")


def auction(picture):
    canvas, scales = Canvas(WIDTH, HEIGHT, "CUBE auction: " + picture.name), Scales(picture)
    canvas.add("rect", width=WIDTH, height=HEIGHT, fill="#fff")
    heading(canvas, picture)
    band(canvas, picture, scales)
    frame(canvas, scales)
    ending(canvas, picture, scales)
    responses(canvas, picture, scales)
    marks(canvas, picture, scales)
    stop(canvas, picture, scales)
    fills(canvas, picture, scales)
    legend(canvas, picture)
    return canvas.whole(STYLE)


def refused(name, number):
    """A tape without an auction: its refusal in words."""
    canvas = Canvas(WIDTH, 120, "CUBE auction: " + name)
    canvas.add("rect", width=WIDTH, height=120, fill="#fff")
    canvas.text(LEFT, 40, "No auction: refused by %d" % number, class_="title")
    canvas.text(LEFT, 64, reasons.condition(number), class_="under")
    canvas.text(LEFT, 84, "Tape: " + name, class_="under")
    return canvas.whole(STYLE)
