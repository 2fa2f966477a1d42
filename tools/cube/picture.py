"""What a picture of an auction shows, put together from three sources: the tape's own records, the listing's answers and fills, and the trace of
the range and of what stands. Nothing here says what an event does: it is seen in the trace."""
from . import form, listing


class Span:
    """A response as it stood: from when to when, at what price, with what size; `firm` is the participant of its record. Where it went before the end it
    was `cancelled`, or `amended` is the one that came in its place; `amends` is the one in whose place it came."""

    def __init__(self, sequence, size, customer, record):
        self.sequence, self.size, self.customer, self.price, self.begin = sequence, size, customer, record.get("price"), record["time"]
        self.firm = record["participant"]
        self.end, self.cancelled, self.amended, self.amends = None, False, None, None

    def goes(self, time, instead):
        self.end, self.cancelled, self.amended = time, instead is None, instead
        if instead:
            instead.amends = self


class Mark:
    """An event that is no response: what it is, when, at what price if it has one, and the number that refused it."""

    def __init__(self, record, answer):
        self.sequence, self.kind, self.time, self.price = record["sequence"], record["kind"], record["time"], record.get("price")
        self.side, self.size, self.of = record.get("side"), record.get("size"), record.get("of")
        self.number = int(answer[1]) if answer[0] == "refused" else None
        self.answer = answer[0]


def state(line):
    """A line of the trace: the range, and by its sequence each response that stands: its size, and whether it is a Customer's."""
    words = line.split(" ")
    return int(words[2]), int(words[4]), {int(s): (int(n), mark == ["customer"]) for s, n, *mark in (w.split(":") for w in words[6:])}


class Picture:
    """One auction, ready to be drawn."""

    def __init__(self, name, tape, lines, trace):
        self.name = name
        own, order, events = form.parts(tape)
        self.order = form.order_fields(order)
        self.records = [form.event_fields(e) for e in events]
        answers = [w.split(" ")[2:] for w in lines if w.startswith("EVENT ")]
        self.row = listing.row(listing.Listing(name, "\n".join(lines).encode() + b"\n"))
        self.fills = [(w[1], int(w[2]), int(w[3])) for w in (x.split(" ") for x in lines) if w[0] == "FILL"]
        self.length = self.order["interval"]
        self.end = next((r["time"] for r, a in zip(self.records, answers) if a[0] == "ended"), self.length)
        self.follow([state(line) for line in trace], answers)

    def follow(self, states, answers):
        """What came and went from one state of the trace to the next; what goes as another comes was amended by it."""
        low, high, standing = states[0]
        self.steps, self.spans, self.marks, live = [(0, low, high)], [], [], {}
        for record, answer, (low, high, now) in zip(self.records, answers, states[1:]):
            came, went = [s for s in now if s not in standing], [s for s in standing if s not in now]
            for s in came:
                live[s] = Span(s, *now[s], record)
                self.spans.append(live[s])
            for s in went:
                live[s].goes(record["time"], live[came[0]] if came else None)
            if (low, high) != self.steps[-1][1:]:
                self.steps.append((record["time"], low, high))
            if not came and not went or answer[0] != "taken":
                self.marks.append(Mark(record, answer))
            standing = now
        for span in self.spans:
            if span.end is None:
                span.end = self.end

    def levels(self):
        """The fills by price: the Contra Order's quantity, and the others' as (party, quantity)."""
        found = {}
        for party, price, quantity in self.fills:
            level = found.setdefault(price, [0, []])
            if party == "contra":
                level[0] += quantity
            else:
                level[1].append((party, quantity))
        return sorted(found.items())
