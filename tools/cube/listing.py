"""A listing taken apart for presentation: its lines as a row of fields. Nothing here decides what an auction answers."""
import json
import os

from . import reasons
from .files import shown
from .trouble import Trouble

KEYS = ["name", "refused", "ending", "low", "high", "events_taken", "events_refused", "contra", "others", "average", "total"]


def encoded(lines):
    return ("\n".join(lines) + "\n").encode("utf-8", "surrogateescape")


class Unreadable:
    """What is listed of a file that can't be read, and why."""
    firms = None

    def __init__(self, name, why):
        self.name, self.why = name, why

    @classmethod
    def by_number(cls, name, number):
        return cls(name, os.strerror(number) if number else "a read failed")

    def lines(self):
        return ["UNREADABLE %s: %s" % (self.name, self.why)]

    def printed(self):
        return encoded(self.lines())


class Listing:
    """What the engine said of a tape."""
    firms = None

    def __init__(self, name, text):
        self.name, self.text = name, text

    def lines(self):
        return self.text.decode("ascii").splitlines()

    def printed(self):
        return self.text


def party(line):
    """The party that a FILL line or a line of `desk firms` names, or None."""
    words = line.split(" ")
    return words[1] if words[0] in ("FILL", "FIRM") else None


class WithFirms(Listing):
    """What the engine said of a tape, with the participant beside each fill of a response; `firms` has them by their parties. `said` has the lines of
    `desk firms`, one for each fill."""

    def __init__(self, listed, said):
        super().__init__(listed.name, listed.text)
        if [party(line) for line in said] != [party(line) for line in super().lines() if party(line)]:
            raise Trouble("%s: the parties of desk firms are not those of the listing's fills" % shown(listed.name))
        self.firms = {words[1]: int(words[2]) for words in (line.split(" ") for line in said) if len(words) == 3}

    def lines(self):
        return [line + " participant %d" % self.firms[party(line)] if party(line) in self.firms else line for line in super().lines()]

    def printed(self):
        return encoded(self.lines())


def scaled(price_times_quantity, quantity):
    """An average in ten thousandths of a cent, to the nearest."""
    return (2 * 10000 * price_times_quantity + quantity) // (2 * quantity)


def decimals(n):
    """Ten thousandths as a number with four decimals."""
    return "%s%d.%04d" % ("-" if n < 0 else "", abs(n) // 10000, abs(n) % 10000)


def row(listed):
    """The fields of a listing; None where one does not apply. The average is in ten thousandths of a cent. `firms` is beside KEYS, for who asks for it."""
    found = dict.fromkeys(KEYS)
    found.update(name=listed.name, firms=listed.firms)
    if isinstance(listed, Unreadable):
        found["refused"] = "unreadable"
        return found
    text = listed.text
    if text.startswith(b"REFUSED "):
        found["refused"] = int(text[8:])
        return found
    # the lines before END are the auction's and its events'; after it come the fills and their total
    at = text.index(b"\nEND ") + 1
    end, *fills, total = text[at:].splitlines()
    _, ending, _, low, _, high = end.split()
    contra = others = worth = 0
    for line in fills:
        _, party, price, quantity = line.split()
        n = int(quantity)
        worth += int(price) * n
        if party == b"contra":
            contra += n
        else:
            others += n
    n = int(total[6:])
    found.update(ending=ending.decode(), low=int(low), high=int(high), events_taken=text.count(b" taken\n", 0, at), events_refused=text.count(b" refused ", 0, at),
                 contra=contra, others=others, average=scaled(worth, n) if n else None, total=n)
    return found


# the fields that are held in ten thousandths
FRACTIONS = ("average", "improvement")


def quoted(text):
    """A field of csv: quoted where it has to be."""
    return '"%s"' % text.replace('"', '""') if any(c in text for c in ',"\r\n') else text


def csv_line(values):
    return ",".join(values) + "\n"


def cell(found, key):
    """A field as it is printed: nothing where it does not apply."""
    value = found[key]
    if isinstance(value, dict):
        return " ".join("%s:%d" % item for item in value.items())
    return "" if value is None else decimals(value) if key in FRACTIONS else str(value)


def csv_row(found, keys):
    first, *rest = keys
    return csv_line([quoted(cell(found, first))] + [cell(found, k) for k in rest])


def json_row(found, keys, **more):
    """One JSON object: what does not apply is null."""
    values = {k: found[k] / 10000 if k in FRACTIONS and found[k] is not None else found[k] for k in keys}
    values.update(more)
    return json.dumps(values) + "\n"


def refusal(line):
    """The number that a line of a listing refuses by, or None."""
    words = line.split(" ")
    if words[0] == "REFUSED":
        return int(words[1])
    if words[0] == "EVENT" and words[2] == "refused":
        return int(words[3])
    return None


def with_reasons(lines, width):
    """The lines as they come, each refusal with its condition beside it, after so many characters."""
    for line in lines:
        number = None if line.startswith("UNREADABLE") else refusal(line)
        yield line if number is None else "%-*s  %s" % (width, line, reasons.condition(number))
