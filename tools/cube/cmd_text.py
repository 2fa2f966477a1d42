"""cube make, show and check: tapes as text."""
from . import files, form, listing, reasons, runs
from .engine import Engine
from .trouble import FINE, TROUBLE, Trouble

MARKS = "the README has the text form, with all kinds and marks"


class Make:
    NAME = "make"
    SUMMARY = "a tape from its text"
    DESCRIPTION = "A tape from its text form (%s). A text that is wrong makes no tape: the first wrong line is named." % MARKS
    EXAMPLES = [("cube make c.txt -o c.tape", "the tape of a text"), ("cube make < c.txt | cube list", "its listing at once")]

    @staticmethod
    def add(parser):
        parser.add_argument("text", metavar="TEXT", nargs="?", default="-", help="the text's file; - or none is standard input")
        parser.add_argument("-o", "--output", metavar="TAPE", default="-", help="the tape's file; - or none is standard output")

    @staticmethod
    def run(args, parser):
        try:
            files.write(args.output, form.make(files.read_text(args.text)))
        except form.Wrong as w:
            raise Trouble(str(w) if args.text == "-" else "%s: %s" % (args.text, w))
        return FINE


class Show:
    NAME = "show"
    SUMMARY = "the text of a tape"
    DESCRIPTION = "The text form of a tape (%s). `cube make` makes the same tape of it." % MARKS
    EXAMPLES = [("cube show c.tape > c.txt", "a tape as text, to be read or changed")]

    @staticmethod
    def add(parser):
        parser.add_argument("tape", metavar="TAPE", nargs="?", default="-", help="the tape's file; - or none is standard input")

    @staticmethod
    def run(args, parser):
        try:
            files.put_text(form.show(files.read_tape(args.tape)))
        except form.Wrong as w:
            raise Trouble(str(w) if args.tape == "-" else "%s: %s" % (args.tape, w))
        return FINE


class Check:
    NAME = "check"
    SUMMARY = "all that is wrong with a text, and what the engine would refuse"
    DESCRIPTION = """\
Every line of a text that is wrong, with its number; where none is, what the engine would refuse of the tape, and why. No tape is written. The
status is 1 where the text makes no tape; an order or an event that the engine refuses is no fault of the text."""
    EXAMPLES = [("cube check c.txt", "before a tape is made")]

    @staticmethod
    def add(parser):
        parser.add_argument("text", metavar="TEXT", nargs="?", default="-", help="the text's file; - or none is standard input")

    @staticmethod
    def run(args, parser):
        text = form.Text(files.read_text(args.text))
        if text.wrong:
            found = [form.at_line(i, why) for i, why in text.wrong]
            files.put_text("\n".join(found + [said(len(found), "error") + ": no tape can be made"]) + "\n")
            return TROUBLE
        found = list(refused(text, runs.one(Engine(), args.text, tape=text.tape()).lines()))
        last = "a tape of %d bytes can be made: an order and %s" % (len(text.tape()), said(len(text.events), "event"))
        files.put_text("\n".join(found + [last]) + "\n")
        return FINE


def said(n, word):
    return "%d %s%s" % (n, word, "" if n == 1 else "s")


def refused(text, lines):
    """What the listing refuses, each at its line of the text."""
    number = listing.refusal(lines[0])
    if number is not None:
        yield "line %d: the engine refuses the order by %d: %s" % (text.order_line, number, reasons.condition(number))
    for i, line in zip(text.event_lines, [w for w in lines if w.startswith("EVENT ")]):
        number = listing.refusal(line)
        if number is not None:
            yield "line %d: the engine refuses event %s by %d: %s" % (i, line.split(" ")[1], number, reasons.condition(number))
