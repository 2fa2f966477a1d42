"""cube draw: a picture of an auction."""
from . import files, listing, runs
from .engine import Engine
from .trouble import FINE

NAME = "draw"
SUMMARY = "a picture of an auction, as SVG"
DESCRIPTION = """\
A picture of one auction: time across, price up; the range as it moved, the responses with their sizes and firms (the participants of a new tape),
amends, cancels and refusals, the ending, and the fills at their prices. The range and what stands after each event come from the proved program
desk, the answers and fills from the tape's listing."""
EXAMPLES = [("cube draw c.tape > c.svg", "a picture for a report")]


def add(parser):
    parser.add_argument("tape", metavar="TAPE", nargs="?", default="-", help="the tape's file; - or none is standard input")
    parser.add_argument("-o", "--output", metavar="FILE", default="-", help="the picture's file; - or none is standard output")


def run(args, parser):
    from . import drawing, picture
    tape, engine = files.read_tape(args.tape), Engine()
    lines = runs.one(engine, args.tape, tape=tape).lines()
    number = listing.refusal(lines[0])
    if number is not None:
        made = drawing.refused(args.tape, number)
    else:
        made = drawing.auction(picture.Picture(args.tape, tape, lines, runs.desk(engine, "trace", tape)))
    files.write(args.output, made.encode("utf-8"))
    return FINE
