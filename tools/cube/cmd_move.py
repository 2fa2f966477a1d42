"""cube move: a tape in the other form."""
from . import files, form, runs
from .engine import Engine
from .trouble import FINE, TROUBLE, put_error

NAME = "move"
SUMMARY = "a tape in the other form, with participant numbers or without"
DESCRIPTION = """\
The tape in the form that is wanted: in a new one each event has a participant number, in an old one none has. Moving to new gives every event
participant 0, and moving that back gives the old tape again, byte by byte. The recorder's own bytes, the order and the events are copied as they
stand, also those that an auction would refuse. A tape that can't be moved is `REFUSED` and a number on standard error, and the status is then 1; no
file is made or changed. The numbers are 21, 22 (also for a tape that has the wanted form already), 23, 25 (moving back would lose a participant) and
26 (the moved tape would be too long). The moved tape comes from the proved program desk."""
EXAMPLES = [("cube move --to new c.tape -o c2.tape", "a tape with room for participants"),
            ("cube move --to old c2.tape | cmp - c.tape", "and back: the same bytes")]


def add(parser):
    parser.add_argument("tape", metavar="TAPE", nargs="?", default="-", help="the tape's file; - or none is standard input")
    parser.add_argument("--to", choices=sorted(form.FORMS), required=True, help="the form that is wanted")
    parser.add_argument("-o", "--output", metavar="OUT", default="-", help="the moved tape's file; - or none is standard output")


def run(args, parser):
    tape = files.read_tape(args.tape)
    moved, refused = runs.moved(Engine(), args.to, tape)
    if refused is not None:
        put_error(refused)
        return TROUBLE
    files.write(args.output, moved)
    return FINE
