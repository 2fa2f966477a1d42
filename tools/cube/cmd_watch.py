"""cube watch: the contracts on offer after each event, of a tape or of records as they come."""
from . import files, listing, runs
from .engine import Engine
from .trouble import FINE

NAME = "watch"
SUMMARY = "the contracts on offer after each event, of a tape or live"
DESCRIPTION = """\
The listing of one tape, with the contracts on offer at the end of each EVENT line: the total size of the responses that stand after that event. With
--live standard input is no tape but an order record (64 bytes) and then event records (32 bytes each, and 40 with --new), as they come, and each line
is shown as soon as its record is there. It follows one auction, up to the input's end: no clock runs, and time passes by the records' own. The END,
FILL and TOTAL lines come where an event ends the auction, else at the input's end, where an auction still open is closed by hand; a record after the
ending is still answered. Where the input ends inside a record, or before the order's is whole, that is said and the status is 1: inside the order
record it is REFUSED 24, inside an event record (a tape's trailer is such a piece) the auction is not closed. All lines come from the proved program
desk."""
EXAMPLES = [("cube watch c.tape", "what was on offer, event by event"),
            ("head -c -16 c.tape | cube watch --live", "the records of a tape, without its trailer, as if they came now"),
            ("head -c -16 c2.tape | cube watch --live --new", "the same of a new tape"),
            ("tail -c +1 -f FILE | cube watch --live", "a screen of a file of records that is still being written")]
WIDEST = len("EVENT 4294967295 refused 33 on offer 6400000")


def add(parser):
    parser.add_argument("tape", metavar="TAPE", nargs="?", default="-", help="the tape's file; - or none is standard input")
    parser.add_argument("--live", action="store_true", help="follow the records on standard input: the order's, then each event's, with no trailer")
    parser.add_argument("--new", action="store_true", help="the event records of --live are those of a new tape, with participants: 40 bytes each")
    parser.add_argument("--why", action="store_true", help="put beside each refusal what its number says")


def show(lines, why):
    """Each line as it comes."""
    for line in listing.with_reasons(lines, WIDEST) if why else lines:
        files.put_text(line + "\n")


def run(args, parser):
    if args.live and args.tape != "-":
        parser.error("--live follows standard input, and takes no tape")
    if args.new and not args.live:
        parser.error("--new goes with --live; a tape says itself which form it has")
    if args.live:
        with runs.live(Engine(), *["new"] * args.new) as lines:
            show(lines, args.why)
    else:
        tape = files.read_tape(args.tape)
        show(runs.desk(Engine(), "watch", tape), args.why)
    return FINE
