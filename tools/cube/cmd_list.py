"""cube list: the listing of each tape."""
import functools
import itertools
import os
import time

from . import files, listing, names, pool, runs
from .engine import Engine
from .trouble import FINE, TROUBLE, put_error, say

NAME = "list"
SUMMARY = "the listing of each tape, as text, csv or JSON"
DESCRIPTION = """\
The listing of each tape, in the order given. With several names, with -H and with --names each listing stands under a line `TAPE name`, and a
summary follows on standard error. `list` may be left out: `cube a.tape` is `cube list a.tape`. Without a name, or for the name `-`, the tape is
read from standard input. A file that can't be read is listed as `UNREADABLE name: why`, and the status is then 1."""
EXAMPLES = [
    ("cube list monday/*.tape > monday.txt", "every listing of a folder"),
    ("find tapes -name '*.tape' -print0 | cube list --names - -0 --jobs 8 --format csv > tapes.csv", "a row for each tape, on eight cores"),
    ("cube list --firms c.tape", "which firm stood behind each response that traded"),
]
# with --firms each tape is a run by itself: smaller blocks, so that all jobs have work
FIRMS_BLOCK = 32


def add(parser):
    parser.add_argument("tapes", metavar="TAPE", nargs="*", help="a tape's file; - is standard input")
    parser.add_argument("--names", metavar="FILE", help="list the tapes that FILE names, one to a line, after those given; - is standard input")
    parser.add_argument("-0", "--null", action="store_true", help="in the file of --names each name ends with a zero byte, not a line's end")
    parser.add_argument("-H", "--header", action="store_true", help="put the line `TAPE name` before a single listing, too")
    parser.add_argument("--format", choices=["text", "csv", "json"], default="text",
                        help="text (the listing), csv (one row for each tape, under a header) or json (one object to a line, with the lines too)")
    parser.add_argument("--why", action="store_true", help="put beside each refusal what its number says (text only)")
    parser.add_argument("--firms", action="store_true",
                        help="put beside each fill of a response the participant behind it, 0 on a tape of the old form; csv and json have them as firms, too")
    parser.add_argument("--summary", metavar="FILE", help="write the summary to FILE, not to standard error; - is standard output")
    parser.add_argument("--jobs", metavar="N", type=jobs_of, default=1,
                        help="run N processes at a time (0: one for each core); the output is the same, in the same order")


def jobs_of(word):
    n = int(word)
    if not 0 <= n <= 1024:
        raise ValueError
    return n or len(os.sched_getaffinity(0))


jobs_of.__name__ = "number of jobs"


def given(args, parser):
    """The blocks of names to list, and whether each listing stands under its name."""
    if not args.tapes and args.names is None:
        if os.isatty(0):
            parser.error("no tape is named, and standard input is a terminal")
        args.tapes = ["-"]
    if args.names == "-" and "-" in args.tapes:
        parser.error("standard input can't be both a tape and the names of tapes")
    if args.null and args.names is None:
        parser.error("-0 goes with --names")
    if args.why and args.format != "text":
        parser.error("--why goes with --format text")
    blocks = names.from_words(args.tapes)
    if args.names is not None:
        blocks = itertools.chain(blocks, names.from_file(args.names, b"\0" if args.null else b"\n"))
    if args.firms:
        blocks = itertools.chain.from_iterable(names.blocks_of(block, FIRMS_BLOCK) for block in blocks)
    return blocks, args.header or args.names is not None or len(args.tapes) > 1


def text_of(listed, headed, why):
    """What is printed of one tape."""
    head = listing.encoded(["TAPE " + listed.name]) if headed else b""
    if not why:
        return head + listed.printed()
    lines = listed.lines()
    return head + listing.encoded(listing.with_reasons(lines, min(max(map(len, lines)), 40)))


def keys_of(args):
    return listing.KEYS + ["firms"] * args.firms


def row_of(listed, args):
    found = listing.row(listed)
    line = listing.csv_row(found, keys_of(args)) if args.format == "csv" else listing.json_row(found, keys_of(args), lines=listed.lines())
    return line.encode("utf-8", "surrogateescape")


def present(engine, block, headed, args):
    """One block: what is printed of it, its counts, and a word on what can't be read where no summary says it."""
    run = runs.run_block(engine, block, args.firms)
    missing = []
    if args.format == "text" and headed and not args.why and run.is_plain():
        return run.text, run.counts, missing
    parts = []
    for listed in run:
        parts.append(text_of(listed, headed, args.why) if args.format == "text" else row_of(listed, args))
        if isinstance(listed, listing.Unreadable) and not headed:
            missing.append("%s: %s" % (files.shown(listed.name), listed.why))
    return b"".join(parts), run.counts, missing


class Progress:
    """How far a long run is, on a terminal that nothing else is written to."""

    def __init__(self):
        self.on = os.isatty(2) and not os.isatty(1)
        self.began = self.last = time.time()
        self.shown = False

    def show(self, tapes):
        now = time.time()
        if self.on and now - self.began > 1 and now - self.last > 0.2:
            put_error("\r\033[K%d tapes, %d a second" % (tapes, tapes / (now - self.began)))
            self.last, self.shown = now, True

    def clear(self):
        if self.shown:
            put_error("\r\033[K")


def list_all(blocks, headed, args):
    """Lists the blocks; answers their counts."""
    engine, progress = Engine(), Progress()
    counts = [0] * len(runs.COUNTS)
    if args.format == "csv":
        files.put_text(listing.csv_line(keys_of(args)))
    try:
        for text, part, missing in pool.in_order((functools.partial(present, engine, b, headed, args) for b in blocks), args.jobs):
            files.put(text)
            for sentence in missing:
                say(sentence)
            counts = [a + b for a, b in zip(counts, part)]
            progress.show(counts[0])
    finally:
        progress.clear()
    return counts


def run(args, parser):
    blocks, headed = given(args, parser)
    counts = list_all(blocks, headed, args)
    summary = runs.SUMMARY % tuple(counts) + "\n"
    if args.summary is not None:
        files.write(args.summary, summary.encode())
    elif headed:
        files.write_all(2, summary.encode(), "standard error")
    return TROUBLE if counts[-1] else FINE
