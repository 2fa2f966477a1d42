"""cube why: the numbers of refusals in words."""
from . import files
from .reasons import REASONS, line
from .trouble import FINE

NAME = "why"
SUMMARY = "what the numbers of refusals mean"
DESCRIPTION = """\
Each number in words: of what it is said, its condition in documents 01 and 02 (written for a buy; a sell is its mirror), and what it means. Without
a number: all of them."""
EXAMPLES = [("cube why 33", "why an event was refused by 33")]


def add(parser):
    parser.add_argument("numbers", metavar="NUMBER", nargs="*", type=number_of, help="a number after REFUSED or refused")


def number_of(word):
    return int(word) if len(word) < 10 else -1


number_of.__name__ = "number"


def run(args, parser):
    for n in args.numbers:
        if n not in REASONS:
            parser.error("no refusal has that number; the numbers are " + ", ".join(str(k) for k in sorted(REASONS)))
    files.put_text("".join(line(n) for n in args.numbers or REASONS))
    return FINE
