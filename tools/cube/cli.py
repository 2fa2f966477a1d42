"""The command line: the commands, their options and their help."""
import argparse
import os
import signal
import sys
import textwrap

from . import cmd_draw, cmd_list, cmd_move, cmd_sweep, cmd_text, cmd_watch, cmd_why, files
from .trouble import FINE, INTERRUPTED, TERMINATED, TROUBLE, USAGE, Trouble, put_error, say

COMMANDS = [cmd_list, cmd_watch, cmd_why, cmd_sweep, cmd_draw, cmd_text.Make, cmd_text.Show, cmd_text.Check, cmd_move]
USAGE_LINES = ["cube [list] [OPTIONS] TAPE..", "cube < TAPE", "cube COMMAND [OPTIONS] ..", "cube COMMAND --help"]
ABOUT = """Listings of CUBE auction tapes by a proved engine, and what a desk asks about them. The engine is built from the sources on first use and whenever
they have changed, which takes some minutes and needs the Rattle kit's command rt; while it is current, rt is not needed. What is listed comes
from the proved programs runner, evening and desk; tapes as text, tables and pictures are made around them."""
STATUSES = ["0  all was listed; a refused tape is listed", "1  something could not be read, written or moved, or the engine not built", "2  the command line is wrong"]


def filled(text, width=79):
    return textwrap.fill(" ".join(text.split()), width, break_on_hyphens=False)


class Parser(argparse.ArgumentParser):
    """One command's options. A fault is told with the usage, and is status 2."""

    def __init__(self, command):
        examples = "".join("  %s\n      %s\n" % e for e in command.EXAMPLES)
        super().__init__(prog="cube " + command.NAME, description=filled(command.DESCRIPTION), allow_abbrev=False,
                         epilog="examples:\n%s\nstatus:\n%s" % (examples, "".join("  %s\n" % s for s in STATUSES)),
                         formatter_class=argparse.RawDescriptionHelpFormatter)
        self.command = command
        command.add(self)

    def print_help(self, file=None):
        files.put_text(self.format_help())

    def error(self, message):
        usage = self.format_usage()
        say("%s: %s" % (self.command.NAME, message))
        put_error(usage)
        sys.exit(USAGE)

    def read(self, words):
        """The options and names of a command line, in any order; what stands after `--` is a name."""
        options, names, words = [], [], list(words)
        while words:
            word = words.pop(0)
            if word == "--":
                names += words
                break
            if not word.startswith("-") or word == "-":
                names.append(word)
                continue
            options.append(word)
            action = self._option_string_actions.get(word)
            if action is not None and action.nargs is None and words:
                options.append(words.pop(0))
        return self.parse_args(options + (["--"] if any(n.startswith("-") and n != "-" for n in names) else []) + names)


def help_text():
    width = max(len(c.NAME) for c in COMMANDS)
    return "usage: %s\n\n%s\n\ncommands:\n%s\nexample:\n  cube c.tape\n\nstatus:\n%s" % (
        "\n       ".join(USAGE_LINES), filled(ABOUT), "".join("  %-*s  %s\n" % (width, c.NAME, c.SUMMARY) for c in COMMANDS),
        "".join("  %s\n" % s for s in STATUSES))


def command_of(words):
    """The command that is named, or `list`, and its words."""
    for command in COMMANDS:
        if words and words[0] == command.NAME:
            return command, words[1:]
    return cmd_list, words


def serve(words):
    if words[:1] in (["-h"], ["--help"], ["help"]):
        files.put_text(help_text())
        return FINE
    if not words and os.isatty(0):
        put_error(help_text())
        return USAGE
    command, words = command_of(words)
    parser = Parser(command)
    return command.run(parser.read(words), parser)


def main():
    """Runs the command line; every failure is a sentence and a status, and none a traceback."""
    files.guard_standard_files()
    signal.signal(signal.SIGTERM, lambda *_: sys.exit(TERMINATED))
    try:
        status = serve(sys.argv[1:])
    except Trouble as t:
        say(str(t))
        status = TROUBLE
    except KeyboardInterrupt:
        status = INTERRUPTED
    except MemoryError:
        say("there is not enough memory")
        status = TROUBLE
    except OSError as e:
        say("%s%s" % (e.filename + ": " if isinstance(e.filename, str) else "", e.strerror))
        status = TROUBLE
    sys.exit(status)
