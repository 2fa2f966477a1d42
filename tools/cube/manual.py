"""The man page, from the words of --help: python3 tools/cube/manual.py > docs/cube.1"""
import argparse
import os
import sys

if __package__ in (None, ""):
    sys.path[0:1] = [os.path.dirname(os.path.dirname(os.path.realpath(__file__)))]

from cube import cli


def plain(text):
    """Text that roff prints as it is."""
    text = text.replace("\\", "\\e").replace("-", "\\-").replace("`", "\\(ga").replace("'", "\\(aq")
    return "\n".join("\\&" + line if line.startswith((".", "\\(aq")) else line for line in text.split("\n"))


def option(action):
    """An option and its value, as --help has them."""
    if not action.option_strings:
        return action.metavar
    value = "" if action.nargs == 0 else " " + (action.metavar or "{%s}" % ",".join(action.choices))
    return ", ".join(s + value for s in action.option_strings)


def command(parser):
    """The part of one command."""
    c = parser.command
    lines = [".SS cube " + c.NAME, plain(cli.filled(c.DESCRIPTION, 100))]
    for action in parser._actions:
        if not isinstance(action, argparse._HelpAction):
            lines += [".TP", ".B " + plain(option(action)), plain(cli.filled(action.help, 100))]
    for words, meaning in c.EXAMPLES:
        lines += [".PP", plain(meaning[:1].upper() + meaning[1:]) + ":", ".PP", ".nf", ".RS", plain(words), ".RE", ".fi"]
    return lines


def page():
    lines = ['.\\" Made from the words of --help: python3 tools/cube/manual.py > docs/cube.1', '.TH CUBE 1 "" "" "User Commands"',
             ".SH NAME", "cube \\- listings of CUBE auction tapes by a proved engine", ".SH SYNOPSIS", ".nf"]
    lines += [plain(u) for u in cli.USAGE_LINES] + [".fi", ".SH DESCRIPTION", plain(cli.filled(cli.ABOUT, 100)), ".SH COMMANDS"]
    for c in cli.COMMANDS:
        lines += command(cli.Parser(c))
    lines.append(".SH EXIT STATUS")
    for status in cli.STATUSES:
        number, meaning = status.split("  ", 1)
        lines += [".TP", ".B " + number, plain(meaning)]
    return "\n".join(lines) + "\n"


if __name__ == "__main__":
    sys.stdout.write(page())
