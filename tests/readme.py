#!/usr/bin/env python3
"""The auction by hand that README.md shows: made from its text, listed, watched and shown again by `cube`, it is what README.md says.

    tests/readme.py

From the project's root. Exit status 1, with what differs, where it is not.
"""
import re
import subprocess
import sys


def shown(readme, command):
    """The indented lines after `$ command`, up to the next command or the end of the block."""
    lines, found = readme.split("\n"), []
    at = lines.index("    $ " + command) + 1
    for line in lines[at:]:
        if not line.startswith("    ") or line.startswith("    $ "):
            break
        found.append(line[4:])
    return "\n".join(found) + "\n"


def cube(words, given):
    return subprocess.run(["./cube"] + words, input=given, stdout=subprocess.PIPE, check=True).stdout


def main():
    with open("README.md") as f:
        readme = f.read()
    text, listing = shown(readme, "cat c.txt"), shown(readme, "./cube c.tape")
    tape = cube(["make"], text.encode())
    for name, got, want in (("listing", cube([], tape).decode(), listing), ("text", cube(["show"], tape).decode(), text)):
        if got != want:
            sys.exit("the %s of README.md's auction is not\n%s" % (name, got))
    offered = re.search(r"`(EVENT \d+ taken on offer \d+)`", readme).group(1)
    if offered not in cube(["watch"], tape).decode().split("\n"):
        sys.exit("the watch of README.md's auction has no line " + offered)
    wrong = subprocess.run(["./cube", "make"], input=text.replace("size=3", "size=three", 1).encode(), stdout=subprocess.PIPE, stderr=subprocess.PIPE)
    if wrong.returncode == 0 or wrong.stdout or not re.search(rb"line 2: ", wrong.stderr):
        sys.exit("a wrong line is not named, or something was written")


main()
