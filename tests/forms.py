#!/usr/bin/env python3
"""What `forms` prints of its tapes, by the forms that document 01 names, is what `evening` prints of the same tapes.

    tests/forms.py

From the project's root. It reads the stored runs, to which `rt ci` holds both programs, and the tapes beside them.
The last line is 'N passed, M failed'; exit status 1 where one failed.
"""
import sys


def listings(crate):
    """The listing of each tape of a program's stored run, by the tape's name."""
    found, name = {}, None
    with open("crates/%s/stdout" % crate) as f:
        for line in f:
            if line.startswith("TAPE "):
                name = line[5:-1]
                found[name] = ""
            elif name:
                found[name] += line
    return found


def tape(crate, name):
    with open("crates/%s/data/%s" % (crate, name), "rb") as f:
        return f.read()


def main():
    passed = failed = 0
    evening = listings("evening")
    for name, listing in sorted(listings("forms").items()):
        if name not in evening:
            wrong = "evening has no such tape"
        elif tape("forms", name) != tape("evening", name):
            wrong = "the two have other bytes"
        elif listing != evening[name]:
            wrong = "the two have other listings"
        else:
            passed += 1
            continue
        failed += 1
        print("%s: %s" % (name, wrong))
    print("%d passed, %d failed" % (passed, failed))
    return 1 if failed or not passed else 0


if __name__ == "__main__":
    sys.exit(main())
