#!/usr/bin/env python3
"""Every public function of every library crate has its theorem in the crate's proofs/Settled.antt, in the order of src/; and the functions of the
programs that the promise speaks of have their contracts.

    tests/settled.py

From the project's root. It reads the statements alone, which must cite the function's own contract: `rt check` proves them.
The last line is 'N passed, M failed'; exit status 1 where one failed.
"""
import glob
import os
import re
import sys


# The functions that read, open a file or write: what a file holds, or the system says, no contract can say. docs/STATEMENTS.md names them.
OUTSIDE = {"crates/input": ["read_tape", "open", "read_file", "fail"]}


# What a program's function promises, by the file that it stands in: `runner` writes what `listing` wrote, `evening` counts what came of each tape.
LISTS = ["result ≡ length_in (listed_of tape.now out.old)", "out.new ≡ bytes_of tape.now out.old"]
PROGRAMS = {
    "crates/runner": {"main.answer": LISTS},
    "crates/evening": {
        "tally.one_more": ["result ≡ one_more n"],
        "tally.new": ["result ≡ no_tapes"],
        "tally.count_tape": ["self.new ≡ counted_tape self.old"],
        "tally.count_unreadable": ["self.new ≡ counted_unreadable self.old"],
        "tally.count_ending": ["self.new ≡ counted_ending self.old ending"],
        "tally.count_listed": ["self.new ≡ counted_listed self.old listed"],
    },
}


def contract(crate, name):
    """The contract of a program's function or method, as it stands in the file of src/ that its name begins with."""
    file, name = name.split(".")
    with open("%s/src/%s.rt" % (crate, file)) as f:
        found = re.search(r"^ *(?:pub\(crate\) )?fn %s\(.*?^ *\{$" % name, f.read(), re.M | re.S)
    return found.group(0) if found else ""


def public(crate):
    """What each public function of a crate is called in the contracts: its file's name before it, but for lib.rt, and a method's type."""
    for path in sorted(glob.glob(crate + "/src/*.rt")):
        file = os.path.basename(path)[:-3]
        before = "" if file == "lib" else file + "."
        of = ""
        with open(path) as f:
            for line in f:
                block = re.match(r"impl(?:<[^>]*>)? (\w+)", line)
                if block:
                    of = block.group(1) + "."
                elif line.startswith("}"):
                    of = ""
                name = re.match(r"\s*pub (?:const )?(?:extern \"C\" )?fn (\w+)", line)
                if name:
                    yield before + of + name.group(1)


# What a theorem cites, by the names that its file gives them: of a crate's contracts their types, and what their clauses say.
CITED = ["use Rattle.%s.specs.contracts as stated", "use Rattle.%s.proofs as contracts"]


def stated(crate):
    """The statements of a crate's theorems, where the names in them lead to this crate's own contracts."""
    path = crate + "/proofs/Settled.antt"
    if not os.path.exists(path):
        return []
    with open(path) as f:
        text = f.read()
    lacks = [line % os.path.basename(crate) for line in CITED if not re.search("^%s$" % re.escape(line % os.path.basename(crate)), text, re.M)]
    for line in lacks:
        print("{}: no line '{}'".format(path, line))
    return [] if lacks else re.findall(r"^pub \S+ : (Settled .*)$", text, re.M)


def main():
    passed = failed = 0
    for crate in sorted(glob.glob("crates/*")):
        if not os.path.exists(crate + "/src/lib.rt"):
            continue
        wanted = ["Settled stated.{0}.ended contracts.{0}.Reads.Asked contracts.{0}.Reads.Learnt".format(f) for f in public(crate) if f not in OUTSIDE.get(crate, [])]
        found = stated(crate)
        for line in wanted:
            if line in found:
                passed += 1
            else:
                failed += 1
                print("{}: no theorem '{}'".format(crate, line))
        if sorted(found) == sorted(wanted) and found != wanted:
            failed += 1
            print(crate + ": not in the order of src/")
    for crate, functions in sorted(PROGRAMS.items()):
        for name, clauses in functions.items():
            lacks = [c for c in clauses if not re.search(r"\bensures(?: \w+)? \{ %s \}" % re.escape(c), contract(crate, name))]
            passed += not lacks
            failed += bool(lacks)
            for clause in lacks:
                print("{}: {} has no clause '{}'".format(crate, name, clause))
    print("{} passed, {} failed".format(passed, failed))
    return 1 if failed else 0


if __name__ == "__main__":
    sys.exit(main())
