#!/usr/bin/env python3
"""The engine against the peer: random tapes from fixed seeds, through `evening` and `desk` and through peer/, compared byte for byte.

    tests/compare_peer.py [COUNT [SEED..]]     COUNT tapes for each seed (4,000; seeds 1 to 5)

From the project's root, after `rt ci`, or `rt run` in crates/evening and crates/desk. Builds the peer with a C compiler into target/peer. Each tape is six tests: its listing, its
watch, the participants beside its fills, the tape moved to the new form and to the old (with what moves also moved back, and listed), and its way to
text and back (tools/cube/form.py). A difference is kept under target/peer/differences and named. The last line is 'N passed, M failed'.
"""
import functools
import os
import shutil
import subprocess
import sys

from concurrent.futures import ThreadPoolExecutor

sys.path.insert(0, os.path.join(os.path.dirname(os.path.dirname(os.path.abspath(__file__))), "tools"))
from cube import engine, form as tape_text, listing

HERE = "target/peer"
SOURCES = ["main.c", "gen.c", "check.c", "build.c", "peer.c"]


def build():
    compiler = next((c for c in ("cc", "gcc", "clang") if shutil.which(c)), None)
    if compiler is None:
        sys.exit("compare_peer: no C compiler (cc, gcc or clang) is on the PATH\n0 passed, 1 failed")
    subprocess.run([compiler, "-O2", "-Wall", "-Wextra", "-std=c99", "-o", HERE + "/peer"] + ["peer/" + s for s in SOURCES], check=True)


def sections(text):
    """What stands under each line `TAPE name`, without the end of its last line."""
    found, name = {}, None
    for line in text.split(b"\n"):
        if line.startswith(b"TAPE "):
            name = line[5:].decode()
            found[name] = []
        elif name is not None:
            found[name].append(line)
    return {n: b"\n".join(lines).rstrip(b"\n") for n, lines in found.items()}


def keep(name, ours, theirs, mark=""):
    folder = HERE + "/differences"
    os.makedirs(folder, exist_ok=True)
    stem = os.path.join(folder, name[len(HERE) + 1:].replace("/", "-"))
    shutil.copy(name, stem)
    for end, text in ((".engine", ours), (".peer", theirs)):
        with open(stem + mark + end, "wb") as f:
            f.write(text)
    return stem


def back(tape):
    """A tape that opens comes back from its text."""
    try:
        text = tape_text.show(tape)
    except tape_text.Wrong:
        return True
    return tape_text.make(text) == tape


def lines_of(names):
    return "".join(n + "\n" for n in names).encode()


def by_peer(names, *words):
    return subprocess.run([HERE + "/peer", *words], input=lines_of(names), stdout=subprocess.PIPE, check=True).stdout


def evening(names):
    return subprocess.run(["bash", "-c", ". tools/run_program.sh && run_program evening"], input=lines_of(names), stdout=subprocess.PIPE, check=True).stdout


@functools.lru_cache(maxsize=None)
def program():
    """The words that start `desk`."""
    return engine.run_prefix().decode().splitlines() + ["crates/desk/out/desk"]


def desk(words, tape):
    """What `desk` prints of a tape's bytes, on standard output and on standard error."""
    made = subprocess.run(program() + words, input=tape, stdout=subprocess.PIPE, stderr=subprocess.PIPE, check=True)
    return made.stdout, made.stderr


def bytes_of(name):
    with open(name, "rb") as f:
        return f.read()


def each(names, said):
    """What is said of each tape, by its name and its bytes, under a line `TAPE name`; two at a time."""
    with ThreadPoolExecutor(2) as two:
        return b"".join(two.map(lambda name: b"TAPE %s\n" % name.encode() + said(name, bytes_of(name)), names))


def watches(names):
    return each(names, lambda name, tape: desk(["watch"], tape)[0])


def firms(names, listings):
    """The listings, with the participants of `desk firms` beside the fills, as cube puts them there."""
    found = sections(listings)

    def said(name, tape):
        lines = desk(["firms"], tape)[0].decode().splitlines()
        whole = listing.Listing(name, found[name] + b"\n")
        return whole.printed() if lines[0].startswith("REFUSED ") else listing.WithFirms(whole, lines).printed()

    return each(names, said)


def moves(names, to):
    """Each tape as `desk move` moves it, in hex, or its refusal. What moves is moved back too, and must be the tape again."""
    def said(name, tape):
        made, refused = desk(["move", to], tape)
        if refused:
            return refused
        again, wrong = desk(["move", "old" if to == "new" else "new"], made)
        return made.hex().encode() + (b"" if again == tape and not wrong else b" NOT THE TAPE AGAIN") + b"\n"

    return each(names, said)


def listed_alike(listings, to, said):
    """Of how many tapes that move the moved tape has the same listing, and of how many it has not; `said` is what moves() gave."""
    folder, kept = HERE + "/moved-" + to, []
    os.makedirs(folder)
    for k, (name, line) in enumerate(sections(said).items()):
        if not line.startswith(b"REFUSED "):
            kept.append((name, "%s/%05d.tape" % (folder, k)))
            with open(kept[-1][1], "wb") as f:
                f.write(bytes.fromhex(line.decode().split()[0]))
    ours, theirs = sections(evening([new for _, new in kept])), sections(listings)
    wrong = [(old, new) for old, new in kept if ours[new] != theirs[old]]
    for old, new in wrong:
        print("MOVED TO %s, LISTED OTHERWISE: %s" % (to, keep(old, ours[new], theirs[old], ".moved-" + to)))
    shutil.rmtree(folder)
    return len(kept) - len(wrong), len(wrong)


def compare(names, ours, theirs, mark=""):
    """Of how many tapes the engine and the peer printed the same, and of how many they did not."""
    one, other = sections(ours), sections(theirs)
    wrong = [n for n in names if n not in one or one[n] != other.get(n)]
    for name in wrong:
        print("DIFFERENCE: %s" % keep(name, one.get(name, b"(nothing)"), other.get(name, b"(nothing)"), mark))
    if ours != theirs and not wrong:
        print("DIFFERENCE: the two differ outside the listings")
        return len(names), 1
    return len(names) - len(wrong), len(wrong)


def to_text_and_back(names):
    """How many tapes came back from their text, and how many did not."""
    wrong = 0
    for name in names:
        with open(name, "rb") as f:
            tape = f.read()
        if not back(tape):
            wrong += 1
            print("NOT BACK FROM TEXT: %s" % keep(name, tape_text.show(tape).encode(), b""))
    return len(names) - wrong, wrong


def main():
    count = int(sys.argv[1]) if len(sys.argv) > 1 else 4000
    seeds = sys.argv[2:] or ["1", "2", "3", "4", "5"]
    shutil.rmtree(HERE, ignore_errors=True)
    os.makedirs(HERE)
    build()
    names = []
    for seed in seeds:
        subprocess.run([HERE + "/peer", "tapes", seed, str(count), HERE + "/" + seed], check=True)
        names += ["%s/%s/%05d.tape" % (HERE, seed, k) for k in range(count)]
    listings = evening(names)
    results = [compare(names, listings, by_peer(names, "evening")), compare(names, watches(names), by_peer(names, "watches"), ".watch"),
               compare(names, firms(names, listings), by_peer(names, "all-firms"), ".firms"), to_text_and_back(names)]
    for to in ("new", "old"):
        said = moves(names, to)
        results += [compare(names, said, by_peer(names, "moves", to), ".to-" + to), listed_alike(listings, to, said)]
    passed, failed = map(sum, zip(*results))
    print("the engine and the peer on %d tapes" % len(names))
    print("%d passed, %d failed" % (passed, failed))
    sys.exit(1 if failed else 0)


main()
