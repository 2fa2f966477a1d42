#!/usr/bin/env python3
"""What `rt ci` has built, kept for `cube` and the tests, so that nothing is proved a second time: the programs, and the engine's static library.

    tools/from_ci.py --mark     before `rt ci`: prints the hash of the present sources
    tools/from_ci.py MARK       after it: keeps what it built of these sources under target/cube/MARK

From the project's root. `rt ci` leaves each program in its crate's out/, and each library below it; it proves the static library too, but leaves no archive.
That is made here over these libraries, by the kit's `rattle build`, which proves `engine_c` itself once more before it compiles it; and where that does
not serve, by `rt lib` in crates/engine_c, which may prove all the libraries below again.
"""
import os
import subprocess
import sys
import tempfile

sys.path.insert(0, os.path.dirname(os.path.realpath(__file__)))
from cube import engine
from cube.trouble import Trouble

CRATE = engine.EXPORTS


def lines_of_crates():
    """What crates.txt says that each crate stands on."""
    found = {}
    with open(os.path.join(engine.ROOT, "crates.txt")) as f:
        for line in f:
            head, colon, uses = line.split("#")[0].partition(":")
            if colon:
                found[head.split()[0]] = uses.split()
    return found


def below(crate, uses):
    """The repository's libraries below a crate, each after those that it uses."""
    found = []
    for name in uses[crate]:
        if name in uses:
            found += [it for it in below(name, uses) + [name] if it not in found]
    return found


def build_words(kit, to):
    """The words of `rattle build` for the static library, over the libraries that `rt ci` left."""
    uses = lines_of_crates()
    rlib = lambda name: engine.left(name, os.path.join("rlib", name + ".rlib"))
    words = [kit + "/bin/rattle", "build", "--crate-name", CRATE, "src/lib.rt", "--crate-type", "staticlib", "--links", CRATE + "="]
    for name in ["std"] + uses[CRATE]:
        words += ["--extern", "%s=%s" % (name, rlib(name) if name in uses else "%s/rlibs/%s.rlib" % (kit, name))]
    for folder in [kit + "/rlibs"] + [os.path.dirname(rlib(name)) for name in below(CRATE, uses)]:
        words += ["-L", "dependency=" + folder]
    words += ["--antt-project", kit + "/rattle/logic/antt-project.json", "--logic-built", kit + "/logic_built"]
    return words + ["--toolchain", kit + "/toolchain", "--backend", "llvm", "-o", to]


def build_archive(to):
    """Makes the archive at `to`, or answers the path of that which `rt lib` makes."""
    kit = os.path.dirname(subprocess.run(["rt", "doc"], stdout=subprocess.PIPE, text=True, check=True).stdout.strip())
    made = subprocess.run(build_words(kit, to), cwd=os.path.join(engine.ROOT, "crates", CRATE), stdin=subprocess.DEVNULL, stdout=subprocess.PIPE, stderr=subprocess.STDOUT, text=True)
    if made.returncode == 0 and os.path.exists(to):
        return to
    print("from_ci: `rattle build` did not make the static library, so `rt lib` does; it said:\n" + made.stdout[-2000:], flush=True)
    return engine.archive()


def main():
    if sys.argv[1:] == ["--mark"]:
        print(engine.fingerprint())
        return
    mark, = sys.argv[1:]
    if mark != engine.fingerprint():
        raise Trouble("the sources changed while rt ci ran")
    with engine.locked(), tempfile.TemporaryDirectory() as folder:
        archive = build_archive(os.path.join(folder, engine.ARCHIVE))
        if mark != engine.fingerprint():
            raise Trouble("the sources changed while the static library was made")
        engine.keep(mark, archive)
        engine.forget(mark)
    print("from_ci: %s and %s, as rt ci proved them" % (", ".join(engine.PROGRAMS), engine.ARCHIVE))


try:
    main()
except (OSError, Trouble) as e:
    sys.exit("from_ci: %s" % e)
