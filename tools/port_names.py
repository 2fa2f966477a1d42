#!/usr/bin/env python3
"""Brings the repository's own definitions and lemmas to today's spelling: words in snake case, where they were in camel case.

    tools/port_names.py [--list]

From the project's root, once, after the kit's port.py. It turns the names in specs/, proofs/, src/ and must-fail/ of every crate. A name that a
file takes from another library than the repository's stays, and so do types and modules, which begin with a capital. With --list it writes nothing,
and prints each old name, the new one, and whether the new one stood somewhere already.
"""
import glob
import os
import re
import sys

NAME = re.compile(r"(?<![A-Za-z0-9_'])[a-z][a-z0-9]*(?:[A-Z][a-z0-9]*)+(?![A-Za-z0-9_])")
USE = re.compile(r"^(?:ghost |unfoldable |abbrev |pub )*use ([^\s{;]+?)\.\{([^}]*)\}", re.M | re.S)


# A lemma whose name a definition beside it takes now.
TAKEN = {"crates/promise/proofs/Carried.antt": ("order_is", "order_is_lem")}


def snake(name):
    return re.sub(r"([A-Z])", lambda m: "_" + m.group(1).lower(), name)


def files():
    for pattern in ("crates/*/src/**/*.rt", "crates/*/specs/**/*.antt", "crates/*/proofs/**/*.antt", "crates/*/must-fail/*.edit"):
        yield from sorted(glob.glob(pattern, recursive=True))


def main():
    own = {os.path.basename(c) for c in glob.glob("crates/*")}
    texts = {}
    for path in files():
        with open(path) as f:
            texts[path] = f.read()
    kept = set()
    for text in texts.values():
        for module, names in USE.findall(text):
            parts = module.split(".")
            if parts[0] != "Rattle" or parts[1] not in own:
                kept.update(NAME.findall(names))
    found = {}
    for path, text in texts.items():
        for name in NAME.findall(text):
            if name not in kept:
                found.setdefault(name, set()).add(path)
    words = set()
    for text in texts.values():
        words.update(re.findall(r"[A-Za-z_][A-Za-z0-9_']*", text))
    if "--list" in sys.argv:
        for name in sorted(found):
            print(name, snake(name), "TAKEN" if snake(name) in words else "")
        print("kept:", " ".join(sorted(kept)))
        return 0
    for path, text in texts.items():
        if path in TAKEN:
            old, instead = TAKEN[path]
            text = re.sub(r"(?<![A-Za-z0-9_'])%s(?![A-Za-z0-9_'])" % old, instead, text)
        new = NAME.sub(lambda m: m.group(0) if m.group(0) in kept else snake(m.group(0)), text)
        if new != texts[path]:
            with open(path, "w") as f:
                f.write(new)
    return 0


if __name__ == "__main__":
    sys.exit(main())
