#!/usr/bin/env python3
"""The places in the code that docs/DESIGN-PASS.md counts, point by point.

    tools/design_count.py [COMMIT]     the counts, of the working tree or of a commit
    tools/design_count.py -v [COMMIT]  and each place

From the project's root. It reads crates/*/src/*.rt, and of proofs/ the number of answers.
"""
import collections
import glob
import io
import re
import subprocess
import sys
import tarfile

FUNCTION = re.compile(
    r"^( *)(?:pub(?:\(crate\))? )?(?:const )?(?:extern \"C\" )?fn (\w+)(?:<[^(]*>)?\(([^{]*?)\)((?: -> [^{\n]+)?)\n?(.*?)^\1\{(.*?)^\1\}", re.M | re.S)
ONE_LINE = re.compile(r"^( *)(?:pub(?:\(crate\))? )?(?:const )?fn (\w+)(?:<[^(]*>)?\(([^{\n]*?)\)((?: -> [^{\n]+)?) \{$(.*?)^\1\}", re.M | re.S)


def read(commit):
    """The text of each source file, and the number of answers of each crate."""
    found = {}
    if commit is None:
        for path in glob.glob("crates/*/src/*.rt") + glob.glob("crates/*/proofs/**/*.antt", recursive=True):
            with open(path) as f:
                found[path] = f.read()
    else:
        packed = subprocess.run(("git", "archive", commit, "crates"), stdout=subprocess.PIPE, stderr=subprocess.PIPE)
        if packed.returncode:
            sys.exit("design_count: %s: no such commit here" % commit)
        packed = packed.stdout
        with tarfile.open(fileobj=io.BytesIO(packed)) as tar:
            for member in tar.getmembers():
                if re.match(r"crates/\w+/(?:src/\w+\.rt|proofs/.*\.antt)$", member.name):
                    found[member.name] = tar.extractfile(member).read().decode()
    answers = collections.Counter()
    for path, text in found.items():
        if path.endswith(".antt"):
            answers[path.split("/")[1]] += len(re.findall(r"^pub \S+ : goal\.", text, re.M))
    return {p: found[p] for p in sorted(found) if p.endswith(".rt")}, answers


def functions(texts):
    """Each function: where it stands, its name, parameters, answer, clauses and body."""
    for path, text in texts.items():
        crate = path.split("/")[1]
        seen = set()
        for pattern in (FUNCTION, ONE_LINE):
            for m in pattern.finditer(text):
                if m.start() in seen:
                    continue
                seen.add(m.start())
                groups = m.groups()
                indent, name, params, answer = groups[:4]
                clauses, body = (groups[4], groups[5]) if pattern is FUNCTION else ("", groups[4])
                yield crate, path, text.count("\n", 0, m.start()) + 1, name, params, answer, clauses, body


def lines(texts, pattern):
    for path, text in texts.items():
        for k, line in enumerate(text.splitlines(), 1):
            if re.search(pattern, line) and not line.lstrip().startswith("//"):
                yield "%s:%d: %s" % (path, k, line.strip())


def split_params(params):
    """The parameters, each with its type."""
    flat = re.sub(r"\s+", " ", params)
    found = [p.strip() for p in re.split(r",(?![^<(\[]*[>)\]])", flat)]
    return [p for p in found if p and "self" not in p and not p.startswith("rt:") and not p.startswith("stdin:")]


def point_1(texts):
    for path, text in texts.items():
        for m in re.finditer(r"^(?:pub )?enum (\w+)[^{]*\{\n(.*?)^\}", text, re.M | re.S):
            cases = [c for c in re.findall(r"^    (\w+)\s*(?:[({,]|=)", m.group(2), re.M)]
            if len(cases) == 2:
                yield "an enum of the shape of Option or Result", "%s: %s" % (path, m.group(1))
    for name, what in (
        (r"^    (?:pub )?(whole|found|failed|well|right|done|known): bool,", "a flag that says whether the fields beside it hold"),
        (r"(?<!\w)(?:kind|mode|side|what) (?:==|!=) [0-9]|[0-9] <= o\.(?:side|mode)|\bs == [12]\b|^    (?:mode|kind): [1-9],", "a number for a kind, a side, a mode or a case"),
        (r"Refuse[ds]\([0-9]+\)|number: [0-9]+,|return (?:[1-9]|1[0-3]|3[1-4]);|, 3[78]\)", "a number for a refusal"),
    ):
        for place in lines(texts, name):
            yield what, place
    for path, text in texts.items():
        for k, line in enumerate(text.splitlines(), 1):
            if line.lstrip().startswith("//") and re.search(r"\b64 where none|\(64: none\)|; 0 where none|number of the refusal|number that refuses|none at (?:the end|its end)", line):
                yield "a number that says none, or a refusal, in a comment", "%s:%d: %s" % (path, k, line.strip()[:120])
    for crate, path, line, name, params, answer, clauses, body in functions(texts):
        if "rt:" in params and answer.strip() == "-> bool":
            yield "a function that writes, and answers whether it could", "%s:%d: %s" % (path, line, name)


def plain(text, name):
    """A body with types, numbers, texts and its own name taken out."""
    text = re.sub(r"//[^\n]*", "", text)
    text = re.sub(r"b?\"(?:[^\"\\]|\\.)*\"|b'[^']*'", "TEXT", text)
    text = re.sub(r"\bu(?:8|16|32|64|size)\b", "uN", text)
    text = re.sub(r"\b[A-Z_]{2,}\b|\b\d+(?:u8|u32|u64|usize)?\b", "N", text)
    text = re.sub(r"\b%s\b" % re.escape(name), "SELF", text)
    return re.sub(r"\s+", " ", text).strip()


def point_2(texts):
    groups = collections.defaultdict(list)
    for crate, path, line, name, params, answer, clauses, body in functions(texts):
        groups[(plain(params, name), plain(body, name))].append("%s:%d: %s" % (path, line, name))
    for key, places in groups.items():
        if 1 < len(places):
            for place in places:
                yield "one of %d functions alike but for a type, a size, a constant or a text" % len(places), place


def point_3(texts):
    for place in lines(texts, r"^\s*(?:while .*|loop) ?\{$"):
        yield "a loop by `while` or `loop`", place


def point_4(texts):
    for path, text in texts.items():
        for m in re.finditer(r"\b[A-Z]\w+ \{\n((?:\s+\w+(?:: [^\n]*)?,\n)+?)\s*\}", text):
            copied = re.findall(r"^\s+(\w+): \w+\.\1,$", m.group(1), re.M)
            if 2 < len(copied):
                yield "a value copied field by field", "%s:%d: %d fields" % (path, text.count("\n", 0, m.start()) + 1, len(copied))
    for crate, path, line, name, params, answer, clauses, body in functions(texts):
        if answer.strip() == "-> bool" and re.search(r"=> (?:true|false),", body):
            yield "a test of a case by `match`", "%s:%d: %s" % (path, line, name)
        if re.fullmatch(r"\s*\w+ as u\w+\s*", body):
            yield "a function that only converts", "%s:%d: %s" % (path, line, name)
    for place in lines(texts, r"\* 256|/ 256|% 256|\b(?:text|s)\[i\] != "):
        yield "bytes compared or converted by hand", place


def point_5(texts):
    facts = collections.defaultdict(set)
    pairs = collections.defaultdict(set)
    for crate, path, line, name, params, answer, clauses, body in functions(texts):
        where = crate + "::" + name
        for clause in re.findall(r"(?:requires|ensures)(?: \w+)? \{ (.*) \}", clauses):
            for fact in re.split(r" × ", clause):
                fact = fact.strip("() ")
                if "≡ " not in fact or re.search(r"≡ \d+$|≡ length|length .* ≡", fact):
                    facts[fact].add(where)
        found = split_params(params)
        for i, one in enumerate(found):
            for other in found[i + 1:]:
                pairs[(one, other)].add(where)
    for fact, where in sorted(facts.items(), key=lambda p: -len(p[1])):
        if 2 < len(where):
            yield "a fact in the contracts of three functions or more", "%d: %s" % (len(where), fact)
    for pair, where in sorted(pairs.items(), key=lambda p: -len(p[1])):
        if 3 < len(where):
            yield "parameters together in four functions or more", "%d: %s" % (len(where), ", ".join(pair))


def point_6(texts):
    for crate, path, line, name, params, answer, clauses, body in functions(texts):
        found = split_params(params)
        for one, other in zip(found, found[1:]):
            if re.search(r": &(?:mut )?\[", one) and re.fullmatch(r"(?:n|k|length|at|got): (?:usize|u32)", other):
                yield "a slice with a length or a place beside it", "%s:%d: %s" % (path, line, name)
    for path, text in texts.items():
        for m in re.finditer(r"struct (\w+)[^{]*\{\n(.*?)^\}", text, re.M | re.S):
            if re.search(r": \[", m.group(2)):
                yield "an array with what tells its places beside it", "%s: %s" % (path, m.group(1))


def point_7(texts):
    for crate, path, line, name, params, answer, clauses, body in functions(texts):
        tested = collections.Counter(re.findall(r"^\s*if \(?([\w.]+) == ", body, re.M))
        tested.update(re.findall(r"^\s*if is_word\((\w+),", body, re.M))
        if tested and 2 < max(tested.values()):
            yield "a chain of tests that chooses the step", "%s:%d: %s" % (path, line, name)
    for path, text in texts.items():
        for m in re.finditer(r"^enum (\w+) \{", text, re.M):
            yield "an enum of steps", "%s: %s" % (path, m.group(1))


def main():
    words = sys.argv[1:]
    every = "-v" in words
    words = [w for w in words if w != "-v"]
    texts, answers = read(words[0] if words else None)
    points = (point_1, point_2, point_3, point_4, point_5, point_6, point_7)
    for k, point in enumerate(points, 1):
        found = list(dict.fromkeys(point(texts)))
        counted = collections.Counter(re.sub(r"one of \d+", "one of several", what) for what, _ in found)
        print("%d. %d places" % (k, len(found)))
        for what, n in counted.items():
            print("   %4d  %s" % (n, what))
        if every:
            for what, place in found:
                print("         [%s] %s" % (what, place))
    print("8. %d answers in proofs/: %s" % (sum(answers.values()), ", ".join("%s %d" % p for p in sorted(answers.items()))))


if __name__ == "__main__":
    main()
