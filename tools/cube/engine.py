"""The proved programs: built from the present sources, or built again; and the words that start one.

What was built stands in target/cube/FINGERPRINT, where FINGERPRINT is the hash of the sources that it was built from, so it is never stale, and
a build beside a run changes nothing under the run.
"""
import fcntl
import hashlib
import os
import shutil
import subprocess
import tempfile
import time

from .trouble import Trouble, reason, say

ROOT = os.path.dirname(os.path.dirname(os.path.dirname(os.path.realpath(__file__))))
# the programs, each with the words that it is given where it is run on empty standard input after it was built
PROGRAMS = {"runner": [], "evening": [], "desk": ["trace"]}
EXPORTS, ARCHIVE = "engine_c", "libengine.a"     # the crate that exports the engine to C, and the name of its archive as it is kept
BUILT = os.path.join(ROOT, "target", "cube")
KEPT = 4
NOT_CURRENT = "the engine is not built from the present sources, and can't be built: "


def left(crate, name):
    """A file that `rt` leaves of a crate: `rt ci` and `rt run` a program by its own name, `rt lib` a static library."""
    return os.path.join(ROOT, "crates", crate, "out", name)


def sources():
    """Every file that a program is made from: crates.txt and all under crates/, but for the folders out/, in which `rt` leaves what it makes."""
    yield "crates.txt"
    crates = os.path.join(ROOT, "crates")
    for folder, folders, files in os.walk(crates):
        if os.path.dirname(folder) == crates and "out" in folders:
            folders.remove("out")
        folders.sort()
        for file in sorted(files):
            yield os.path.relpath(os.path.join(folder, file), ROOT)


def fingerprint():
    """One hash over the sources, their names and their bytes."""
    whole = hashlib.sha256()
    try:
        for name in sources():
            with open(os.path.join(ROOT, name), "rb") as f:
                part = hashlib.sha256(f.read()).hexdigest()
            whole.update(("%s %s\n" % (part, name)).encode("utf-8", "surrogateescape"))
    except OSError as e:
        raise Trouble("the engine's sources can't be read: %s: %s" % (e.filename, reason(e)))
    return whole.hexdigest()[:32]


def stands(mark):
    folder = os.path.join(BUILT, mark)
    return all(os.access(os.path.join(folder, p), os.X_OK) for p in PROGRAMS) and os.path.exists(os.path.join(folder, "prefix"))


def locked():
    """The lock that one build at a time holds."""
    try:
        os.makedirs(BUILT, exist_ok=True)
        lock = open(os.path.join(BUILT, "lock"), "a")
    except OSError as e:
        raise Trouble(NOT_CURRENT + "%s: %s" % (BUILT, reason(e)))
    try:
        fcntl.flock(lock, fcntl.LOCK_EX | fcntl.LOCK_NB)
    except OSError:
        say("another cube is building the engine; waiting for it")
        fcntl.flock(lock, fcntl.LOCK_EX)
    return lock


def no_space():
    try:
        return shutil.disk_usage(BUILT).free < 1 << 16
    except OSError:
        return False


def run_rt(words, crate, log):
    return subprocess.run(["rt"] + words, cwd=os.path.join(ROOT, "crates", crate), stdin=subprocess.DEVNULL, stdout=log, stderr=subprocess.STDOUT).returncode


def prove(first):
    """Runs `rt run` in the folder of each program, which proves, compiles and links it, and runs it; target/cube/log has what it said."""
    if shutil.which("rt") is None:
        raise Trouble(NOT_CURRENT + "the Rattle kit's command rt is not on the PATH")
    say("proving and linking the engine, some minutes on first use" if first else "the sources have changed: proving and linking the engine again")
    began, path = time.time(), os.path.join(BUILT, "log")
    with open(path, "wb") as log:
        failed = any(run_rt(["run", "--"] + words, program, log) != 0 for program, words in PROGRAMS.items())
    if failed:
        if no_space():
            raise Trouble(NOT_CURRENT + "no space is left at " + BUILT)
        with open(path, encoding="utf-8", errors="replace") as log:
            for line in log.read().splitlines()[-20:]:
                say(line)
        raise Trouble("the engine was not proved; the lines above say why (all of them are in %s)" % path)
    say("the engine is built (%d s)" % (time.time() - began))


def run_prefix():
    """The words before a program's name: none where the machine runs it natively, else the emulator that is there."""
    script = ". tools/run_program.sh && run_prefix"
    made = subprocess.run(["bash", "-c", script], cwd=ROOT, stdin=subprocess.DEVNULL, stdout=subprocess.PIPE, stderr=subprocess.PIPE)
    if made.returncode != 0:
        raise Trouble("the programs can't be run on this machine: " + made.stderr.decode("utf-8", "replace").strip())
    return made.stdout


def keep(mark, archive=None):
    """Copies of the programs under the hash of their sources, and of the static library where one is given, all or none."""
    part = tempfile.mkdtemp(prefix="part-", dir=BUILT)
    try:
        for program in PROGRAMS:
            shutil.copy(left(program, program), os.path.join(part, program))
        if archive:
            shutil.copy(archive, os.path.join(part, ARCHIVE))
        with open(os.path.join(part, "prefix"), "wb") as f:
            f.write(run_prefix())
        os.chmod(part, 0o755)
        whole = os.path.join(BUILT, mark)
        shutil.rmtree(whole, ignore_errors=True)
        os.rename(part, whole)
    except BaseException:
        shutil.rmtree(part, ignore_errors=True)
        raise


def forget(mark):
    """Only the last few builds are kept: a run that is still under way has its own."""
    old = [f for f in os.scandir(BUILT) if f.is_dir() and f.name != mark]
    old.sort(key=lambda f: f.stat().st_mtime, reverse=True)
    for f in old[KEPT:]:
        shutil.rmtree(f.path, ignore_errors=True)


def build(mark):
    with locked():
        first = not any(stands(f) for f in os.listdir(BUILT))
        try:
            while not stands(mark):
                prove(first)
                before, mark = mark, fingerprint()
                if before == mark:
                    keep(mark)
                    forget(mark)
                else:
                    say("the sources changed during the build")
        except OSError as e:
            raise Trouble(NOT_CURRENT + "%s: %s" % (e.filename or BUILT, reason(e)))
    return mark


def made_archive():
    """Where `rt lib` leaves the static library, under its crate's name."""
    return left(EXPORTS, "lib%s.a" % EXPORTS)


def archive():
    """The path of the engine's static library, from the present sources: what was kept with the programs, or else what `rt lib` makes, or has made."""
    kept = os.path.join(BUILT, fingerprint(), ARCHIVE)
    if os.path.exists(kept):
        return kept
    with tempfile.TemporaryFile() as log:
        if run_rt(["lib"], EXPORTS, log) != 0:
            log.seek(0)
            raise Trouble("the engine's static library was not proved:\n" + log.read().decode("utf-8", "replace")[-2000:])
    return made_archive()


class Engine:
    """The programs of one run of cube, all from the same build."""

    def __init__(self):
        mark = fingerprint()
        if not stands(mark):
            mark = build(mark)
        self.folder = os.path.join(BUILT, mark)
        with open(os.path.join(self.folder, "prefix"), encoding="utf-8") as f:
            self.prefix = f.read().splitlines()

    def start(self, program, words=(), **how):
        """Starts a program, with pipes where `how` names no file."""
        for stream in ("stdin", "stdout", "stderr"):
            how.setdefault(stream, subprocess.PIPE)
        path = os.path.join(self.folder, program)
        try:
            return subprocess.Popen(self.prefix + [path] + list(words), **how)
        except OSError as e:
            raise Trouble("%s can't be started: %s" % (path, reason(e)))
