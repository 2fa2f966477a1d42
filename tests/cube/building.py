"""Never a stale engine: a small copy of the project, with a stand-in for rt that copies the real programs and proves nothing."""
import os
import shutil
import subprocess
import unittest

from support import CUBE, LISTING, ROOT, Case, cube, programs

# says what it was asked, in which crate's folder; copies the program; may wait, fail or change a source first
STAND_IN = """#!/bin/sh
name=${PWD##*/}
echo "$name: $@" >>"$STAND_IN/asked"
[ "$1 $2" = "run --" ] && [ "$PWD" = "$STAND_IN_ROOT/crates/$name" ] || exit 2
sleep "${STAND_IN_WAIT:-0}"
if [ -e "$STAND_IN/touch" ]; then rm "$STAND_IN/touch"; echo "// later" >>../one/src/lib.rt; fi
if [ -e "$STAND_IN/fail" ]; then echo "error: a clause of one is not proved"; echo "rt: the library one did not build"; exit 1; fi
mkdir -p out && cp "$STAND_IN/programs/$name" out/
"""
ASKED = ["runner: run --", "evening: run --", "desk: run -- trace"]
TOOLS = ["sh", "bash", "python3", "readlink", "uname", "cat", "mkdir", "cp", "rm", "sleep", "dirname", "printf", "ls", "chmod"]


class Building(Case):
    def setUp(self):
        super().setUp()
        self.root, self.kit = self.path("project"), self.path("kit")
        os.makedirs(os.path.join(self.root, "crates/one/src"))
        os.makedirs(os.path.join(self.kit, "bin"))
        shutil.copytree(programs(), os.path.join(self.kit, "programs"))
        shutil.copy(CUBE, self.root)
        shutil.copytree(os.path.join(ROOT, "tools"), os.path.join(self.root, "tools"), ignore=shutil.ignore_patterns("__pycache__"))
        self.change("crates.txt", "one:\n")
        self.change("crates/one/src/lib.rt", "// one\n")
        for program in ("runner", "evening", "desk"):
            self.change("crates/%s/src/main.rt" % program, "// a program\n")
        for tool in TOOLS:
            os.symlink(shutil.which(tool), os.path.join(self.kit, "bin", tool))
        self.rt = os.path.join(self.kit, "bin", "rt")
        with open(self.rt, "w") as f:
            f.write(STAND_IN)
        os.chmod(self.rt, 0o755)
        self.env = {"PATH": os.path.join(self.kit, "bin"), "STAND_IN": self.kit, "STAND_IN_ROOT": os.path.realpath(self.root)}

    def change(self, name, text):
        path = os.path.join(self.root, name)
        os.makedirs(os.path.dirname(path), exist_ok=True)
        with open(path, "w") as f:
            f.write(text)

    def run_cube(self, **more):
        return cube(self.tape, program=os.path.join(self.root, "cube"), env=dict(self.env, **more))

    def asked(self):
        path = os.path.join(self.kit, "asked")
        return open(path).read().splitlines() if os.path.exists(path) else []

    def test_first_use_and_after(self):
        self.ends(self.run_cube(), 0, LISTING, "cube: proving and linking the engine, some minutes on first use\n")
        made = self.run_cube()
        self.ends(made, 0, LISTING)
        self.assertEqual(made.stderr, b"")
        self.assertEqual(self.asked(), ASKED)

    def test_rt_is_not_needed_where_the_programs_are_current(self):
        self.run_cube()
        os.unlink(self.rt)
        self.ends(self.run_cube(), 0, LISTING, "")

    def test_changed_sources(self):
        self.run_cube()
        for name, text in (("crates/one/src/lib.rt", "// two\n"), ("crates/one/proofs/f/Answers.antt", "-- new\n"), ("crates.txt", "one:\n# more\n")):
            self.change(name, text)
            self.ends(self.run_cube(), 0, LISTING, "cube: the sources have changed: proving and linking the engine again\n")
        os.unlink(os.path.join(self.root, "crates/one/proofs/f/Answers.antt"))
        self.ends(self.run_cube(), 0, LISTING, "the sources have changed")
        self.assertEqual(self.asked(), 5 * ASKED)

    def test_an_old_time_on_a_changed_file(self):
        self.run_cube()
        path = os.path.join(self.root, "crates/one/src/lib.rt")
        times = os.stat(path)
        self.change("crates/one/src/lib.rt", "// ONE\n"[:7])
        os.utime(path, ns=(times.st_atime_ns, times.st_mtime_ns))
        self.ends(self.run_cube(), 0, LISTING, "the sources have changed")

    def test_sources_as_they_were(self):
        self.run_cube()
        self.change("crates/one/src/lib.rt", "// two\n")
        self.run_cube()
        self.change("crates/one/src/lib.rt", "// one\n")
        made = self.run_cube()
        self.ends(made, 0, LISTING)
        self.assertEqual(self.asked(), 2 * ASKED)

    def test_sources_that_change_during_the_build(self):
        open(os.path.join(self.kit, "touch"), "w").close()
        self.ends(self.run_cube(), 0, LISTING, "cube: the sources changed during the build\n")
        self.assertEqual(self.asked(), 2 * ASKED)
        self.ends(self.run_cube(), 0, LISTING)
        self.assertEqual(self.asked(), 2 * ASKED)

    def sentence(self, made, words):
        """Status 1, nothing on standard output, and one sentence."""
        self.ends(made, 1, b"", words)
        self.assertEqual(made.stderr.decode().count("\n"), 1, made.stderr)

    def test_no_rt(self):
        os.unlink(self.rt)
        self.sentence(self.run_cube(), "the Rattle kit's command rt is not on the PATH")

    def test_not_proved(self):
        open(os.path.join(self.kit, "fail"), "w").close()
        made = self.run_cube()
        self.ends(made, 1, b"", "rt: the library one did not build")
        self.assertEqual(self.asked(), ASKED[:1])
        self.assertIn(b"the engine was not proved; the lines above say why", made.stderr)
        os.unlink(os.path.join(self.kit, "fail"))
        self.ends(self.run_cube(), 0, LISTING)

    def test_no_folder_to_build_in(self):
        self.change("target", "a file\n")
        self.sentence(self.run_cube(), "can't be built: ")

    def make_read_only(self):
        if os.geteuid() == 0:
            bound = subprocess.run(["mount", "--bind", self.root, self.root], stderr=subprocess.DEVNULL).returncode == 0
            if bound:
                self.addCleanup(subprocess.run, ["umount", self.root])
            if not bound or subprocess.run(["mount", "-o", "remount,bind,ro", self.root], stderr=subprocess.DEVNULL).returncode != 0:
                raise unittest.SkipTest("no folder can be made read-only here")
        else:
            for folder, _, _ in os.walk(self.root):
                os.chmod(folder, 0o555)
                self.addCleanup(os.chmod, folder, 0o755)

    def test_read_only_tree(self):
        self.make_read_only()
        self.sentence(self.run_cube(), "can't be built: ")

    def test_read_only_tree_with_current_programs(self):
        self.run_cube()
        self.make_read_only()
        self.ends(self.run_cube(), 0, LISTING, "")

    def test_no_space(self):
        target = os.path.join(self.root, "target")
        os.mkdir(target)
        if os.geteuid() != 0 or subprocess.run(["mount", "-t", "tmpfs", "-o", "size=16k", "tmpfs", target], stderr=subprocess.DEVNULL).returncode != 0:
            raise unittest.SkipTest("no disk can be mounted here")
        try:
            made = self.run_cube()
            self.ends(made, 1, b"")
            self.assertRegex(made.stderr.decode().splitlines()[-1], "can't be built: (no space is left|.*No space left on device)")
        finally:
            subprocess.run(["umount", target], check=True)

    def test_two_at_once(self):
        env = dict(self.env, STAND_IN_WAIT="1")
        begun = [subprocess.Popen([os.path.join(self.root, "cube"), self.tape], env=env, stdout=subprocess.PIPE, stderr=subprocess.PIPE) for _ in range(3)]
        ended = [p.communicate() for p in begun]
        self.assertEqual([(p.returncode, out) for p, (out, _) in zip(begun, ended)], [(0, LISTING.encode())] * 3)
        self.assertEqual(self.asked(), ASKED)
        self.assertEqual(sum(b"another cube is building the engine; waiting for it" in said for _, said in ended), 2)

    def test_a_build_beside_a_run(self):
        """A run that began before a change goes on with its own programs."""
        self.run_cube()
        process = subprocess.Popen([os.path.join(self.root, "cube"), "list", "--names", "-"], env=self.env, stdin=subprocess.PIPE, stdout=subprocess.PIPE, stderr=subprocess.PIPE)
        want = ("TAPE %s\n" % self.tape + LISTING).encode()
        for text in ("// two\n", "// three\n"):
            process.stdin.write(os.fsencode(self.tape) + b"\n")
            process.stdin.flush()
            self.assertEqual(process.stdout.read(len(want)), want)
            self.change("crates/one/src/lib.rt", text)
            self.run_cube()
        process.communicate(os.fsencode(self.tape) + b"\n")
        self.assertEqual(process.returncode, 0)

    def test_words_before_a_program(self):
        """Where the machine does not run the programs natively, the words that do stand beside them."""
        self.run_cube()
        built = os.path.join(self.root, "target", "cube")
        folder = next(f for f in os.listdir(built) if os.path.isdir(os.path.join(built, f)))
        os.symlink(shutil.which("env"), os.path.join(self.kit, "bin", "env"))
        with open(os.path.join(built, folder, "prefix"), "w") as f:
            f.write(os.path.join(self.kit, "bin", "env") + "\nNAME=with space\n")
        self.ends(self.run_cube(), 0, LISTING, "")
