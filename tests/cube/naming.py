"""Names: odd ones, unreadable ones, names from files; cube itself under other names and from other folders."""
import os
import subprocess
import time
import unittest

from support import CUBE, LISTING, ROOT, TEXT, Case, cube, samples, tape_of

ODD = [b"with space", b"quote'\"`", b"star*?[", b"$HOME", b"back\\slash", b"tab\there", "größe-価格".encode(), b"not\xff\xfeutf8", b"line\nend", b"TAPE x\nREFUSED 21", b"a" * 200,
       b"\x01\x1b[31m", b"x:", b"~", b"#comment", b" ", b"-", b"--", b"--why"]


class Naming(Case):
    def test_odd_names_are_printed_as_given(self):
        for name in ODD:
            self.write(name, tape_of(TEXT))
        made = cube("list", "--names", "names", "-0", cwd=self.folder)
        self.assertEqual(made.returncode, 1)    # there is no file of names yet
        self.write("names", b"".join(n + b"\0" for n in ODD))
        want = b"".join(b"TAPE " + n + b"\n" + LISTING.encode() for n in ODD)
        self.ends(cube("list", "--names", "names", "-0", cwd=self.folder), 0, want)
        plain = [n for n in ODD if n != b"-"]
        made = subprocess.run([os.fsencode(CUBE), b"list", b"-H", b"--"] + plain, cwd=self.folder, stdout=subprocess.PIPE, stderr=subprocess.PIPE)
        self.ends(made, 0, b"".join(b"TAPE " + n + b"\n" + LISTING.encode() for n in plain))

    def test_odd_names_one_by_one(self):
        for name in ODD[:12]:
            self.write(name, tape_of(TEXT))
            made = subprocess.run([os.fsencode(CUBE), name], cwd=self.folder, stdout=subprocess.PIPE, stderr=subprocess.PIPE)
            self.ends(made, 0, LISTING)

    def test_unreadable_names(self):
        os.symlink("nowhere", self.path("dangling"))
        os.symlink("loop", self.path("loop"))
        long = "x" * 5000
        wanted = [("", "No such file or directory"), ("dangling", "No such file or directory"), ("loop", "Too many levels of symbolic links"), ("c.tape/x", "Not a directory"),
                  ("y" * 300, "File name too long"), (long, "File name too long"), (".", "Is a directory")]
        for name, why in wanted:
            self.ends(cube("list", name, cwd=self.folder), 1, "UNREADABLE %s: %s\n" % (name, why))
        made = cube("list", *[n for n, _ in wanted], "c.tape", cwd=self.folder)
        self.ends(made, 1, "".join("TAPE %s\nUNREADABLE %s: %s\n" % (n, n, w) for n, w in wanted) + "TAPE c.tape\n" + LISTING, "tapes 8, refused 0, ended by time 1,")

    def test_names_with_a_zero_byte(self):
        self.write("names", b"c.tape\nwith\0zero\n")
        made = cube("list", "--names", "names", cwd=self.folder)
        self.ends(made, 1, b"TAPE c.tape\n" + LISTING.encode() + b"TAPE with\0zero\nUNREADABLE with\0zero: Invalid argument\n", "unreadable 1")

    def test_without_permission(self):
        if os.geteuid() == 0:
            raise unittest.SkipTest("root may read everything")
        os.chmod(self.tape, 0)
        self.ends(cube(self.tape), 1, "UNREADABLE %s: Permission denied\n" % self.tape)

    def test_names_from_files(self):
        self.write("names", b"c.tape\nc.tape")
        twice = 2 * ("TAPE c.tape\n" + LISTING)
        self.ends(cube("list", "--names", "names", cwd=self.folder), 0, twice, "tapes 2,")
        self.ends(cube("list", "--names", "-", cwd=self.folder, given=b"c.tape\nc.tape\n"), 0, twice)
        self.ends(cube("list", "--names", "-", "-0", cwd=self.folder, given=b"c.tape\0c.tape\0"), 0, twice)
        self.ends(cube("list", "--names", "names", "c.tape", cwd=self.folder), 0, 3 * ("TAPE c.tape\n" + LISTING))
        self.ends(cube("list", "--names", "-", cwd=self.folder, given=b"c.tape\n"), 0, "TAPE c.tape\n" + LISTING)
        self.ends(cube("list", "--names", "-", cwd=self.folder, given=b""), 0, b"", "tapes 0,")
        self.ends(cube("list", "--names", "-", cwd=self.folder, given=b"\n"), 1, "TAPE \nUNREADABLE : No such file or directory\n")
        self.ends(cube("list", "--names", "nowhere", cwd=self.folder), 1, b"", "nowhere: No such file or directory")

    def test_names_as_they_come(self):
        """A source of names that waits for the listing of the last one."""
        process = subprocess.Popen([CUBE, "list", "--names", "-"], cwd=self.folder, stdin=subprocess.PIPE, stdout=subprocess.PIPE, stderr=subprocess.PIPE)
        want = ("TAPE c.tape\n" + LISTING).encode()
        for _ in range(3):
            process.stdin.write(b"c.tape\n")
            process.stdin.flush()
            self.assertEqual(process.stdout.read(len(want)), want)
        process.communicate()

    def test_progress_on_a_terminal(self):
        """A long run says how far it is where standard error is a terminal and the listings go elsewhere; else it does not."""
        for terminal in (True, False):
            ours, theirs = os.openpty() if terminal else os.pipe()
            with open(self.path("out"), "wb") as out:
                process = subprocess.Popen([CUBE, "list", "--names", "-"], cwd=self.folder, stdin=subprocess.PIPE, stdout=out, stderr=theirs)
                for _ in range(4):
                    process.stdin.write(b"c.tape\n")
                    process.stdin.flush()
                    time.sleep(0.8)
                process.communicate()
            os.close(theirs)
            said = os.read(ours, 65536)
            os.close(ours)
            self.assertEqual(b" tapes, " in said, terminal, said)
            self.assertIn(b"tapes 4, refused 0, ended by time 4,", said)

    def test_summary(self):
        self.ends(cube("list", "-H", "c.tape", "--summary", "sum", cwd=self.folder), 0, "TAPE c.tape\n" + LISTING)
        with open(self.path("sum")) as f:
            self.assertEqual(f.read(), "tapes 1, refused 0, ended by time 1, by same 0, by opposite 0, by improve 0, unreadable 0\n")
        made = cube("list", "c.tape", "--summary", "-", cwd=self.folder)
        self.ends(made, 0, LISTING + "tapes 1, refused 0, ended by time 1, by same 0, by opposite 0, by improve 0, unreadable 0\n")
        self.assertEqual(made.stderr, b"")

    def test_jobs_give_the_same_bytes(self):
        names = samples() + ["nowhere", self.folder] + samples() * 30
        given = "".join(n + "\n" for n in names).encode()
        for form in ("text", "csv", "json"):
            one = cube("list", "--names", "-", "--format", form, given=given)
            self.assertEqual(one.returncode, 1)
            for jobs in ("2", "5", "0"):
                many = cube("list", "--names", "-", "--format", form, "--jobs", jobs, given=given)
                self.assertEqual((many.returncode, many.stdout, many.stderr), (1, one.stdout, one.stderr))


class Elsewhere(Case):
    def test_through_links_and_from_any_folder(self):
        os.mkdir(self.path("bin"))
        os.symlink(CUBE, self.path("bin/one"))
        os.symlink("one", self.path("bin/two"))
        env = dict(os.environ, PATH=self.path("bin") + ":" + os.environ["PATH"], CDPATH="%s:/:/tmp" % ROOT)
        self.ends(cube("c.tape", cwd=self.folder, env=env, program=self.path("bin/two")), 0, LISTING)
        self.ends(cube("c.tape", cwd=self.folder, env=env, program="two"), 0, LISTING)
        self.ends(cube("../c.tape", cwd=self.path("bin"), env=env, program="./one"), 0, LISTING)
        self.ends(cube(self.tape, cwd=os.path.join(ROOT, "tools"), env=env, program="../cube"), 0, LISTING)
        made = subprocess.run(["sh", "-c", "cd tools >/dev/null && ../cube \"$0\"", self.tape], cwd=ROOT, env=env, stdout=subprocess.PIPE, stderr=subprocess.PIPE)
        self.ends(made, 0, LISTING)
        made = subprocess.run(["sh", CUBE, "c.tape"], cwd=self.folder, stdout=subprocess.PIPE, stderr=subprocess.PIPE)
        self.ends(made, 0, LISTING)

    def test_a_hostile_environment(self):
        self.write("argparse.py", b"raise SystemExit(9)\n")
        env = dict(os.environ, PYTHONPATH=self.folder, PYTHONHOME="", COLUMNS="1", LC_ALL="C", PYTHONSTARTUP="x")
        self.ends(cube("c.tape", cwd=self.folder, env=env), 0, LISTING)
