"""Every status of --help, for one name and for many."""
import os
import signal
import subprocess
import time

from support import CUBE, LISTING, TEXT, Case, cube, tape_of


class Statuses(Case):
    def test_one_listed(self):
        self.ends(cube(self.tape), 0, LISTING, "")

    def test_on_standard_input(self):
        self.ends(cube(given=tape_of(TEXT)), 0, LISTING)
        self.ends(cube("list", "-", given=tape_of(TEXT)), 0, LISTING)
        self.ends(cube("-", given=tape_of(TEXT)), 0, LISTING)

    def test_as_the_old_script_had_it(self):
        """cube TAPE.., cube < TAPE, cube make < TEXT, cube show < TAPE."""
        made = cube("make", given=TEXT.encode())
        self.ends(made, 0, tape_of(TEXT))
        self.ends(cube("show", given=made.stdout), 0, TEXT)
        self.ends(cube(given=made.stdout), 0, LISTING)
        self.ends(cube(self.tape), 0, LISTING)
        self.ends(cube(self.tape, self.tape), 0, 2 * ("TAPE %s\n" % self.tape + LISTING))
        wrong = cube("make", given=TEXT.replace("size=3", "size=three", 1).encode())
        self.ends(wrong, 1, b"", "line 2: ")

    def test_many_listed(self):
        made = cube("c.tape", "c.tape", cwd=self.folder)
        self.ends(made, 0, 2 * ("TAPE c.tape\n" + LISTING), "tapes 2, refused 0, ended by time 2, by same 0, by opposite 0, by improve 0, unreadable 0")

    def test_standard_input_among_names(self):
        made = cube("c.tape", "-", "c.tape", cwd=self.folder, given=b"")
        self.ends(made, 0, "TAPE c.tape\n" + LISTING + "TAPE -\nREFUSED 21\nTAPE c.tape\n" + LISTING, "tapes 3, refused 1, ended by time 2")

    def test_refused_is_listed(self):
        self.write("short", b"CUBT")
        self.ends(cube("short", cwd=self.folder), 0, "REFUSED 21\n")
        self.ends(cube("short", "c.tape", cwd=self.folder), 0)

    def test_unreadable_alone(self):
        self.ends(cube("nowhere", cwd=self.folder), 1, "UNREADABLE nowhere: No such file or directory\n", "cube: nowhere: No such file or directory")

    def test_unreadable_among_many(self):
        made = cube("nowhere", "c.tape", ".", cwd=self.folder)
        self.ends(made, 1, "TAPE nowhere\nUNREADABLE nowhere: No such file or directory\nTAPE c.tape\n" + LISTING + "TAPE .\nUNREADABLE .: Is a directory\n", "unreadable 2")

    def test_a_directory_is_never_refused_21(self):
        self.ends(cube(self.folder), 1, "UNREADABLE %s: Is a directory\n" % self.folder)
        fd = os.open(self.folder, os.O_RDONLY)
        try:
            self.ends(cube(stdin=fd), 1, "UNREADABLE -: Is a directory\n", "standard input: Is a directory")
            self.ends(cube("list", "--firms", stdin=fd), 1, "UNREADABLE -: Is a directory\n", "standard input: Is a directory")
            for words in (["make"], ["show"], ["check"], ["draw"], ["watch"], ["watch", "--live"], ["watch", "--live", "--new"], ["sweep", "-", "--stop", "105"], ["list", "--names", "-"],
                          ["move", "--to", "new"]):
                self.ends(cube(*words, stdin=fd), 1, b"", "standard input: Is a directory")
        finally:
            os.close(fd)

    def test_usage(self):
        for words in (["--wrong"], ["list", "--wrong"], ["list", "--jobs", "x", "a"], ["list", "--jobs", "-1", "a"], ["list", "--format", "xml", "a"], ["why", "14"],
                      ["why", "x"], ["sweep", self.tape], ["sweep", "--stop", "1"], ["sweep", self.tape, "--stop", "9..1"], ["sweep", self.tape, "--stop", "1.."],
                      ["sweep", self.tape, "--stop", "1..2", "--size", "1..2"], ["sweep", self.tape, "--mode", "other"], ["make", "a", "b"], ["show", "--why"],
                      ["draw", "--wrong"], ["watch", "a", "b"], ["watch", "--format", "csv"], ["check", "-x"], ["list", "-0", "a"], ["list", "--why", "--format", "csv", "a"], ["list", "--names", "-", "-"],
                      ["list", "--form", "csv", "a"], ["sweep", self.tape, "--stop", "1..1000000000"], ["list", "--names"],
                      ["move", self.tape], ["move", "--to"], ["move", "--to", "other", self.tape], ["move", "--to", "new", "a", "b"], ["watch", "--new", self.tape], ["list", "--new", "a"]):
            with self.subTest(words):
                made = cube(*words)
                self.ends(made, 2, b"", "usage: cube ")

    def test_help(self):
        for words in (["--help"], ["-h"], ["help"], *[[c, "--help"] for c in ("list", "watch", "why", "sweep", "draw", "make", "show", "check", "move")]):
            with self.subTest(words):
                made = cube(*words)
                self.ends(made, 0)
                text = made.stdout.decode()
                self.assertIn("usage: cube", text)
                self.assertIn("example", text)
                for status in ("  0  all was listed", "  1  something could not be read, written or moved", "  2  the command line is wrong"):
                    self.assertIn(status, text)

    def test_on_a_terminal_without_words(self):
        ours, theirs = os.openpty()
        try:
            self.ends(cube(stdin=theirs), 2, b"", "usage: cube")
            self.ends(cube("list", stdin=theirs), 2, b"", "standard input is a terminal")
        finally:
            os.close(ours)
            os.close(theirs)

    def test_names_that_are_commands(self):
        for name in ("make", "show", "list", "watch", "why", "move"):
            self.write(name, tape_of(TEXT))
            self.ends(cube("list", name, cwd=self.folder), 0, LISTING)
            self.ends(cube("--", name, cwd=self.folder), 0, LISTING)
            self.ends(cube("./" + name, cwd=self.folder), 0, LISTING)

    def test_options_among_names_and_after_dashes(self):
        self.write("-H", tape_of(TEXT))
        self.ends(cube("list", "c.tape", "--format", "csv", "c.tape", cwd=self.folder), 0)
        self.ends(cube("list", "--", "-H", cwd=self.folder), 0, LISTING)
        self.ends(cube("list", "c.tape", "-H", cwd=self.folder), 0, "TAPE c.tape\n" + LISTING)
        self.ends(cube("show", "--", "-H", cwd=self.folder), 0, TEXT)

    def test_interrupted(self):
        for words in (["make"], ["show"], ["watch"], ["list", "--names", "-"], [], ["list", "--firms"], ["move", "--to", "new"]):
            # a run in the background ignores interrupts, and so would what it starts
            process = subprocess.Popen([CUBE] + words, stdin=subprocess.PIPE, stdout=subprocess.PIPE, stderr=subprocess.PIPE, preexec_fn=lambda: signal.signal(signal.SIGINT, signal.SIG_DFL))
            time.sleep(1)
            process.send_signal(signal.SIGINT)
            made = process.communicate()
            self.assertEqual(process.returncode, 130, made)
            self.assertNotIn(b"Traceback", made[1])

    def test_endless_input(self):
        with open("/dev/zero", "rb") as zero:
            self.ends(cube(stdin=zero), 0, "REFUSED 21\n")
            self.ends(cube("show", stdin=zero), 1, b"", "21: a tape has 16 to 65,536 bytes")
            self.ends(cube("make", stdin=zero), 1, b"", "more than 16777216 bytes")
            self.ends(cube("draw", stdin=zero), 0)
            self.ends(cube("watch", stdin=zero), 0, "REFUSED 21\n")
            self.ends(cube("list", "--firms", stdin=zero), 0, "REFUSED 21\n")
            self.ends(cube("move", "--to", "new", stdin=zero), 1, b"", "REFUSED 21\n")
        self.ends(cube("list", "/dev/zero"), 0, "REFUSED 21\n")
