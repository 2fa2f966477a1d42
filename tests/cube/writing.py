"""Nothing is lost in silence: full disks, closed pipes, closed files."""
import os
import subprocess
import unittest

from support import CUBE, LISTING, TEXT, Case, cube, native, samples

FULL = "No space left on device"
COMMANDS = (["c.tape"], ["c.tape", "c.tape"], ["list", "--format", "csv", "c.tape"], ["list", "--format", "json", "c.tape", "c.tape"], ["why"], ["--help"], ["list", "--help"],
            ["show", "c.tape"], ["make", "c.txt"], ["make", "c.txt", "-o", "/dev/full"], ["check", "c.txt"], ["draw", "c.tape"], ["watch", "c.tape"], ["sweep", "c.tape", "--size", "8..12"],
            ["sweep", "c.tape", "--size", "8..12", "--format", "csv"], ["list", "--jobs", "2", "c.tape", "c.tape"], ["list", "--firms", "c.tape"], ["move", "--to", "new", "c.tape"], ["move", "--to", "new", "c.tape", "-o", "/dev/full"])


class Writing(Case):
    def setUp(self):
        super().setUp()
        self.write("c.txt", TEXT.encode())

    def test_full_disk(self):
        for words in COMMANDS:
            with self.subTest(words), open("/dev/full", "wb") as full:
                self.ends(cube(*words, cwd=self.folder, stdout=full), 1, stderr=FULL)

    def test_full_disk_for_the_summary(self):
        self.ends(cube("list", "--summary", "/dev/full", "c.tape", cwd=self.folder), 1, LISTING, "/dev/full: " + FULL)

    def test_programs_say_a_failed_write_and_stop(self):
        engine = native()
        names = "".join(s + "\n" for s in samples() * 20).encode()
        with open(self.tape, "rb") as tape:
            given = tape.read()
        for program, words, data in (("evening", [], names), ("runner", [], given), ("desk", ["trace"], given), ("desk", ["watch"], given), ("desk", ["live"], given),
                                     ("desk", ["firms"], given), ("desk", ["move", "new"], given), ("desk", ["live", "new"], given)):
            with open("/dev/full", "wb") as full:
                process = engine.start(program, words, stdout=full)
                _, said = process.communicate(data)
            self.assertEqual(said.decode(), "%s: standard output: %s\n" % (program, FULL))

    def test_programs_say_a_failed_read(self):
        engine, folder = native(), os.open(self.folder, os.O_RDONLY)
        for program, words in (("evening", []), ("runner", []), ("desk", ["trace"]), ("desk", ["watch"]), ("desk", ["live"]), ("desk", ["firms"]), ("desk", ["move", "new"]),
                               ("desk", ["move", "old"]), ("desk", ["live", "new"])):
            text, said = engine.start(program, words, stdin=folder).communicate()
            self.assertEqual((text, said.decode()), (b"", "%s: standard input: Is a directory\n" % program))
        os.close(folder)

    def test_small_disk(self):
        """A disk that fills up on the way: a part is written, and it is said."""
        disk = self.path("disk")
        os.mkdir(disk)
        if os.geteuid() != 0 or subprocess.run(["mount", "-t", "tmpfs", "-o", "size=64k", "tmpfs", disk], stderr=subprocess.DEVNULL).returncode != 0:
            raise unittest.SkipTest("no disk can be mounted here")
        try:
            with open(os.path.join(disk, "out"), "wb") as out:
                self.ends(cube(*samples() * 10, stdout=out), 1, stderr="standard output: " + FULL)
            with open(os.path.join(disk, "out"), "rb") as out:
                self.assertTrue(0 < len(out.read()) <= 65536)
            self.ends(cube("make", "c.txt", "-o", "disk/c.tape", cwd=self.folder), 1, b"", "disk/c.tape: " + FULL)
            self.ends(cube("move", "--to", "new", "c.tape", "-o", "disk/c.tape", cwd=self.folder), 1, b"", "disk/c.tape: " + FULL)
            self.assertEqual(os.listdir(disk), ["out"])
            os.unlink(os.path.join(disk, "out"))
            env = dict(os.environ, TMPDIR=disk)
            self.ends(cube("sweep", "c.tape", "--size", "1..2000", cwd=self.folder, env=env), 1, b"", FULL)
        finally:
            subprocess.run(["umount", disk], check=True)

    def test_closed_pipe(self):
        for more in ([], ["--jobs", "2"], ["--format", "json"], ["--firms"]):
            process = subprocess.Popen([CUBE, "list"] + more + samples() * 30, stdout=subprocess.PIPE, stderr=subprocess.PIPE)
            process.stdout.readline()
            process.stdout.close()
            said = process.stderr.read().decode()
            self.assertEqual((process.wait(), said), (1, "cube: standard output: Broken pipe\n"))
            process.stderr.close()

    def test_closed_pipe_for_texts(self):
        for words in (["show", self.tape], ["draw", self.tape], ["watch", self.tape], ["why"], ["move", "--to", "new", self.tape]):
            ours, theirs = os.pipe()
            os.close(ours)
            self.ends(cube(*words, stdout=theirs), 1, stderr="standard output: Broken pipe")
            os.close(theirs)

    def test_closed_standard_files(self):
        """A summary that can't be written is lost, so that is status 1, too."""
        for closing, status in ((">&-", 1), ("<&-", 0), ("2>&-", 1), (">&- 2>&- <&-", 1)):
            made = subprocess.run(["sh", "-c", '"$0" "$1" "$1" ' + closing, CUBE, self.tape], stdout=subprocess.PIPE, stderr=subprocess.PIPE, timeout=60)
            self.assertEqual(made.returncode, status, made.stderr)
            self.assertNotIn(b"Traceback", made.stderr)

    def test_an_old_tape_stays_where_the_text_is_wrong(self):
        self.write("c.txt", b"order nothing\n")
        before = open(self.tape, "rb").read()
        self.ends(cube("make", "c.txt", "-o", "c.tape", cwd=self.folder), 1, b"", "c.txt: line 1: ")
        self.assertEqual(open(self.tape, "rb").read(), before)
        self.assertEqual(sorted(os.listdir(self.folder)), ["c.tape", "c.txt"])

    def test_made_files_have_the_usual_mode_and_links_stay(self):
        os.symlink("real.tape", self.path("link.tape"))
        self.ends(cube("make", "c.txt", "-o", "link.tape", cwd=self.folder), 0, b"")
        self.assertTrue(os.path.islink(self.path("link.tape")))
        self.assertEqual(os.stat(self.path("real.tape")).st_mode & 0o777, 0o666 & ~self.umask())

    def umask(self):
        umask = os.umask(0)
        os.umask(umask)
        return umask

    def test_unwritable(self):
        self.ends(cube("make", "c.txt", "-o", "no/such/folder", cwd=self.folder), 1, b"", "No such file or directory")
        self.ends(cube("list", "--summary", ".", "c.tape", cwd=self.folder), 1, LISTING, "Is a directory")


class Evening(Case):
    def test_a_name_is_answered_before_the_next_is_read(self):
        process = native().start("evening")
        given = self.tape.encode() + b"\n"
        for sent in (given + given[:5], given[5:], given + given):
            process.stdin.write(sent)
            process.stdin.flush()
            want = ("TAPE %s\n%s" % (self.tape, LISTING)).encode() * sent.count(b"\n")
            self.assertEqual(process.stdout.read(len(want)), want)
        self.assertIn(b"tapes 4, ", process.communicate()[1])
