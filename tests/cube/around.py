"""What stands around cube: the man page, the C header and its example, GNU parallel, the README's text form."""
import os
import platform
import re
import shutil
import subprocess
import sys
import unittest

from support import CUBE, LISTING, ROOT, Case, cube, programs, samples


class Around(Case):
    def test_the_man_page_has_the_words_of_help(self):
        made = subprocess.run([sys.executable, os.path.join(ROOT, "tools", "cube", "manual.py")], stdout=subprocess.PIPE, check=True).stdout
        with open(os.path.join(ROOT, "docs", "cube.1"), "rb") as f:
            self.assertEqual(f.read(), made, "docs/cube.1 is not what python3 tools/cube/manual.py writes")

    def test_embedding_in_c(self):
        """The header compiles by itself, in C and C++; the example lists what cube lists."""
        if platform.machine() != "x86_64":
            raise unittest.SkipTest("the static library is for x86-64")
        from cube import engine
        compiler = next(c for c in ("cc", "gcc", "clang") if shutil.which(c))
        program = self.path("embed")
        strict = [compiler, "-std=c99", "-Wall", "-Wextra", "-Wpedantic", "-Werror", "-I", os.path.join(ROOT, "include")]
        subprocess.run(strict + ["-o", program, os.path.join(ROOT, "examples", "embed.c"), engine.archive()], check=True)
        made = subprocess.run([program] + samples(), stdout=subprocess.PIPE, check=True).stdout
        listed = cube(*samples()).stdout
        self.assertEqual(made, b"".join(re.split(rb"^TAPE .*\n", listed, flags=re.M)))
        self.assertEqual(subprocess.run([program, self.tape, "/nowhere"], stdout=subprocess.PIPE, stderr=subprocess.PIPE).returncode, 1)
        if shutil.which("c++"):
            subprocess.run(["c++", "-x", "c++", "-fsyntax-only", "-Wall", "-Werror", os.path.join(ROOT, "include", "cube.h")], check=True)

    def test_the_stack_of_a_listing(self):
        """At most 3,328 bytes, whatever number of prices there is, as the header says; and what measures it fails above that."""
        if platform.machine() != "x86_64":
            raise unittest.SkipTest("the static library is for x86-64")
        made = subprocess.run([os.path.join(ROOT, "bench", "run"), "--stack"], cwd=ROOT, stdout=subprocess.PIPE, stderr=subprocess.STDOUT, text=True)
        self.assertEqual(made.returncode, 0, made.stdout[-2000:])
        for prices in ("1 price", "8 prices", "64 prices"):
            self.assertRegex(made.stdout, r"(?m)^\| the price walk, %s \| [0-9,]+ \|" % prices)

    def test_gnu_parallel(self):
        """docs/SCALE.md's command gives the bytes of one run."""
        if shutil.which("parallel") is None:
            raise unittest.SkipTest("GNU parallel is not installed")
        names = "".join(n + "\n" for n in samples() * 12).encode()
        with open(os.path.join(ROOT, "docs", "SCALE.md")) as f:
            command = re.search(r"^    (parallel .*)$", f.read(), re.M).group(1)
        self.write("names", names)
        words = command.replace("--block 1M", "--block 10k").replace("cube list", '"%s" list' % CUBE)
        env = dict(os.environ, HOME=self.folder)
        subprocess.run(["sh", "-c", words], cwd=self.folder, env=env, check=True, stderr=subprocess.PIPE)
        with open(self.path("listings"), "rb") as f:
            self.assertEqual(f.read(), cube("list", "--names", "-", given=names).stdout)

    def test_the_readme_has_every_kind_and_mark(self):
        from cube import form
        with open(os.path.join(ROOT, "README.md")) as f:
            readme = f.read()
        block = readme[readme.index("## Tapes as text"):]
        words = set(re.findall(r"[a-z-]+", block[:block.index("\n## ")]))
        for name, fields, _, marks in form.KINDS.values():
            self.assertLessEqual({name, *fields, *marks}, words)
        self.assertLessEqual({*form.MODES, *form.SIDES, *form.ORDER_WORDS, *form.ORDER_MARKS, "own", "record", "tape", *form.FORMS, "participant"}, words)

    def test_the_readme_has_every_command_and_status(self):
        from cube import cli
        with open(os.path.join(ROOT, "README.md")) as f:
            readme = f.read()
        for command in cli.COMMANDS:
            self.assertIn("- `cube %s" % command.NAME, readme)
        for status in cli.STATUSES:
            self.assertIn(" ".join(status.split()), " ".join(readme.split()))

    def test_no_line_is_too_long(self):
        for name in ("docs/SCALE.md", "docs/cube.1"):
            with open(os.path.join(ROOT, name)) as f:
                self.assertEqual([line for line in f if len(line) > 121], [])

    def test_nothing_is_written_beside_the_sources(self):
        """The programs that run are those of the present sources."""
        self.assertTrue(os.path.exists(os.path.join(programs(), "evening")))
        self.ends(cube(self.tape), 0, LISTING)
