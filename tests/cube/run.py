#!/usr/bin/env python3
"""The tests of `cube`, over the programs that are built: statuses, full disks, names, builds, formats, watches, participants,
moves, sweeps, texts, pictures, embedding.

    tests/cube/run.py [NAME..]      all of them, or those whose name has a NAME in it

The last line is 'N passed, M failed'; exit status 1 where one failed.
"""
import os
import sys
import unittest

HERE = os.path.dirname(os.path.realpath(__file__))
MODULES = ["statuses", "writing", "naming", "building", "formats", "watching", "firms", "moving", "texts", "sweeping", "pictures", "around"]


class Count(unittest.TextTestResult):
    passed = 0

    def addSuccess(self, test):
        super().addSuccess(test)
        self.passed += 1


def main():
    sys.path.insert(0, HERE)
    import support
    made = support.cube(given=support.tape_of(support.TEXT))
    if made.returncode != 0:
        sys.stderr.write(made.stderr.decode("utf-8", "replace"))
        print("0 passed, 1 failed")
        return 1
    loader = unittest.TestLoader()
    if sys.argv[1:]:
        loader.testNamePatterns = ["*%s*" % w for w in sys.argv[1:]]
    suite = unittest.TestSuite(loader.loadTestsFromName(m) for m in MODULES)
    result = unittest.TextTestRunner(stream=sys.stdout, resultclass=Count, verbosity=1).run(suite)
    bad = len(result.failures) + len(result.errors)
    for test, why in result.skipped:
        print("not run: %s: %s" % (test.id(), why))
    print("%d passed, %d failed" % (result.passed, bad))
    return 1 if bad or not result.passed else 0


if __name__ == "__main__":
    sys.exit(main())
