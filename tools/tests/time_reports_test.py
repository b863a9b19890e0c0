"""Tests of tools/time-reports: the form of the reports that it makes, and its rows."""
import argparse
import io
import os
import stat
import sys
import tempfile
import unittest

import calls

TOOL = calls.tool("time-reports")
SUMMARY = calls.tool("summary-of-report")
PROGRAM = """#!{python}
import sys
sys.path.insert(0, {tests!r})
import calls
with open("report", "rb") as file:
    _, entries = calls.tool("summary-of-report").read_report(file)
count = [sum(entry.verdict == it for entry in entries) for it in ("hold", "refuted", "undecided")]
print("verified holds %d refuted %d undecided %d" % tuple(count))
sys.exit({status} or (5 if count[1] else 6 if count[2] else 0))
"""


def read(pieces):
    return SUMMARY.read_report(io.BytesIO("".join(pieces).encode("ascii")))


class ReportTest(unittest.TestCase):
    def test_trees(self):
        for version in (1, 2):
            for leaves, depth in ((1, 3), (3, 3), (25, 5), (25, 1024), (2047, 1024), (9999, 200)):
                words = argparse.Namespace(version=version, depth=depth)
                found, entries = read(TOOL.tree_report(leaves, words))
                tree = entries[0].tree
                self.assertEqual((found, len(entries), tree.leaves), (version, 1, leaves))
                self.assertLessEqual(tree.depth, depth)
                self.assertEqual(tree.facts, leaves if version == 2 else 0)

    def test_the_deepest_tree(self):
        words = argparse.Namespace(version=1, depth=1024)
        self.assertEqual(read(TOOL.tree_report(2047, words))[1][0].tree.depth, 1024)

    def test_a_tree_that_needs_more_levels(self):
        self.assertIsNone(TOOL.shape(27, 5))
        self.assertIsNotNone(TOOL.shape(25, 5))

    def test_questions(self):
        words = argparse.Namespace(version=2)
        verdicts = [entry.verdict for entry in read(TOOL.entries_report(5, words))[1]]
        self.assertEqual(verdicts, ["hold", "refuted", "undecided", "hold", "refuted"])


class RowsTest(unittest.TestCase):
    def run_with(self, status, *words):
        with tempfile.TemporaryDirectory(prefix="a folder with blanks ") as folder:
            path = os.path.join(folder, "program")
            tests = os.path.dirname(os.path.abspath(calls.__file__))
            with open(path, "w", encoding="utf-8") as file:
                file.write(PROGRAM.format(python=sys.executable, tests=tests, status=status))
            os.chmod(path, os.stat(path).st_mode | stat.S_IXUSR)
            return calls.call(TOOL, "--program", path, *words)

    def test_rows(self):
        status, text, said = self.run_with(0, "--leaves", "100", "--entries", "7")
        self.assertEqual((status, said), (0, ""), text)
        self.assertRegex(text.splitlines()[1], r"^ +101 leaves +15[0-9] +0\.0 MB.* MiB$")
        self.assertRegex(text.splitlines()[2], r"^ +7 questions +\d+ .* MiB$")

    def test_a_wrong_status(self):
        status, text, _ = self.run_with(9, "--leaves", "3", "--entries", "")
        self.assertEqual(status, 1)
        self.assertIn("WRONG: status 9", text)

    def test_too_many_leaves(self):
        status, _, said = self.run_with(0, "--leaves", "1000", "--depth", "10")
        self.assertEqual(status, 2)
        self.assertIn("more than 10 levels", said)
