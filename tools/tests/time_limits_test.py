"""Tests of tools/time-limits: its files are at the limits and not past them, and its rows."""
import itertools
import os
import stat
import tempfile
import unittest

import calls

TOOL = calls.tool("time-limits")


class FilesTest(unittest.TestCase):
    def lines(self, pieces):
        return "".join(pieces).splitlines(True)

    def test_input_files(self):
        self.assertEqual(sum(map(len, TOOL.semicolons())), TOOL.LONGEST)
        for pieces in (TOOL.names_alike_in_front(), TOOL.names_alike_but_for_case(),
                       TOOL.rules(TOOL.CONDITIONS, 1, 1), TOOL.formulas(), TOOL.wide_model(),
                       TOOL.rules(128, TOOL.ACTIONS, TOOL.ACTIONS), TOOL.comments_of_ranges()):
            lines = self.lines(pieces)
            self.assertLessEqual(sum(map(len, lines)), TOOL.LONGEST)
            self.assertLessEqual(max(map(len, lines)), 4097)

    def test_names(self):
        for pieces in (TOOL.names_alike_in_front(), TOOL.names_alike_but_for_case()):
            names = list(itertools.islice(pieces, 1, TOOL.OBJECTS))
            self.assertEqual(len(set(names)), TOOL.OBJECTS - 1)
        self.assertEqual(len({name.lower() for name in names}), 1)

    def test_traces(self):
        lines = self.lines(TOOL.wide_trace(3))
        self.assertEqual(len({line.count(",") for line in lines}), 1)
        self.assertLessEqual(len(lines[0]), 65537)
        moments = [TOOL.moment_of(number) for number in range(0, 10 ** 6, 997)]
        self.assertEqual(moments, sorted(set(moments)))


class RowsTest(unittest.TestCase):
    def run_with(self, line, *words):
        with tempfile.TemporaryDirectory(prefix="a folder with blanks ") as folder:
            path = os.path.join(folder, "program")
            with open(path, "w", encoding="utf-8") as file:
                file.write(f"#!/bin/sh\n{line}\n")
            os.chmod(path, os.stat(path).st_mode | stat.S_IXUSR)
            return calls.call(TOOL, "--program", path, *words)

    def test_a_good_end(self):
        status, text, said = self.run_with("echo rules 0 names 0 objects 0", "semicolons")
        self.assertEqual((status, said), (0, ""), text)
        self.assertRegex(text.splitlines()[1], r"^semicolons +check +67\.1 MB +0 .* MiB$")

    def test_a_wrong_end(self):
        status, text, _ = self.run_with("exit 3", "semicolons")
        self.assertEqual(status, 1)
        self.assertIn("WRONG: status 3", text)

    def test_a_trace_through_a_pipe(self):
        line = 'head -c 999999 "$3" >&2; echo moment,Lead,Lag; cat "$3" >/dev/null'
        status, text, _ = self.run_with(line, "trace of", "--trace", "2")
        self.assertEqual(status, 0, text)
        self.assertRegex(text.splitlines()[1], r"^trace of 2 MiB +replay +2\.1 MB")


if __name__ == "__main__":
    unittest.main()
