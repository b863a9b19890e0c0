"""Tests of tools/time-questions: the models that it makes, and its rows."""
import os
import stat
import sys
import tempfile
import unittest

import calls

TOOL = calls.tool("time-questions")
PROGRAM = """#!{python}
import sys
assert sys.argv[1:] == ["prove", "model.inp", "ranges"], sys.argv
print("report 2\\nquestion limit O 0 1\\n{verdict}\\nend")
sys.exit({status})
"""


class ModelTest(unittest.TestCase):
    def test_first(self):
        text, asked, cells, verdict = TOOL.first(2, 4)
        self.assertEqual(text, "[JUNCTIONS]\nN1\nN2\n[ORIFICES]\nO\n[CONTROLS]\n"
                         "RULE Open\nIF NODE N1 DEPTH >= 0\nAND NODE N2 DEPTH >= 0\n"
                         "THEN ORIFICE O SETTING = 1\n"
                         "RULE Shut\nIF NODE N1 DEPTH >= 0\nAND NODE N2 DEPTH >= 0\n"
                         "THEN ORIFICE O SETTING = 0\n")
        self.assertEqual(asked, "NODE N1 DEPTH 0 100000\nNODE N2 DEPTH 0 100000\n"
                         "CONFLICT Open Shut O\n")
        self.assertEqual((cells, verdict), (9, "refuted"))

    def test_too_many_cells(self):
        self.assertEqual(TOOL.first(13, 4)[2:], (1594323, "undecided"))
        self.assertEqual(TOOL.plain(15, 4)[2:], (1185921, "undecided"))

    def test_numbers_of_cells(self):
        self.assertEqual(TOOL.plain(14, 4)[2:], (923521, "holds"))
        self.assertEqual(TOOL.opened(1, 4)[2:], (25, "undecided"))
        self.assertEqual(TOOL.many_rules(2, 4)[2:], (21, "holds"))


class RowsTest(unittest.TestCase):
    def run_with(self, verdict, status, *words):
        with tempfile.TemporaryDirectory(prefix="a folder with blanks ") as folder:
            path = os.path.join(folder, "program")
            with open(path, "w", encoding="utf-8") as file:
                file.write(PROGRAM.format(python=sys.executable, verdict=verdict, status=status))
            os.chmod(path, os.stat(path).st_mode | stat.S_IXUSR)
            none = [f"--{sort}=" for sort in TOOL.SORTS if f"--{sort}" not in words]
            return calls.call(TOOL, "--program", path, *none, *words)

    def test_rows(self):
        status, text, said = self.run_with("holds", 0, "--rules", "3,4", "--plain", "2")
        self.assertEqual((status, said), (0, ""), text)
        rows = text.splitlines()[1:]
        self.assertRegex(rows[0], r"^plain +2 +2,401 holds .* MiB$")
        self.assertRegex(rows[1], r"^rules +3 +27 holds .* MiB$")
        self.assertRegex(rows[2], r"^rules +4 +33 holds .* MiB$")

    def test_a_wrong_verdict(self):
        status, text, _ = self.run_with("undecided cell", 6, "--rules", "3")
        self.assertEqual(status, 1)
        self.assertIn("WRONG: status 6", text)

    def test_a_wrong_status(self):
        status, text, _ = self.run_with("holds", 5, "--rules", "3")
        self.assertEqual(status, 1)
        self.assertIn("WRONG: status 5", text)

    def test_sizes(self):
        status, _, said = self.run_with("holds", 0, "--keys", "0")
        self.assertEqual(status, 2)
        self.assertIn("above 0", said)
