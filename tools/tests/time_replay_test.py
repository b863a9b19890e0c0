"""Tests of tools/time-replay: the models and traces that it makes, and how it judges a run."""
import os
import shutil
import stat
import sys
import tempfile
import unittest

import calls

TOOL = calls.tool("time-replay")
BUILT = [f"{os.path.dirname(calls.TOOLS)}/crates/{name}/out/{name}"
         for name in ("swmm_rules_bin", "project_bin")]
FEW = ("--one", "50", "--many", "7", "--times", "2")


class FilesTest(unittest.TestCase):
    def made(self, *words):
        with tempfile.TemporaryDirectory() as folder:
            TOOL.write_files(folder, *words)
            texts = []
            for name in (f"{words[0]}.inp", f"{words[0]}.csv"):
                with open(os.path.join(folder, name), encoding="ascii") as file:
                    texts.append(file.read())
        return texts

    def test_one_column(self):
        model, trace = self.made("one", 3)
        self.assertEqual(model, "[JUNCTIONS]\nN0 0\n[PUMPS]\nP0 N0 Out * OFF\nP1 N0 Out * OFF\n"
                         "[CONTROLS]\n"
                         "RULE On0\nIF NODE N0 DEPTH > 4\nTHEN PUMP P0 STATUS = ON\n"
                         "RULE Off0\nIF NODE N0 DEPTH <= 2\nTHEN PUMP P0 STATUS = OFF\n"
                         "RULE On1\nIF NODE N0 DEPTH > 6\nTHEN PUMP P1 STATUS = ON\n"
                         "RULE Off1\nIF NODE N0 DEPTH <= 2\nTHEN PUMP P1 STATUS = OFF\n")
        self.assertEqual(trace, "moment,NODE N0 DEPTH\n2001-06-15T00:00:00,5\n"
                         "2001-06-15T00:01:00,0\n2001-06-15T00:02:00,4\n")

    def test_many_columns(self):
        model, trace = self.made("many", 2, 2)
        self.assertIn("P1 N1 Out * OFF\n[CONTROLS]\n", model)
        self.assertTrue(model.endswith("RULE Full1\nIF NODE N1 DEPTH > 7.5\n"
                                       "THEN PUMP P1 SETTING = 2\nPRIORITY 1\n"))
        self.assertEqual(trace, "moment,NODE N0 DEPTH,NODE N1 DEPTH\n"
                         "2001-06-15T00:00:00,0.00,0.13\n2001-06-15T00:05:00,0.07,0.20\n")


@unittest.skipUnless(shutil.which("rustc"), "rustc builds the plain program, and is not there")
class RunTest(unittest.TestCase):
    def with_script(self, body):
        with tempfile.TemporaryDirectory(prefix="a folder with blanks ") as folder:
            path = os.path.join(folder, "program")
            with open(path, "w", encoding="utf-8") as file:
                file.write(f"#!{sys.executable}\n{body}\n")
            os.chmod(path, os.stat(path).st_mode | stat.S_IXUSR)
            return calls.call(TOOL, "--program", path, *FEW)

    def test_another_text_is_told(self):
        status, text, said = self.with_script("print('moment,P0,P1')")
        self.assertEqual((status, text), (1, ""))
        self.assertEqual(said, "one: the two programs print different texts\n")

    def test_a_run_that_fails_is_told(self):
        status, _, said = self.with_script("raise SystemExit(3)")
        self.assertEqual(status, 1)
        self.assertTrue(said.endswith("program ended with 3\n"), said)

    @unittest.skipUnless(any(os.access(path, os.X_OK) for path in BUILT), "no program is built")
    def test_the_programs_print_the_same(self):
        status, text, said = calls.call(TOOL, *FEW)
        self.assertEqual((status, said), (0, ""), text)
        one, many = text.splitlines()
        self.assertRegex(one, r"^one +50 rows  replay \d.* ratio \d+\.\d{3}  by the clock ")
        self.assertRegex(many, r"^many +7 rows  replay ")


if __name__ == "__main__":
    unittest.main()
