"""Runs the programs with the same words on the same files: what one says the others say too.

The files are those of examples/, those of the tools, some of them refused, and damaged ones.
"""
import os
import subprocess
import tempfile
import unittest

import calls

TOP = os.path.dirname(calls.TOOLS)
WHOLE, *SMALL = (f"{TOP}/crates/{name}/out/{name}"
                 for name in ("swmm_rules_bin", "project_bin", "check_bin"))
COMMANDS = ("check", "tables", "replay")
HAS = dict(zip(SMALL, (COMMANDS, COMMANDS[:1])))  # the small programs with their commands
BUILT = [program for program in SMALL if os.access(program, os.X_OK)]
IN_BOTH = unittest.skipUnless(os.access(WHOLE, os.X_OK) and BUILT,
                              "only one of the programs is built, or none")
DAMAGED = 40  # damaged files of each command
OTHER_WORDS = (
    [], ["check"], ["tables"], ["replay"], ["check", "plant.inp", "plant.csv"],
    ["tables", "plant.inp", "plant.csv"], ["replay", "plant.inp"],
    ["replay", "plant.inp", "plant.csv", "plant.csv"], ["Check", "plant.inp"], ["", "plant.inp"],
    ["checks", "plant.inp"], ["table", "plant.inp"], ["plant.inp", "check"],
    ["check", "plant.inp", ""], ["prove", "plant.inp", "plant.ranges"], ["gen", "1"],
    ["replays", "plant.inp", "plant.csv"], ["verify", "plant.inp", "plant.ranges", "plant.report"])


class ProgramsTest(unittest.TestCase):
    def setUp(self):
        room = tempfile.TemporaryDirectory(prefix="two programs ")
        self.addCleanup(room.cleanup)
        self.folder = room.name

    def run_one(self, program, words):
        ran = subprocess.run([program, *words], cwd=self.folder, stdin=subprocess.DEVNULL,
                             capture_output=True, check=False, timeout=60)
        return ran.returncode, ran.stdout, ran.stderr

    def same(self, words):
        """The status with which all end that have the command, where they say the same."""
        whole = self.run_one(WHOLE, words)
        for program in BUILT:
            if words[0] in HAS[program]:
                with self.subTest(program=program, words=words):
                    self.assertEqual(self.run_one(program, words), whole)
        return whole[0]

    @IN_BOTH
    def test_they_say_the_same_of_examples_and_of_the_files_of_tools(self):
        calls.tool("failing_calls.py").write_files(self.folder)
        names = sorted(os.listdir(self.folder))
        inputs = [name for name in names if name.endswith(".inp")]
        statuses = [self.same([command, name]) for command in COMMANDS[:2]
                    for name in (*names, "none.inp", "", ".")]
        statuses += [self.same(["replay", model, trace]) for model in (*inputs, "none.inp")
                     for trace in (*names, "none.csv", "", ".")]
        self.assertEqual(set(statuses), {0, 1, 3})

    @IN_BOTH
    def test_they_say_the_same_of_damaged_files(self):
        tool = calls.tool("damaged-files")
        models, statuses = tool.examples(), []
        for command in COMMANDS:
            cases = (tool.case_of("two programs", command, at, models) for at in range(DAMAGED))
            for case in cases:
                if not case.bad_words:
                    tool.write_case(self.folder, case)
                    statuses.append(self.same(case.words))
        self.assertLessEqual({0, 1}, set(statuses))

    @unittest.skipUnless(BUILT, "no small program is built")
    def test_words_of_no_such_command_are_left_to_the_whole_tool(self):
        calls.tool("failing_calls.py").write_files(self.folder)
        others = [["tables", "plant.inp"], ["replay", "plant.inp", "plant.csv"]]
        for program in BUILT:
            for words in OTHER_WORDS + tuple(it for it in others if it[0] not in HAS[program]):
                self.assertEqual(self.run_one(program, words), (8, b"", b""), (program, words))
