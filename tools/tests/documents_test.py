"""Runs each command that README.md and docs/ show behind a `$`, and compares what it prints.

The commands of a document run in one folder, in their order, which has the examples, the tools,
and the program that is built. Where none is, or that of some commands alone, what the stored files
of the examples have is compared, and other commands of the program are passed over.
"""
import csv
import datetime
import os
import re
import shutil
import subprocess
import tempfile
import unittest

import calls
import swmm_files

TOP = os.path.dirname(calls.TOOLS)
PROGRAMS = {  # the program of each crate, and its commands
    f"{TOP}/crates/swmm_rules_bin/out/swmm_rules_bin": "check tables replay prove verify gen".split(),
    f"{TOP}/crates/project_bin/out/project_bin": "check tables replay".split(),
    f"{TOP}/crates/check_bin/out/check_bin": ["check"]}
PROGRAM = next((path for path in PROGRAMS if os.access(path, os.X_OK)), None)
COMMANDS = PROGRAMS.get(PROGRAM, [])
TANK = "./swmm-rules {} examples/storm-tank.inp"
STORED = {  # the outputs that examples/ has
    f"{TANK.format('replay')} examples/storm-tank.csv": "storm-tank.out",
    TANK.format("tables"): "storm-tank.tables",
    f"{TANK.format('prove')} examples/storm-tank.ranges": "storm-tank.answers",
    "./swmm-rules replay examples/two-pumps.inp examples/two-pumps.csv": "two-pumps.out"}
LEFT_OUT = re.compile(r"\(and ([\d,]+) more (?:lines?|rows?)\b.*\)")
END = "\1"  # a line between what two commands print


def text_of(*parts):
    with open(os.path.join(TOP, *parts), encoding="utf-8") as file:
        return file.read()


def blocks(text):
    """The indented blocks of a document that have commands: pairs of a command and its lines."""
    found, block, indent = [], None, ""
    for line in text.splitlines():
        command = re.match(r"( {4,})\$ (.*)", line)
        if command:
            if block is None:
                block = []
                found.append(block)
            indent = command[1]
            block.append((command[2], []))
        elif block and (not line or line.startswith(indent)):
            block[-1][1].append(line[len(indent):])
        else:
            block = None
    for _, lines in (shown for block in found for shown in block):
        while lines and not lines[-1]:
            lines.pop()
    return found


def is_shown(shown, printed):
    """Whether these lines are what was printed, with a line for each run that is left out."""
    at = 0
    for line in shown:
        left_out = LEFT_OUT.fullmatch(line)
        if left_out:
            at += int(left_out[1].replace(",", ""))
        elif at >= len(printed) or printed[at] != line:
            return False
        else:
            at += 1
    return at == len(printed)


def is_runnable(command, words=COMMANDS):
    """Whether what a line calls of the program is there: one of these words follows each call."""
    called = re.findall(r"\./swmm-rules(?: (\w+))?", command)
    return all(word in words for word in called)


def write_results(path):
    """Results of a run over the hours of the storm tank's trace, whose gap is filled."""
    with open(f"{TOP}/examples/storm-tank.csv", encoding="utf-8", newline="") as file:
        rows = list(csv.reader(file))[2:]
    results = swmm_files.Results(start=datetime.datetime(2001, 6, 15, 19), periods=len(rows))
    for period, (_, well, tank) in enumerate(rows):
        for node, value in ((1, well), (2, tank or "0.7")):
            results.changed[period, 1, node, 0] = float(value)
    with open(path, "wb") as file:
        file.write(results.bytes())


class DocumentsTest(unittest.TestCase):
    def setUp(self):
        room = tempfile.mkdtemp(prefix="a clone ")
        self.addCleanup(shutil.rmtree, room)
        self.folder = f"{room}/swmm rules"
        os.mkdir(self.folder)
        shutil.copytree(f"{TOP}/examples", f"{self.folder}/examples")
        os.symlink(calls.TOOLS, f"{self.folder}/tools")
        if PROGRAM:
            os.symlink(PROGRAM, f"{self.folder}/swmm-rules")
        shutil.copy(f"{TOP}/examples/storm-tank.inp", f"{self.folder}/model.inp")
        write_results(f"{self.folder}/model.out")

    def run_block(self, commands):
        """The lines that each command prints, with those on standard error."""
        script = "".join(f"{{ {command}\n}} 2>&1\nlast=$?\necho '{END}'\n(exit $last)\n"
                         for command in commands)
        ran = subprocess.run(["sh", "-c", script], cwd=self.folder, capture_output=True, text=True)
        return [part.splitlines() for part in ran.stdout.split(f"{END}\n")]

    def look(self, *document):
        for block in blocks(text_of(*document)):
            if all(is_runnable(command) for command, _ in block):
                commands = [command for command, _ in block]
                for (command, shown), printed in zip(block, self.run_block(commands)):
                    with self.subTest(command):
                        self.assertTrue(is_shown(shown, printed), "\n".join(["", *printed]))
            for command, shown in block:
                if command in STORED:
                    with self.subTest(command):
                        printed = text_of("examples", STORED[command]).splitlines()
                        self.assertTrue(is_shown(shown, printed))

    def test_commands_of_the_readme_print_what_it_shows(self):
        self.look("README.md")

    def test_commands_of_the_guide_print_what_it_shows(self):
        self.look("docs", "GUIDE.md")

    def test_commands_of_the_formats_print_what_they_show(self):
        self.look("docs", "FORMATS.md")

    @unittest.skipUnless(PROGRAM, "no program is built")
    def test_the_program_prints_what_the_examples_have(self):
        for command, name in STORED.items():
            if is_runnable(command):
                printed = self.run_block([command])[0]
                self.assertEqual(printed, text_of("examples", name).splitlines(), name)


class FormsTest(unittest.TestCase):
    """What this test itself takes for an example."""

    def test_blocks_are_commands_with_their_lines(self):
        text = "a\n\n    $ one\n    1\n\n      2\n    $ two\n\nb\n\n    no\n\n1. c\n\n        $ three\n        3\n"
        self.assertEqual(blocks(text), [[("one", ["1", "", "  2"]), ("two", [])], [("three", ["3"])]])

    def test_commands_that_the_program_has_not_are_told_apart(self):
        words = ["check", "replay"]
        for command in ("ls", "./swmm-rules check a", "sed x a > b; ./swmm-rules replay a b"):
            self.assertTrue(is_runnable(command, words), command)
        for command in ("./swmm-rules", "./swmm-rules gen 2", "./swmm-rules checks a"):
            self.assertFalse(is_runnable(command, words), command)
        self.assertFalse(is_runnable("./swmm-rules check a", []))

    def test_lines_that_are_left_out_are_counted(self):
        for shown, printed, answer in (
                (["a"], ["a"], True), (["a"], ["a", "b"], False), (["a", "b"], ["a"], False),
                (["(and 2 more rows, in x)", "c"], ["a", "b", "c"], True),
                (["a", "(and 1 more line)"], ["a", "b", "c"], False),
                (["a", "(and 1,000 more lines)"], ["a"] * 1001, True)):
            self.assertEqual(is_shown(shown, printed), answer, shown)


class CausesTest(unittest.TestCase):
    def test_the_guide_says_of_each_cause_what_to_change(self):
        causes = re.findall(r"(?m)^\| \d+ \| (\w+) \|", text_of("docs", "FORMATS.md"))
        self.assertGreater(len(causes), 35)
        guide = text_of("docs", "GUIDE.md")
        told = " ".join(line.split("|")[1] for line in guide.splitlines() if line.startswith("|"))
        for cause in causes:
            self.assertRegex(told, rf"\b{cause}\b")
