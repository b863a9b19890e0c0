"""Tests of tools/damaged-files: what it finds in runs, and in programs that stand in."""
import os
import re
import stat
import subprocess
import sys
import tempfile
import unittest

import calls

TOOL = calls.tool("damaged-files")
USAGE = b"usage: check IN\n       gen N\n"
TRACE = b"moment,NODE A DEPTH\n2001-06-15T00:00:00,1\n2001-06-15T00:05:00,2\n2001-06-15T00:10:00,3\n"
ROWS = b"moment,P1\n2001-06-15T00:00:00,0\n2001-06-15T00:05:00,1\n2001-06-15T00:10:00,1/3\n"
USUAL = {"usage": USAGE, "replays": {TRACE: ROWS}}
REPORT = b"report 1\nquestion dead 1\nholds\nleaf\nquestion dead 2\nundecided count 9\nend\n"


def case(command, changed=(), bad_words=False, **files):
    words = [command] + [role + TOOL.ENDINGS[role] for role in TOOL.ROLES[command]]
    files = {role: files.get(role, b"") for role in TOOL.ROLES[command]}
    return TOOL.Case(words, files, list(changed), {"trace": TRACE, "input": b""}, bad_words)


def faults(command, status, out=b"", err=b"", **of_case):
    return TOOL.judge(command, case(command, **of_case), TOOL.Run(status, out, err, 0.01), USUAL)


class JudgeTest(unittest.TestCase):
    def good(self, *run, **of_case):
        self.assertEqual(faults(*run, **of_case), [])

    def bad(self, *run, **of_case):
        self.assertNotEqual(faults(*run, **of_case), [])

    def test_ends(self):
        self.good("check", 0, b"rules 1 names 0 objects 12\n")
        self.bad("check", None)
        self.bad("check", -11)
        self.bad("check", 101)
        self.bad("check", 7)
        self.bad("check", 4, b"", b"error: out of memory\n")
        self.bad("check", 0, b"rules 1 names 0 objects 12")
        self.bad("check", 0, b"rules 1 names 0 objects 12\n", b"warning\n")
        self.bad("check", 5, b"rules 1 names 0 objects 12\n")

    def test_refusals(self):
        text = b"a\nb\n"
        self.good("check", 1, b"", b"error: input line 2: BadClause (7): IF\n", input=text)
        self.good("check", 1, b"", b"error: input line 2: BadText (2)\n", input=text)
        self.bad("check", 1, b"", b"error: input line 2: BadClause (7)\n", input=text)
        self.bad("check", 1, b"", b"error: input line 2: BadClause (8): IF\n", input=text)
        self.bad("check", 1, b"", b"error: input line 4: BadClause (7): IF\n", input=text)
        self.bad("check", 1, b"rules", b"error: input line 2: BadClause (7): IF\n", input=text)
        self.bad("check", 1, b"", b"error: input line 2: BadClause (7): IF", input=text)
        self.bad("check", 1, b"", b"error: trace line 2: NotLater (7)\n", input=text)
        self.bad("check", 1, b"", 2 * b"error: input line 2: BadClause (7): IF\n", input=text)

    def test_words(self):
        self.good("check", 2, b"", USAGE, bad_words=True)
        self.bad("check", 2, b"", USAGE)
        self.bad("check", 2, b"x", USAGE, bad_words=True)
        self.bad("check", 0, b"rules 1 names 0 objects 12\n", bad_words=True)

    def test_missing_files(self):
        self.good("replay", 3, b"", b"error: read failed: trace\n", trace=None)
        self.good("replay", 1, b"", b"error: input line 1: BadText (2)\n", trace=None)
        self.bad("replay", 3, b"", b"error: read failed: trace\n")
        self.bad("replay", 3, b"", b"error: read failed: input\n", trace=None)
        self.bad("replay", 1, b"", b"error: trace line 1: BadHeader (2)\n", input=None)
        self.bad("check", 0, b"rules 1 names 0 objects 12\n", input=None)

    def test_tables(self):
        text = (b"tables 1\nlink P1\nrow 1 then 1 when\nclause NODE A DEPTH (-inf,1] [2,2] | cond 2"
                b"\nclause EXPRESSION e (0.5,+inf)\nrow 1 else 1 unless\nend\n")
        self.good("tables", 0, text)
        self.good("tables", 0, b"tables 1\nend\n")
        self.bad("tables", 0, text[:-4])
        self.bad("tables", 0, text.replace(b"when", b"then"))

    def test_rows(self):
        self.good("replay", 0, ROWS, trace=TRACE)
        self.bad("replay", 0, ROWS[:-1], trace=TRACE)
        self.bad("replay", 0, b"", trace=TRACE)
        self.bad("replay", 0, ROWS.replace(b"00:10", b"00:05"), trace=TRACE)
        self.bad("replay", 0, ROWS.replace(b",1\n", b",1,1\n"), trace=TRACE)
        self.bad("replay", 0, ROWS.replace(b",1\n", b",x\n"), trace=TRACE)

    def test_rows_before_a_fault(self):
        error = b"error: trace line 3: BadMoment (6)\n"
        damaged = TRACE.replace(b"00:05:00", b"00:65:00")
        changed = {"trace": damaged, "changed": ["trace"]}
        self.good("replay", 1, b"".join(ROWS.splitlines(True)[:2]), error, **changed)
        self.bad("replay", 1, b"".join(ROWS.splitlines(True)[:3]), error, **changed)
        self.bad("replay", 1, b"".join(ROWS.splitlines(True)[:1]), error, **changed)
        self.bad("replay", 1, b"moment,P1\n2001-06-15T00:00:00,1\n", error, **changed)
        self.good("replay", 1, b"", b"error: trace line 1: BadHeader (2)\n",
                  trace=b"x" + TRACE, changed=["trace"])

    def test_rows_before_a_damage(self):
        damaged = TRACE.replace(b",3\n", b",2\n")
        changed = {"trace": damaged, "changed": ["trace"]}
        self.good("replay", 0, ROWS.replace(b"1/3", b"0"), **changed)
        self.bad("replay", 0, ROWS.replace(b"05:00,1", b"05:00,0"), **changed)
        self.bad("replay", 0, b"".join(ROWS.splitlines(True)[:2]), **changed)

    def test_verify(self):
        self.good("verify", 6, b"verified holds 1 refuted 0 undecided 1\n", report=REPORT)
        self.bad("verify", 0, b"verified holds 1 refuted 0 undecided 1\n", report=REPORT)
        self.bad("verify", 6, b"verified holds 2 refuted 0 undecided 1\n", report=REPORT)
        self.good("verify", 1, b"", b"error: report line 8: Shape (1)\n", report=REPORT[:-4])
        self.bad("verify", 1, b"", b"error: report line 9: Shape (1)\n", report=REPORT[:-4])
        self.good("verify", 1, b"", b"error: ranges: MissingRange (4): NODE A DEPTH\n")
        self.good("verify", 1, b"", b"error: ranges too long\n")
        self.bad("verify", 1, b"", b"error: trace too long\n")

    def test_prove(self):
        self.good("prove", 6, REPORT)
        self.bad("prove", 0, REPORT)
        self.bad("prove", 6, REPORT[:-4])

    def test_gen(self):
        self.good("gen", 0, b"pumps 2 rules 6 rows 20 switches 25\nP1 2\nP2 0\n")
        self.bad("gen", 0, b"pumps 2 rules 6 rows 20\n")


class DamageTest(unittest.TestCase):
    def test_a_case_is_the_same_again(self):
        models = TOOL.examples()
        for command in TOOL.ROLES:
            for number in range(20):
                self.assertEqual(TOOL.case_of("7", command, number, models),
                                 TOOL.case_of("7", command, number, models))

    def test_most_cases_damage_a_file(self):
        models = TOOL.examples()
        cases = [TOOL.case_of("1", "verify", number, models) for number in range(200)]
        same = sum(case.files == {role: case.clean[role] for role in case.files}
                   and not case.bad_words for case in cases)
        self.assertLess(same, 20)


class ProgramTest(unittest.TestCase):
    GOOD = """case "$1 $#" in
"check 2") [ -r "$2" ] || { echo "error: read failed: input" >&2; exit 3; }
    %s
    echo "rules 1 names 2 objects 3" ;;
*) echo "usage: check IN" >&2; exit 2 ;;
esac
"""

    def setUp(self):
        folder = tempfile.TemporaryDirectory(prefix="a folder with blanks ")
        self.addCleanup(folder.cleanup)
        self.folder = folder.name

    def run_with(self, line, *words):
        path = os.path.join(self.folder, "program")
        with open(path, "w", encoding="utf-8") as file:
            file.write("#!/bin/sh\n" + self.GOOD % line)
        os.chmod(path, os.stat(path).st_mode | stat.S_IXUSR)
        self.kept = os.path.join(self.folder, "kept")
        # In a process of its own, since its pool needs the module by its path.
        done = subprocess.run(
            [sys.executable, calls.path_of("damaged-files"), "--program", path, "--commands",
             "check", "--count", "40", "--jobs", "2", "--keep", self.kept, *words],
            capture_output=True, text=True)
        return done.returncode, done.stdout, done.stderr

    def test_a_good_program(self):
        status, text, said = self.run_with("")
        self.assertEqual((status, said), (0, ""))
        row = re.fullmatch(r"check((?: +\d+){9}) +\d+\.\d\d s", text.splitlines()[1])
        counts = list(map(int, row.group(1).split()))
        self.assertEqual((sum(counts[:8]), counts[8]), (40, 0))

    def test_a_program_that_ends_by_a_signal(self):
        status, text, _ = self.run_with("kill -SEGV $$")
        self.assertEqual(status, 1)
        self.assertIn("it ended by signal SIGSEGV", text)
        kept = os.path.join(self.kept, os.listdir(self.kept)[0])
        self.assertLessEqual({"words", "findings", "stdout", "stderr"}, set(os.listdir(kept)))

    def test_a_program_that_does_not_end(self):
        status, text, _ = self.run_with("exec sleep 5", "--seconds", "0.2", "--only", "check:3")
        self.assertEqual(status, 1)
        self.assertIn("check:3: it did not end in time", text)
