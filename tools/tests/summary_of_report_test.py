"""Tests of tools/summary-of-report, from a folder with blanks in its path."""
import os
import tempfile
import unittest

import calls

TOP = os.path.dirname(calls.TOOLS)
TOOL = calls.tool("summary-of-report")
MODEL = """[controls]
RULE LeadOn ; the first
IF NODE Well DEPTH > 1.8
THEN PUMP Lead STATUS = ON
RULE LeadOff
IF NODE Well DEPTH < 0.6
THEN PUMP Lead STATUS = OFF
[CURVES]
RULE Control 0 1
"""
WHOLE = """report 2
question conflict 1 2 Lead
holds
split NODE Well DEPTH 1.8
leaf
fact 1 no
leaf
fact 1 no
fact 2 no
split MOMENT 2001-06-16T00:00:00
leaf
leaf
fact 2 no
question limit Lead -1/3 0.5
refuted
value NODE Well DEPTH 1.9
value LINK Lead SETTING 0
moment 2001-06-15T19:00:00
question dead 2
undecided cell
piece NODE Well DEPTH (-inf,0.6)
piece MOMENT 2001-06-15T19:00:00 2001-06-15T20:00:00
question dead 1
undecided count 1594323
end
"""


class SummaryTest(unittest.TestCase):
    def setUp(self):
        folder = tempfile.TemporaryDirectory(prefix="a folder with blanks ")
        self.addCleanup(folder.cleanup)
        self.folder = folder.name

    def file(self, name, content):
        path = os.path.join(self.folder, name)
        with open(path, "wb") as file:
            file.write(content if isinstance(content, bytes) else content.encode())
        return path

    def summary(self, report=WHOLE, *words):
        """The lines of the summary; what the tool says stays in self.said, and its status too."""
        self.status, text, self.said = calls.call(TOOL, self.file("the report", report), *words)
        return text.splitlines()

    def refuses(self, report, saying, *words):
        self.assertEqual(self.summary(report, *words), [])
        self.assertEqual(self.status, 1, self.said)
        self.assertTrue(self.said.startswith("error: ") and self.said.count("\n") == 1, self.said)
        self.assertIn(saying, self.said)


class Verdicts(SummaryTest):
    def test_counts(self):
        lines = self.summary()
        self.assertEqual((self.status, self.said), (0, ""))
        self.assertEqual(lines[0], "report of version 2 on 4 questions: 1 hold, 1 refuted,"
                                   " 2 undecided")

    def test_a_question_that_holds(self):
        self.assertEqual(self.summary()[3:6], [
            "1. Rules 1 and 2 never conflict on Lead (line 2)",
            "   holds: a tree of 6 nodes on 3 levels, with 4 leaves and 4 facts",
            "   splits: NODE Well DEPTH (1), MOMENT (1)"])

    def test_the_state_of_a_refutation(self):
        self.assertEqual(self.summary()[7:12], [
            "2. No rule takes Lead out of -1/3 to 0.5 once it is there (line 14)",
            "   refuted by this state:",
            "     NODE Well DEPTH    1.9",
            "     LINK Lead SETTING  0",
            "     moment             2001-06-15T19:00:00"])

    def test_why_a_question_is_undecided(self):
        self.assertEqual(self.summary()[13:], [
            "3. Rule 2 is dead: it never decides a setting (line 19)",
            "   undecided: neither a proof nor a counterexample was found in this cell:",
            "     NODE Well DEPTH  (-inf,0.6)",
            "     MOMENT           2001-06-15T19:00:00 2001-06-15T20:00:00",
            "",
            "4. Rule 1 is dead: it never decides a setting (line 23)",
            "   undecided: its grid has 1,594,323 cells, too many to search"])

    def test_the_names_of_rules(self):
        lines = self.summary(WHOLE, "--model", self.file("the model.inp", MODEL))
        self.assertIn("1. Rules 1 (LeadOn) and 2 (LeadOff) never conflict on Lead (line 2)", lines)

    def test_a_report_without_questions(self):
        self.assertEqual(self.summary("report 1\nend\n")[0],
                         "report of version 1 on 0 questions: 0 hold, 0 refuted, 0 undecided")

    def test_lines_that_a_carriage_return_ends(self):
        lines = self.summary(WHOLE.replace("\n", "\r\n"))
        self.assertEqual(lines, self.summary())

    def test_some_of_many_questions(self):
        report = "report 1\n" + 5 * "question dead 1\nholds\nleaf\n" + "end"
        lines = self.summary(report, "--most", "2")
        self.assertEqual(sum(line.endswith(")") and "dead" in line for line in lines), 2)
        self.assertEqual(lines[-1], "and 3 questions more: --most shows them")

    def test_the_deepest_tree(self):
        deepest = 1023 * "split NODE Well DEPTH 1\nleaf\nleaf\n" + "leaf\n"
        lines = self.summary(f"report 1\nquestion dead 1\nholds\n{deepest}end\n")
        self.assertIn("   holds: a tree of 3,070 nodes on 1,024 levels, with 2,047 leaves", lines)

    def test_bytes_that_are_no_text(self):
        lines = self.summary(b"report 1\nquestion limit N\xff 0 1\nholds\nleaf\nend\n")
        self.assertEqual(self.status, 0)
        self.assertIn("N\udcff", lines[3])

    def test_the_example(self):
        path = os.path.join(TOP, "examples", "storm-tank")
        self.status, text, said = calls.call(
            TOOL, f"{path}.report", "--model", f"{path}.inp")
        self.assertEqual((self.status, said), (0, ""))
        self.assertIn(": 3 hold, 1 refuted, 0 undecided\n", text)


class Faults(SummaryTest):
    def test_no_report(self):
        self.refuses("", "line 1: a report begins with")
        self.refuses("report 3\nend\n", "line 1: a report begins with")

    def test_no_question(self):
        self.refuses("report 1\nquestion dead 0\nholds\nleaf\nend\n", "line 2: a question")
        self.refuses("report 1\nquestion conflict 1 1 Lead\nholds\nleaf\nend\n", "line 2: a q")
        self.refuses("report 1\nquestion  dead 1\nholds\nleaf\nend\n", "line 2: a question")
        self.refuses("report 1\nquestion limit Lead 0.50 1\nholds\nleaf\nend\n", "line 2: a q")

    def test_no_verdict(self):
        self.refuses("report 1\nquestion dead 1\nleaf\nend\n", "line 3: a verdict")

    def test_a_tree_that_is_cut(self):
        self.refuses("report 1\nquestion dead 1\nholds\nsplit NODE Well DEPTH 1\nleaf\nleaf\nend\n",
                     "line 7: `leaf`, or `split`")

    def test_a_tree_that_is_too_deep(self):
        deep = 1024 * "split NODE Well DEPTH 1\n"
        self.refuses(f"report 1\nquestion dead 1\nholds\n{deep}leaf\nend\n",
                     "line 1028: a tree has at most 1024 levels")

    def test_facts_of_version_1(self):
        self.refuses("report 1\nquestion dead 1\nholds\nleaf\nfact 1 no\nend\n", "line 5: a qu")

    def test_facts_that_do_not_rise(self):
        self.refuses("report 2\nquestion dead 1\nholds\nleaf\nfact 2 no\nfact 2 no\nend\n",
                     "line 6: `fact R yes`")

    def test_no_end(self):
        self.refuses("report 1\nquestion dead 1\nholds\nleaf\n", "line 5: a question or `end`")
        self.refuses("report 1\nend\nend\n", "line 3: nothing stands behind")

    def test_a_line_that_is_too_long(self):
        self.refuses("report 1\n" + 8193 * "x", "line 2: it has over 8192 bytes")

    def test_a_rule_that_the_model_has_not(self):
        self.refuses("report 1\nquestion dead 3\nholds\nleaf\nend\n",
                     "line 2: it names rule 3, and the model has 2 rules",
                     "--model", self.file("the model.inp", MODEL))

    def test_a_file_that_is_not_there(self):
        status, text, said = calls.call(TOOL, os.path.join(self.folder, "none"))
        self.assertEqual((status, text), (3, ""))
        self.assertIn("No such file", said)
