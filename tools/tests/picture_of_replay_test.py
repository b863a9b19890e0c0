"""Tests of tools/picture-of-replay, from a folder with blanks in its path."""
import os
import re
import subprocess
import sys
import tempfile
import unittest
from xml.etree import ElementTree

import calls

TOP = os.path.dirname(calls.TOOLS)
TOOL = calls.tool("picture-of-replay")
PATH = calls.path_of("picture-of-replay")
SVG = "{http://www.w3.org/2000/svg}"
TRACE = """moment,NODE Well DEPTH,LINK Sewer FLOW,remark
2001-06-15T19:00,1,0.5,dry
2001-06-15 19:05:00,2,,
06/15/2001 19:10:00,3,0.25,

2001-06-15T19:15:00,2,1e-1,wet
"""
SETTINGS = """moment,Lead,Gate
2001-06-15T19:00:00,0,1
2001-06-15T19:05:00,1,1/2
2001-06-15T19:10:00,1,1/4
2001-06-15T19:15:00,0,0
"""


def points_of(path):
    """The points of a path, with the coordinates that H and V leave as they are."""
    points, x, y = [], None, None
    for letter, numbers in re.findall("([MLHV])([^MLHVZ]*)", path):
        numbers = [float(number) for number in numbers.split()]
        x = numbers[0] if letter in "MLH" else x
        y = numbers[-1] if letter in "MLV" else y
        points.append((x, y))
    return points


class PictureTest(unittest.TestCase):
    def setUp(self):
        folder = tempfile.TemporaryDirectory(prefix="a folder with blanks ")
        self.addCleanup(folder.cleanup)
        self.folder = folder.name

    def draw(self, trace=TRACE, settings=SETTINGS, *words):
        """The root of the picture, or nothing where it was refused; what is said in self.said."""
        paths = []
        for name, text in (("the trace.csv", trace), ("the settings.csv", settings)):
            paths.append(os.path.join(self.folder, name))
            with open(paths[-1], "w", encoding="utf-8", newline="") as file:
                file.write(text)
        self.status, self.svg, self.said = calls.call(TOOL, *paths, *words)
        if self.status:
            self.assertEqual(self.svg, "")
            return None
        self.check_inside(ElementTree.fromstring(self.svg))
        return ElementTree.fromstring(self.svg)

    def check_inside(self, root):
        """All points of paths that have both coordinates in view lie in the picture."""
        width, height = float(root.get("width")), float(root.get("height"))
        for path in root.iter(f"{SVG}path"):
            if "v" not in path.get("d"):
                for x, y in points_of(path.get("d")):
                    self.assertTrue(0 <= x <= width and 0 <= y <= height, path.get("d"))

    def refuses(self, saying, trace=TRACE, settings=SETTINGS, *words):
        self.assertIsNone(self.draw(trace, settings, *words))
        self.assertEqual(self.status, 1, self.said)
        self.assertIn(f"error: {saying}", self.said)

    def texts(self, root):
        return ["".join(text.itertext()) for text in root.iter(f"{SVG}text")]

    def lines(self, root):
        """The lines of recorded values."""
        return [points_of(path.get("d")) for path in root.iter(f"{SVG}path")
                if path.get("stroke-linejoin")]

    def steps(self, root):
        """The steps of settings."""
        return [points_of(path.get("d")) for path in root.iter(f"{SVG}path")
                if path.get("class") == "steps"]

    def marks(self, root):
        """How many marks of missing values there are."""
        return [len(re.findall("M", path.get("d"))) for path in root.iter(f"{SVG}path")
                if "v6" in path.get("d")]


class DrawingTest(PictureTest):
    def test_panels_strips_axis_and_legend(self):
        texts = self.texts(self.draw(TRACE, SETTINGS, "--unit", "depth=m", "--title", "A <&> B"))
        for text in ["A <&> B", "NODE Well DEPTH", "LINK Sewer FLOW", "DEPTH (m)", "FLOW",
                     "19:00", "19:10", "2001-06-15", "value missing"]:
            self.assertIn(text, texts)
        self.assertIn("LeadLead", texts)  # the name, and the same as a tooltip
        self.assertNotIn("remark", texts)

    def test_a_line_goes_through_its_values_in_scale(self):
        depth, _ = self.lines(self.draw())
        (x0, y1), (x1, y2), (x2, y3), (x3, y2_again) = depth
        self.assertAlmostEqual(x1 - x0, x2 - x1, delta=0.2)
        self.assertAlmostEqual(x3 - x2, x2 - x1, delta=0.2)
        self.assertAlmostEqual(y1 - y2, y2 - y3, delta=0.2)
        self.assertTrue(y1 > y2 > y3 and y2 == y2_again)

    def test_missing_values_are_gaps_with_marks(self):
        root = self.draw()
        self.assertEqual(self.marks(root), [1])
        # FLOW: a point, a gap, and two points
        self.assertEqual(len(list(root.iter(f"{SVG}circle"))), 1)
        whole = TRACE.replace("2,,", "2,0.1,")
        root = self.draw(whole)
        self.assertEqual(([len(line) for line in self.lines(root)], self.marks(root)), ([4, 4], []))
        self.assertNotIn("value missing", self.texts(root))

    def test_a_setting_holds_until_the_next_row(self):
        lead, gate = self.steps(self.draw())
        self.assertEqual([round(y - lead[0][1]) for _, y in lead], [0, 0, -34, -34, 0, 0])
        self.assertEqual([lead[1][0], lead[3][0]], [lead[2][0], lead[4][0]])
        self.assertEqual([round(y - gate[0][1], 1) for _, y in gate],
                         [0, 0, 17, 17, 25.5, 25.5, 34, 34])
        self.assertGreater(lead[-1][0], lead[4][0])  # the last setting shows

    def test_a_speed_above_1_has_its_own_scale(self):
        root = self.draw(TRACE, SETTINGS.replace("05:00,1,", "05:00,2.5,"))
        lead, gate = self.steps(root)
        self.assertEqual([round(y - lead[0][1], 1) for _, y in lead][2:5], [-34, -34, -13.6])
        self.assertIn("2.5", self.texts(root))

    def test_a_single_row(self):
        rows = TRACE.splitlines()[0] + "\n2001-06-15T19:00:00,1,,x\n"
        root = self.draw(rows, "moment,Lead\n2001-06-15T19:00:00,1\n")
        self.assertEqual(len(list(root.iter(f"{SVG}circle"))), 1)
        self.assertEqual(len(self.steps(root)), 1)
        for moment in ("0001-01-01T00:00:00", "9999-12-31T23:59:59"):
            self.assertTrue(self.draw(f"moment,NODE A DEPTH\n{moment},1\n",
                                      f"moment,P\n{moment},0\n"))

    def test_values_that_are_all_the_same_or_all_missing(self):
        for values in ("0,0", "5,5", "-5,-5", ",", "1000000000000000000,1000000000000000001",
                       "0.000000000000000001,0.000000000000000002", "-9e18,9e18"):
            first, second = values.split(",")
            self.assertTrue(self.draw(
                f"moment,NODE A DEPTH\n2001-01-01T00:00,{first}\n2001-01-02T00:00,{second}\n",
                "moment,P\n2001-01-01T00:00:00,0\n2001-01-02T00:00:00,0\n"), values)

    def test_periods_of_any_length_have_a_few_marks(self):
        for last in ("2001-01-01T00:00:01", "2001-01-01T00:00:50", "2001-01-01T00:40:00",
                     "2001-01-01T09:00:00", "2001-01-02T12:00:00", "2001-01-09T00:00:00",
                     "2001-03-01T00:00:00", "2006-01-01T00:00:00", "9999-12-31T23:59:59"):
            texts = self.texts(self.draw(f"moment,NODE A DEPTH\n2001-01-01T00:00,0\n{last},1\n",
                                         f"moment,P\n2001-01-01T00:00:00,0\n{last},0\n"))
            times = [text for text in texts if re.fullmatch(r"\d\d:\d\d(:\d\d)?|\d{4}-\d\d-\d\d",
                                                            text)]
            self.assertTrue(2 <= len(times) <= 24, (last, times))

    def test_names_of_any_kind(self):
        name = 'NODE A<b>&"c",\u00e4 DEPTH'
        quoted = '"' + name.replace('"', '""') + '"'
        root = self.draw(f"moment,{quoted}\n2001-01-01T00:00,1\n2001-01-01T00:05,2\n",
                         'moment,"P,<1>"\n2001-01-01T00:00:00,1\n2001-01-01T00:05:00,1\n')
        self.assertIn(name, self.texts(root))
        self.assertIn("P,<1>P,<1>", self.texts(root))

    def test_a_replay_that_stopped(self):
        root = self.draw(TRACE, "\n".join(SETTINGS.split("\n")[:3]) + "\n")
        self.assertIn("the settings end after row 2 of 4", self.said)
        self.assertIn("the replay stopped", self.texts(root))
        lead, _ = self.steps(root)
        depth, _ = self.lines(root)
        self.assertEqual(lead[-1][0], depth[1][0])
        self.assertIn("the replay stopped", self.texts(self.draw(TRACE, "moment,Lead\n")))

    def test_no_rule_acts_on_a_link(self):
        moments = "".join(line.split(",")[0] + "\n" for line in SETTINGS.split("\n") if line)
        root = self.draw(TRACE, moments)
        self.assertEqual(self.steps(root), [])
        self.assertNotIn("settings", self.texts(root))


class LongTest(PictureTest):
    def long(self, rows, value):
        moments = [f"2001-{1 + row // 43200:02}-{1 + row // 1440 % 30:02}"
                   f"T{row // 60 % 24:02}:{row % 60:02}:00" for row in range(rows)]
        trace = "moment,NODE A DEPTH\n" + "".join(
            f"{moment},{value(row)}\n" for row, moment in enumerate(moments))
        settings = "moment,P\n" + "".join(
            f"{moment},{row // 3 % 2}\n" for row, moment in enumerate(moments))
        return self.draw(trace, settings)

    def test_each_pixel_keeps_its_least_and_greatest_value(self):
        root = self.long(40000, lambda row: {20011: 9, 20012: -9}.get(row, row % 7 / 10))
        line, = self.lines(root)
        self.assertLess(len(self.svg), 200000)
        self.assertEqual(line, sorted(line, key=lambda point: point[0]))
        heights = sorted(y for _, y in line)
        self.assertGreater(heights[1] - heights[0], 50)  # the peak stands alone
        self.assertGreater(heights[-1] - heights[-2], 50)
        peak = min(line, key=lambda point: point[1])[0]
        self.assertAlmostEqual((peak - line[0][0]) / (line[-1][0] - line[0][0]), 0.5, delta=0.01)

    def test_missing_values_of_a_long_trace(self):
        root = self.long(40000, lambda row: "" if row % 2 or 20000 < row < 24000 else 1)
        self.assertEqual(len(self.lines(root)), 2)
        self.assertLess(len(self.svg), 200000)


class ChoiceTest(PictureTest):
    WIDE = ("moment," + ",".join(f"NODE N{at} DEPTH" for at in range(12)) + "\n"
            "2001-01-01T00:00," + ",".join(map(str, range(12))) + "\n"
            "2001-01-01T01:00," + ",".join(map(str, range(12))) + "\n")
    MANY = ("moment," + ",".join(f"P{at}" for at in range(20)) + "\n"
            "2001-01-01T00:00:00" + ",1" * 20 + "\n2001-01-01T01:00:00" + ",0" * 20 + "\n")

    def test_the_first_ones_are_drawn_and_the_rest_is_told(self):
        root = self.draw(self.WIDE, self.MANY)
        self.assertEqual((len(self.lines(root)), len(self.steps(root))), (8, 16))
        self.assertIn("4 of 12 columns are not drawn", self.said)
        self.assertIn("4 of 20 links are not drawn", self.said)

    def test_choice_by_name_and_by_pattern(self):
        root = self.draw(self.WIDE, self.MANY, "--column", "NODE N11 DEPTH", "--column",
                         "NODE N? DEPTH", "--link", "P7", "--link", "P1*")
        self.assertEqual((len(self.lines(root)), len(self.steps(root)), self.said), (11, 12, ""))
        root = self.draw(TRACE.replace(",dry", ",1").replace(",wet", ",2"), SETTINGS,
                         "--column", "remark")
        self.assertIn("remark", self.texts(root))

    def test_what_is_not_there(self):
        self.refuses("no column is called NODE X DEPTH; there are NODE Well DEPTH, LINK", TRACE,
                     SETTINGS, "--column", "NODE X DEPTH")
        self.refuses("no link is called Z*; there are Lead, Gate", TRACE, SETTINGS, "--link", "Z*")

    def test_a_period(self):
        depth, = self.lines(self.draw(TRACE, SETTINGS, "--from", "2001-06-15T19:05", "--to",
                                      "2001-06-15T19:10:00"))
        self.assertEqual(len(depth), 2)
        self.refuses("the trace has no row in this period", TRACE, SETTINGS, "--from",
                     "2002-01-01T00:00")

    def test_usage(self):
        for words in (["--width", "12"], ["--width", "x"], ["--from", "today"], ["--unit", "m"],
                      ["--what"]):
            self.assertIsNone(self.draw(TRACE, SETTINGS, *words))
            self.assertEqual(self.status, 2)
        self.assertEqual(self.draw(TRACE, SETTINGS, "--width", "1200").get("width"), "1200")


class FaultTest(PictureTest):
    def test_files_that_do_not_belong_together(self):
        self.refuses("row 3 is of 2001-06-15T19:10:00 in the trace and of 2001-06-15T19:11:00",
                     TRACE, SETTINGS.replace("19:10", "19:11"))
        self.refuses("the settings have columns of a trace", SETTINGS, TRACE)
        self.refuses("the settings have more rows than the trace", TRACE,
                     SETTINGS + "2001-06-15T19:20:00,0,0\n")

    def test_faults_of_lines(self):
        self.refuses("trace: the first column is not called moment", "a,b\n")
        self.refuses("settings: the first column is not called moment", TRACE, "")
        self.refuses("trace line 3: 3 fields where the header has 4", TRACE.replace("2,,", "2,"))
        self.refuses("trace line 4: 06/31/2001 19:10:00 is no moment",
                     TRACE.replace("06/15/", "06/31/"))
        self.refuses("trace line 6: 2001-06-15T19:10:00 is not later than the row before",
                     TRACE.replace("19:15", "19:10"))
        for value in ("x", "nan", "inf", "1/0", "1e400"):
            self.refuses(f"settings line 4: {value} is no number", TRACE,
                         SETTINGS.replace("1/4", value))
        self.refuses("trace line 3: field larger", TRACE.replace("2,,", "2," + "x" * 200000 + ","))

    def test_files_that_are_not_there_and_output_that_takes_nothing(self):
        run = subprocess.run([sys.executable, PATH, "absent", "absent"], stderr=subprocess.PIPE)
        self.assertEqual(run.returncode, 3)
        self.assertEqual(run.stderr, b"error: No such file or directory: absent\n")
        if os.path.exists("/dev/full"):
            self.draw()
            with open("/dev/full", "w") as full:
                run = subprocess.run([sys.executable, PATH, "the trace.csv", "the settings.csv"],
                                     cwd=self.folder, stdout=full, stderr=subprocess.PIPE)
            self.assertEqual(run.returncode, 3)
            self.assertIn(b"error: No space left on device: standard output", run.stderr)


class ExampleTest(PictureTest):
    def test_the_picture_of_the_documents_is_that_of_the_example(self):
        run = subprocess.run(
            [sys.executable, PATH, "examples/storm-tank.csv", "examples/storm-tank.out",
             "--unit", "DEPTH=m", "--title",
             "Storm tank: recorded depths, and settings by the rules"],
            cwd=TOP, stdout=subprocess.PIPE)
        with open(os.path.join(TOP, "docs", "storm-tank.svg"), "rb") as file:
            self.assertEqual(run.stdout, file.read())


if __name__ == "__main__":
    unittest.main()
