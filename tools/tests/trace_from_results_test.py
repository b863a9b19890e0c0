"""Tests of tools/trace-from-results, from a folder with blanks in its path."""
import csv
import datetime
import io
import os
import random
import struct
import subprocess
import sys
import tempfile
import unittest

import calls
import swmm_files

TOOL = calls.tool("trace-from-results")
USUAL = """VARIABLE Well = NODE WetWell DEPTH
RULE LeadOn
IF Well > 1.8
AND LINK Sewer FLOW > 20
THEN PUMP Lead STATUS = ON
"""


class TraceTest(unittest.TestCase):
    def setUp(self):
        folder = tempfile.TemporaryDirectory(prefix="a folder with blanks ")
        self.addCleanup(folder.cleanup)
        self.folder = folder.name

    def file(self, name, content):
        path = os.path.join(self.folder, name)
        with open(path, "wb") as file:
            file.write(content if isinstance(content, bytes)
                       else content.encode("utf-8", "surrogateescape"))
        return path

    def run_tool(self, results, controls=USUAL, words=(), model=swmm_files.MODEL):
        """The rows of the trace; what the tool says stays in self.said, and its status too."""
        paths = [self.file("the model.inp", model.replace("{controls}", controls)),
                 self.file("the results", results)]
        self.status, self.text, self.said = calls.call(TOOL, *paths, *words)
        return list(csv.reader(io.StringIO(self.text, newline="")))

    def column(self, key, results=None):
        """The values of the only key that the rules read."""
        rows = self.run_tool(results or swmm_files.Results().bytes(),
                             f"RULE R\nIF {key} > 1\nTHEN PUMP Lead STATUS = ON\n")
        self.assertEqual(self.status, 0, self.said)
        return rows[0][1:], [row[1] for row in rows[1:]]

    def refuses(self, results, saying, **more):
        self.run_tool(results, **more)
        self.assertEqual((self.status, self.text), (1, ""), self.said)
        self.assertIn(saying, self.said)
        self.assertTrue(self.said.startswith("error: ") or "\nerror: " in self.said)


def well_and_sewer():
    """Tables of a report, with a node and a link that no rule reads before those that are read."""
    return [("Node", "Inlet", lambda row: ["0.000", "0.000", "9.999", "22.399"]),
            ("Node", "WetWell", lambda row: [f"{row}.100", "0.000", f"{row}.250", f"{row}.750"]),
            ("Link", "Lead", lambda row: ["1.000", "2.000", "3.000", "1.000"]),
            ("Link", "Sewer", lambda row: [f"-{row}.031", "0.500", "0.400", "0.444"])]


class BinaryTest(TraceTest):
    def test_a_trace_has_the_keys_that_rules_read_and_the_moments_of_the_periods(self):
        rows = self.run_tool(swmm_files.Results().bytes())
        self.assertEqual(self.status, 0, self.said)
        self.assertEqual(rows, [
            ["moment", "NODE WetWell DEPTH", "LINK Sewer FLOW"],
            ["2001-06-15T19:05:00", "1100", "2000"],
            ["2001-06-15T19:10:00", "1100.125", "2000.125"],
            ["2001-06-15T19:15:00", "1100.25", "2000.25"],
            ["2001-06-15T19:20:00", "1100.375", "2000.375"]])

    def test_each_attribute_is_taken_from_its_place(self):
        for key, first in [
                ("NODE Inlet DEPTH", "1000"), ("NODE Tank DEPTH", "1200"),
                ("NODE WetWell HEAD", "1110"), ("NODE WetWell VOLUME", "1120"),
                ("NODE WetWell INFLOW", "1140"), ("NODE Tank MAXDEPTH", "8.25"),
                ("NODE Inlet FULLDEPTH", "6.25"), ("LINK Lag FLOW", "2200"),
                ("LINK TankGate DEPTH", "2310"), ("LINK Sewer VELOCITY", "2020"),
                ("LINK Sewer LENGTH", "84.5"), ("LINK Lead FULLDEPTH", "1.75")]:
            names, values = self.column(key)
            self.assertEqual((names, values[0], len(values)), ([key], first, 4))

    def test_variables_are_found_by_their_codes(self):
        results = swmm_files.Results()
        results.variables[1] = [6, 5, 4, 3, 2, 1, 0]
        self.assertEqual(self.column("NODE WetWell DEPTH", results.bytes())[1][0], "1160")

    def test_numbers_are_the_shortest_that_give_the_same_32_bits(self):
        results = swmm_files.Results(periods=9)
        texts = ["0.1", "2.6", "0.000123", "16777216", "3.1415927", "-0.05", "1.2345679",
                 "1000000000000", "0.33333334"]
        for period, text in enumerate(texts):
            results.changed[period, 1, 1, 0] = float(text)
        self.assertEqual(self.column("NODE WetWell DEPTH", results.bytes())[1], texts)

    def test_numbers_of_all_sizes_are_read_back_and_no_shorter_one_is(self):
        numbers = random.Random(1)
        for _ in range(3000):
            value, = struct.unpack("<f", struct.pack("<f", numbers.choice([-1, 1]) * 10 **
                                                     numbers.uniform(-9, 18)))
            text = TOOL.shortest(value)
            self.assertEqual(struct.pack("<f", float(text)), struct.pack("<f", value))
            self.assertNotIn("e", text)
            digits = len(text.replace(".", "").strip("-0"))
            if digits > 1:
                shorter = float(f"{value:.{digits - 1}g}")
                self.assertNotEqual(struct.pack("<f", shorter), struct.pack("<f", value), text)

    def test_what_no_trace_can_hold_is_missing_or_rounded_to_18_decimals(self):
        results = swmm_files.Results(periods=6)
        values = [float("nan"), float("inf"), 1e30, 1.2345678e-12, 1e-30, -0.0]
        for period, value in enumerate(values):
            results.changed[period, 1, 1, 0] = value
        self.assertEqual(self.column("NODE WetWell DEPTH", results.bytes())[1],
                         ["", "", "", "0.000000000001234568", "0", "0"])
        self.assertIn("3\n", self.said)

    def test_moments_are_whole_seconds_across_midnight(self):
        results = swmm_files.Results(start=datetime.datetime(2000, 2, 28, 23, 59, 19), step=20)
        rows = self.run_tool(results.bytes())
        self.assertEqual([row[0] for row in rows[1:]], [
            "2000-02-28T23:59:39", "2000-02-28T23:59:59", "2000-02-29T00:00:19",
            "2000-02-29T00:00:39"])

    def test_the_settings_that_swmm_had(self):
        controls = ("RULE R\nIF NODE Tank DEPTH > 1\nTHEN ORIFICE TankGate SETTING = 1\n"
                    "AND PUMP Lead STATUS = ON\n")
        rows = self.run_tool(swmm_files.Results().bytes(), controls, ["--settings"])
        self.assertEqual(rows[:2], [["moment", "Lead", "TankGate"],
                                    ["2001-06-15T19:05:00", "2140", "2340"]])

    def test_a_conduit_has_no_setting(self):
        controls = "RULE R\nIF NODE Tank DEPTH > 1\nTHEN CONDUIT Sewer STATUS = OFF\n"
        self.refuses(swmm_files.Results().bytes(), "Sewer SETTING", controls=controls,
                     words=["--settings"])

    def test_columns_that_are_not_there(self):
        controls = ("RULE R\nIF NODE Tank DEPTH > 1\nAND GAGE G1 INTENSITY > 2\n"
                    "AND LINK Sewer SLOPE > 0\nTHEN PUMP Lead STATUS = ON\n")
        model = "[RAINGAGES]\nG1\n" + swmm_files.MODEL
        whole = swmm_files.Results().bytes()
        self.refuses(whole, "GAGE G1 INTENSITY, LINK Sewer SLOPE", controls=controls, model=model)
        rows = self.run_tool(whole, controls, ["--leave-empty"], model)
        self.assertEqual((self.status, rows[1]), (0, ["2001-06-15T19:05:00", "1200", "", ""]))
        self.assertIn("note: GAGE G1 INTENSITY is not in the results", self.said)

    def test_an_object_that_was_not_reported(self):
        results = swmm_files.Results()
        results.nodes.remove(b"WetWell")
        self.refuses(results.bytes(), "do not have NODE WetWell DEPTH")

    def test_units_are_told_and_compared(self):
        results = swmm_files.Results()
        self.run_tool(results.bytes())
        self.assertRegex(self.said, r"NODE WetWell DEPTH +m +1100 +1100.375 +0\n")
        self.assertRegex(self.said, r"LINK Sewer FLOW +LPS +2000 +2000.375 +0\n")
        results.units = 0
        self.refuses(results.bytes(), "the results are in CFS and the model in LPS")

    def test_damaged_files(self):
        whole = swmm_files.Results().bytes()
        places = struct.unpack_from("<6i", whole, len(whole) - 24)

        def changed(at, number):
            return whole[:at] + struct.pack("<i", number) + whole[at + 4:]

        self.refuses(changed(0, 516114521), "neither a report nor a binary results file")
        self.refuses(changed(8, 6), "6 is no code of flow units")
        self.refuses(changed(16, -1), "below 0")
        self.refuses(changed(16, 2), "results: ")
        self.refuses(changed(16, 2 ** 31 - 1), "results: ")
        self.refuses(changed(24, 2), "results: ")
        self.refuses(changed(places[0], -5), "results: ")
        self.refuses(changed(places[0], 2 ** 30), "goes past the end of the file")
        self.refuses(changed(places[1], 2), "2 properties of an object where 1 are known")
        self.refuses(changed(len(whole) - 24, 29), "the names begin at byte 28, but")
        self.refuses(changed(len(whole) - 20, places[1] + 4), "the properties begin at byte")
        self.refuses(changed(len(whole) - 16, places[2] - 1), "the results begin at byte")
        for periods in (0, 3, 5, -1):
            self.refuses(changed(len(whole) - 12, periods), f"tells of {periods} periods")
        self.refuses(changed(len(whole) - 8, 317), "the run ended with SWMM's error 317")
        self.refuses(changed(len(whole) - 4, 0), "the run did not end")

    def test_dates_that_are_none_or_fall(self):
        whole = swmm_files.Results().bytes()
        start = struct.unpack_from("<6i", whole, len(whole) - 24)[2]
        for day in (float("nan"), float("inf"), -1e6, 1e9):
            self.refuses(whole[:start] + struct.pack("<d", day) + whole[start + 8:],
                         "period 1 has no date")
        self.refuses(whole[:start] + struct.pack("<d", 37058) + whole[start + 8:], "comes after")

    def test_a_file_that_is_cut_anywhere_is_refused(self):
        whole = swmm_files.Results(periods=1).bytes()
        for size in [0, 1, 4, 27, 28, 51, 52, 53, *range(60, len(whole), 149), len(whole) - 1]:
            self.refuses(whole[:size], "results: " if size > 3 else "error: ")
        self.refuses(whole + b"\0", "results: ")


class ReportTest(TraceTest):
    def test_a_trace_of_several_tables(self):
        rows = self.run_tool(swmm_files.report(well_and_sewer()))
        self.assertEqual(self.status, 0, self.said)
        self.assertEqual(rows, [["moment", "NODE WetWell DEPTH", "LINK Sewer FLOW"],
                                ["2001-06-15T19:05:00", "0.250", "-0.031"],
                                ["2001-06-15T19:10:00", "1.250", "-1.031"],
                                ["2001-06-15T19:15:00", "2.250", "-2.031"],
                                ["2001-06-15T19:20:00", "3.250", "-3.031"]])

    def test_each_attribute_is_taken_from_its_column(self):
        for key, last in [("NODE WetWell INFLOW", "3.100"), ("NODE WetWell HEAD", "3.750"),
                          ("LINK Sewer VELOCITY", "0.500"), ("LINK Sewer DEPTH", "0.400")]:
            text = swmm_files.report(well_and_sewer())
            self.assertEqual(self.column(key, text), ([key], self.column(key, text)[1]))
            self.assertEqual(self.column(key, text)[1][-1], last)

    def test_months_in_letters_and_line_ends_of_windows(self):
        text = swmm_files.report(well_and_sewer(), dates="{:%b-%d-%Y}").replace("\n", "\r\n")
        self.assertIn("JUN-15-2001", text)
        rows = self.run_tool(text)
        self.assertEqual(rows[1], ["2001-06-15T19:05:00", "0.250", "-0.031"])

    def test_pollutants_and_wide_values(self):
        text = swmm_files.report([("Node", "WetWell", lambda row: [
            "123456789.125", "0.000", "1.500", "9.000"])])
        text = text.replace("Head\n", "Head       TSS\n").replace("meters\n", "meters      MG/L\n")
        text = text.replace("9.000\n", "9.000    12.000\n")
        self.assertEqual(self.column("NODE WetWell INFLOW", text)[1][0], "123456789.125")
        text = text.replace("Head       TSS", "HeadTotalSolids")
        self.assertEqual(self.column("NODE WetWell HEAD", text)[1][0], "9.000")

    def test_the_settings_that_swmm_had(self):
        rows = self.run_tool(swmm_files.report(well_and_sewer()), words=["--settings"])
        self.assertEqual(rows[:2], [["moment", "Lead"], ["2001-06-15T19:05:00", "1.000"]])

    def test_what_is_no_number_is_missing(self):
        text = swmm_files.report([("Node", "WetWell", lambda row: [
            "0.000", "0.000", ["1.500", "nan", "-1.#IND", "inf"][row], "9.000"])])
        self.assertEqual(self.column("NODE WetWell DEPTH", text)[1], ["1.500", "", "", ""])

    def test_what_a_report_does_not_have(self):
        text = swmm_files.report(well_and_sewer())
        for key in ("NODE WetWell VOLUME", "LINK Sewer LENGTH", "NODE Tank DEPTH"):
            controls = f"RULE R\nIF {key} > 1\nTHEN PUMP Lead STATUS = ON\n"
            self.refuses(text, f"the results do not have {key}", controls=controls)
        self.refuses("  EPA STORM WATER MANAGEMENT MODEL\n", "NODES ALL and LINKS ALL")
        self.refuses("", "neither a report nor")

    def test_units_of_the_heading_are_compared(self):
        self.refuses(swmm_files.report(well_and_sewer(), units=("CFS", "feet")),
                     "the results are in CFS and the model in LPS")

    def test_damaged_reports(self):
        whole = swmm_files.report(well_and_sewer())
        first = whole.index("9.999")
        well = whole.index("1.250")
        number = whole[:well].count("\n") + 1
        for new, saying in [("1.2x0", f"report line {number}: 1.2x0 is no number"),
                            ("     ", f"report line {number}: 3 values where the heading has 4")]:
            self.refuses(whole[:well] + new + whole[well + 5:], saying)
        self.refuses(whole[:first] + whole[first + 5:], "3 values")
        self.refuses(whole.replace("06/15/2001 19:10", "06/31/2001 19:10"), "no date and time")
        self.refuses(whole.replace("19:10:00", "19:60:00"), "no date and time")
        self.refuses(whole.replace("19:10:00", "19:05:00"), "comes after")
        for before, after in (("Depth      Head", "Head      "), ("meters    meters", ""),
                              ("Date", "Day ")):
            self.refuses(whole.replace(before, after), "another heading")
        self.refuses(whole + whole, "a second table of Node Inlet")
        row = whole[:well].rindex("\n") + 1
        self.refuses(whole[:row] + whole[whole.index("\n", row) + 1:], "other moments")
        self.refuses(whole[:row].replace("\n\n", "\n", 99) + "\n", "report")

    def test_reports_that_are_cut(self):
        whole = swmm_files.report(well_and_sewer())
        last = whole.index("-2.031")
        line = whole[:last].count("\n") + 1
        self.refuses(whole[:last + 4], f"report line {line}: the report is cut")
        self.refuses(whole[:whole.index("\n", last) + 1], "has 3 rows, and the first table 4")
        self.refuses(whole[:whole.index("<<< Link Sewer")], "do not have LINK Sewer FLOW")
        self.refuses(whole[:whole.index("<<< Link Sewer") + 19], "another heading")
        self.refuses(whole[:whole.index("9.999") - 30], "report")
        self.run_tool(swmm_files.report(well_and_sewer(), closed=False))
        self.assertIn("note: the report has no line 'Analysis begun on'", self.said)
        self.run_tool(whole)
        self.assertNotIn("note: the report", self.said)


class ModelTest(TraceTest):
    def keys(self, controls, model=swmm_files.MODEL):
        rows = self.run_tool(swmm_files.Results().bytes(), controls, ["--leave-empty"], model)
        self.assertEqual(self.status, 0, self.said)
        return rows[0][1:]

    def test_both_sides_and_names_that_are_used(self):
        self.assertEqual(self.keys("""
VARIABLE Well = NODE WetWell DEPTH
VARIABLE Unused = NODE Inlet HEAD
VARIABLE Store = NODE Tank DEPTH ; a comment
VARIABLE In = LINK Sewer FLOW
EXPRESSION Spare = abs(4.1 - store) * 2e3
EXPRESSION Never = Unused + 1
rule R ; IF NODE Inlet VOLUME > 1
if Spare > 1
and NODE Inlet DEPTH < WELL
OR SIMULATION CLOCKTIME > 1:00
AND PUMP Lag TIMEOPEN > 0:10
AND PUMP Lead STATUS = ON
THEN PUMP Lead SETTING = CURVE In
AND PUMP Lag SETTING = 0.5
ELSE ORIFICE TankGate SETTING = PID 1 0 0
PRIORITY 3
RULE S
IF Well >= NODE Tank HEAD
THEN PUMP Lead STATUS = OFF
"""), ["NODE Tank DEPTH", "NODE Inlet DEPTH", "NODE WetWell DEPTH", "NODE Tank HEAD"])

    def test_one_column_for_a_key_that_is_written_in_several_ways(self):
        self.assertEqual(self.keys("RULE R\nIF CONDUIT sewer Flow > 1\nAND LINK SEWER FLOW < 2\n"
                                   "AND link Sewer flow > 0\nTHEN PUMP Lead STATUS = ON\n"),
                         ["LINK Sewer FLOW"])

    def test_names_that_differ_only_in_case(self):
        model = swmm_files.MODEL.replace("[PUMPS]", "[JUNCTIONS]\nTANK\n[PUMPS]")
        results = swmm_files.Results()
        results.nodes.append(b"TANK")
        rows = self.run_tool(results.bytes(), "RULE R\nIF NODE TANK DEPTH > NODE Tank DEPTH\n"
                             "THEN PUMP Lead STATUS = ON\n", model=model)
        self.assertEqual(rows[1], ["2001-06-15T19:05:00", "1300", "1200"])
        self.refuses(results.bytes(), "no node tank", model=model,
                     controls="RULE R\nIF NODE tank DEPTH > 1\nTHEN PUMP Lead STATUS = ON\n")

    def test_names_in_other_letters_in_the_results(self):
        results = swmm_files.Results()
        results.nodes[1] = b"WETWELL"
        self.assertEqual(self.column("NODE WetWell DEPTH", results.bytes())[1][0], "1100")

    def test_names_that_need_quotes_and_names_in_any_bytes(self):
        for name in ('Wet,Well', 'Wet"Well"', "W\u00e4sser", "\u0130stasyon", "W\udce4sser"):
            model = swmm_files.MODEL.replace("WetWell ", name + " ")
            controls = f"RULE R\nIF NODE {name} DEPTH > 1\nTHEN PUMP Lead STATUS = ON\n"
            results = swmm_files.Results()
            results.nodes[1] = name.encode("utf-8", "surrogateescape")
            rows = self.run_tool(results.bytes(), controls, model=model)
            self.assertEqual(rows[:2], [["moment", f"NODE {name} DEPTH"],
                                        ["2001-06-15T19:05:00", "1100"]])
            text = swmm_files.report([("Node", name, lambda row: ["0.000"] * 2 + ["1.500"] * 2)])
            self.assertEqual(self.run_tool(text, controls, model=model)[1][1], "1.500")

    def test_rules_that_read_the_clock_alone(self):
        controls = "RULE R\nIF SIMULATION MONTH > 3\nTHEN PUMP Lead STATUS = ON\n"
        self.assertEqual(self.keys(controls), [])
        self.assertIn("note: the rules of the model read nothing that is recorded", self.said)

    def test_what_check_would_refuse(self):
        whole = swmm_files.Results().bytes()
        self.refuses(whole, "input line 26: there is no node Wetwel",
                     controls="RULE R\nIF NODE Wetwel DEPTH > 1\nTHEN PUMP Lead STATUS = ON\n")
        self.refuses(whole, "input line 26: a condition without a relation",
                     controls="RULE R\nIF NODE Tank DEPTH>1\nTHEN PUMP Lead STATUS = ON\n")

    def test_notes_on_averages_and_on_steps(self):
        whole = swmm_files.Results().bytes()
        self.run_tool(whole)
        self.assertNotIn("note: ", self.said)
        self.run_tool(whole, model=swmm_files.MODEL + "AVERAGES YES\n")
        self.assertIn("note: the model has AVERAGES YES", self.said)
        for step, said in [("0:00:20", "20 s"), ("30", "30 s"), ("0:04", "240 s"), ("x", "20 s")]:
            self.run_tool(whole, model=swmm_files.MODEL.replace("0:05:00", step))
            self.assertIn(f"rows are 300 s apart, and SWMM read the rules every {said}", self.said)


class CommandTest(TraceTest):
    def test_a_call_from_a_shell(self):
        model = self.file("the model.inp", swmm_files.MODEL.replace("{controls}", USUAL))
        results = self.file("the results.out", swmm_files.Results().bytes())
        run = self.call(model, results)
        self.assertEqual(run.returncode, 0, run.stderr)
        self.assertEqual(run.stdout.splitlines()[:2], [
            b"moment,NODE WetWell DEPTH,LINK Sewer FLOW", b"2001-06-15T19:05:00,1100,2000"])
        self.assertNotIn(b"\r", run.stdout)

    def call(self, *words, **more):
        return subprocess.run([sys.executable, calls.path_of("trace-from-results"), *words],
                              stderr=subprocess.PIPE, stdout=more.pop("stdout", subprocess.PIPE))

    def test_usage_and_help(self):
        self.assertEqual(self.call().returncode, 2)
        self.assertEqual(self.call("one").returncode, 2)
        self.assertEqual(self.call("one", "two", "--three").returncode, 2)
        self.assertEqual(self.call("one", "two", "--header").returncode, 2)
        self.assertIn(b"RESULTS", self.call("--help").stdout)

    def test_the_header_alone_for_a_recorder(self):
        model = self.file("model.inp", swmm_files.MODEL.replace("{controls}", USUAL))
        run = self.call(model, "--header")
        self.assertEqual((run.returncode, run.stdout, run.stderr), (
            0, b"moment,NODE WetWell DEPTH,LINK Sewer FLOW\n",
            b"column              unit\nNODE WetWell DEPTH  m\nLINK Sewer FLOW     LPS\n"))

    def test_files_that_are_not_there(self):
        model = self.file("model.inp", swmm_files.MODEL)
        for words in ((model, "absent"), ("absent", model), (model, self.folder)):
            run = self.call(*words)
            self.assertEqual((run.returncode, run.stdout), (3, b""))
            self.assertRegex(run.stderr.decode(), "error: .*: (absent|/)")

    def test_output_that_takes_nothing(self):
        if not os.path.exists("/dev/full"):
            self.skipTest("there is no /dev/full")
        model = self.file("model.inp", swmm_files.MODEL.replace("{controls}", USUAL))
        results = self.file("results.out", swmm_files.Results().bytes())
        with open("/dev/full", "w") as full:
            run = self.call(model, results, stdout=full)
        self.assertEqual(run.returncode, 3)
        self.assertEqual(run.stderr, b"error: No space left on device: standard output\n")


if __name__ == "__main__":
    unittest.main()
