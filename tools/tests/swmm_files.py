"""Writes small models, results files and reports in the layouts of SWMM 5, for the tests."""
import datetime
import struct

MAGIC = 516114522
EPOCH = datetime.datetime(1899, 12, 30)


def whole(*numbers):
    return struct.pack(f"<{len(numbers)}i", *numbers)


def real(*numbers):
    return struct.pack(f"<{len(numbers)}f", *numbers)


def names(texts):
    return b"".join(whole(len(text)) + text for text in texts)


def properties(codes, rows):
    """Codes of properties, and the properties of each object: a whole number, then others."""
    return whole(len(codes), *codes) + b"".join(
        whole(row[0]) + real(*row[1:]) if len(codes) > 1 else real(*row) for row in rows)


class Results:
    """A binary results file of a run: two subcatchments, three nodes, four links and one
    pollutant. Each value differs from every other one, so that a wrong place shows."""

    def __init__(self, start=datetime.datetime(2001, 6, 15, 19), step=300, periods=4):
        self.subcatchments = [b"S1", b"S2"]
        self.nodes = [b"Inlet", b"WetWell", b"Tank"]
        self.links = [b"Sewer", b"Lead", b"Lag", b"TankGate"]
        self.start, self.step, self.periods, self.units, self.error = start, step, periods, 4, 0
        self.variables = [list(range(9)), list(range(7)), list(range(6)), list(range(15))]
        self.changed = {}  # values by period from 0, kind (0 to 3), object and variable from 0

    def value(self, period, kind, item, variable):
        usual = 1000 * kind + 100 * item + 10 * variable + period / 8
        return self.changed.get((period, kind, item, variable), usual)

    def moment(self, period):
        return self.start + datetime.timedelta(seconds=self.step * (period + 1))

    def record(self, period):
        days = (self.moment(period) - EPOCH) / datetime.timedelta(days=1)
        counts = [len(self.subcatchments), len(self.nodes), len(self.links), 1]
        return struct.pack("<d", days) + b"".join(
            real(self.value(period, kind, item, variable))
            for kind, count in enumerate(counts) for item in range(count)
            for variable in range(len(self.variables[kind])))

    def bytes(self):
        counts = [len(self.subcatchments), len(self.nodes), len(self.links), 1]
        text = whole(MAGIC, 52004, self.units, *counts)
        names_at = len(text)
        text += names(self.subcatchments + self.nodes + self.links + [b"TSS"]) + whole(0)
        properties_at = len(text)
        text += properties([1], [(5.0,)] * counts[0])
        text += properties([0, 2, 3], [(0, 7.5 + at, 6.25 + at) for at in range(counts[1])])
        text += properties([0, 4, 4, 3, 5],
                           [(0, 0.5, 0.25, 0.75 + at, 84.5 + at) for at in range(counts[2])])
        text += b"".join(whole(len(codes), *codes) for codes in self.variables)
        text += struct.pack("<di", (self.start - EPOCH) / datetime.timedelta(days=1), self.step)
        results_at = len(text)
        text += b"".join(map(self.record, range(self.periods)))
        return text + whole(names_at, properties_at, results_at, self.periods, self.error, MAGIC)


def report(tables, rows=4, units=("LPS", "meters"), dates="{:%m/%d/%Y}", closed=True):
    """A report with the tables, each a kind, a name and a function from a row's place, from 0,
    to its four values as texts."""
    flow, length = units
    speed = "ft/sec" if length == "feet" else "m/sec"
    headings = {"Node": (["Inflow", "Flooding", "Depth", "Head"], [flow, flow, length, length]),
                "Link": (["Flow", "Velocity", "Depth", "Capacity/"],
                         [flow, speed, length, "Setting"])}
    start = datetime.datetime(2001, 6, 15, 19)
    lines = ["", "  EPA STORM WATER MANAGEMENT MODEL - VERSION 5.2 (Build 5.2.4)", "",
             "  ******************", "  Node Depth Summary", "  ******************", "",
             "  WetWell              STORAGE     1.23    4.56   12.06     0  20:14        4.55"]
    kind_before = None
    for kind, name, values in tables:
        if kind != kind_before:
            lines += ["", "  ************", f"  {kind} Results", "  ************", "  "]
        kind_before = kind
        words, below = headings[kind]
        dashes = "  " + "-" * 75
        lines += ["", f"  <<< {kind} {name} >>>", dashes]
        lines += [" " * 24 + "".join(f"{word:>10}" for word in words),
                  "  Date        Time         " + " ".join(f"{word:>9}" for word in below), dashes]
        for row in range(rows):
            moment = start + datetime.timedelta(seconds=300 * (row + 1))
            lines.append(f"  {dates.format(moment).upper():>11} {moment:%H:%M:%S}  "
                         + " ".join(f"{value:>9}" for value in values(row)))
        lines.append("")
    if closed:
        lines += ["", "  Analysis begun on:  Fri Jun 15 12:00:00 2001",
                  "  Analysis ended on:  Fri Jun 15 12:00:01 2001",
                  "  Total elapsed time: 00:00:01"]
    return "\n".join(lines) + "\n"


MODEL = """[OPTIONS]
FLOW_UNITS           LPS
START_DATE           06/15/2001
START_TIME           19:00:00
ROUTING_STEP         0:05:00

[JUNCTIONS]
Inlet            12.40      6.00

[STORAGE]
WetWell          7.50     6.00
Tank             9.80     4.50

[CONDUITS]
Sewer            Inlet            WetWell          84.0

[PUMPS]
Lead             WetWell          Works            Duty             OFF
Lag              WetWell          Works            Duty             OFF

[ORIFICES]
TankGate         Tank             WetWell          SIDE

[CONTROLS]
{controls}
[REPORT]
NODES ALL
LINKS ALL
"""
