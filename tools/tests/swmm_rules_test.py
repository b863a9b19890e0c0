"""Runs ./swmm-rules on a small repository whose `rt` is a script that notes its calls."""
import os
import re
import shutil
import signal
import subprocess
import tempfile
import time
import unittest
from unittest import mock

import calls

TOP = os.path.dirname(calls.TOOLS)
BUILD = calls.tool("build-program")
CRATES = ("# lowest first\nlow: std\nother: low\nhigh: low\n"
          "swmm_rules_bin: low high\nproject_bin: low\ncheck_bin: low\n")
CHECK = ("check", "a model.inp")
SMALL = (CHECK, ("tables", "a model.inp"), ("replay", "a model.inp", ""))
ONLY = {
    "check_bin": "swmm-rules: it is the program of check; tables and replay build more when they are"
                 " first asked for, and prove, verify and gen the rest\n",
    "project_bin": "swmm-rules: it is the program of check, tables and replay; prove, verify and gen"
                   " build the rest when they are first asked for\n"}
NOT_SMALL = (
    (), ("check",), ("tables",), ("replay",), ("check", "a", "b"), ("tables", "a", "b"),
    ("replay", "a"), ("replay", "a", "b", "c"), ("Check", "a"), ("", "a"), ("check a",), ("a", "check"),
    ("checks", "a"), ("prove", "a", "b"), ("verify", "a", "b", "c"), ("gen", "1"), ("2:check", "a"))
RT = """#!/bin/sh
# crates.txt has: low, other, high and the three programs. Files at the top say how it goes.
echo "$(pwd): $*" >>"$CALLS"
crate=$(basename "$(pwd)")
case $1 in
lib)
    if [ -f "$TOP/slow" ]; then echo $$ >"$CALLS.pid"; sleep 60; fi
    if [ -f "$TOP/waits" ]; then sleep 0.5; fi
    if [ -f "$TOP/killed-$crate" ]; then kill -9 $$; fi
    if [ -f "$TOP/edit" ]; then sleep 0.05; : >"$TOP/crates/low/src/lib.rt"; rm "$TOP/edit"; fi
    (cd ../.. && echo "$crate:" crates/*/src crates/*/out/rlib/stamp) >>"$CALLS.rooms"
    if [ -f "$TOP/fails-$crate" ]; then echo "fn $crate::turned: not proved"; exit 1; fi
    echo "fn $crate::new: proved"
    mkdir -p out/rlib out/incremental
    : >out/rlib/stamp
    if [ -f out/incremental/work ]; then echo "$crate begins with work" >>"$CALLS.rooms"; fi
    : >out/incremental/work ;;
run)
    # the whole tool ends with 2 without words, and with 5 in the tests; the small ones with 8, and with 6 and 9
    case $crate in
    check_bin) usage=8 status=9 ;;
    project_bin) usage=8 status=6 ;;
    *) usage=2 status=5 ;;
    esac
    mkdir -p out
    printf '#!/bin/sh\\npwd\\nprintf "<%%s>" "$@"\\nexit %s\\n' $status >out/$crate
    chmod +x out/$crate
    : >out/$crate.stamp
    if [ -f "$TOP/fails-program" ]; then echo "it does not link"; exit 1; fi
    exit $usage ;;
esac
"""


class ScriptTest(unittest.TestCase):
    def setUp(self):
        self.room = tempfile.mkdtemp(prefix="swmm rules ")
        self.addCleanup(shutil.rmtree, self.room)
        self.top, self.folder = f"{self.room}/a clone", f"{self.room}/my models"
        for folder in (f"{self.top}/tools", f"{self.room}/bin", self.folder):
            os.makedirs(folder)
        for name in ("swmm-rules", "tools/build-program"):
            shutil.copy(f"{TOP}/{name}", f"{self.top}/{name}")
        self.write("crates.txt", CRATES)
        for crate in ("low", "other", "high", "swmm_rules_bin", "project_bin", "check_bin"):
            self.write(f"crates/{crate}/src/lib.rt", "")
        self.write("../bin/rt", RT)
        os.chmod(f"{self.room}/bin/rt", 0o755)

    def write(self, name, text=""):
        path = f"{self.top}/{name}"
        os.makedirs(os.path.dirname(path), exist_ok=True)
        with open(path, "w", encoding="utf-8") as file:
            file.write(text)

    def environment(self, path=None):
        return {**os.environ, "PATH": path or f"{self.room}/bin:{os.environ['PATH']}",
                "CALLS": f"{self.room}/calls", "TOP": self.top}

    def call(self, *words, script=None, path=None):
        return subprocess.run([script or f"{self.top}/swmm-rules", *words], cwd=self.folder,
                              env=self.environment(path), capture_output=True, text=True)

    def calls(self, name="calls"):
        """The calls of rt since the last look, or what it noted in another file."""
        if not os.path.exists(f"{self.room}/{name}"):
            return []
        with open(f"{self.room}/{name}", encoding="utf-8") as file:
            lines = file.read().replace(self.top, "TOP").splitlines()
        os.remove(f"{self.room}/{name}")
        return [re.sub("^TOP/crates/[a-z_]*_bin/out/building-[^/]*", "ROOM", it) for it in lines]

    def out(self, crate):
        return sorted(os.listdir(f"{self.top}/crates/{crate}/out"))

    def test_the_first_call_builds_and_says_how_far_it_is(self):
        ran = self.call("check", "a model.inp", "")
        self.assertEqual((ran.returncode, ran.stdout), (5, f"{self.folder}\n<check><a model.inp><>"))
        self.assertRegex(ran.stderr, (
            r"\Aswmm-rules: proving and building 2 libraries and the program, \d+ at a time;"
            r" this is done once, and takes a while\n"
            r"swmm-rules: 1 of 2 after \d+ s: low\n"
            r"swmm-rules: 2 of 2 after \d+ s: high\n"
            r"swmm-rules: the program is built, after \d+ s\n\Z"))
        low, high, program = self.calls()
        self.assertRegex(low, r"\AROOM/crates/low: lib --jobs [1-9]\d*\Z")
        self.assertRegex(high, r"\AROOM/crates/high: lib --jobs [1-9]\d*\Z")
        self.assertEqual(program, "TOP/crates/swmm_rules_bin: run")

    def test_a_room_has_the_crates_below_and_is_gone_when_its_library_is_kept(self):
        self.call()
        self.assertEqual(self.calls("calls.rooms"), [
            "low: crates/low/src crates/*/out/rlib/stamp",
            "high: crates/high/src crates/low/src crates/low/out/rlib/stamp"])
        self.assertEqual(self.out("low"), ["incremental", "rlib"])
        self.assertEqual(self.out("swmm_rules_bin"), ["swmm_rules_bin", "swmm_rules_bin.stamp"])

    def test_a_build_begins_with_what_the_last_one_kept(self):
        self.call()
        time.sleep(0.02)
        self.write("crates/low/src/lib.rt", "changed")
        self.calls("calls.rooms")
        self.call()
        self.assertIn("high begins with work", self.calls("calls.rooms"))

    def test_a_room_of_a_build_that_was_killed_is_removed(self):
        for program in ("swmm_rules_bin", "project_bin", "check_bin"):
            self.write(f"crates/{program}/out/building-old/said", "half")
        self.call()
        self.assertEqual(self.out("swmm_rules_bin"), ["swmm_rules_bin", "swmm_rules_bin.stamp"])
        self.assertEqual((self.out("project_bin"), self.out("check_bin")), ([], []))

    def test_the_longest_way_up_is_built_first(self):
        self.write("crates.txt", "low: std\nother: std\nhigh: other\nswmm_rules_bin: low high\n")
        self.call()
        firsts = [it.partition(":")[0] for it in self.calls()]
        self.assertLess(firsts.index("ROOM/crates/other"), firsts.index("ROOM/crates/high"))

    def test_a_crate_weighs_what_its_code_does(self):
        self.write("crates/low/src/lib.rt", "12345")
        self.write("crates/high/src/lib.rt", "123")
        self.write("crates/high/src/deep/rows.rt", "4567")
        for name in ("src/tests.rt", "src/laws.rt", "src/clock_laws.rt", "src/examples.rt",
                     "specs/Rows.antt", "proofs/Rows.antt"):
            self.write(f"crates/other/{name}", "long" * 100)
        self.write("crates/swmm_rules_bin/src/lib.rt", "1")
        with mock.patch.object(BUILD, "TOP", self.top):
            _, below = BUILD.crates("swmm_rules_bin")
            self.assertEqual(BUILD.ways_up(below), {"low": 13, "high": 8, "swmm_rules_bin": 1})
            self.assertEqual(BUILD.size("other"), 0)

    def test_the_second_call_builds_nothing(self):
        self.call()
        self.calls()
        ran = self.call("tables", "x")
        self.assertEqual((ran.returncode, ran.stderr, self.calls()), (5, "", []))

    def test_it_is_found_from_any_folder_and_through_a_link(self):
        self.call()
        os.symlink(f"{self.top}/swmm-rules", f"{self.room}/bin/swmm-rules")
        for script in ("../a clone/swmm-rules", f"{self.room}/bin/swmm-rules"):
            ran = self.call("x", script=script)
            self.assertEqual((ran.returncode, ran.stdout), (5, f"{self.folder}\n<x>"), script)

    def test_what_the_program_is_made_from_makes_it_old(self):
        for name in ("crates/low/src/lib.rt", "crates/high/specs/New.antt", "crates.txt"):
            self.call()
            self.calls()
            time.sleep(0.02)
            with open(f"{self.top}/crates.txt", encoding="utf-8") as file:
                text = file.read()
            self.write(name, text if name == "crates.txt" else "changed")
            self.call()
            self.assertEqual(len(self.calls()), 3, name)

    def test_what_it_is_not_made_from_does_not(self):
        self.call()
        self.calls()
        time.sleep(0.02)
        for name in ("crates/other/src/lib.rt", "crates/low/must-fail/a.edit", "README.md"):
            self.write(name, "changed")
        self.call()
        self.assertEqual(self.calls(), [])

    def test_an_edit_during_a_build_is_built_next(self):
        self.write("edit")
        for many in (3, 3, 0):
            self.call()
            self.assertEqual(len(self.calls()), many)

    def test_a_crate_that_is_not_proved_is_shown_and_nothing_is_run(self):
        self.call()
        time.sleep(0.02)
        self.write("crates/high/src/lib.rt", "changed")
        self.write("fails-high")
        ran = self.call("gen", "1")
        self.assertEqual((ran.returncode, ran.stdout), (70, ""))
        self.assertIn("fn high::turned: not proved\n", ran.stderr)
        self.assertNotIn("fn low::new", ran.stderr)
        self.assertTrue(ran.stderr.endswith("swmm-rules: high was not proved and built (rt says"
                                            " why above), so nothing is run\n"), ran.stderr)
        self.assertFalse(os.path.exists(f"{self.top}/crates/swmm_rules_bin/out/swmm_rules_bin"))

    def test_a_kit_that_is_killed_builds_one_crate_at_a_time(self):
        self.write("killed-high")
        ran = self.call("x")
        self.assertEqual((ran.returncode, ran.stdout), (5, f"{self.folder}\n<x>"))
        self.assertIn("swmm-rules: the check of high was killed, most likely for want of memory:"
                      " going on with one crate at a time\nswmm-rules: the program is built", ran.stderr)

    def test_a_program_that_is_not_built_is_not_run(self):
        self.write("fails-program")
        for words, name in ((("check", "x"), "check_bin"), (("tables", "x"), "project_bin"),
                            (("gen", "1"), "swmm_rules_bin")):
            ran = self.call(*words)
            self.assertEqual((ran.returncode, ran.stdout), (70, ""))
            self.assertIn(f"it does not link\nswmm-rules: {name} was not", ran.stderr)
            self.assertEqual(self.out(name), [])

    def test_a_machine_without_the_kit_is_told_so(self):
        os.remove(f"{self.room}/bin/rt")
        os.makedirs(f"{self.room}/few")
        for name in ("sh", "readlink", "dirname", "python3", "env", "flock"):
            os.symlink(shutil.which(name), f"{self.room}/few/{name}")
        ran = self.call("check", "x", path=f"{self.room}/few")
        self.assertEqual((ran.returncode, ran.stdout, ran.stderr), (
            70, "", "swmm-rules: the program has to be built, and the command rt of the Rattle"
            " kit is not on the PATH\n"))

    def test_the_smallest_program_that_has_the_command_is_built(self):
        for words, name, status in zip(SMALL, ("check_bin", "project_bin", "project_bin"), (9, 6, 6)):
            for small in ("check_bin", "project_bin"):
                shutil.rmtree(f"{self.top}/crates/{small}/out", ignore_errors=True)
            ran = self.call(*words)
            self.assertEqual((ran.returncode, ran.stdout), (
                status, f"{self.folder}\n" + "".join(f"<{word}>" for word in words)))
            self.assertRegex(ran.stderr, (
                r"\Aswmm-rules: proving and building 1 libraries and the program, \d+ at a time;"
                r" this is done once, and takes a while\n" + re.escape(ONLY[name]) +
                r"swmm-rules: 1 of 1 after \d+ s: low\n"
                r"swmm-rules: the program is built, after \d+ s\n\Z"))
            low, program = self.calls()
            self.assertRegex(low, r"\AROOM/crates/low: lib --jobs [1-9]\d*\Z")
            self.assertEqual(program, f"TOP/crates/{name}: run")
            self.assertEqual(self.out(name), [name, f"{name}.stamp"])
            ran = self.call(*words)
            self.assertEqual((ran.returncode, ran.stderr, self.calls()), (status, "", []))

    def test_the_smallest_program_that_is_current_is_run(self):
        for words, status in ((CHECK, 9), (SMALL[1], 6), (CHECK, 9), (("gen", "1"), 5), (CHECK, 9)):
            self.assertEqual(self.call(*words).returncode, status)
        self.calls()
        for gone, statuses in ((None, (9, 6, 6)), ("check_bin", (6, 6, 6)), ("project_bin", (5, 5, 5))):
            if gone:
                shutil.rmtree(f"{self.top}/crates/{gone}/out")
            for words, status in zip(SMALL, statuses):
                ran = self.call(*words)
                self.assertEqual((ran.returncode, ran.stderr, self.calls()), (status, "", []))

    def test_other_words_build_the_whole_tool(self):
        self.call("check", "x")
        self.call("tables", "x")
        self.write("fails-low")
        for words in NOT_SMALL:
            ran = self.call(*words)
            self.assertEqual((ran.returncode, ran.stdout), (70, ""), words)
            self.assertIn("proving and building 2 libraries and the program", ran.stderr, words)
            self.assertNotIn("it is the program of", ran.stderr, words)
        self.assertEqual(self.call("check", "x").returncode, 9)

    def test_a_small_program_is_run_where_larger_ones_are_old(self):
        self.call("check", "x")
        self.call("tables", "x")
        self.call()
        time.sleep(0.02)
        self.write("crates/high/src/lib.rt", "changed")
        self.calls()
        for words, status in ((("tables", "x"), 6), (("check", "x"), 9)):
            ran = self.call(*words)
            self.assertEqual((ran.returncode, ran.stderr, self.calls()), (status, "", []))
        time.sleep(0.02)
        self.write("crates/project_bin/src/lib.rt", "changed")
        ran = self.call("check", "x")
        self.assertEqual((ran.returncode, ran.stderr, self.calls()), (9, "", []))
        time.sleep(0.02)
        self.write("crates/low/src/lib.rt", "changed")
        self.assertEqual((self.call("check", "x").returncode, len(self.calls())), (9, 2))
        self.assertEqual((self.call("tables", "x").returncode, len(self.calls())), (6, 2))
        self.assertEqual((self.call("gen", "1").returncode, len(self.calls())), (5, 3))

    def test_a_call_that_waited_for_the_whole_tool_runs_it(self):
        self.write("waits")
        both = []
        for words in (("gen", "1"), ("check", "x")):
            both.append(subprocess.Popen(
                [f"{self.top}/swmm-rules", *words], cwd=self.folder, env=self.environment(),
                stdout=subprocess.DEVNULL, stderr=subprocess.DEVNULL))
            while not os.path.exists(f"{self.room}/calls"):
                time.sleep(0.01)
        self.assertEqual([it.wait() for it in both], [5, 5])
        self.assertEqual(len(self.calls()), 3)

    def test_of_two_calls_at_once_one_builds(self):
        both = [subprocess.Popen([f"{self.top}/swmm-rules"], cwd=self.folder,
                                 env=self.environment(), stdout=subprocess.DEVNULL,
                                 stderr=subprocess.DEVNULL) for _ in range(2)]
        self.assertEqual([it.wait() for it in both], [5, 5])
        self.assertEqual(len(self.calls()), 3)

    def test_a_signal_ends_the_build(self):
        self.write("slow")
        run = subprocess.Popen([f"{self.top}/swmm-rules"], cwd=self.folder,
                               env=self.environment(), stderr=subprocess.PIPE)
        self.addCleanup(run.stderr.close)
        pid = f"{self.room}/calls.pid"
        while not os.path.exists(pid) or not os.path.getsize(pid):
            time.sleep(0.01)
        with open(pid, encoding="utf-8") as file:
            kit = int(file.read())
        run.send_signal(signal.SIGTERM)
        self.assertEqual(run.wait(), 70)
        self.assertFalse(is_alive(kit))


class SharesTest(unittest.TestCase):
    """How free processors are given out to the crates that can be built."""

    def shares(self, ready, long, free):
        return list(BUILD.shares(list(ready), set(long), free))

    def test_a_crate_on_a_long_way_gets_two(self):
        self.assertEqual(self.shares("abc", "ab", 4), [("a", 2), ("b", 2)])
        self.assertEqual(self.shares("abcd", "a", 4), [("a", 2), ("b", 1), ("c", 1)])
        self.assertEqual(self.shares("abcd", "c", 4), [("a", 1), ("b", 1), ("c", 2)])

    def test_it_gets_one_where_one_is_free(self):
        self.assertEqual(self.shares("abc", "abc", 3), [("a", 2), ("b", 1)])
        self.assertEqual(self.shares("ab", "a", 1), [("a", 1)])
        self.assertEqual(self.shares("ab", "a", 0), [])

    def test_what_is_left_over_goes_to_the_first(self):
        self.assertEqual(self.shares("abc", "", 4), [("a", 2), ("b", 1), ("c", 1)])
        self.assertEqual(self.shares("ab", "a", 8), [("a", 4), ("b", 4)])
        self.assertEqual(self.shares("a", "", 4), [("a", 4)])
        self.assertEqual(self.shares("abcde", "", 4), [("a", 1), ("b", 1), ("c", 1), ("d", 1)])


def is_alive(process):
    try:
        os.kill(process, 0)
    except ProcessLookupError:
        return False
    return True
