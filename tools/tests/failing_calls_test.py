"""Tests of tools/allocation-faults and tools/device-faults, on a program that stands in."""
import os
import shutil
import subprocess
import sys
import tempfile
import unittest

import calls

# `check IN` and `gen 1` of a program that ends as it should, but for what FAULT puts in.
PROGRAM = r"""
#include <errno.h>
#include <fcntl.h>
#include <signal.h>
#include <stdlib.h>
#include <string.h>
#include <unistd.h>
static int say(int file, const char *text) {
    size_t left = strlen(text);
    while (left) {
        ssize_t count = write(file, text, left);
        if (count <= 0) return 0;
        text += count;
        left -= count;
    }
    return 1;
}
static int end(int status, const char *line) { return say(2, line) ? status : 3; }
static int run(int count, char **words) {
    char part[8];
    ssize_t many = 1;
    if (count != 3 || strcmp(words[1], "check")) return end(2, "usage: check IN\n");
    int file = open(words[2], O_RDONLY);
    if (file < 0) return end(3, "error: read failed: input\n");
    while (many > 0) many = read(file, part, sizeof part);
    if (many < 0) FAILED_READ
    char *text = malloc(100);
    if (!text) NO_MEMORY
    strcpy(text, "rules 1 names 2 objects 3\n");
    if (!say(1, text)) FAILED_WRITE
    return 0;
}
int main(int count, char **words) {
    signal(SIGPIPE, PIPES);
    return run(count, words);
}
"""
GOOD = {"FAILED_READ": 'return end(3, "error: read failed: input\\n");',
        "NO_MEMORY": 'return end(4, "error: out of memory\\n");',
        "FAILED_WRITE": 'return end(3, "error: write failed\\n");', "PIPES": "SIG_IGN"}


@unittest.skipUnless(shutil.which("cc"), "there is no C compiler")
class FailingCallsTest(unittest.TestCase):
    def setUp(self):
        folder = tempfile.TemporaryDirectory(prefix="a folder with blanks ")
        self.addCleanup(folder.cleanup)
        self.folder = folder.name

    def run_with(self, tool, *words, **faults):
        source, path = os.path.join(self.folder, "it.c"), os.path.join(self.folder, "program")
        with open(source, "w", encoding="ascii") as file:
            file.write(PROGRAM)
        parts = [f"-D{name}={text}" for name, text in {**GOOD, **faults}.items()]
        subprocess.run(["cc", "-o", path, *parts, source], check=True)
        # In a process of its own, since its pool needs the module by its path.
        done = subprocess.run(
            [sys.executable, calls.path_of(tool), "--program", path, "--jobs", "2", *words,
             "check two-pumps"], capture_output=True, text=True)
        return done.returncode, done.stdout, done.stderr

    def test_a_good_program(self):
        status, text, said = self.run_with("allocation-faults")
        self.assertEqual((status, said), (0, ""), text)
        self.assertRegex(text, r"(?m)^check two-pumps.inp +1 +2 +0 +0 +0$")
        status, text, said = self.run_with("device-faults", "--only-calls")
        self.assertEqual((status, said), (0, ""), text)
        self.assertRegex(text, r"(?m)^room +28 runs$")

    def test_memory_that_is_not_looked_at(self):
        status, text, _ = self.run_with("allocation-faults", NO_MEMORY="{}")
        self.assertEqual(status, 1)
        self.assertIn("check two-pumps.inp: allocation 1: signal SIGSEGV", text)

    def test_a_read_that_fails_as_an_end(self):
        status, text, _ = self.run_with("device-faults", "--only-calls", FAILED_READ="{}")
        self.assertEqual(status, 1)
        self.assertIn("check two-pumps.inp: read 1: status 0", text)

    def test_a_write_that_is_tried_again(self):
        again = '{ say(1, text); return end(3, "error: write failed\\n"); }'
        status, text, _ = self.run_with("device-faults", "--only-calls", FAILED_WRITE=again)
        self.assertEqual(status, 1)
        self.assertIn("check two-pumps.inp: out 1: further calls after the one that failed", text)

    def test_a_pipe_that_kills(self):
        status, text, _ = self.run_with("device-faults", "--only-calls", PIPES="SIG_DFL")
        self.assertEqual(status, 1)
        self.assertIn("check two-pumps.inp: closed pipe: signal SIGPIPE", text)


if __name__ == "__main__":
    unittest.main()
