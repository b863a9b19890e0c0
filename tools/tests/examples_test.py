"""The stored runs of the programs are the example, so that none can change alone."""
import os
import unittest

import calls

TOP = os.path.dirname(calls.TOOLS)
PROGRAMS = [os.path.join(TOP, "crates", name) for name in ("swmm_rules_bin", "project_bin")]
CHECK = os.path.join(TOP, "crates", "check_bin")
EXAMPLES = os.path.join(TOP, "examples")


def content(*parts):
    with open(os.path.join(*parts), "rb") as file:
        return file.read()


class StoredRunTest(unittest.TestCase):
    def test_its_files_are_those_of_the_example(self):
        for program in PROGRAMS:
            for name in ("storm-tank.inp", "storm-tank.csv"):
                self.assertEqual(content(program, "data", name), content(EXAMPLES, name), program)

    def test_its_text_is_that_of_the_example(self):
        for program in PROGRAMS:
            self.assertEqual(content(program, "stdout"), content(EXAMPLES, "storm-tank.out"), program)

    def test_its_words_are_a_replay_of_these_files(self):
        for program in PROGRAMS:
            self.assertEqual(content(program, "args").split(),
                             [b"replay", b"storm-tank.inp", b"storm-tank.csv"], program)

    def test_that_of_the_program_of_check_is_what_the_readme_shows(self):
        self.assertEqual(content(CHECK, "data", "storm-tank.inp"), content(EXAMPLES, "storm-tank.inp"))
        self.assertEqual(content(CHECK, "args").split(), [b"check", b"storm-tank.inp"])
        shown = b"    $ ./swmm-rules check examples/storm-tank.inp\n    " + content(CHECK, "stdout")
        self.assertIn(shown, content(TOP, "README.md"))
