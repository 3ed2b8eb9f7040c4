"""Tests of what check_evidence.py says of the wings, of the length of the pages and of their figures, on this repository."""

import os
import pathlib
import sys
import unittest
from unittest import mock

TOP = pathlib.Path(__file__).resolve().parents[2]


class CheckEvidence(unittest.TestCase):
    def setUp(self):
        self.addCleanup(os.chdir, os.getcwd())
        self.addCleanup(setattr, sys, "path", list(sys.path))
        os.chdir(TOP)
        sys.path.insert(0, str(TOP / "tools"))
        import check_evidence

        self.tool = check_evidence

    def wings_changed(self, change):
        wings = [(wing, list(crates), set(below)) for wing, crates, below in self.tool.wings()]
        change({wing: (crates, below) for wing, crates, below in wings})
        with mock.patch.object(self.tool, "wings", lambda: wings):
            return [what.removeprefix("docs/house.md: ") for what in self.tool.wrong_wings()]

    def test_the_wings_are_right(self):
        self.assertEqual(self.wings_changed(lambda wings: None), [])

    def test_a_crate_in_no_wing_and_one_in_two(self):
        self.assertEqual(self.wings_changed(lambda wings: wings["tests"][0].remove("test_manager")), ["test_manager is in 0 wings"])
        self.assertEqual(self.wings_changed(lambda wings: wings["laws"][0].append("test_manager")), ["test_manager is in 2 wings"])
        self.assertEqual(self.wings_changed(lambda wings: wings["laws"][0].append("no_crate")), ["no_crate is in 1 wings"])

    def test_a_wing_that_stands_on_another(self):
        self.assertIn("scenario_runs of runs stands on spm_core of manager", self.wings_changed(lambda wings: wings["runs"][1].remove("manager")))

    def test_pages_that_are_too_long(self):
        with mock.patch.object(self.tool, "MOST_WORDS", {"README.md": 1_600, "all pages": 10}):
            self.assertRegex("\n".join(self.tool.wrong_lengths()), r"^all pages: \d+ words, and not 10 at most$")

    def test_commands_without_the_lines_of_checksums(self):
        import figures
        from stored_cases import Case, Command

        lines = ["sha256sum area/case/a.json", "ffm make 1", "ffm_view stats"]
        found = [Case("# area/case: a case.", [Command(line, b"", 0) for line in lines])]
        with mock.patch.object(figures, "cases", lambda: found):
            self.assertEqual(figures.stored(), [1, 2, 1])
            self.assertRegex("\n".join(figures.wrong_figures()), r"lines of checksums: counted 1, 2, 1")


if __name__ == "__main__":
    unittest.main()
