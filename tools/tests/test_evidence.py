"""Tests of evidence.py: what it makes of the data, and what it says of names that aren't there."""

import json
import pathlib
import subprocess
import sys
import tempfile
import unittest

TOOL = pathlib.Path(__file__).resolve().parents[1] / "evidence.py"
ROW = {
    "name": "`psa_one`",
    "definitions": [{"in": "ffm_model/specs/Calls.antt", "name": "psa_one"}, {"in": "ffm_model/specs/Calls.antt", "name": "psa_two"}],
    "contracts": [{"in": "calls", "name": "Spm::one", "clauses": ["answer"]}],
    "mutants": ["calls/tried", "calls/beside"],
    "tests": [{"case": "runs/one", "note": "-131"}, {"in": "calls/src/lib.rt", "name": "is_one"}],
}
PAGE = "# Page\n\n<!-- made: calls -->\nold\n<!-- end -->\n\nThe end.\n"
CELLS = [
    "`psa_one`", "[Calls.antt](../crates/ffm_model/specs/Calls.antt), `psa_one`, `psa_two`", "calls, `Spm::one`, clause `answer`",
    "calls: tried, *beside*", "", "[runs/one](../crates/stored_cases/data/runs/one) (-131); [calls/src/lib.rt](../crates/calls/src/lib.rt), `is_one`",
]


class Evidence(unittest.TestCase):
    def setUp(self):
        folder = tempfile.TemporaryDirectory()
        self.addCleanup(folder.cleanup)
        self.top = pathlib.Path(folder.name)
        self.write("crates/ffm_model/specs/Calls.antt", "abbrev pub psa_one : ℕ\n-- abbrev pub psa_three\nabbrev pub psa_two : ℕ\n")
        self.write("crates/calls/src/lib.rt", "    pub fn one()\n        ensures answer { .. }\n#[test]\nfn is_one(\nfn is_none(\n")
        self.write("crates/calls/must-fail/tried.edit", "")
        self.write("wrong_bodies/calls/beside.edit", "")
        self.write("crates/stored_cases/data/commands.txt", "# runs/one: one.\n")
        self.write("crates/stored_cases/data/runs/one/system.json", "")
        self.write("docs/evidence.md", PAGE)
        self.data({})

    def write(self, name, text):
        path = self.top / name
        path.parent.mkdir(parents=True, exist_ok=True)
        path.write_text(text)

    def data(self, changes):
        row = {name: value for name, value in (ROW | changes).items() if value is not None}
        self.write("docs/evidence.json", json.dumps({"calls": [row], "topics": [], "program": []}))

    def run_tool(self, *words):
        done = subprocess.run([sys.executable, str(TOOL), *words], cwd=self.top, capture_output=True, text=True, check=False)
        return done.returncode, done.stdout

    def page(self):
        return (self.top / "docs/evidence.md").read_text()

    def wrong(self, changes):
        self.data(changes)
        status, told = self.run_tool()
        self.assertEqual(status, 1, told)
        return told

    def test_the_table_is_made(self):
        self.assertEqual(self.run_tool(), (0, "1 rows of definitions, contracts and tests\n"))
        row = "| " + " | ".join(CELLS).replace("|  |", "| |") + " |"
        self.assertEqual(self.page().splitlines()[5], row)
        self.assertTrue(self.page().endswith("<!-- end -->\n\nThe end.\n"))

    def test_check_writes_nothing(self):
        self.assertEqual(self.run_tool("--check")[0], 1)
        self.assertEqual(self.page(), PAGE)
        self.run_tool()
        self.assertEqual(self.run_tool("--check")[0], 0)

    def test_names_that_are_not_there(self):
        self.assertIn("psa_three: not there", self.wrong({"definitions": [{"in": "ffm_model/specs/Calls.antt", "name": "psa_three"}]}))
        self.assertIn("lost.rt, one: not there", self.wrong({"contracts": [{"in": "calls/src/lost.rt", "name": "one"}]}))
        self.assertIn("reach: no such clause", self.wrong({"contracts": [{"in": "calls", "name": "one", "clauses": ["reach"]}]}))
        self.assertIn("calls/lost: no such mutant", self.wrong({"mutants": ["calls/lost"]}))

    def test_a_test_has_to_be_one(self):
        self.assertIn("is_none: not there", self.wrong({"tests": [{"in": "calls", "name": "is_none"}]}))

    def test_cases_that_are_not_there(self):
        self.assertIn("runs/two: no such case", self.wrong({"tests": [{"case": "runs/two"}]}))
        self.assertIn("no such file of it", self.wrong({"tests": [{"case": "runs/one/trace.txt"}]}))

    def test_help(self):
        self.assertEqual(self.run_tool("--help")[0], 0)


if __name__ == "__main__":
    unittest.main()
