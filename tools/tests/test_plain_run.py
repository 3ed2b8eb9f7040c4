"""Tests of tools/plain_run.py, beside the stored runs with which tools/stored_cases.py compares it."""

import json
import pathlib
import subprocess
import sys
import tempfile
import unittest

HERE = pathlib.Path(__file__).resolve().parent
TOP = HERE.parents[1]
TOOL = HERE.parent / "plain_run.py"

LOOP = ["top:", "jmp top"]


class PlainRun(unittest.TestCase):
    def setUp(self):
        folder = tempfile.TemporaryDirectory()
        self.addCleanup(folder.cleanup)
        self.stand = pathlib.Path(folder.name)

    def run_of(self, scenario, clients=("NS",)):
        (self.stand / "system.json").write_text(json.dumps({"isolation_level": 1, "manifests": [], "clients": list(clients)}))
        (self.stand / "scenario.json").write_text(json.dumps(scenario))
        return self.tool("system.json", "scenario.json")

    def tool(self, *words):
        done = subprocess.run([sys.executable, str(TOOL), *words], cwd=self.stand, capture_output=True, text=True, check=False)
        return done.returncode, done.stdout, done.stderr

    def test_the_main_example(self):
        stored = TOP / "crates/ffm"
        self.assertEqual(self.tool(str(stored / "data/system.json"), str(stored / "data/scenario.json")), (0, (stored / "stdout").read_text(), ""))

    def test_a_system_without_actors_is_quiet(self):
        self.assertEqual(self.run_of({}, clients=()), (0, "quiet 0\n", ""))

    def test_a_run_at_its_limit_is_full(self):
        self.assertEqual(self.run_of({"event_limit": 1, "scripts": [{"actor": "NS", "lines": ["version 1"]}]}), (5, "n1 version 0x00000001 -> number 0\nfull 1\n", ""))

    def test_a_script_without_calls_is_spent(self):
        self.assertEqual(self.run_of({"scripts": [{"actor": "NS", "lines": LOOP}]})[1], "n1 stop spent -> done\nquiet 1\n")

    def test_a_spent_thread_stays_spent_while_another_calls(self):
        scripts = [{"actor": "NS", "lines": lines} for lines in (LOOP, ["version 1", "version 2"])]
        self.assertEqual(self.run_of({"scripts": scripts})[1], "n1 version 0x00000001 -> number 0\nn1 version 0x00000002 -> number 0\nn1 stop spent -> done\nquiet 3\n")

    def test_a_file_that_is_not_there_is_named(self):
        self.assertEqual(self.tool("none.json", "scenario.json"), (7, "", "none.json: No such file or directory\n"))


if __name__ == "__main__":
    unittest.main()
