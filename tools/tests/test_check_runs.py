"""Tests of tools/check_runs.py. The runs are those of plain_ffm.py, so no kit is needed."""

import json
import pathlib
import subprocess
import sys
import tempfile
import unittest
import xml.etree.ElementTree as xml

HERE = pathlib.Path(__file__).resolve().parent
TOOL = HERE.parent / "check_runs.py"

SYSTEM = {
    "isolation_level": 1,
    "manifests": [{
        "psa_framework_version": 1.0, "name": "VAULT", "type": "PSA-ROT", "priority": "LOW", "entry_point": "vault_main", "stack_size": "0x400",
        "services": [{"name": "OPEN", "sid": "0x40", "non_secure_clients": True}],
    }],
    "clients": ["NS"],
}
PANIC = {"scripts": [{"actor": "VAULT", "lines": ["panic"]}]}
ASKS = {"scripts": [{"actor": "NS", "lines": ["version OPEN  # expect -> number 2"]}]}
WAITS = {"scripts": [{"actor": "NS", "lines": ["connect OPEN 1"]}]}


class CheckRuns(unittest.TestCase):
    def setUp(self):
        folder = tempfile.TemporaryDirectory()
        self.addCleanup(folder.cleanup)
        self.stand = pathlib.Path(folder.name)
        self.put("tests/system.json", SYSTEM)

    def put(self, name, tree):
        path = self.stand / name
        path.parent.mkdir(parents=True, exist_ok=True)
        path.write_text(tree if isinstance(tree, str) else json.dumps(tree))

    def tool(self, *words):
        done = subprocess.run([sys.executable, str(TOOL), "tests", "--ffm", str(HERE / "plain_ffm.py"), *words], cwd=self.stand, capture_output=True, text=True, check=False)
        return done.returncode, done.stdout, done.stderr

    def told(self, scenario, name="tests/scenario.json"):
        """What is told of a test that fails."""
        self.put(name, scenario)
        status, text, _ = self.tool()
        self.assertEqual(status, 1)
        return text

    def test_a_run_that_ends_quiet_without_a_panic_passes(self):
        self.put("tests/one/scenario.json", {})
        self.put("tests/two/far.scenario.json", {"scripts": [{"actor": "NS", "lines": ["version 0x40"]}]})
        self.assertEqual(self.tool(), (0, "ok      one\nok      two/far\n2 passed, 0 failed\n", ""))

    def test_a_panic_fails_unless_it_is_wanted(self):
        self.assertEqual(self.told(PANIC), "FAILED  tests\n  VAULT panicked, which wasn't wanted\n0 passed, 1 failed\n")
        self.put("tests/scenario.json", PANIC | {"expect": {"panics": ["VAULT"]}})
        self.assertEqual(self.tool()[0], 0)
        self.assertIn("  VAULT didn't panic, which was wanted\n", self.told({"expect": {"panics": ["VAULT"]}}))

    def test_another_verdict_fails_unless_it_is_wanted(self):
        service = {"actor": "VAULT", "lines": ["wait OPEN_SIGNAL PSA_BLOCK", "get OPEN_SIGNAL RAM", "end"]}
        waits = {"scripts": [service, *WAITS["scripts"]]}
        self.assertIn("  ends stalled, and quiet was wanted\n", self.told(waits))
        self.put("tests/scenario.json", waits | {"expect": {"verdict": "stalled"}})
        self.assertEqual(self.tool()[0], 0)

    def test_an_expectation_that_fails_is_told_by_actor_line_and_values(self):
        self.assertEqual(self.told(ASKS), "FAILED  tests\n"
                         '  tests/scenario.json:1: {"scripts": [{"actor": "NS", "lines": ["version OPEN  # expect -> number 2"]}]}\n'
                         "    NS wanted number 2\n    NS was answered number 1 (line 2 of the trace, version 0x00000040)\n0 passed, 1 failed\n")

    def test_a_trace_that_differs_is_told_by_actor(self):
        self.put("tests/trace.txt", "p1 stop end -> done\nn1 stop end -> done\nquiet 2\n")
        told = self.told({"scripts": [{"actor": "NS", "lines": ["framework_version"]}]})
        self.assertIn("  NS (n1): 1 lines differ\n    @@ -1 +1,2 @@\n    +framework_version -> number 257\n     stop end -> done\n", told)

    def test_accept_writes_the_trace(self):
        self.put("tests/far.scenario.json", {})
        self.assertEqual(self.tool("--accept")[0], 0)
        self.assertEqual((self.stand / "tests/far.trace.txt").read_text(), "p1 stop end -> done\nn1 stop end -> done\nquiet 2\n")

    def test_a_refusal_is_told_with_its_line(self):
        self.assertEqual(self.told('{ "scripts": [\n{ "actor": "NS", "lines": [\n"end",\n"psa_connect 0x40 1" ] } ] }'),
                         "FAILED  tests\n  ffm ended with the status 1: refused 19 ScriptSyntax scenario /scripts/0/lines/1\n"
                         '  tests/scenario.json:4: "psa_connect 0x40 1" ] } ] }\n0 passed, 1 failed\n')

    def test_wrong_and_missing_files_fail_their_test_alone(self):
        self.put("tests/right/scenario.json", {})
        self.put("tests/unknown/scenario.json", {"scripts": [{"actor": "NS", "lines": ["version OPEN_SIT"]}]})
        self.put("tests/wrong/scenario.json", "{")
        status, text, _ = self.tool()
        self.assertEqual(status, 1)
        self.assertIn("ok      right\n", text)
        self.assertIn("  tests/unknown/scenario.json:1: `OPEN_SIT` is no name here; perhaps `OPEN_SID`\n", text)
        self.assertIn("  tests/wrong/scenario.json:1:2: no JSON: Expecting property name enclosed in double quotes\n", text)
        (self.stand / "tests/system.json").unlink()
        self.assertIn("FAILED  right\n  there is no system.json beside it or above it\n", self.tool()[1])

    def test_the_results_as_junit(self):
        self.put("tests/one/scenario.json", {})
        self.put("tests/two/scenario.json", PANIC)
        self.tool("--junit", "results.xml")
        suite = xml.parse(self.stand / "results.xml").getroot()
        self.assertEqual((suite.get("tests"), suite.get("failures")), ("2", "1"))
        self.assertEqual([(case.get("name"), [failure.get("message") for failure in case]) for case in suite],
                         [("one", []), ("two", ["VAULT panicked, which wasn't wanted"])])

    def test_without_tests_or_a_program_the_line_says_so(self):
        self.assertEqual(self.tool()[0::2], (2, "tests: no scenario.json below it\n"))
        self.assertEqual(self.tool("--ffm", "./none")[0::2], (2, "./none: no program that can be run\n"))

    def test_the_ipc_suite_passes(self):
        done = subprocess.run([sys.executable, str(TOOL), str(HERE / "arch"), "--ffm", str(HERE / "plain_ffm.py")], capture_output=True, text=True, check=False)
        self.assertEqual((done.returncode, done.stdout.splitlines()[-1]), (0, "102 passed, 0 failed"))


if __name__ == "__main__":
    unittest.main()
