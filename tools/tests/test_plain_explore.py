"""Tests of tools/plain_explore.py, beside the stored texts with which tools/stored_cases.py compares it."""

import json
import pathlib
import subprocess
import sys
import tempfile
import unittest

TOOLS = pathlib.Path(__file__).resolve().parents[1]
STORED = TOOLS.parent / "crates/stored_cases/data"
sys.path.insert(0, str(TOOLS))

import plain_explore
import plain_run
from plain_machine import Machine, read_scenario, read_system
from plain_script import plans_of

PARTITION = {
    "psa_framework_version": 1.0, "type": "APPLICATION-ROT", "priority": "NORMAL", "entry_point": "main", "stack_size": "0x400",
}
TWO_CALLS = {"scripts": [{"actor": "NS", "lines": ["version 1", "version 2"]}]}


def text(*lines):
    return "".join(f"{line}\n" for line in lines)


class PlainExplore(unittest.TestCase):
    def setUp(self):
        folder = tempfile.TemporaryDirectory()
        self.addCleanup(folder.cleanup)
        self.stand = pathlib.Path(folder.name)

    def answer(self, scenario, *words, clients=("NS",), partitions=()):
        manifests = [PARTITION | {"name": name} for name in partitions]
        (self.stand / "system.json").write_text(json.dumps({"isolation_level": 1, "manifests": manifests, "clients": list(clients)}))
        (self.stand / "scenario.json").write_text(json.dumps(scenario))
        return self.tool("system.json", "scenario.json", *words)

    def tool(self, *words):
        command = [sys.executable, str(TOOLS / "plain_explore.py"), *words]
        done = subprocess.run(command, cwd=self.stand, capture_output=True, text=True, check=False)
        return done.returncode, done.stdout or done.stderr

    def test_without_actors_there_is_one_state(self):
        told = text("states 1 steps 0", "quiet 1", "stalled 0", "panics 0", "longest 0", "complete")
        self.assertEqual(self.answer({}, clients=()), (0, told))

    def test_clients_without_calls_end_in_any_order(self):
        told = text("states 4 steps 4", "quiet 1", "stalled 0", "panics 0", "longest 2", "complete")
        self.assertEqual(self.answer({}, clients=("A", "B")), (0, told))

    def test_of_an_actor_that_is_gone_no_script_is_told(self):
        # B ends with the doorbell's signal in r0, or without it
        scripts = [{"actor": "A", "lines": ["notify 2"]}, {"actor": "B", "lines": ["wait 8 0"]}]
        told = text("states 11 steps 15", "quiet 1", "stalled 0", "panics 0", "longest 4", "complete")
        self.assertEqual(self.answer({"scripts": scripts}, clients=(), partitions=("A", "B")), (0, told))

    def test_states_at_the_event_limit_are_not_expanded(self):
        told = text("states 2 steps 1", "quiet 0", "stalled 0", "panics 0", "full 1 NS", "complete")
        self.assertEqual(self.answer(TWO_CALLS | {"event_limit": 1}), (6, told))

    def test_the_limit_of_states_cuts_a_search_short(self):
        unfinished = "unfinished: every schedule of up to 1 events was explored"
        told = text("states 2 steps 1", "quiet 0 so far", "stalled 0 so far", "panics 0 so far", "depth 1", unfinished)
        self.assertEqual(self.answer(TWO_CALLS, "--states", "2"), (5, told))
        self.assertEqual(self.answer(TWO_CALLS, "panic", "--states", "2"), (5, text("unknown", unfinished)))

    def test_a_line_has_each_outcome_once(self):
        told = text("number 0 first 1 NS", "complete")
        self.assertEqual(self.answer(TWO_CALLS, "line", "NS", "1"), (0, told.replace("1 NS", "2 NS NS")))
        self.assertEqual(self.answer(TWO_CALLS, "line", "NS", "0"), (0, told))

    def test_what_is_not_there_is_no_line_and_no_event(self):
        self.assertEqual(self.answer(TWO_CALLS, "line", "NS", "2"), (2, text(plain_explore.NO_LINE)))
        self.assertEqual(self.answer(TWO_CALLS, "line", "NO", "0"), (2, text(plain_explore.NO_ACTOR)))
        self.assertEqual(self.answer(TWO_CALLS, "entry", "n1 version 1 -> number 0"), (2, text(plain_explore.NO_EVENT)))

    def test_an_event_is_found_or_none_is(self):
        self.assertEqual(self.answer(TWO_CALLS, "entry", "n1 version 0x00000002 -> number 0"), (4, text("first 2 NS NS")))
        self.assertEqual(self.answer(TWO_CALLS, "entry", "n1 version 0x00000003 -> number 0"), (0, text("never")))

    def test_the_turns_go_into_the_scenario(self):
        status, scenario = self.answer(TWO_CALLS, "entry", "--scenario", "n1 version 0x00000002 -> number 0")
        self.assertEqual((status, json.loads(scenario)), (4, TWO_CALLS | {"schedule": ["NS", "NS"]}))

    def test_restarts_are_refused(self):
        self.assertEqual(self.answer({"restarts": 1}), (1, text("refused 4 BadValue scenario /restarts")))

    def test_a_file_that_is_not_there_is_named(self):
        self.assertEqual(self.tool("none.json", "scenario.json"), (7, text("none.json: No such file or directory")))


class Turns(unittest.TestCase):
    """In the turns of a run each event is that of the run, also of functions, which go by their loop."""

    def follow(self, system, scenario):
        said, tree, told = read_system(system, STORED), *(json.loads((STORED / name).read_text()) for name in (system, scenario))
        limit, memory = read_scenario(STORED / scenario)
        run = plain_run.Run(said, memory, plans_of(said, tree, tree["manifests"], told))
        state = plain_explore.State(Machine(said, memory), [plain_explore.begun(plan) for plan in plans_of(said, tree, tree["manifests"], told)])
        while run.machine.verdict(len(run.entries), limit) is None:
            for actor in filter(run.machine.enabled, range(len(run.plans))):
                run.turn(actor)
                state = state.after(actor)
                self.assertEqual(run.machine.memory, state.machine.memory)
                self.assertEqual([phase[0] for phase in run.machine.phases], [phase[0] for phase in state.machine.phases])

    def test_functions(self):
        for scenario in ("successor", "labels_and_registers", "no_function", "status_of_no_connection"):
            self.follow("functions/sums/system.json", f"functions/sums/{scenario}.json")

    def test_examples(self):
        for example in ("client_threads", "mapped_vectors", "interrupt_handlers", "key_store"):
            self.follow(f"guided/{example}/system.json", f"guided/{example}/scenario.json")


if __name__ == "__main__":
    unittest.main()
