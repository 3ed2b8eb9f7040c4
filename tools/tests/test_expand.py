"""Tests of tools/expand.py. The runs are those of plain_ffm.py, so no kit is needed."""

import json
import pathlib
import subprocess
import sys
import tempfile
import unittest

HERE = pathlib.Path(__file__).resolve().parent
TOOL = HERE.parent / "expand.py"
PROGRAM = HERE / "plain_ffm.py"
STORED = HERE.parents[1] / "crates/stored_cases/data"

SYSTEM = {
    "isolation_level": 3,
    "regions": [{"name": "UART", "base": "0x40000000", "size": "0x20"}],
    "manifests": [
        {
            "psa_framework_version": 1.0, "name": "VAULT", "type": "PSA-ROT", "priority": "LOW", "entry_point": "vault_main", "stack_size": "0x400",
            "services": [{"name": "OPEN", "sid": "0x40", "non_secure_clients": True, "version": 2}, {"name": "SHUT", "sid": "0x41", "non_secure_clients": True}],
            "mmio_regions": [{"name": "UART", "permission": "READ-WRITE"}],
            "irqs": [{"source": 9, "signal": "KEY"}],
        },
        {
            "psa_framework_version": 1.1, "name": "HASH", "type": "PSA-ROT", "priority": "LOW", "model": "SFN", "stack_size": "0x400",
            "services": [{"name": "DIGEST", "sid": "0x50", "non_secure_clients": True, "connection_based": False, "stateless_handle": 3}],
        },
    ],
    "clients": ["NS"],
}
SERVER = """# answers each message
const MESSAGE RAM
top:
wait OPEN_SIGNAL|SHUT_SIGNAL PSA_BLOCK   # both services
get OPEN_SIGNAL MESSAGE
reply r2 STATUS
jmp top
"""
SCENARIO = """{
  "constants": { "connection": "r5", "STATUS": 0, "PLACE": "NS_RAM+0x20" },
  "headers": ["kinds.h"],
  "scripts": [
    { "actor": "VAULT", "file": "server.ffm" },
    { "actor": "NS", "lines": [
      "connect OPEN OPEN_VERSION  # expect -> value handle",
      "set connection r0",
      "call connection KIND_READ VECTORS 1 VECTORS+8 1  # expect -> value PSA_SUCCESS",
      "close connection"
    ] }
  ],
  "schedule": ["VAULT", { "repeat": 2, "turns": ["NS", { "repeat": 2, "turns": ["VAULT"] }] }, "device"],
  "interrupts": [9],
  "memory": [
    { "name": "VECTORS", "address": "NS_RAM", "vectors": [["PLACE", 5], ["PLACE+8", "0x8"]] },
    { "address": "PLACE", "text": "hello" },
    { "address": "VAULT_RAM+0x100", "words": [1, "PSA_ERROR_GENERIC_ERROR"] },
    { "address": "UART", "bytes": "01" }
  ]
}
"""
EXPANDED = {
    "scripts": [
        {"actor": "VAULT", "lines": ["# answers each message", "# const MESSAGE RAM", "top:", "wait 0x30 0x80000000", "get 0x10 0x30000000", "reply r2 0", "jmp top"]},
        {"actor": "NS", "lines": ["connect 0x40 2", "set r5 r0", "call r5 1025 0x20000000 1 0x20000008 1", "close r5"]},
    ],
    "schedule": ["VAULT", "NS", "VAULT", "VAULT", "NS", "VAULT", "VAULT", "device"],
    "interrupts": [9],
    "memory": [
        {"address": "0x20000000", "bytes": "20000020050000002800002008000000"},
        {"address": "0x20000020", "bytes": "68656c6c6f"},
        {"address": "0x30000100", "bytes": "010000007cffffff"},
        {"address": "0x40000000", "bytes": "01"},
    ],
}


class Expand(unittest.TestCase):
    def setUp(self):
        folder = tempfile.TemporaryDirectory()
        self.addCleanup(folder.cleanup)
        self.stand = pathlib.Path(folder.name)
        self.put("system.json", json.dumps(SYSTEM))
        self.put("server.ffm", SERVER)
        self.put("kinds.h", "#define KIND_BASE 0x400u\n#define KIND_READ (KIND_BASE + 1) // reads\n")
        self.put("scenario.json", SCENARIO)

    def put(self, name, text):
        (self.stand / name).write_text(text)

    def tool(self, *words, scenario="scenario.json"):
        done = subprocess.run([sys.executable, str(TOOL), "system.json", scenario, *words], cwd=self.stand, capture_output=True, text=True, check=False)
        return done.returncode, done.stdout, done.stderr

    def changed(self, old, new, file="scenario.json"):
        """Writes the file with a part of it changed."""
        text = (self.stand / file).read_text()
        self.assertEqual(text.count(old), 1)
        self.put(file, text.replace(old, new))

    def test_each_name_and_form_is_written_as_ffm_reads_it(self):
        status, text, wrong = self.tool()
        self.assertEqual((status, wrong), (0, ""))
        self.assertEqual(json.loads(text), EXPANDED)

    def test_a_scenario_of_ffm_stays_as_it_is(self):
        plain = '{"scripts":[{"actor":"NS","lines":["# connect OPEN 1","  connect 64   2","top:","jmp top"],"other":1}],"event_limit":9,"x":[1.50]}'
        self.put("plain.json", plain)
        self.assertEqual(self.tool(scenario="plain.json"), (0, plain, ""))

    def test_what_ffm_refuses_stays_as_it_is(self):
        for scenario in ('{"scripts":[{"actor":"NS","lines":"end"},{"actor":"NS"},{"actor":"NS","lines":[1,"end"]},5]}', '{"scripts":{}}',
                         '{"memory":[{"bytes":"00"},{"address":7},{"address":"0X7","bytes":"0"},"00"]}', '{"schedule":"NS","event_limit":"1"}'):
            self.put("plain.json", scenario)
            self.assertEqual(self.tool(scenario="plain.json"), (0, scenario, ""))

    def test_names_of_the_standard_and_of_the_system(self):
        lines = [
            "version SHUT", "version SHUT_SID", "notify HASH", "notify VAULT_ID", "call DIGEST_HANDLE PSA_IPC_CALL 0 0 0 0", "wait PSA_WAIT_ANY PSA_POLL",
            "const SHUT 7", "version SHUT", "eoi KEY", "get PSA_DOORBELL HASH_RAM", "load UART+4 4", "reply r2 PSA_ERROR_CONNECTION_BUSY", "jeq r1 PSA_IPC_DISCONNECT UART", "set r3 NS_ID",
        ]
        self.put("names.json", json.dumps({"scripts": [{"actor": "VAULT", "lines": lines}]}))
        self.assertEqual(json.loads(self.tool(scenario="names.json")[1])["scripts"][0]["lines"], [
            "version 0x41", "version 0x41", "notify 2", "notify 1", "call 0x40000003 0 0 0 0 0", "wait 0xffffffff 0",
            "# const SHUT 7", "version 7", "eoi 0x40", "get 0x8 0x30000400", "load 0x40000004 4", "reply r2 -131", "jeq r1 -2 UART", "set r3 -1",
        ])

    def test_what_names_nothing_is_told_all_at_once(self):
        self.changed("reply r2 STATUS", "reply r2 STATE", "server.ffm")
        self.changed("PSA_BLOCK ", "PSA_BLOK ", "server.ffm")
        self.changed("call connection KIND_READ", "call connection KIND_REED")
        self.changed('["PLACE", 5]', '["PLANE", 5]')
        self.changed("-> value handle", "value handle")
        status, text, wrong = self.tool()
        self.assertEqual((status, text), (1, ""))
        self.assertEqual(wrong.splitlines(), [
            "server.ffm:4: `PSA_BLOK` is no name here; perhaps `PSA_BLOCK`",
            "server.ffm:6: `STATE` is no name here; perhaps `STATUS`",
            "scenario.json:7: `expect value handle` has neither `->` and an outcome, nor `never`",
            "scenario.json:9: `KIND_REED` is no name here; perhaps `KIND_READ`",
            "scenario.json:16: `PLANE` is no name here; perhaps `PLACE`",
        ])

    def test_a_constant_that_stands_for_itself_or_joins_a_register_is_told(self):
        self.changed('"STATUS": 0', '"STATUS": "STATE", "STATE": "STATUS"')
        self.changed("set connection r0", "set connection connection+1")
        wrong = self.tool()[2].splitlines()
        self.assertEqual(wrong, ["server.ffm:6: `STATUS` stands for itself", "scenario.json:8: `connection+1` joins what is no number"])

    def test_a_file_that_is_not_there_is_named(self):
        self.changed("server.ffm", "client.ffm")
        self.assertEqual(self.tool(), (2, "", "client.ffm: No such file or directory\n"))
        self.assertEqual(self.tool(scenario="none.json"), (2, "", "none.json: No such file or directory\n"))

    def test_files_in_the_other_order_are_told(self):
        self.put("system.json", SCENARIO)
        told = "system.json: ffm doesn't take this file (KeyError('manifests')); tools/check_schemas.py may say more\n"
        self.assertEqual(self.tool(), (1, "", told))

    def test_what_is_no_json_is_told_with_its_line(self):
        self.changed('"interrupts": [9],', '"interrupts": [9]')
        self.assertEqual(self.tool(), (1, "", "scenario.json:15:3: no JSON: Expecting ',' delimiter\n"))

    def test_places_are_told_where_the_person_wrote(self):
        for place, told in (
            ("/scripts/0/lines/5", "server.ffm:6: reply r2 STATUS"),
            ("/scripts/1/lines/3", 'scenario.json:10: "close connection"'),
            ("/scripts/1/actor", 'scenario.json:6: { "actor": "NS", "lines": ['),
            ("/schedule/5", 'scenario.json:13: "schedule": ["VAULT", { "repeat": 2, "turns": ["NS", { "repeat": 2, "turns": ["VAULT"] }] }, "device"],'),
            ("/memory/2/address", 'scenario.json:18: { "address": "VAULT_RAM+0x100", "words": [1, "PSA_ERROR_GENERIC_ERROR"] },'),
        ):
            self.assertEqual(self.tool("--place", place), (0, told + "\n", ""))

    def test_a_refusal_is_told_where_the_person_wrote(self):
        self.changed("reply r2 STATUS", "answer r2 0", "server.ffm")
        status, text, wrong = self.tool("--run", "--ffm", str(PROGRAM))
        self.assertEqual((status, text, wrong), (1, "refused 19 ScriptSyntax scenario /scripts/0/lines/5\n", "server.ffm:6: answer r2 0\n"))

    def test_a_refusal_of_a_manifest_is_told_in_its_file(self):
        self.put("hash.json", json.dumps(SYSTEM["manifests"][1], indent=1))
        self.put("system.json", json.dumps(SYSTEM | {"manifests": [SYSTEM["manifests"][0], "hash.json"]}))
        self.put("refuses", "#!/bin/sh\necho refused 4 BadValue system /manifests/1/stack_size\nexit 1\n")
        (self.stand / "refuses").chmod(0o755)
        status, _, wrong = self.tool("--run", "--ffm", "./refuses")
        self.assertEqual((status, wrong), (1, 'hash.json:7: "stack_size": "0x400",\n'))

    def test_expectations_that_hold(self):
        status, text, wrong = self.tool("--run", "--ffm", str(PROGRAM))
        self.assertEqual((status, wrong), (0, ""))
        self.assertTrue(text.endswith("quiet 23\n"), text)

    def test_expectations_that_fail_are_told_by_actor_line_and_values(self):
        self.changed("-> value PSA_SUCCESS", "-> value PSA_ERROR_NOT_PERMITTED")
        status, _, wrong = self.tool("--run", "--ffm", str(PROGRAM))
        self.assertEqual(status, 3)
        self.assertEqual(wrong, 'scenario.json:9: "call connection KIND_READ VECTORS 1 VECTORS+8 1  # expect -> value PSA_ERROR_NOT_PERMITTED",\n'
                                "  NS wanted value -133\n  NS was answered value 0 (line 15 of the trace, call 1024 1025 0x20000000 1 0x20000008 1)\n")

    def test_expectations_that_count_how_often_a_line_runs(self):
        self.changed("get OPEN_SIGNAL MESSAGE", "get OPEN_SIGNAL MESSAGE  # expect -> message PSA_IPC_CONNECT; -> message 1025 handle * 0 5", "server.ffm")
        self.changed("reply r2 STATUS", "reply r2 STATUS  # expect -> done; -> done; -> done; -> done", "server.ffm")
        self.changed('"close connection"', '"close connection", "version 1 # expect never"')
        self.assertEqual(self.tool("--run", "--ffm", str(PROGRAM))[2].splitlines(), [
            "server.ffm:5: get OPEN_SIGNAL MESSAGE  # expect -> message PSA_IPC_CONNECT; -> message 1025 handle * 0 5",
            "  VAULT wanted no further call",
            "  VAULT was answered message -2 3584 -1 0x00000000 0 0 0 0 0 0 0 0 (line 19 of the trace, get 0x00000010 0x30000000)",
            'scenario.json:10: "close connection", "version 1 # expect never"',
            "  NS wanted no further call",
            "  NS was answered number 0 (line 23 of the trace, version 0x00000001)",
            "server.ffm:6: reply r2 STATUS  # expect -> done; -> done; -> done; -> done",
            "  ran 3 times, and 4 were wanted",
        ])

    def test_a_line_that_never_runs_fails(self):
        self.changed('"close connection"', '"close connection", "end", "version 1 # expect -> number"')
        self.assertEqual(self.tool("--run", "--ffm", str(PROGRAM))[2].splitlines()[1:], ["  never ran"])

    def test_a_trace_of_other_scripts_is_told(self):
        self.put("trace.txt", "n1 version 0x00000040 -> number 2\nquiet 1\n")
        self.assertEqual(self.tool("--trace", "trace.txt")[2], "line 1: n1 makes `version 0x00000040`, and its script `connect 0x00000040 2`\n")


class Suites(unittest.TestCase):
    """The scenarios beside this file are those of the stored cases."""

    def same_as_stored(self, system, scenario, stored):
        done = subprocess.run([sys.executable, str(TOOL), str(system), str(scenario)], capture_output=True, text=True, check=False)
        self.assertEqual((done.stdout, done.stderr), (stored.read_text(), ""), scenario)

    def test_those_of_the_ipc_suite(self):
        for scenario in sorted((HERE / "arch").glob("*.scenario.json")):
            self.same_as_stored(HERE / "arch/system.json", scenario, STORED / "arch" / scenario.name.split(".")[0] / "scenario.json")

    def test_that_of_the_imported_list(self):
        self.same_as_stored(STORED / "tfm/manifest_list/system.json", HERE / "tfm/storage.scenario.json", STORED / "tfm/manifest_list/scenario.json")


if __name__ == "__main__":
    unittest.main()
