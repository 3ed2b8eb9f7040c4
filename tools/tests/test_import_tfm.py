"""Tests of tools/import_tfm.py. Those that read YAML are skipped where PyYAML isn't there."""

import importlib.util
import json
import os
import pathlib
import subprocess
import sys
import tempfile
import unittest

HERE = pathlib.Path(__file__).resolve().parent
TOOL = HERE.parent / "import_tfm.py"
STORED = HERE.parents[1] / "crates/stored_cases/data"

MANIFEST = {
    "psa_framework_version": 1.1, "name": "CRYPTO", "type": "PSA-ROT", "priority": "LOWEST", "model": "dual", "entry_init": "crypto_init",
    "stack_size": "SIZE", "heap_size": "1024", "ns_agent": False,
    "services": [
        {"name": "HASH", "sid": "0x40U", "non_secure_clients": True, "connection_based": False, "stateless_handle": "3", "version": "1", "mm_iovec": True},
        {"name": "SIGN", "sid": "0x41", "non_secure_clients": True, "connection_based": True, "stateless_handle": "auto"},
    ],
    "mmio_regions": [{"name": "ENGINE", "permission": "READ-WRITE"}],
    "irqs": [{"source": "16", "name": "ENGINE", "handling": "SLIH"}],
    "weak_dependencies": ["STORE", "CLOCK"], "dependencies": ["RANDOM"],
}
STORE = {
    "psa_framework_version": 1.0, "name": "STORE", "type": "PSA-ROT", "priority": "LOW", "entry_point": "store_main", "stack_size": 256,
    "services": [{"name": "STORE", "sid": 80, "non_secure_clients": False}], "model": "SFN",
}
IMPORTED = {
    "psa_framework_version": 1.1, "name": "CRYPTO", "type": "PSA-ROT", "priority": "LOW", "model": "IPC", "entry_init": "crypto_init",
    "stack_size": "0x1800", "heap_size": "0x400",
    "services": [
        {"name": "HASH", "sid": "0x40", "non_secure_clients": True, "connection_based": False, "stateless_handle": 3, "version": 1, "mm_iovec": "enable"},
        {"name": "SIGN", "sid": "0x41", "non_secure_clients": True, "connection_based": True},
    ],
    "mmio_regions": [{"name": "ENGINE", "permission": "READ-WRITE"}],
    "irqs": [{"source": 16, "name": "ENGINE", "handling": "SLIH"}],
    "dependencies": ["STORE"], "entry_point": "crypto_init",
}
HEADER = """
/* #define SIZE 1 */
#define PAGE 0x400U  // bytes
#define SIZE \\
    (6 * PAGE)
#define SIZE 0x2000
"""


def run(*words, stand=None, **environment):
    """The status and the two texts of the tool."""
    done = subprocess.run([sys.executable, str(TOOL), *map(str, words)], cwd=stand, env=os.environ | environment, capture_output=True, text=True, check=False)
    return done.returncode, done.stdout, done.stderr


class Json(unittest.TestCase):
    """Lists and manifests in JSON, which need no package."""

    def setUp(self):
        folder = tempfile.TemporaryDirectory()
        self.addCleanup(folder.cleanup)
        self.stand = pathlib.Path(folder.name)
        items = [{"manifest": "$PARTS/crypto.json", "pid": 256}, {"manifest": "store.json", "conditional": "HAS_STORE"}]
        self.put("list.json", {"type": "manifest_list", "manifest_list": items})
        self.put("crypto.json", MANIFEST)
        self.put("store.json", STORE)
        (self.stand / "config.h").write_text(HEADER)

    def put(self, name, tree):
        (self.stand / name).write_text(json.dumps(tree))

    def tool(self, *words):
        return run("list.json", "--out", "out", *words, stand=self.stand, PARTS=".")

    def written(self, name):
        return json.loads((self.stand / "out" / name).read_text())

    def test_each_change_is_made_and_told(self):
        status, told, _ = self.tool("--header", "config.h")
        self.assertEqual(status, 0)
        self.assertEqual(self.written("crypto.json"), IMPORTED)
        self.assertEqual(self.written("store.json"), {name: value for name, value in STORE.items() if name != "model"})
        self.assertEqual(told.splitlines(), [
            "list.json: of lists type have no place here",
            "list.json: store.json is taken: HAS_STORE isn't defined",
            "list.json: pid 256: CRYPTO has the ID 1 in traces and for notify",
            "crypto.json: priority LOWEST is LOW here; a priority changes nothing in a run",
            "crypto.json: model dual is IPC here, so its script needs a loop",
            "crypto.json: SIZE is defined as (6 * PAGE) and as 0x2000: the first counts, and --define before it",
            "crypto.json: stack_size `SIZE` is 0x1800",
            "crypto.json: heap_size `1024` is 0x400",
            "crypto.json: ns_agent is dropped: ffm has no such attribute",
            "crypto.json: sid `0x40U` is 0x40",
            'crypto.json: stateless_handle "3" is written 3',
            'crypto.json: version "1" is written 1',
            'crypto.json: mm_iovec true is "enable"',
            'crypto.json: source "16" is written 16',
            "crypto.json: entry_init stands for the entry_point that is missing",
            "crypto.json: HASH is called by 0x40000003 in scripts, which has no version in it as the C constant has",
            "crypto.json: stateless_handle is dropped: clients connect to the service",
            "crypto.json: region ENGINE is placed at 0x40000000 with 4 KiB: --region ENGINE=BASE,SIZE says another",
            "store.json: model is dropped: ffm has no such attribute in a manifest of 1.0",
            "crypto.json: dependency RANDOM is dropped: no partition of the set has this service",
            "crypto.json: weak dependency STORE is a dependency here",
            "crypto.json: weak dependency CLOCK is dropped",
            "wrote out/system.json with 2 manifests",
        ])

    def test_compile_lists_what_ffm_lists_with_its_status(self):
        listing = self.stand / "ffm"
        listing.write_text(f"#!{sys.executable}\nimport sys\nprint(sys.argv[1:], end='')\nsys.exit(4)\n")
        listing.chmod(0o755)
        status, told, _ = self.tool("--header", "config.h", "--compile", "--ffm", str(listing))
        self.assertEqual((status, told.splitlines()[-1]), (4, "['compile', 'out/system.json']"))
        status, told, why = self.tool("--header", "config.h", "--compile", "--ffm", "no_such_program")
        self.assertEqual((status, why), (2, "no_such_program: no program that can be run\n"))

    def test_the_system_file_names_what_was_asked_for(self):
        self.tool("--define", "SIZE=0x100", "--region", "ENGINE=0x50000000,0x20", "--client", "A", "--client", "B", "--level", "3")
        self.assertEqual(self.written("system.json"), {
            "isolation_level": 3, "regions": [{"name": "ENGINE", "base": "0x50000000", "size": "0x20"}], "clients": ["A", "B"],
            "manifests": ["out/crypto.json", "out/store.json"],
        })
        self.assertEqual(self.written("crypto.json")["stack_size"], "0x100")

    def test_a_partition_that_is_off_is_left_out(self):
        _, told, _ = self.tool("--define", "SIZE=64", "--define", "HAS_STORE=OFF")
        self.assertEqual(self.written("system.json")["manifests"], ["out/crypto.json"])
        self.assertIn("list.json: store.json is left out: HAS_STORE is OFF\n", told)
        self.assertIn("crypto.json: weak dependency STORE is dropped\n", told)

    def test_a_symbol_without_a_value_is_named_and_nothing_is_written(self):
        status, _, wrong = self.tool()
        self.assertEqual(status, 1)
        self.assertEqual(wrong, "crypto.json: stack_size: SIZE isn't defined; --define NAME=VALUE and --header FILE define symbols\n")
        self.assertFalse((self.stand / "out").exists())

    def test_interrupts_of_functions_are_dropped(self):
        self.put("crypto.json", MANIFEST | {"model": "SFN", "stack_size": 64})
        _, told, _ = self.tool()
        self.assertNotIn("irqs", self.written("crypto.json"))
        self.assertIn("crypto.json: irqs is dropped: an SFN partition has no interrupts here; write the model IPC for them\n", told)

    def test_a_file_that_is_not_there_is_named(self):
        (self.stand / "store.json").unlink()
        self.assertEqual(self.tool("--define", "SIZE=64")[0::2], (2, "store.json: No such file or directory\n"))
        self.assertEqual(self.tool("--header", "none.h")[0::2], (2, "none.h: No such file or directory\n"))

    def test_without_the_package_the_line_says_so(self):
        (self.stand / "yaml.py").write_text("raise ImportError\n")
        (self.stand / "list.yaml").write_text("{}")
        status, _, wrong = run("list.yaml", "--out", "out", stand=self.stand, PYTHONPATH=str(self.stand))
        self.assertEqual((status, wrong), (2, "list.yaml: YAML is read with the Python package PyYAML, which isn't here: pip install pyyaml\n"))


@unittest.skipUnless(importlib.util.find_spec("yaml"), "PyYAML isn't here")
class Yaml(unittest.TestCase):
    """The set beside this file, whose import is stored with the cases of the CI."""

    def same_as_stored(self, case, *words):
        with tempfile.TemporaryDirectory() as folder:
            out = pathlib.Path("tfm") / case
            files = [HERE / word if word.startswith("tfm/") else word for word in words]
            status, told, wrong = run(*files, "--header", HERE / "tfm/config_tfm.h", "--out", out, stand=folder, TEST_MANIFESTS=".")
            self.assertEqual((status, wrong), (0, ""))
            names = sorted(path.name for path in (pathlib.Path(folder) / out).iterdir())
            self.assertEqual(names, sorted(path.name for path in (STORED / out).glob("*.json") if path.name != "scenario.json"))
            for name in names:
                self.assertEqual((pathlib.Path(folder) / out / name).read_text(), (STORED / out / name).read_text(), name)
        return told

    def test_a_list_is_imported_in_one_call(self):
        told = self.same_as_stored("manifest_list", "tfm/tfm_manifest_list.yaml")
        self.assertIn("tfm_crypto.yaml:10: stack_size `CRYPTO_STACK_SIZE` is 0x1b00\n", told)

    def test_two_lists_are_one_system(self):
        self.same_as_stored("interrupt_tests", "tfm/tfm_manifest_list.yaml", "tfm/tfm_test_manifest_list.yaml", "--define", "CONFIG_TFM_SPM_BACKEND_IPC=OFF",
                            "--region", "TFM_PERIPHERAL_TIMER1=0x40100000,0x100", "--client", "NS", "--client", "TOOL", "--level", "3")

    def test_what_is_no_yaml_is_told(self):
        with tempfile.TemporaryDirectory() as folder:
            (pathlib.Path(folder) / "list.yaml").write_text("{ a: [ }")
            status, _, wrong = run("list.yaml", "--out", "out", stand=folder)
        self.assertEqual(status, 2)
        self.assertTrue(wrong.startswith("list.yaml: no YAML: "), wrong)


if __name__ == "__main__":
    unittest.main()
