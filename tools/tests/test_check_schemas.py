"""Tests of what tools/check_schemas.py says where its package isn't there; its own run tests the schemas."""

import os
import pathlib
import subprocess
import sys
import tempfile
import unittest

TOOL = pathlib.Path(__file__).resolve().parents[1] / "check_schemas.py"


class CheckSchemas(unittest.TestCase):
    def without(self, package, *words):
        with tempfile.TemporaryDirectory() as folder:
            (pathlib.Path(folder) / f"{package}.py").write_text(f"raise ModuleNotFoundError(name={package!r})\n")
            environment = os.environ | {"PYTHONPATH": folder, "PYTHONDONTWRITEBYTECODE": "1"}
            return subprocess.run([sys.executable, str(TOOL), *words], env=environment, capture_output=True, text=True, check=False)

    def test_the_missing_package_is_named_in_one_line(self):
        done = self.without("jsonschema", "system.json")
        self.assertEqual((done.returncode, done.stderr), (2, "check_schemas.py needs the Python package jsonschema, 4.18 or later, and jsonschema isn't here: pip install jsonschema\n"))

    def test_help_needs_no_package(self):
        self.assertEqual(self.without("jsonschema", "--help").returncode, 0)


if __name__ == "__main__":
    unittest.main()
