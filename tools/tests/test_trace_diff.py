"""Tests of tools/trace_diff.py."""

import pathlib
import subprocess
import sys
import tempfile
import unittest

HERE = pathlib.Path(__file__).resolve().parent
sys.path.insert(0, str(HERE.parent))
from trace_diff import differences

OLD = """p1 wait 0x00000010 0x80000000 -> blocked
n1 connect 0x00000040 1 -> blocked
p1 resume -> signals 0x00000010
p1 get 0x00000010 0x30000000 -> message -1 1536 -1 0x00000000 0 0 0 0 0 0 0 0
p1 reply 1536 0 -> done
n1 resume -> value 1024
n1 call 1024 0 0x00000000 0 0x00000000 0 -> value -145
n1 close 1024 -> done
n1 close 1024 -> done
quiet 9
"""


class TraceDiff(unittest.TestCase):
    def test_other_handles_and_another_order_are_the_same(self):
        lines = OLD.replace("1536", "77").replace("1024", "5").splitlines(keepends=True)
        self.assertEqual(list(differences(OLD, "".join([lines[1], lines[0], *lines[2:]]))), [])

    def test_one_more_call_is_one_more_line_of_its_actor(self):
        new = OLD.replace("n1 connect", "n1 version 0x00000040 -> number 1\nn1 connect", 1).replace("quiet 9", "quiet 10")
        self.assertEqual(list(differences(OLD, new, {"n1": "NS"})), [
            "NS: 1 lines differ\n  @@ -1 +1,2 @@\n  +version 0x00000040 -> number 1\n   connect 0x00000040 1 -> value c1",
        ])

    def test_another_answer_is_told_with_both(self):
        [told] = differences(OLD, OLD.replace("value -145", "value 0"))
        self.assertIn("\n  -call c1 0 0x00000000 0 0x00000000 0 -> value -145\n  +call c1 0 0x00000000 0 0x00000000 0 -> value 0\n", told)

    def test_a_handle_that_is_gone_is_told_from_one_that_never_was(self):
        [told] = differences(OLD, OLD.replace("n1 close 1024 -> done\nn1 close 1024", "n1 close 1024 -> done\nn1 close 9"))
        self.assertTrue(told.endswith("\n  -close c1(gone) -> done\n  +close 9 -> done"), told)

    def test_another_verdict_is_told(self):
        self.assertEqual(list(differences(OLD, OLD.replace("quiet", "stalled"))), ["ends stalled, and quiet was wanted"])

    def test_runs_after_a_reset_begin_anew(self):
        twice = OLD + "restart 1\n" + OLD
        self.assertEqual(list(differences(twice, OLD + "restart 1\n" + OLD.replace("1024", "3"))), [])
        self.assertTrue(list(differences(OLD, twice)))

    def test_the_command(self):
        with tempfile.TemporaryDirectory() as folder:
            old, new = pathlib.Path(folder) / "old", pathlib.Path(folder) / "new"
            old.write_text(OLD)
            new.write_text(OLD.replace("number", "value"))
            run = [sys.executable, str(HERE.parent / "trace_diff.py"), str(old)]
            self.assertEqual(subprocess.run([*run, str(new)], capture_output=True, check=False).returncode, 0)
            done = subprocess.run([*run, str(old) + "er"], capture_output=True, text=True, check=False)
            self.assertEqual((done.returncode, done.stderr), (2, f"{old}er: No such file or directory\n"))


if __name__ == "__main__":
    unittest.main()
