"""Tests of tools/ffm_program.py and tools/pack.sh, with a stand-in for the kit and /bin/echo for the program."""

import os
import pathlib
import shutil
import subprocess
import sys
import tempfile
import unittest

TOOLS = pathlib.Path(__file__).resolve().parents[1]
ECHO = shutil.which("echo")

# What the stand-in does at `rt try -- compile PIPE`: it builds "a program" in a folder of its own, and reads the pipe.
RT = """#!/bin/bash
if [ "$1" = version ]; then echo "kit of the test"; exit; fi
echo built >> "$BUILDS"
if [ -e "$BROKEN" ]; then echo "error: it doesn't compile"; exit 1; fi
folder=$(mktemp -d)
cp "$ECHO" "$folder/program"
read -r _ < "$4"
rm -r "$folder"
"""


class Repository(unittest.TestCase):
    """A repository with one program, whose stored run is `echo a b`."""

    def setUp(self):
        folder = tempfile.TemporaryDirectory()
        self.addCleanup(folder.cleanup)
        self.top = pathlib.Path(folder.name) / "repository"
        room = pathlib.Path(folder.name)
        shutil.copytree(TOOLS, self.top / "tools", ignore=shutil.ignore_patterns("tests", "__pycache__"))
        for name, text in {"crates.txt": "# all\nlow:\nffm: low # the program\n", "crates/low/src/lib.rt": "low\n", "crates/ffm/src/main.rt": "main\n",
                           "crates/ffm/args": "a\nb\n", "crates/ffm/stdout": "a b\n", "crates/ffm/data/system.json": "{}\n",
                           "schemas/system.schema.json": "{}\n", ".gitignore": "crates/*/out/\n__pycache__/\n"}.items():
            (self.top / name).parent.mkdir(parents=True, exist_ok=True)
            (self.top / name).write_text(text)
        (room / "bin").mkdir()
        (room / "bin/rt").write_text(RT)
        (room / "bin/rt").chmod(0o755)
        self.builds, self.broken = room / "builds", room / "broken"
        self.environment = os.environ | {"PATH": f"{room / 'bin'}:{os.environ['PATH']}", "XDG_CACHE_HOME": str(room / "cache"), "ECHO": ECHO,
                                         "BUILDS": str(self.builds), "BROKEN": str(self.broken), "PYTHONDONTWRITEBYTECODE": "1"}

    def call(self, *words, **changes):
        done = subprocess.run(list(map(str, words)), cwd=self.top, env=self.environment | changes, capture_output=True, text=True, check=False)
        return done.returncode, done.stdout, done.stderr

    def ffm(self, *words, **changes):
        return self.call(self.top / "tools/try_ffm.sh", *words, **changes)

    def count(self):
        return len(self.builds.read_text().splitlines()) if self.builds.exists() else 0

    def leave_proved(self):
        """What the CI leaves."""
        out = self.top / "crates/ffm/out"
        out.mkdir()
        shutil.copy(ECHO, out / "ffm")
        (out / "ffm").touch()
        return str(out / "ffm")

    # Which program is run

    def test_the_first_call_builds_and_later_ones_do_not(self):
        status, text, told = self.ffm("x", "y")
        self.assertEqual((status, text), (0, "x y\n"))
        self.assertTrue(told.startswith("building ffm without proofs"), told)
        self.assertEqual(self.ffm("z"), (0, "z\n", ""))
        self.assertEqual(self.count(), 1)

    def test_a_changed_source_is_built_anew(self):
        self.ffm("x")
        first = self.ffm("--which")[1]
        (self.top / "crates/low/src/lib.rt").write_text("changed\n")
        self.assertEqual(self.ffm("--which")[0], 2)
        self.assertEqual(self.ffm("x")[1], "x\n")
        self.assertEqual(self.count(), 2)
        self.assertNotEqual(self.ffm("--which")[1], first)
        (self.top / "crates/low/src/lib.rt").write_text("low\n")
        self.assertEqual(self.ffm("--which")[1], first)

    def test_the_proved_program_is_taken_where_no_source_is_younger(self):
        proved = self.leave_proved()
        self.assertEqual(self.ffm("--which")[1], proved + "\n")
        self.assertEqual((self.ffm("x")[1], self.count()), ("x\n", 0))
        os.utime(self.top / "crates/ffm/src/main.rt", (2e9, 2e9))
        self.assertEqual(self.ffm("--which")[0::2], (2, "ffm isn't built: tools/try_ffm.sh --build builds it without proofs, .ci/run with them\n"))

    def test_many_commands_are_run_by_one_program(self):
        (self.top / "commands").write_text("# a comment\nx 'y z'\n\nlast\n")
        status, text, _ = self.ffm("--many", "commands")
        self.assertEqual((status, text, self.count()), (0, "== x 'y z'\nx y z\nstatus 0\n== last\nlast\nstatus 0\n", 1))
        self.assertEqual(self.ffm("--many", "none")[0::2], (2, "none: No such file or directory\n"))

    def test_help_builds_nothing(self):
        for words in ((), ("-h",), ("--help",)):
            status, text, _ = self.ffm(*words)
            self.assertEqual((status, self.count()), (0, 0))
            self.assertTrue(text.startswith("usage: "), text)

    def test_build_alone(self):
        path = self.ffm("--build")[1].strip()
        self.assertTrue(os.access(path, os.X_OK))
        self.assertEqual((self.ffm("--build")[1].strip(), self.count()), (path, 1))

    # Where nothing can be built

    def test_a_build_that_fails_shows_what_the_kit_says(self):
        self.broken.touch()
        status, _, told = self.ffm("x")
        self.assertEqual((status, told.splitlines()[1:]), (2, ["ffm wasn't built: the kit says", "error: it doesn't compile"]))
        self.assertEqual(self.ffm("--which")[0], 2)

    def test_a_program_that_does_not_write_what_the_stored_run_wants_is_not_kept(self):
        (self.top / "crates/ffm/stdout").write_text("b a\n")
        self.assertTrue(self.ffm("x")[2].endswith("ffm was built, and its copy doesn't write what crates/ffm/stdout wants\n"))
        self.assertEqual(self.ffm("--which")[0], 2)

    def test_without_the_kit_the_line_says_so(self):
        path = ":".join(folder for folder in os.environ["PATH"].split(":") if not os.path.exists(f"{folder}/rt"))
        self.assertEqual(self.ffm("x", PATH=path)[0::2], (2, "ffm isn't built, and rt, the command of the Rattle kit, isn't on the path\n"))

    # The pack

    def pack(self, log):
        (self.top.parent / "ci.log").write_text(log)
        return self.call(self.top / "tools/pack.sh", self.top.parent / "ci.log", self.top.parent / "ffm.tar.gz")

    def commit(self):
        for words in (["init", "-q"], ["add", "-A"], ["-c", "user.name=a", "-c", "user.email=b", "commit", "-qm", "all"]):
            self.call("git", *words)
        return self.call("git", "rev-parse", "HEAD")[1].strip()

    def test_a_pack_has_programs_tools_identity_and_checksums(self):
        commit = self.commit()
        self.leave_proved()
        self.assertEqual(self.pack("..\nrt: ok; handles allowed: Threads\n5 passed, 0 failed\n"), (0, f"{self.top.parent}/ffm.tar.gz\n", ""))
        subprocess.run(["tar", "-xzf", "ffm.tar.gz"], cwd=self.top.parent, check=True)
        folder = self.top.parent / f"ffm-{commit[:12]}"
        self.assertEqual((folder / "identity.txt").read_text(), f"commit {commit}\nkit kit of the test\nrt: ok; handles allowed: Threads\n5 passed, 0 failed\n")
        self.assertEqual(subprocess.run(["sha256sum", "--quiet", "--check", "SHA256SUMS"], cwd=folder, check=False).returncode, 0)
        self.assertTrue((folder / "schemas/system.schema.json").is_file())
        for name in ("check_runs", "check_schemas", "expand", "import_tfm", "trace_diff", "ffm_program", "plain_machine", "plain_run", "plain_listing"):
            self.assertEqual(self.call(sys.executable, folder / f"tools/{name}.py", "--help")[0::2], (0, ""), name)
        self.assertEqual(self.call(sys.executable, folder / "tools/ffm_program.py", "ffm", "--which")[1], f"{folder / 'bin/ffm'}\n")

    def test_the_scripts_of_a_pack_run_the_program_and_say_which_one_it_is(self):
        commit = self.commit()
        self.leave_proved()
        self.pack("rt: ok; handles allowed: Threads\n5 passed, 0 failed\n")
        subprocess.run(["tar", "-xzf", "ffm.tar.gz"], cwd=self.top.parent, check=True)
        folder = self.top.parent / f"ffm-{commit[:12]}"
        link = self.top.parent / "link"
        link.symlink_to(folder / "ffm")
        self.assertEqual(self.call(link, "run", "a b", "--version"), (0, "run a b --version\n", ""))
        status, text, _ = self.call(link, "--version")
        self.assertEqual((status, text.splitlines()[:2]), (0, [f"commit {commit}", "kit kit of the test"]))
        self.assertRegex(text.splitlines()[-1], "^[0-9a-f]{64}  bin/ffm$")
        (folder / "bin/ffm").write_text("another program\n")
        status, text, _ = self.call(link, "--version")
        self.assertEqual((status, text.splitlines()[-1]), (1, "bin/ffm: FAILED"))

    def test_nothing_is_packed_that_the_gate_did_not_pass(self):
        self.commit()
        self.leave_proved()
        self.assertEqual(self.pack("4 passed, 1 failed\n")[0::2], (1, "pack.sh: the CI's log ends with: 4 passed, 1 failed\n"))
        self.assertEqual(self.pack("1 passed, 0 failed (low and the crates below alone: not the gate)\n")[0], 1)
        (self.top / "crates/low/src/other.rt").write_text("new\n")
        self.assertEqual(self.pack("5 passed, 0 failed\n")[0::2], (1, "pack.sh: these files aren't committed: crates/low/src/other.rt\n"))
        self.commit()
        self.assertIn("crates/ffm/out/ffm isn't there, or a source is younger", self.pack("5 passed, 0 failed\n")[2])


if __name__ == "__main__":
    unittest.main()
