"""Tests of check_readmes.py."""

import os
import pathlib
import subprocess
import sys
import tempfile
import unittest

TOOLS = pathlib.Path(__file__).resolve().parents[1]
CRATES_TXT = "# Layers\n\nlow:\n\nhigh: low clap\n"
HIGH = """# high

{words}

**Stands on** low, for a number, and `clap`.

**Calls**
- `twice`: the number doubled.

**Begin with** src/lib.rt; the number is in low, src/number.rt.
"""
WORDS = " ".join(["word"] * 50)


class CheckReadmes(unittest.TestCase):
    def setUp(self):
        folder = tempfile.TemporaryDirectory()
        self.addCleanup(folder.cleanup)
        self.top = pathlib.Path(folder.name)
        self.write("crates.txt", CRATES_TXT)
        self.write("crates/low/src/number.rt", "pub fn number() -> u32\n")
        self.write("crates/low/README.md", f"# low\n\n{WORDS} {WORDS}\n\n**Stands on** nothing.\n")
        self.write("crates/high/src/lib.rt", "pub fn twice() -> u32\n")
        self.high = HIGH.format(words=WORDS)
        self.write("crates/high/README.md", self.high)

    def write(self, name, text):
        path = self.top / name
        path.parent.mkdir(parents=True, exist_ok=True)
        path.write_text(text)

    def told(self):
        done = subprocess.run([sys.executable, TOOLS / "check_readmes.py"], cwd=self.top, capture_output=True, text=True, check=False)
        return done.returncode, done.stdout

    def wrong(self, text):
        self.write("crates/high/README.md", text)
        status, told = self.told()
        self.assertEqual(status, 1, told)
        return told

    def test_right_pages_pass(self):
        self.assertEqual(self.told(), (0, "2 crates\n"))

    def test_a_missing_page(self):
        os.remove(self.top / "crates/low/README.md")
        self.assertEqual(self.told(), (1, "crates/low/README.md: not there\n"))

    def test_lengths(self):
        self.assertIn("words, and not 60 to 150", self.wrong(self.high.replace(WORDS, "few")))
        self.assertIn("words, and not 60 to 150", self.wrong(self.high.replace(WORDS, " ".join([WORDS] * 3))))

    def test_a_name_that_no_file_has(self):
        self.assertIn("thrice: no word of the crate", self.wrong(self.high.replace("`twice`", "`thrice`")))

    def test_a_file_that_is_not_there(self):
        self.assertIn("src/number.rt: no such file of high", self.wrong(self.high.replace("in low, src", "at src")))
        self.assertIn("src/lib.rt: no such file of low", self.wrong(self.high.replace("low, src/number", "low, src/lib")))

    def test_layers(self):
        self.assertIn("low: not under Stands on", self.wrong(self.high.replace("low, for a number, and ", "")))
        self.assertIn("high: crates.txt does not name it", self.wrong(self.high.replace("for a number", "for a number, high")))
        self.assertIn("no line begins", self.wrong(self.high.replace("**Stands on**", "It uses")))

    def test_the_first_line(self):
        self.assertIn("the crate's name", self.wrong(self.high.replace("# high", "# higher")))


if __name__ == "__main__":
    unittest.main()
