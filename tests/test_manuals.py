"""The manuals: that they are written as mandoc wants it, and describe what the programs take."""

from __future__ import annotations

import re
import shutil
import subprocess
import sys
import tempfile
import unittest
from pathlib import Path
from typing import List

ROOT = Path(__file__).resolve().parents[1]
sys.path.insert(0, str(ROOT / "tools"))

import call_manual_files  # noqa: E402
import command_rows  # noqa: E402

FOLDER = ROOT / "packaging/man"


@unittest.skipIf(shutil.which("mandoc") is None, "mandoc isn't there")
class Written(unittest.TestCase):
    """What mandoc says of how they are written."""

    def lint(self, files: List[Path]) -> str:
        """What it finds wrong with some files."""
        words = ["mandoc", "-T", "lint", "-W", "warning", *map(str, files)]
        return subprocess.run(words, capture_output=True, text=True, check=False).stdout

    def test_those_of_the_repository(self) -> None:
        self.assertEqual(self.lint(sorted(FOLDER.iterdir())), "")

    def test_those_of_calls(self) -> None:
        with tempfile.TemporaryDirectory() as folder:
            for name, text in call_manual_files.manuals().items():
                Path(folder, name).write_bytes(text)
            self.assertEqual(self.lint(sorted(Path(folder).iterdir())), "")


class Efibootmgr(unittest.TestCase):
    """The manual of the options of `efibootmgr`, of which the list is written by hand."""

    def setUp(self) -> None:
        self.text = (FOLDER / "bootvars-efibootmgr.1").read_text(encoding="utf-8")
        self.values = command_rows.efibootmgr_values()
        self.heads = "\n".join(re.findall(r"^\.It Fl .*$", self.text, re.MULTILINE))

    def test_each_option_that_is_done_has_its_letter_name_and_value(self) -> None:
        options = command_rows.efibootmgr_options()
        letters = {it.choice: it.letter for it in options if it.letter}
        for option in options:
            if option.name in self.values:
                named = rf"^.* -{re.escape(option.name)}(?![\w-]).*$"
                head = re.search(named, self.heads, re.MULTILINE)
                assert head is not None, option.name
                first = letters.get(option.choice, f"-{option.name}")
                self.assertTrue(head[0].startswith(f".It Fl {first}"), head[0])
                if self.values[option.name]:
                    self.assertIn(f"Ar {self.values[option.name]}", head[0])

    def test_each_that_is_not_done_is_named(self) -> None:
        after = self.text[self.text.index("These options are errors") :]
        for option in command_rows.efibootmgr_options():
            if option.name not in self.values:
                self.assertIn(f".Fl {option.letter} , -{option.name} ", after)


class Examples(unittest.TestCase):
    """The examples of the manual of `bootvars`."""

    def test_they_have_commands_and_options_that_there_are(self) -> None:
        text = (FOLDER / "bootvars.1").read_text(encoding="utf-8")
        blocks = "\n".join(
            re.findall(r"^\.Bd -literal.*?\n(.*?)^\.Ed$", text, re.DOTALL | re.MULTILINE)
        )
        lines = blocks.replace("\\e\n", " ").replace("|\n", "| ").splitlines()
        called = [it for it in lines if it.startswith("bootvars ")]
        commands = {it.name: it for it in command_rows.bootvars_commands()}
        self.assertGreaterEqual(len(called), 8)
        for line in called:
            command = commands[line.split()[1]]
            for option in re.findall(r" --([\w-]+)", line.partition("|")[0]):
                self.assertIn(option, command.options(), line)


if __name__ == "__main__":
    unittest.main()
