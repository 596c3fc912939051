"""Tests of what makes completions, over the help of a small program and over the files of this repository."""

from __future__ import annotations

import subprocess
import sys
import tempfile
import unittest
from pathlib import Path
from typing import List

ROOT = Path(__file__).resolve().parents[1]
sys.path.insert(0, str(ROOT / "tools"))

import completion_list  # noqa: E402

HELP = {
    "tool": """Does things

Usage: tool <COMMAND>

Commands:
  make  Makes the 'thing'
  ask   Asks: what
  help  Print this message or the help of the given subcommand(s)

Options:
  -h, --help  Print help

Example:
  tool make --out thing
""",
    "tool make": """Makes the thing

Usage: tool make [OPTIONS] --out <FILE>

Options:
      --out <FILE>   The thing
      --name <TEXT>  Its name
  -h, --help         Print help
""",
    "tool ask": """Asks what.

Usage: tool ask [OPTIONS] <NUMBER> <COMMAND>

Commands:
  now  Asks now

Arguments:
  <NUMBER>
          A number

Options:
      --loud
          Shouts

  -h, --help
          Print help (see a summary with '-h')
""",
    "tool ask now": "Asks now\n\nUsage: tool ask <NUMBER> now\n\nOptions:\n      --loud  Shouts\n",
}


def help_of(words: List[str]) -> str:
    return HELP[" ".join(words)]


class SmallProgram(unittest.TestCase):
    """A program with two commands, of which one has a command."""

    def setUp(self) -> None:
        self.commands = list(completion_list.commands_of(help_of, ["tool"]))
        self.files = completion_list.made("tool", self.commands)

    def test_commands(self) -> None:
        words = [command.words for command in self.commands]
        self.assertEqual(words, ["tool", "tool make", "tool ask", "tool ask now"])
        self.assertEqual(
            self.commands[0].commands, {"make": "Makes the 'thing'", "ask": "Asks: what"}
        )

    def test_options(self) -> None:
        option = completion_list.Option
        self.assertEqual(
            self.commands[1].options,
            [
                option("", "out", "FILE", "The thing"),
                option("", "name", "TEXT", "Its name"),
                option("h", "help", "", "Print help"),
            ],
        )
        self.assertEqual(
            self.commands[2].options,
            [
                option("", "loud", "", "Shouts"),
                option("h", "help", "", "Print help (see a summary with '-h')"),
            ],
        )

    def test_each_is_in_each_file(self) -> None:
        self.assertEqual(set(self.files), {"tool.bash", "_tool", "tool.fish"})
        for command in self.commands:
            for file, text in self.files.items():
                lines = [line for line in text.splitlines() if command.words in line]
                with self.subTest(f"{command.words} in {file}"):
                    self.assertTrue(lines)
            for option in command.options:
                self.assertIn(f"--{option.name}", self.files["tool.bash"])
                self.assertIn(f"'--{option.name}:", self.files["_tool"])
                at = completion_list.quoted(f"__tool_at {command.words}")
                self.assertIn(f"-n {at} -l {option.name}", self.files["tool.fish"])

    def completed(self, line: str, folder: str) -> str:
        """What bash offers for the last word of a line, in a folder."""
        words = " ".join(f"'{word}'" for word in line.split(" "))
        script = (
            self.files["tool.bash"]
            + f"COMP_WORDS=({words}); COMP_CWORD={line.count(' ')}; _tool; IFS='|'; echo \"${{COMPREPLY[*]}}\""
        )
        done = subprocess.run(
            ["bash", "-c", script], cwd=folder, capture_output=True, check=True, encoding="utf-8"
        )
        self.assertEqual(done.stderr, "")
        return done.stdout.rstrip("\n")

    def test_bash(self) -> None:
        for line, wanted in (
            ("tool ", "make|ask|--help|-h"),
            ("tool ma", "make"),
            ("tool make --", "--out|--name|--help"),
            ("tool make --name ", ""),
            ("tool ask 5 no", "now"),
            ("tool ask 5 now --", "--loud"),
        ):
            with self.subTest(line):
                self.assertEqual(self.completed(line, "/proc/self/fdinfo"), wanted)

    def test_bash_offers_a_file_whose_name_has_blanks_as_one_word(self) -> None:
        with tempfile.TemporaryDirectory() as folder:
            Path(folder, "a set *").touch()
            for line in ("tool make --out ", "tool make --out a", "tool make a"):
                with self.subTest(line):
                    self.assertEqual(self.completed(line, folder), "a set *")

    def test_no_program(self) -> None:
        unlike = completion_list.differences(ROOT / "no" / "program", "tool")
        self.assertEqual(len(unlike), 1)


class ThisRepository(unittest.TestCase):
    """The files here are in the form that bash reads."""

    def test_bash(self) -> None:
        for file in completion_list.FOLDER.glob("*.bash"):
            with self.subTest(file.name):
                subprocess.run(["bash", "-n", file], check=True)


if __name__ == "__main__":
    unittest.main()
