"""Tests of the collection for Ansible, over a program that is made up. `bench/ansible` tries it over bootvars."""

from __future__ import annotations

import json
import re
import subprocess
import sys
import tempfile
import unittest
from pathlib import Path
from typing import Any, Dict, List, Optional

ROOT = Path(__file__).resolve().parents[1]
COLLECTION = ROOT / "packaging/ansible"
MODULE = COLLECTION / "plugins/modules/entries.py"

PROGRAM = """#!/bin/sh
cd "${0%/*}" || exit 99
printf '%s\\n' "$@" >words
cat >file
cat out
cat notes >&2
exit "$(cat status)"
"""

CHANGES = [
    {
        "change": "changed",
        "name": "Boot0001",
        "entry": "0001",
        "before": {"kind": "undecodable", "data": "41"},
        "after": {
            "kind": "normal",
            "description": "dé",
            "attributes": 1,
            "named_paths": ["USB(0x1,0x0)", "Vlan(0x64)"],
            "optional": "0102",
        },
    },
    {
        "change": "changed",
        "name": "BootOrder",
        "entry": None,
        "before": {"kind": "order", "entries": ["0002"]},
        "after": {"kind": "order", "entries": ["0001", "0002"]},
    },
    {
        "change": "added",
        "name": "BootNext",
        "entry": None,
        "before": None,
        "after": {"kind": "next", "entry": "0001"},
    },
    {
        "change": "removed",
        "name": "Timeout",
        "entry": None,
        "before": {"kind": "timeout", "seconds": 5},
        "after": None,
    },
]
"""Changes of each kind, as the program prints them."""

BEFORE = "Boot0001 undecodable 41\nBootOrder 0002\nTimeout 5 seconds\n"
AFTER = """Boot0001 "dé"
  attributes 0x00000001
  path USB(0x1,0x0)
  path Vlan(0x64)
  optional 0102
BootOrder 0001 0002
BootNext 0001
"""


def interpreter() -> Optional[str]:
    """A Python that has Ansible: perhaps the system's alone has it."""
    for python in (sys.executable, "/usr/bin/python3"):
        words = [python, "-c", "import ansible.module_utils.basic"]
        if (
            Path(python).exists()
            and not subprocess.run(words, capture_output=True, check=False).returncode
        ):
            return python
    return None


PYTHON = interpreter()


@unittest.skipUnless(PYTHON, "Debian's ansible-core isn't installed")
class Entries(unittest.TestCase):
    def setUp(self) -> None:
        folder = tempfile.TemporaryDirectory(prefix="bootkeep test ")
        self.addCleanup(folder.cleanup)
        self.folder = Path(folder.name)
        self.program = self.folder / "program"
        self.program.write_text(PROGRAM, encoding="utf-8")
        self.program.chmod(0o755)
        self.answer(0, [])

    def answer(self, status: int, changes: List[Any], notes: str = "") -> None:
        """Has the program answer so."""
        told = {"version": 1, "equal": not changes, "changes": changes, "changed": bool(changes)}
        self.print(status, json.dumps(told) + "\n", notes)

    def print(self, status: int, out: str, notes: str = "") -> None:
        """Has the program print this."""
        for name, text in (("status", f"{status}"), ("out", out), ("notes", notes)):
            (self.folder / name).write_text(text, encoding="utf-8")

    def call(self, is_check: bool = False, **arguments: Any) -> Dict[str, Any]:
        """What the module answers."""
        told = {"program": str(self.program), "_ansible_check_mode": is_check, **arguments}
        called = subprocess.run(
            [str(PYTHON), "-B", str(MODULE)],
            input=json.dumps({"ANSIBLE_MODULE_ARGS": told}),
            capture_output=True,
            text=True,
            check=False,
        )
        answer: Dict[str, Any] = json.loads(called.stdout)
        self.assertEqual(called.returncode, 1 if answer.get("failed") else 0, called.stderr)
        return answer

    def words(self) -> List[str]:
        return (self.folder / "words").read_text(encoding="utf-8").splitlines()

    def file(self) -> Any:
        """What the program got on its standard input."""
        return json.loads((self.folder / "file").read_text(encoding="utf-8"))

    def test_the_words(self) -> None:
        self.call()
        begin = ["apply", "--json", "--exit-code"]
        self.assertEqual(self.words(), [*begin, "/sys/firmware/efi/efivars", "-"])
        self.call(is_check=True, place="/vars.fd", state_folder="/kept", force=True)
        words = [*begin, "--dry-run", "--force", "--state", "/kept", "/vars.fd", "-"]
        self.assertEqual(self.words(), words)

    def test_the_file_has_what_is_said_alone(self) -> None:
        self.call()
        self.assertEqual(self.file(), {})
        self.call(
            entries=[
                {"description": "dé", "path": "USB(1,0)", "active": False},
                {"description": "b", "state": "absent"},
            ],
            order={"first": ["b", "dé"]},
            next="dé",
            timeout=5,
        )
        wanted = {
            "entries": [
                {"description": "dé", "state": "present", "path": "USB(1,0)", "active": False},
                {"description": "b", "state": "absent"},
            ],
            "order": {"first": ["b", "dé"]},
            "next": "dé",
            "timeout": 5,
        }
        self.assertEqual(self.file(), wanted)

    def test_false_is_no_absence(self) -> None:
        self.call(next=False, timeout=False, order={"only": []}, entries=[])
        wanted = {"next": False, "timeout": False, "order": {"only": []}, "entries": []}
        self.assertEqual(self.file(), wanted)

    def test_a_template_makes_a_text_of_seconds(self) -> None:
        self.call(timeout="30")
        self.assertEqual(self.file(), {"timeout": 30})

    def test_numbers_in_the_place_of_digits_are_left_to_the_program(self) -> None:
        """YAML makes 66 of 0102, which isn't to become the digits 66."""
        self.call(entries=[{"description": "d", "option": 66, "optional": 67}], next=5)
        (entry,) = self.file()["entries"]
        self.assertEqual((entry["option"], entry["optional"], self.file()["next"]), (66, 67, 5))

    def test_changes(self) -> None:
        for is_check in (False, True):
            self.answer(12, CHANGES, "bootvars: a note\nanother\n")
            told = self.call(is_check)
            self.assertEqual(
                (told["changed"], told["changes"], told["status"]), (True, CHANGES, 12)
            )
            self.assertEqual(told["warnings"], ["bootvars: a note", "another"])
            self.assertEqual((told["diff"]["before"], told["diff"]["after"]), (BEFORE, AFTER))

    def test_no_changes(self) -> None:
        told = self.call()
        self.assertEqual((told["changed"], told["changes"]), (False, []))
        self.assertEqual((told["diff"]["before"], told["diff"]["after"]), ("", ""))

    def test_a_fault_is_told_as_the_program_tells_it(self) -> None:
        message = 'bootvars: -: entry "b": several entries have the description'
        self.print(1, "", f"{message}\n")
        told = self.call(entries=[{"description": "b", "path": "USB(1,0)"}])
        self.assertEqual((told["failed"], told["msg"], told["status"]), (True, message, 1))
        self.assertEqual(json.loads(told["file"]), self.file())

    def test_a_program_that_says_nothing(self) -> None:
        self.print(70, "")
        self.assertRegex(self.call()["msg"], "ended with the status 70$")
        for out in ("", "nothing to change\n", "{}\n", "[]\n"):
            self.print(0, out)
            self.assertIn("something else than JSON", self.call()["msg"], out)

    def test_no_program(self) -> None:
        told = self.call(program="/nowhere/bootvars")
        self.assertIn("/nowhere/bootvars", told["msg"])

    def test_unknown_arguments(self) -> None:
        self.assertIn("colour", self.call(colour="red")["msg"])
        self.assertIn("colour", self.call(entries=[{"description": "d", "colour": 1}])["msg"])


class Files(unittest.TestCase):
    def test_each_argument_is_described(self) -> None:
        text = MODULE.read_text(encoding="utf-8")
        described = text[: text.index("EXAMPLES = ")]
        arguments = re.findall(r'(?m)^    "(\w+)": \{"type"', text)
        self.assertIn("state_folder", arguments)
        for argument in arguments:
            self.assertRegex(described, rf"(?m)^ +{argument}:$")


if __name__ == "__main__":
    unittest.main()
