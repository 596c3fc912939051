"""The examples for C, Python and Rust: each is short enough to be read at a glance."""

from __future__ import annotations

import ast
import re
import unittest
from pathlib import Path

ROOT = Path(__file__).resolve().parents[1]
C_EXAMPLES = ROOT / "libraries/c/examples"

C_MAX, PYTHON_MAX, RUST_MAX = 40, 15, 20
"""How many lines an example has at most, without blank ones and its text."""

HELPERS = ["files", "frames", "nodes", "tell"]
"""What examples for C share, and who copies one of them may copy too."""


def c_lines(text: str) -> int:
    """How many lines of a program have code."""
    code = re.sub(r"/\*.*?\*/", "", text, flags=re.DOTALL)
    return sum(bool(line.strip()) for line in code.splitlines())


def python_lines(text: str) -> int:
    """How many lines of a module have code: those after its text."""
    first = ast.parse(text).body[0]
    assert isinstance(first, ast.Expr) and first.end_lineno is not None
    return sum(bool(line.strip()) for line in text.splitlines()[first.end_lineno :])


def rust_lines(text: str) -> int:
    """How many lines of a program have code."""
    lines = (line.strip() for line in text.splitlines())
    return sum(bool(line) and not line.startswith("//") for line in lines)


class Examples(unittest.TestCase):
    def test_those_for_c_are_short(self) -> None:
        programs = [it for it in sorted(C_EXAMPLES.glob("*.c")) if it.stem not in HELPERS]
        self.assertEqual([it.stem for it in programs], ["edit_path", "keep", "machine", "plan"])
        for file in [*programs, C_EXAMPLES / "uefi/next.c"]:
            text = file.read_text(encoding="utf-8")
            self.assertRegex(text, r"\b(efi_)?main\(", file.name)
            self.assertLessEqual(c_lines(text), C_MAX, file.name)

    def test_those_for_python_are_short(self) -> None:
        files = sorted((ROOT / "libraries/python/examples").glob("*.py"))
        self.assertEqual([it.stem for it in files], ["edit_path", "keep", "machine", "plan"])
        for file in files:
            lines = python_lines(file.read_text(encoding="utf-8"))
            self.assertLessEqual(lines, PYTHON_MAX, file.name)

    def test_those_for_rust_are_short(self) -> None:
        files = sorted((ROOT / "libraries/rust/examples").glob("*.rs"))
        names = ["edit_path", "entry", "keep", "machine", "plan"]
        self.assertEqual([it.stem for it in files], names)
        for file in files:
            lines = rust_lines(file.read_text(encoding="utf-8"))
            self.assertLessEqual(lines, RUST_MAX, file.name)

    def test_lines_without_code_are_not_counted(self) -> None:
        self.assertEqual(c_lines("/* a\n * b */\n\nint main(void)\n{ /* c */\n}\n"), 3)
        self.assertEqual(python_lines('"""a\n\nb"""\n\nimport sys\n\nsys.exit()\n'), 2)
        self.assertEqual(rust_lines("//! a\n\nfn main() {\n    // b\n}\n"), 2)


if __name__ == "__main__":
    unittest.main()
