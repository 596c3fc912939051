"""Tests of the count of lines, over a small repository and over this one."""

from __future__ import annotations

import contextlib
import io
import sys
import tempfile
import unittest
from pathlib import Path
from typing import List, Tuple

ROOT = Path(__file__).resolve().parents[1]
sys.path.insert(0, str(ROOT / "tools"))

import line_list  # noqa: E402
import repository  # noqa: E402

FILES = {
    "crates/low/src/lib.rt": "//! Low\n\nmod rows;\n",
    "crates/low/src/rows/row.rt": "fn row() {}",
    "crates/low/src/notes.md": "No code\n",
    "crates/low/specs/Lib.antt": "pub mod Rows\n",
    "crates/low/proofs/rows/Answers.antt": "-- One\n-- Two\n",
    "crates/low/must-fail/a.edit": "file: src/lib.rt\nold: 1\nnew: 2\n",
    "crates/low/out/made.rt": "not mine\n",
    "bench/edits/low/b.edit": "file: src/lib.rt\n",
    "crates/high/src/lib.rt": "//! High\n" * 1200,
    "tests/program/main.rattle": "fn main() {}\n",
    "tests/program/checks/row.rattle": "\n\n",
    "tests/cases/low.json": "[\n]\n",
    "tests/test_low.py": "pass\n",
}

HEAD = "crate                     code definitions      proofs       edits"
LOW = "low                          4           1           2           4"


class SmallRepository(unittest.TestCase):
    """Two crates, and what tests them."""

    def setUp(self) -> None:
        folder = tempfile.TemporaryDirectory()
        self.addCleanup(folder.cleanup)
        self.root = Path(folder.name)
        (self.root / "crates.txt").write_text("low:\nhigh: low\n", encoding="utf-8")
        for name, text in FILES.items():
            file = self.root / name
            file.parent.mkdir(parents=True, exist_ok=True)
            file.write_text(text, encoding="utf-8")

    def told(self, *names: str) -> Tuple[int, List[str]]:
        out = io.StringIO()
        with contextlib.redirect_stdout(out), contextlib.redirect_stderr(out):
            status = line_list.main(list(names), self.root)
        return status, out.getvalue().splitlines()

    def test_all(self) -> None:
        wanted = [
            HEAD,
            LOW,
            "high                     1,200           0           0           0",
            "all of these             1,204           1           2           4",
            "tests/program/**/*.rattle: 3",
            "tests/cases/*.json: 2",
            "tests/*.py: 1",
        ]
        self.assertEqual(self.told(), (0, wanted))

    def test_some(self) -> None:
        self.assertEqual(
            self.told("low"), (0, [HEAD, LOW, LOW.replace("low         ", "all of these")])
        )

    def test_no_crate(self) -> None:
        self.assertEqual(self.told("low", "lower"), (2, ["lines: there is no crate lower"]))


class ThisRepository(unittest.TestCase):
    """Each crate here has code, and some have each other kind."""

    def test_each(self) -> None:
        counted = {it: line_list.lines_of(it) for it in repository.read_crates()}
        for crate, lines in counted.items():
            with self.subTest(crate):
                self.assertGreater(lines.code, 0)
        for kind in line_list.KINDS:
            self.assertGreater(sum(getattr(it, kind) for it in counted.values()), 0, kind)


if __name__ == "__main__":
    unittest.main()
