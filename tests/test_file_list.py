"""Tests of the list of source files, over a small repository and over this one."""

from __future__ import annotations

import contextlib
import io
import sys
import tempfile
import unittest
from pathlib import Path
from typing import List, Tuple

ROOT = Path(__file__).resolve().parents[1]
sys.path.insert(0, str(ROOT / "tools"))

import file_list  # noqa: E402
import repository  # noqa: E402

FILES = {
    "crates/low/src/lib.rt": "//! Low things (2.10): what\n//! they are. And more.\n//!\n//! No.\n",
    "crates/low/src/parts/rows.rt": "//! Rows.\n//!\n//! As they are\nuse low;\n",
    "crates/low/specs/Lib.antt": "pub mod Rows\n",
    "crates/low/specs/Rows.antt": "-- What a row is\nuse Rattle.std.specs.Prelude.{ℕ}\n",
    "crates/low/proofs/Cut.antt": "-- How rows are cut.\npub mod Ends\n",
    "crates/low/proofs/Cut/Ends.antt": "-- Where rows end.\n",
    "crates/low/proofs/rows/Rows/cut/Answers.antt": "use Rattle.low.specs.Rows.{Row}\n",
    "crates/low/must-fail/no_rows.edit": "# wrong: no rows\n",
    "tests/program/main.rattle": "//! Runs cases.\n",
}

LOW = [
    "crates/low/src/lib.rt: Low things (2.10): what they are.",
    "crates/low/src/parts/rows.rt: Rows.",
    "crates/low/specs/Rows.antt: What a row is",
    "crates/low/proofs/Cut.antt: How rows are cut.",
    "crates/low/proofs/Cut/Ends.antt: Where rows end.",
]

CASES = ["tests/program/main.rattle: Runs cases."]


class SmallRepository(unittest.TestCase):
    """Two crates, of which one has files, and a program that runs cases."""

    def setUp(self) -> None:
        folder = tempfile.TemporaryDirectory()
        self.addCleanup(folder.cleanup)
        self.root = Path(folder.name)
        (self.root / "crates.txt").write_text("low:\nhigh: low\n", encoding="utf-8")
        for name, text in FILES.items():
            self.write(name, text)

    def write(self, name: str, text: str) -> None:
        file = self.root / name
        file.parent.mkdir(parents=True, exist_ok=True)
        file.write_text(text, encoding="utf-8")

    def told(self, *words: str) -> Tuple[int, List[str]]:
        out = io.StringIO()
        with contextlib.redirect_stdout(out), contextlib.redirect_stderr(out):
            status = file_list.main(list(words), self.root)
        return status, out.getvalue().splitlines()

    def test_all(self) -> None:
        self.assertEqual(self.told(), (0, [*LOW, *CASES]))

    def test_some(self) -> None:
        self.assertEqual(self.told("low"), (0, LOW))
        self.assertEqual(self.told("high"), (0, []))
        self.assertEqual(self.told("tests/program"), (0, CASES))
        self.assertEqual(self.told("crates/low/src/parts", "tests"), (0, [LOW[1], *CASES]))

    def test_neither_crate_nor_folder(self) -> None:
        why = (2, ["files: there is no crate and no folder lower"])
        self.assertEqual(self.told("low", "lower"), why)

    def test_nothing_said(self) -> None:
        for text in ("", "mod rows;\n", "\n//! Too late.\n", "//!\n//! Too late.\n", "// None.\n"):
            with self.subTest(text):
                self.write("crates/high/src/lib.rt", text)
                silent = ["crates/high/src/lib.rt: ITS FIRST LINE DOES NOT SAY"]
                self.assertEqual(self.told("high"), (1, silent))


class ThisRepository(unittest.TestCase):
    """Each file here that is listed says what it is for."""

    def test_each(self) -> None:
        for word in [*repository.read_crates(), file_list.CASES, "bench"]:
            with self.subTest(word), contextlib.redirect_stdout(io.StringIO()) as out:
                self.assertEqual(file_list.main([word]), 0, out.getvalue())


if __name__ == "__main__":
    unittest.main()
