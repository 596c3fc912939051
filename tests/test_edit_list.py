"""Tests of the list of edits, over a small repository and over this one."""

from __future__ import annotations

import contextlib
import io
import sys
import tempfile
import unittest
from pathlib import Path
from typing import List, Tuple

ROOT = Path(__file__).resolve().parents[1]
sys.path.insert(0, str(ROOT / "tools"))

import edit_list  # noqa: E402
import repository  # noqa: E402

PAIR = "file: src/lib.rt\nold: 1\nnew: 2\n"


class SmallRepository(unittest.TestCase):
    """Two crates, of which one has edits."""

    def setUp(self) -> None:
        folder = tempfile.TemporaryDirectory()
        self.addCleanup(folder.cleanup)
        self.root = Path(folder.name)
        (self.root / "crates.txt").write_text("low:\nhigh: low\n", encoding="utf-8")
        for crate in ("low", "high"):
            source = self.root / "crates" / crate / "src/lib.rt"
            source.parent.mkdir(parents=True)
            source.write_text("1\n", encoding="utf-8")
        self.write("crates/low/must-fail/b", f"# wrong: one is two\n# refused at: `ok`\n{PAIR}")
        self.write("crates/low/must-fail/a", f"# wrong: none is two\n{PAIR}")
        self.write("bench/edits/low/0", f"# wrong: two is one\n{PAIR}")

    def write(self, name: str, text: str) -> None:
        file = self.root / f"{name}.edit"
        file.parent.mkdir(parents=True, exist_ok=True)
        file.write_text(text, encoding="utf-8")

    def told(self, *names: str) -> Tuple[int, List[str]]:
        out = io.StringIO()
        with contextlib.redirect_stdout(out), contextlib.redirect_stderr(out):
            status = edit_list.main(list(names), self.root)
        return status, out.getvalue().splitlines()

    def test_all(self) -> None:
        wanted = [
            "low a, in the gate: none is two",
            "low b, in the gate: one is two",
            "    refused at `ok`",
            "low 0, on demand: two is one",
            "3 edits: 2 in the gate, 1 on demand",
        ]
        self.assertEqual(self.told(), (0, wanted))
        self.assertEqual(self.told("low"), (0, wanted))

    def test_a_crate_without_edits(self) -> None:
        self.assertEqual(self.told("high"), (0, ["0 edits: 0 in the gate, 0 on demand"]))

    def test_no_crate(self) -> None:
        self.assertEqual(self.told("low", "lower"), (2, ["edits: there is no crate lower"]))

    def test_nothing_said(self) -> None:
        for text in (PAIR, f"# wrong: \n{PAIR}", f"# wrong: one\n# wrong: two\n{PAIR}"):
            self.write("crates/high/must-fail/c", text)
            status, lines = self.told("high")
            self.assertEqual(status, 1)
            self.assertEqual(lines[0], "high c, in the gate: ITS FILE DOES NOT SAY")

    def test_what_does_not_fit(self) -> None:
        for text, why in (
            ("file: src/lib.rt\nold: 2\nnew: 1\n", "2 is in src/lib.rt 0 times"),
            (f"{PAIR}old: 1\nnew: 3\n", "1 is in src/lib.rt 0 times"),
            ("file: src/main.rt\nold: 1\nnew: 2\n", "there is no file src/main.rt"),
            ("old: 1\nnew: 2\n", "a new text has no file and no old text before it"),
            ("", "it names no file"),
            ("file: src/lib.rt\nold: 1\n", "it has no old and new text"),
        ):
            self.write("bench/edits/high/c", f"# wrong: one\n{text}")
            status, lines = self.told("high")
            self.assertEqual((status, lines[1]), (1, f"    IT DOES NOT FIT: {why}"))

    def test_pairs_are_made_in_turn(self) -> None:
        self.write("bench/edits/high/c", f"# wrong: one\n{PAIR}old: 2\nnew:\n")
        self.assertEqual(self.told("high")[0], 0)


class ThisRepository(unittest.TestCase):
    """Each edit here says what is wrong in it, and can be made."""

    def test_each(self) -> None:
        for crate in repository.read_crates():
            for edit in edit_list.edits_of(crate):
                with self.subTest(f"{crate} {edit.name}"):
                    self.assertTrue(edit.wrong)
                    self.assertIsNone(edit.unfit)


if __name__ == "__main__":
    unittest.main()
