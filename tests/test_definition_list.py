"""Tests of what shows definitions, over a small repository and over this one."""

from __future__ import annotations

import contextlib
import io
import sys
import tempfile
import unittest
from pathlib import Path
from typing import List, Tuple

ROOT = Path(__file__).resolve().parents[1]
sys.path.insert(0, str(ROOT / "tools"))

import definition_list  # noqa: E402
import repository  # noqa: E402

SPECS = {
    "low/specs/Lib": "pub mod Rows\n",
    "low/specs/Rows": """-- Rows.
use Rattle.std.specs.Prelude.{ℕ}

-- a row
pub record Row : Type 0 where
  pub kind : ℕ
""",
    "high/specs/Lib": "-- in no order\npub mod Words\npub mod Marks\npub use Rattle.low.specs.Rows\n",
    "high/specs/Words": """-- Words,
-- and what they say.
use Rattle.high.specs.Marks.{mark}

-- the words
abbrev pub words_of : ℕ → ℕ
words_of n = mark

-- ---- operators

infixr 4 ◌when◌
abbrev pub ◌when◌ : ℕ → ℕ → ℕ
x when y = x
""",
    "high/specs/Marks": "-- Marks.\nuse Rattle.low.specs.Rows.{Row}\n\n-- a mark\nunfoldable pub mark : ℕ\nmark = 1\n",
}

WORDS = "-- the words\nabbrev pub words_of : ℕ → ℕ\nwords_of n = mark"


class SmallRepository(unittest.TestCase):
    """Two crates with definitions, and one without."""

    def setUp(self) -> None:
        folder = tempfile.TemporaryDirectory()
        self.addCleanup(folder.cleanup)
        self.root = Path(folder.name)
        (self.root / "crates.txt").write_text("low:\nhigh: low\nbare: high\n", encoding="utf-8")
        for name, text in SPECS.items():
            file = self.root / "crates" / f"{name}.antt"
            file.parent.mkdir(parents=True, exist_ok=True)
            file.write_text(text, encoding="utf-8")

    def told(self, *words: str) -> Tuple[int, List[str]]:
        out = io.StringIO()
        with contextlib.redirect_stdout(out), contextlib.redirect_stderr(out):
            status = definition_list.main(list(words), self.root)
        return status, out.getvalue().rstrip("\n").split("\n\n")

    def test_a_crate(self) -> None:
        wanted = [
            "==== high: Marks.antt",
            "-- Marks.",
            "-- a mark\nunfoldable pub mark : ℕ\nmark = 1",
            "==== high: Words.antt",
            "-- Words,\n-- and what they say.",
            WORDS,
            "-- ---- operators",
            "infixr 4 ◌when◌\nabbrev pub ◌when◌ : ℕ → ℕ → ℕ\nx when y = x",
        ]
        self.assertEqual(self.told("high"), (0, wanted))

    def test_names(self) -> None:
        head = ["==== high: Words.antt", "-- Words,\n-- and what they say."]
        self.assertEqual(self.told("high", "words_of"), (0, [*head, WORDS]))
        self.assertEqual(self.told("bare", "Words"), (0, [*head, WORDS]))
        self.assertEqual(self.told("high", "when")[1][:2], head)

    def test_a_whole_name_comes_first(self) -> None:
        status, parts = self.told("high", "mark", "words")
        self.assertEqual((status, parts[0], len(parts)), (0, "==== high: Marks.antt", 3))

    def test_crates_below(self) -> None:
        status, parts = self.told("high", "Row")
        self.assertEqual((status, parts[0], len(parts)), (0, "==== low: Rows.antt", 3))
        self.assertEqual(self.told("low", "mark"), (1, [""]))

    def test_nothing(self) -> None:
        self.assertEqual(self.told("bare"), (1, [""]))
        why = (2, ["definitions: takes the name of a crate, and words to look for"])
        self.assertEqual(self.told(), why)
        self.assertEqual(self.told("lower"), why)


class ThisRepository(unittest.TestCase):
    """The definitions here are in the form that is read."""

    def test_each(self) -> None:
        for crate in repository.read_crates():
            modules = definition_list.modules_of(crate)
            files = (ROOT / "crates" / crate / "specs").glob("*.antt")
            self.assertEqual({it.stem for it in files} - {"Lib"}, {it.name for it in modules})
            before: List[str] = []
            for module in modules:
                with self.subTest(f"{crate} {module.name}"):
                    self.assertLessEqual(
                        set(module.imports) - {"declared", "contracts"}, set(before)
                    )
                    self.assertTrue(module.about)
                    for part in module.parts:
                        self.assertTrue(definition_list.name_of(part) or part.startswith("-- ----"))
                        self.assertLessEqual(len(definition_list.DEFINES.findall(part)), 1)
                before.append(module.name)


if __name__ == "__main__":
    unittest.main()
