"""Tests of the list of messages, over small sources and over this repository."""

from __future__ import annotations

import contextlib
import io
import sys
import tempfile
import unittest
from pathlib import Path
from typing import List, Tuple

ROOT = Path(__file__).resolve().parents[1]
sys.path.insert(0, str(ROOT / "tools"))

import message_list  # noqa: E402

FAULT = """//! Faults, "of a file" too.

/// Why a file can't be read: "it is a folder".
#[derive(Debug, Error)]
pub enum Fault {
    /// It is a folder.
    #[error("it is a folder")]
    Folder,
    /// It is too long.
    #[error("BadLength {0}")]
    BadLength(usize),
    #[error("out of memory")]
    OutOfMemory,
}

fn words(fault: &Fault) -> &'static str {
    match fault {
        Fault::Folder => "it is a folder",
        _ => "out of memory",
    }
}
"""

PLACE = """const QUOTE: char = '"';

fn told(name: &str) {
    println!("{name} is no place: \\
        {}", words("it is a folder"));
}
"""


class Sources(unittest.TestCase):
    """What is a message in a source."""

    def texts(self, source: str) -> List[str]:
        return [it.text for it in message_list.messages_of(source, "a.rt")]

    def test_comments_and_names_of_faults_are_none(self) -> None:
        self.assertEqual(
            self.texts(FAULT),
            ["it is a folder", "out of memory", "it is a folder", "out of memory"],
        )

    def test_a_character_begins_no_text(self) -> None:
        self.assertEqual(self.texts(PLACE), ["{} is no place: {}", "it is a folder"])

    def test_a_line_is_that_of_the_text(self) -> None:
        found = message_list.messages_of(FAULT, "a.rt")
        self.assertEqual([it.line for it in found], [7, 12, 18, 19])


class Repository(unittest.TestCase):
    """The messages of a small repository, and of this one."""

    def setUp(self) -> None:
        folder = tempfile.TemporaryDirectory()
        self.addCleanup(folder.cleanup)
        self.root = Path(folder.name)
        (self.root / "crates.txt").write_text("low: thiserror\nhigh: low\n", encoding="utf-8")
        self.write("low", FAULT)

    def write(self, crate: str, source: str) -> None:
        file = self.root / "crates" / crate / "src/lib.rt"
        file.parent.mkdir(parents=True)
        file.write_text(source, encoding="utf-8")

    def told(self, *words: str, root: Path = ROOT) -> Tuple[int, List[str]]:
        out = io.StringIO()
        with contextlib.redirect_stdout(out), contextlib.redirect_stderr(out):
            status = message_list.main(list(words), root)
        return status, out.getvalue().splitlines()

    def test_what_words_give_of_a_fault_is_its_display(self) -> None:
        told = self.told("--twice", root=self.root)
        self.assertEqual(told, (0, ["4 messages, 0 of them in several places"]))

    def test_a_message_in_two_crates_is_told(self) -> None:
        self.write("high", PLACE)
        self.assertEqual(
            self.told("--twice", root=self.root),
            (
                1,
                [
                    "crates/low/src/lib.rt:7: it is a folder",
                    "crates/high/src/lib.rt:5: it is a folder",
                    "6 messages, 2 of them in several places",
                ],
            ),
        )

    def test_another_word_is_refused(self) -> None:
        self.assertEqual(self.told("--all")[0], 2)

    def test_each_message_of_this_repository_has_one_place(self) -> None:
        status, lines = self.told("--twice")
        self.assertEqual(lines[:-1], [])
        self.assertEqual(status, 0)


if __name__ == "__main__":
    unittest.main()
