"""Tests of the list of places, over a small repository and over this one."""

from __future__ import annotations

import contextlib
import io
import sys
import tempfile
import unittest
from pathlib import Path
from typing import List, Tuple

ROOT = Path(__file__).resolve().parents[1]
sys.path.insert(0, str(ROOT / "tools"))

import place_list  # noqa: E402

SHAPE = """use crate::disk::HardDrive;

/// Of which a HardDrive is the largest.
pub enum Node {
    Usb,
    HardDrive,
}

impl Node {
    pub(crate) fn shape(&self) -> u8 {
        match self {
            Node::HardDrive => 1,
            Node::Usb => 2,
        }
    }

    // as hard_drive does
    fn usb_port(&self) -> u8 {
        0
    }
}
"""

PROOFS = """use Rattle.low.specs.Node.{Node, HardDrive}

-- a hard drive's row
pub hard_drive_found : (r : Row) → Found r
hard_drive_found r = hd r

abbrev pub IsNode : Node → Type 0
IsNode (HardDrive parts) = AreParts parts
"""

CASES = """[{"call": "read_path", "cases": [
{"name": "nodes", "answer": "HardDrive"}]},
{"call": "write_path", "cases": [
{"name": "nodes", "answer": "Usb HardDrive"}]}]
"""

FILES = {
    "crates/low/src/node.rt": SHAPE,
    "crates/low/proofs/Found.antt": PROOFS,
    "crates/low/must-fail/a.edit": "# wrong: HardDrive\n",
    "tests/cases/low.json": CASES,
    "crates/low/out/node.rt": SHAPE,
    "docs/low.md": "A HardDrive node.\n",
}

LEFT = [
    "crates/low/proofs/Found.antt",
    "crates/low/proofs/Found.antt: hard_drive_found",
    "crates/low/proofs/Found.antt: IsNode",
    "crates/low/src/node.rt",
    "tests/cases/low.json: read_path",
]


class SmallRepository(unittest.TestCase):
    """One crate and its cases, in which a USB node isn't done yet."""

    def setUp(self) -> None:
        folder = tempfile.TemporaryDirectory()
        self.addCleanup(folder.cleanup)
        self.root = Path(folder.name)
        for name, text in FILES.items():
            file = self.root / name
            file.parent.mkdir(parents=True, exist_ok=True)
            file.write_text(text, encoding="utf-8")

    def told(self, *words: str) -> Tuple[int, List[str]]:
        out = io.StringIO()
        with contextlib.redirect_stdout(out), contextlib.redirect_stderr(out):
            status = place_list.main(list(words), self.root)
        return status, out.getvalue().splitlines()

    def test_what_is_left(self) -> None:
        for pattern in ("HardDrive", "hard_drive", "hard-drive"):
            self.assertEqual(self.told(pattern, "Usb"), (1, LEFT))

    def test_folders(self) -> None:
        self.assertEqual(self.told("HardDrive", "Usb", "tests"), (1, LEFT[4:]))
        self.assertEqual(self.told("HardDrive", "Usb", "crates/low/src", "tests"), (1, LEFT[3:]))

    def test_nothing_left(self) -> None:
        self.assertEqual(self.told("HardDrive", "hard_drive"), (0, []))

    def test_a_number_of_a_name_tells_nothing(self) -> None:
        file = self.root / "crates/low/proofs/Found.antt"
        file.write_text(PROOFS + "\nusb_found-2 : (r : Row) → Found r\nusb_found-2 r = usb r\n")
        self.assertEqual(self.told("HardDrive", "Usb"), (1, [it for it in LEFT if it != LEFT[1]]))

    def test_wrong_words(self) -> None:
        self.assertEqual(self.told("Usb"), (2, ["places: words are PATTERN NAME [FOLDER].."]))
        self.assertEqual(self.told("Usb", "Mac", "no"), (2, ["places: there is no folder no"]))
        self.assertEqual(self.told("Mac", "Usb"), (2, ["places: nothing has a case of Mac"]))


class ThisRepository(unittest.TestCase):
    """A kind of node has all the places of another."""

    def test_cdrom_after_sata(self) -> None:
        with contextlib.redirect_stdout(io.StringIO()) as out:
            self.assertEqual(
                place_list.main(["Sata", "Cdrom", "crates/uefi_path"]), 0, out.getvalue()
            )


if __name__ == "__main__":
    unittest.main()
