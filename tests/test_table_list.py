"""Tests of what writes tables of the sources into manuals and pages, over small texts and over this repository."""

from __future__ import annotations

import contextlib
import io
import re
import shutil
import sys
import tempfile
import unittest
from pathlib import Path
from typing import Dict, List, Tuple

ROOT = Path(__file__).resolve().parents[1]
sys.path.insert(0, str(ROOT / "tools"))

import fault_list  # noqa: E402
import manual_parts  # noqa: E402
import mdoc  # noqa: E402
import page_parts  # noqa: E402
import table_list  # noqa: E402
from command_facts import OptionFact, StatusFact  # noqa: E402
from repository import read_crates  # noqa: E402

MANUAL = """.Sh SYNOPSIS
.\\" tools/tables makes what follows: synopsis
.Nm
old
.\\" What tools/tables makes ends here
By hand.
"""

PAGE = """# A page

<!-- tools/tables makes what follows: crates -->
<!-- What tools/tables makes ends here -->

By hand.
"""


class Parts(unittest.TestCase):
    """Parts of small texts."""

    def test_a_part_is_replaced_and_the_rest_stays(self) -> None:
        made = table_list.filled(MANUAL, {"synopsis": [".Nm", ".Op Fl x"]})
        self.assertEqual(made, MANUAL.replace("old\n", ".Op Fl x\n"))
        self.assertEqual(table_list.filled(made, {"synopsis": [".Nm", ".Op Fl x"]}), made)

    def test_a_part_of_a_page(self) -> None:
        made = table_list.filled(PAGE, {"crates": ["| a |"]})
        self.assertIn("crates -->\n| a |\n<!-- What", made)

    def test_parts_that_are_not_made_or_not_there(self) -> None:
        wrong: List[Dict[str, List[str]]] = [{}, {"synopsis": [], "options": []}, {"options": []}]
        for parts in wrong:
            with self.assertRaises(table_list.WrongParts):
                table_list.filled(MANUAL, parts)
        with self.assertRaises(table_list.WrongParts):
            table_list.filled(MANUAL + MANUAL, {"synopsis": []})


class Texts(unittest.TestCase):
    """Texts as mdoc has them."""

    def lines(self, text: str) -> List[str]:
        """The lines of a text of a manual with the command `add`."""
        return manual_parts.text_lines(text, ["add"])

    def test_marks(self) -> None:
        self.assertEqual(
            self.lines(
                'As `add` with `--disk DEVICE`, in `/dev` (`FILE`): see "Loaders". Or `-b`.'
            ),
            [
                "As",
                ".Cm add",
                "with",
                ".Fl -disk Ar DEVICE ,",
                "in",
                ".Pa /dev",
                ".Ar ( FILE ) :",
                "see",
                ".Sx Loaders .",
                "Or",
                ".Fl b .",
            ],
        )

    def test_manuals_and_what_is_typed(self) -> None:
        self.assertEqual(
            self.lines("sha256sum(1) of `\\u00e9`, and `add --json`."),
            [".Xr sha256sum 1", "of", ".Ql \\eu00e9 ,", "and", ".Cm add Fl -json ."],
        )

    def test_lines_that_mdoc_would_take_for_others(self) -> None:
        self.assertEqual(mdoc.sentences(".a \\b. 'c"), ["\\&.a \\eb.", "\\&'c"])

    def test_a_table_has_all_cells(self) -> None:
        self.assertEqual(
            mdoc.table(["A", "Bc"], [["Cm abc , d", "x"], ["Cm e"]]),
            [
                '.Bl -column "xxxxxx" "xx"',
                ".It Sy A Ta Sy Bc",
                ".It Cm abc , d Ta x",
                ".It Cm e Ta",
                ".El",
            ],
        )

    def test_an_option_that_does_other_things_with_other_commands(self) -> None:
        names = ["a", "b", "c", "d", "e", "f"]
        facts = [OptionFact("x", names[1:], "Says."), OptionFact("x", ["a"], "Asks.")]
        self.assertEqual(
            manual_parts.option_lines(facts, names, names),
            [".Cm a :", "Asks.", ".Pp", "Other commands:", "Says."],
        )

    def test_a_status(self) -> None:
        facts = [
            StatusFact(1, ["a", "b"], "", "it fails"),
            StatusFact(1, ["c"], "the rest", "so too"),
        ]
        self.assertEqual(
            manual_parts.status_list(facts, ["a"])[1:-1],
            [
                ".It 1",
                ".Cm a , b :",
                "it fails.",
                ".Bl -item -compact",
                ".It",
                "The rest:",
                "so too.",
                ".El",
            ],
        )

    def test_a_cell_of_a_page_has_no_bar(self) -> None:
        self.assertEqual(page_parts.row_of(["a | b", "c"]), "| a \\| b | c |")


class Faults(unittest.TestCase):
    """Faults of inputs."""

    def test_what_is_printed(self) -> None:
        self.assertEqual(fault_list.printed("BadLength {0}", "usize"), "BadLength N")
        self.assertEqual(fault_list.printed("Path {0} {1}", "usize, PathFault"), "Path N ..")
        self.assertEqual(fault_list.printed("PastEnd {offset}", ""), "PastEnd N")

    def test_limits_are_numbers(self) -> None:
        comment = "    /// More than [`LIST_MAX`](crate::LIST_MAX) of\n    /// [`Node`].\n"
        self.assertEqual(
            fault_list.about(comment, {"LIST_MAX": 65535}), "More than 65,535 of `Node`."
        )

    def test_each_input_has_faults_with_words(self) -> None:
        for one in fault_list.INPUTS:
            faults = fault_list.read_faults(one)
            self.assertGreater(len(faults), 1, one.what)
            for fault in faults:
                self.assertRegex(fault.means, r"^[A-Z].*\.$")
                self.assertNotIn("{", fault.words + fault.reason)

    def test_faults_that_cases_print_are_there(self) -> None:
        words = {it.words for one in fault_list.INPUTS for it in fault_list.read_faults(one)}
        cases = (ROOT / "tests/cases/bootkeep.json").read_text(encoding="utf-8")
        named = set(
            re.findall(r'"stderr": "refused: ((?:Open |Stream )?[A-Z]\w+)(?: \d+)?\\n"', cases)
        )
        self.assertIn("BadLength", named)
        known = {re.sub(r" N$", "", it) for it in words} | {"BadHex", "TooMuch"}
        self.assertLessEqual(named, known)


class Crates(unittest.TestCase):
    """The table of crates."""

    def test_chapters_are_left_out(self) -> None:
        for text, wanted in (
            ("Boots (UEFI 2.10, 3) of it.", "Boots of it"),
            ("Bytes (chapter 10).", "Bytes"),
            ("Bytes (of it) (UEFI 2).", "Bytes (of it)"),
        ):
            self.assertEqual(page_parts.without_chapters(text), wanted)

    def test_each_crate_stands_on_what_its_row_names(self) -> None:
        crates = read_crates()
        rows = [re.findall(r"`(\w+)`", it) for it in page_parts.crate_list()[2:]]
        self.assertEqual([it[0] for it in rows], list(reversed(list(crates))))
        for name in crates:
            self.assertLessEqual(
                set(page_parts.built_on(name, crates)), set(crates[name].libraries)
            )


class ThisRepository(unittest.TestCase):
    """The parts here."""

    def test_they_are_as_they_are_made(self) -> None:
        self.assertEqual(table_list.differences(), [])

    def ran(self, *words: str, root: Path) -> Tuple[int, str]:
        """What the script answers and prints."""
        out = io.StringIO()
        with contextlib.redirect_stdout(out), contextlib.redirect_stderr(out):
            status = table_list.main(list(words), root)
        return status, out.getvalue()

    def test_a_part_that_differs_is_told_and_made(self) -> None:
        with tempfile.TemporaryDirectory() as folder:
            root = Path(folder)
            for name in ("crates", "crates.txt", "docs", "packaging", "tools"):
                (root / name).symlink_to(ROOT / name)
            for name in ("docs", "packaging/man"):
                self.copy(root, name)
            manual = root / "packaging/man/bootkeep.1"
            text = manual.read_text(encoding="utf-8")
            manual.write_text(text.replace(".Cm text\n", ".Cm texts\n", 1), encoding="utf-8")
            told = "tables: packaging/man/bootkeep.1 isn't as tools/tables makes it\n"
            self.assertEqual(self.ran("--check", root=root), (1, told))
            self.assertEqual(self.ran(root=root), (0, "packaging/man/bootkeep.1\n"))
            self.assertEqual(manual.read_text(encoding="utf-8"), text)
            self.assertEqual(self.ran("--check", root=root), (0, ""))

    def copy(self, root: Path, name: str) -> None:
        """Puts a copy in the place of a link."""
        top = root / name.partition("/")[0]
        if top.is_symlink():
            top.unlink()
        shutil.copytree(ROOT / name, root / name)

    def test_another_word_is_refused(self) -> None:
        self.assertEqual(self.ran("--all", root=ROOT)[0], 2)


if __name__ == "__main__":
    unittest.main()
