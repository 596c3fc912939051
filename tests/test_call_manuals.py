"""Tests of what makes a manual of each call for C, over a small header and over that of this repository."""

from __future__ import annotations

import contextlib
import io
import re
import sys
import tempfile
import unittest
from pathlib import Path
from typing import List

ROOT = Path(__file__).resolve().parents[1]
sys.path.insert(0, str(ROOT / "tools"))

import call_header  # noqa: E402
import call_manual_files  # noqa: E402
import call_manuals  # noqa: E402
import linux_manuals  # noqa: E402
import declarations  # noqa: E402
from call_header import Row  # noqa: E402

SMALL = """/*
 * small.h - a header
 *
 * PARAMETERS
 *
 *     out, cap, len       where the answer goes
 *     refusal             why what was handed in
 *                         is refused
 */

#ifndef SMALL_H
#define SMALL_H

/* ---- Statuses ------- */

/* It is done. */
#define BOOTKEEP_DONE 0
/* It is refused. */
#define BOOTKEEP_REFUSED 1

/* ---- Refusals ------- */

/*
 * Of a path. The place is that of the node.
 */

/* No byte is there. */
#define BOOTKEEP_FAULT_PATH_NO_END 0x0101
/* Of bootkeep_b alone: it is odd. */
#define BOOTKEEP_FAULT_PATH_ODD 0x0102

/* ---- Calls ------- */

/* Colors. */
#define BOOTKEEP_COLOR_RED 0
#define BOOTKEEP_COLOR_BLUE 1

/*
 * Answers a `text`, of `*color`: docs/formats.md has it, and bootkeep_b.
 *
 * It is short.
 *
 *     color   one of BOOTKEEP_COLOR_...
 *
 *     BOOTKEEP_DONE
 *     BOOTKEEP_REFUSED   a number of paths
 */
uint32_t bootkeep_a(uint32_t color, uint8_t *out, size_t cap,
                    size_t *len, struct bootkeep_refusal *refusal) BOOTKEEP_CHECKED BOOTKEEP_NONNULL((4, 5));
uint32_t bootkeep_b(uint32_t color) BOOTKEEP_CHECKED;

/*
 * Events.
 *
 *     BOOTKEEP_DONE
 */

/* An event. */
uint32_t bootkeep_c(void);
"""

OVERVIEW = """.Dd November 30, 2026
.It Xr bootkeep_a 3
A text of a color.
.It Xr bootkeep_b 3
Another one.
.It Xr bootkeep_c 3
An event.
"""


class SmallHeader(unittest.TestCase):
    """What is read and made of a small header."""

    def setUp(self) -> None:
        self.header = call_header.read_header(SMALL)

    def manual(self, number: int, overview: str = OVERVIEW) -> List[str]:
        """The lines of the manual of a call."""
        call = self.header.calls[number]
        return call_manuals.Manual(self.header, call, overview).lines()

    def test_calls(self) -> None:
        first, second, third = self.header.calls
        self.assertEqual(first.parameters(), ["color", "out", "cap", "len", "refusal"])
        self.assertEqual(first.about, second.about)
        self.assertEqual(first.about[0].paragraphs[1], "It is short.")
        self.assertEqual(third.handed, [])
        self.assertEqual([it.text() for it in third.about], ["An event.", "Events."])
        self.assertEqual(third.statuses(), {"BOOTKEEP_DONE": ""})

    def test_parameters_that_calls_have_in_common(self) -> None:
        self.assertEqual(
            self.header.parameters,
            [
                Row(["out", "cap", "len"], "where the answer goes"),
                Row(["refusal"], "why what was handed in is refused"),
            ],
        )

    def test_a_manual(self) -> None:
        lines = self.manual(0)
        text = "\n".join(lines)
        self.assertEqual(
            lines[:5],
            [".Dd November 30, 2026", ".Dt BOOTKEEP_A 3", ".Os", ".Sh NAME", ".Nm bootkeep_a"],
        )
        for part in (
            ".Nd a text of a color\n",
            '.Fo bootkeep_a\n.Fa "uint32_t color"\n',
            "Answers a\n.Ql text ,\nof\n.Fa *color :\n.Pa docs/formats.md No of the source\nhas it, and\n"
            ".Xr bootkeep_b 3 .\n.Pp\nIt is short.\n",
            ".It Dv BOOTKEEP_COLOR_RED , BOOTKEEP_COLOR_BLUE\nColors.\n",
            ".It Fa color\nOne of\n.Dv BOOTKEEP_COLOR_...\n.It Fa out , cap , len\nWhere the answer goes.\n",
            ".It Dv BOOTKEEP_REFUSED\nIt is refused.\nHere: a number of paths.\n",
            "Of a path.\nThe place is that of the node.\n.Bl -tag -width Ds\n.It Dv BOOTKEEP_FAULT_PATH_NO_END\n",
            ".Sh SEE ALSO\n.Xr bootkeep 3 ,\n.Xr bootkeep_b 3 ,\n.Xr bootkeep_c 3\n",
        ):
            self.assertIn(part, text)
        self.assertNotIn("PATH_ODD", text)

    def test_a_refusal_of_one_call_alone(self) -> None:
        self.assertIn(".It Dv BOOTKEEP_FAULT_PATH_ODD\nIt is odd.\n", "\n".join(self.manual(1)))

    def test_what_is_not_said(self) -> None:
        with self.assertRaises(call_manuals.NoManual):
            self.manual(0, ".Dd November 30, 2026\n")
        self.header.parameters.pop()
        with self.assertRaises(call_manuals.NoManual):
            self.manual(0)


class ThisHeader(unittest.TestCase):
    """The manuals of the library."""

    def setUp(self) -> None:
        self.header = call_header.read_header(call_header.HEADER.read_text(encoding="utf-8"))
        self.overview = call_manuals.OVERVIEW.read_text(encoding="utf-8")
        self.made = [
            call_manuals.Manual(self.header, it, self.overview) for it in self.header.calls
        ]

    def test_each_call_has_one_that_says_something(self) -> None:
        declared = declarations.header_calls(declarations.read(declarations.HEADER))
        self.assertEqual([it.name for it in self.header.calls], [it.name for it in declared])
        for manual in self.made:
            text = "\n".join(manual.lines())
            for section in ("DESCRIPTION", "RETURN VALUES", "SEE ALSO"):
                said = re.search(rf"^\.Sh {section}\n(.*?)^\.Sh ", text, re.DOTALL | re.MULTILINE)
                assert said is not None
                self.assertGreater(len(said[1]), 10, manual.call.name)

    def test_the_overview_has_each_call_once(self) -> None:
        named = [name for name, _ in call_manuals.SUMMARY.findall(self.overview)]
        self.assertEqual(sorted(named), sorted(it.name for it in self.header.calls))

    def test_each_status_is_one_of_the_header(self) -> None:
        known = {it.name for it in self.header.constants[call_header.STATUSES]}
        seen = set()
        for call in self.header.calls:
            self.assertLessEqual(set(call.statuses()), known, call.name)
            self.assertTrue(call.statuses() or call.name == "bootkeep_version", call.name)
            seen |= set(call.statuses())
        self.assertEqual(seen, known)

    def test_each_refusal_is_one_of_a_call(self) -> None:
        """But for those that only a reply has, and what stands for none."""
        answered = {it.name for manual in self.made for it in manual.refusals()}
        refusals = {it.name for it in self.header.constants[call_header.REFUSALS]}
        others = refusals - answered
        in_replies = {it for it in others if it.startswith("BOOTKEEP_FAULT_FRAME_")}
        none = {"BOOTKEEP_NO_KIND", "BOOTKEEP_NO_PLACE"}
        self.assertEqual(others - in_replies, none)
        for manual in self.made:
            self.assertEqual(bool(manual.refusals()), "BOOTKEEP_REFUSED" in manual.call.statuses())

    def test_each_number_has_words(self) -> None:
        for title, some in self.header.constants.items():
            for constant in some:
                self.assertTrue(constant.says or not title, constant.name)

    def test_the_script(self) -> None:
        out = io.StringIO()
        with tempfile.TemporaryDirectory() as folder:
            with contextlib.redirect_stdout(out), contextlib.redirect_stderr(out):
                self.assertEqual(call_manual_files.main([f"{folder}/made"]), 0)
                self.assertEqual(call_manual_files.main([]), 2)
            made = {it.stem for it in Path(folder, "made").iterdir()}
            self.assertLess({it.name for it in self.header.calls}, made)


class LinuxHeader(unittest.TestCase):
    """The manuals of the calls over a Linux machine."""

    def setUp(self) -> None:
        text = call_header.LINUX_HEADER.read_text(encoding="utf-8")
        self.declared = re.findall(r"^(?:uint32_t|void) (bootkeep_\w+)\(", text, re.MULTILINE)
        self.made = {name: it.decode() for name, it in linux_manuals.manuals().items()}

    def section(self, call: str, name: str) -> str:
        """A section of the manual of a call."""
        text = self.made[f"{call}.3"]
        found = re.search(rf"^\.Sh {name}\n(.*?)(?=^\.Sh |\Z)", text, re.DOTALL | re.MULTILINE)
        assert found is not None, (call, name)
        return found[1]

    def test_each_call_has_one_that_says_something(self) -> None:
        self.assertEqual(list(self.made), [f"{it}.3" for it in self.declared])
        for call in self.declared:
            self.assertGreater(len(self.section(call, "DESCRIPTION")), 40, call)
            self.assertIn(".Xr bootkeep-linux 3", self.section(call, "SEE ALSO"))

    def test_the_overview_has_each_call_once(self) -> None:
        overview = linux_manuals.OVERVIEW.read_text(encoding="utf-8")
        named = re.findall(r"Fn (bootkeep_machine_\w+)", overview)
        self.assertEqual(sorted(named), sorted(self.declared))
        self.assertEqual(sorted(linux_manuals.summaries(overview)), sorted(self.declared))

    def test_what_all_changes_answer_is_said_of_each(self) -> None:
        common = [".It Dv BOOTKEEP_MACHINE_UNSETTLED\n", ".It Dv BOOTKEEP_MACHINE_BUSY\n"]
        for call in self.declared:
            is_change = ' *change"' in self.section(call, "SYNOPSIS")
            answers = self.section(call, "RETURN VALUES")
            self.assertEqual([it in answers for it in common], [is_change] * 2, call)
        undo = self.section("bootkeep_machine_undo", "RETURN VALUES")
        self.assertIn(".It Dv BOOTKEEP_MACHINE_CHANGED\nSomething else has changed since", undo)
        self.assertNotIn("DRY_RUN", undo)

    def test_what_is_said_of_several_calls_is_said_of_each(self) -> None:
        for call in ("remove", "activate", "first"):
            parameters = self.section(f"bootkeep_machine_{call}", "PARAMETERS")
            self.assertIn(".It Fa numbers , numbers_len\nThe numbers, in their", parameters)
        self.assertNotIn("struct bootkeep_machine_change {", self.made["bootkeep_machine_undo.3"])
        self.assertIn("struct bootkeep_machine_change {", self.made["bootkeep_machine_add.3"])

    def test_a_call_that_answers_nothing(self) -> None:
        self.assertIn(".Ft void\n", self.section("bootkeep_machine_close", "SYNOPSIS"))
        self.assertEqual(self.section("bootkeep_machine_close", "RETURN VALUES"), "None.\n")

    def test_the_fault_is_told_of_by_the_others(self) -> None:
        leads = "Why it failed\n.Xr bootkeep_machine_fault 3\ntells.\n"
        for call, is_told in (("undo", True), ("fault", False), ("open", False)):
            answers = self.section(f"bootkeep_machine_{call}", "RETURN VALUES")
            self.assertEqual(leads in answers, is_told, call)


if __name__ == "__main__":
    unittest.main()
