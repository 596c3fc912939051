"""Tests of edits of sets, by the cases of the repository: each edit leads to the set that a case states, or is refused with
its fault and the number of the entry."""

from __future__ import annotations

import sys
import unittest
from pathlib import Path
from typing import Any, Dict

ROOT = Path(__file__).resolve().parents[3]
sys.path.insert(0, str(ROOT / "tests"))

import bootkeep  # noqa: E402
from bootkeep import BootVariables, EditedKind, EditKind, EntryNumber, LoadOption, Position
from case_files import Case, bytes_of, read_cases  # noqa: E402

FAMILIES = ("Unedited", "Vars")
"""What the words of refusals begin with that a case's answer leaves out."""


def cases() -> Dict[str, Case]:
    """The cases of edits that take no longer than a second, by their names."""
    read = read_cases(ROOT / "tests/cases/boot_edits.json")
    return {case.name: case for case in read if case.call == "edit" and not case.is_slow}


def variables_of(stated: Dict[str, Any]) -> BootVariables:
    """The set that a case states."""
    return BootVariables({name: bytes_of(data) for name, data in stated.items()})


def asked_of(stated: Dict[str, Any]) -> Dict[str, Any]:
    """The arguments of an edit that a case states."""
    positions = {"Last": Position.LAST, "First": Position.FIRST, "NoOrder": Position.NONE}
    asked = {
        "kind": EditKind[stated["edit"].upper()],
        "numbers": stated.get("entries", ()),
        "number": stated.get("entry", stated.get("seconds")),
        "position": positions[stated.get("position", "Last")],
    }
    if "option" in stated:
        asked["option"] = bytes_of(stated["option"])
    for flag in ("again", "stale", "only"):
        asked[flag] = stated.get(flag, False)
    return asked


def fault_words(why: bootkeep.Refused) -> str:
    """A fault as cases state it: the number of an entry in hexadecimal digits, and an option's fault with its own words."""
    word = bootkeep.refusal_word(why.kind) or ""
    for family in FAMILIES:
        if word.startswith(family):
            number = "" if why.place is None else f" {why.place:04X}"
            return word[len(family) :] + number
    told = ["BadOption", word[len("Option") :]]
    if why.inner_kind is not None:
        inner = (bootkeep.refusal_word(why.inner_kind) or "")[len("Path") :]
        told += [str(why.place), inner, str(why.inner_place)]
    return " ".join(told)


class Edits(unittest.TestCase):
    def test_each_edit_leads_where_its_case_says(self) -> None:
        tried = 0
        for name, case in cases().items():
            with self.subTest(name):
                self.assertEqual(self.made(case.members), case.members["answer"])
                tried += 1
        self.assertGreater(tried, 60)

    def made(self, stated: Dict[str, Any]) -> str:
        """What is told of the edit of a case."""
        before = variables_of(stated["vars"])
        try:
            edited = bootkeep.vars_edit(bytes(before), bootkeep.Edit(**asked_of(stated)))
        except bootkeep.Refused as why:
            self.assertNotIn("after", stated)
            return fault_words(why)
        self.assertEqual(BootVariables.from_bytes(edited.data), variables_of(stated["after"]))
        if edited.kind == EditedKind.DONE:
            self.assertIsNone(edited.entry)
            return "Done"
        assert edited.entry is not None
        return f"{edited.kind.name.title()} {edited.entry}"

    def test_the_methods_of_a_set_make_the_same_edits(self) -> None:
        option = LoadOption("Mine", ["PciRoot(0x0)"])
        added = BootVariables().with_entry(option)
        self.assertEqual((added.entry, added.is_new), (0, True))
        self.assertFalse(added.variables.with_entry(option).is_new)
        again = added.variables.with_entry(option, position=Position.FIRST, again=True)
        self.assertEqual(again.variables.order, (1, 0))
        self.assertEqual(added.variables.with_entry(option, number=7, again=True).entry, 7)
        both = again.variables
        self.assertEqual(both.with_first([0]).order, (0, 1))
        self.assertEqual(both.with_order([0], only=True).order, (0,))
        self.assertEqual(both.with_order([9], stale=True).order, (9, 1, 0))
        self.assertEqual(both.with_next(1).next, 1)
        self.assertIsNone(both.with_next(1).with_next(None).next)
        self.assertEqual(both.with_timeout(5)["Timeout"], b"\5\0")
        self.assertNotIn("Timeout", both.with_timeout(5).with_timeout(None))
        self.assertEqual(both.with_active([0], False).plan.normal, (1,))
        self.assertEqual(both.with_active([0], False).with_active([0]), both)
        self.assertEqual(set(both.without_entries([0])), {"Boot0001", "BootOrder"})
        repeated = both.with_variable("BootOrder", b"\1\0\0\0\1\0")
        self.assertEqual(repeated.without_repeats().order, (1, 0))

    def test_what_is_no_number_is_refused(self) -> None:
        variables = BootVariables()
        self.assertRaises(OverflowError, variables.with_next, 0x10000)
        self.assertRaises(OverflowError, variables.with_first, [-1])
        with self.assertRaises(bootkeep.Refused) as refused:
            variables.with_next(0x0FAB)
        self.assertEqual(refused.exception.place, EntryNumber(0x0FAB))


if __name__ == "__main__":
    unittest.main()
