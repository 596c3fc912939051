"""Tests of records of changes, with bytes as docs/formats/machine.md and docs/formats/sets.md have them."""

from __future__ import annotations

import unittest
from typing import Dict

import bootkeep
from bootkeep import Fault, Standing

#: The attributes that a machine keeps of each variable.
KEPT = b"\x07\0\0\0"


def kept(variables: Dict[str, bytes]) -> bytes:
    """The set of what a machine keeps of these variables, in the order of their names."""
    found = b"BVS1"
    for name, data in sorted(variables.items()):
        value = KEPT + data
        found += bytes([len(name)]) + name.encode() + len(value).to_bytes(4, "little") + value
    return found


def record(before: bytes, after: bytes, *words: bytes) -> bytes:
    """The record of a change of the machine `m`, at the second 2."""
    fields = [b"m", b"\2\0\0\0\0\0\0\0", before, after, *words]
    return b"BKH1" + b"".join(len(field).to_bytes(4, "little") + field for field in fields)


BEFORE = {"Boot0000": b"a", "Boot0001": b"b", "BootOrder": b"\0\0\1\0", "Timeout": b"\5\0"}
AFTER = {**BEFORE, "BootOrder": b"\1\0\0\0"}
CHANGE = record(kept(BEFORE), kept(AFTER), b"bootvars", b"first")


class Parts(unittest.TestCase):
    def test_a_record_is_made_of_its_parts(self) -> None:
        words = ["bootvars", "first"]
        self.assertEqual(bootkeep.record_make(b"m", 2, kept(BEFORE), kept(AFTER), words), CHANGE)

    def test_other_variables_are_left_out(self) -> None:
        before, after = kept({**BEFORE, "Lang": b"eng"}), kept({**AFTER, "Lang": b"deu"})
        words = ["bootvars", "first"]
        self.assertEqual(bootkeep.record_make(b"m", 2, before, after, words), CHANGE)

    def test_the_parts_are_told(self) -> None:
        parts = bootkeep.record_parts(CHANGE)
        self.assertEqual((parts.machine, parts.time), (b"m", 2))
        self.assertEqual((parts.before, parts.after), (kept(BEFORE), kept(AFTER)))
        self.assertEqual(parts.words, ("bootvars", "first"))

    def test_no_words_are_told(self) -> None:
        made = bootkeep.record_make(b"m", 2, b"BVS1", b"BVS1", [])
        self.assertEqual(made, record(b"BVS1", b"BVS1"))
        self.assertEqual(bootkeep.record_parts(made).words, ())

    def test_what_is_no_part_is_refused(self) -> None:
        sets = kept(BEFORE), kept(AFTER)
        faults = {
            (b"", *sets): bootkeep.Refused(Fault.MACHINE_BAD_NAME),
            (bytes(4097), *sets): bootkeep.Refused(Fault.MACHINE_BAD_NAME),
            (b"m", b"BVS2", b""): bootkeep.Refused(Fault.SET_BAD_MAGIC, 0),
            (b"m", b"BVS1", b"BVS1\1"): bootkeep.Refused(Fault.SET_TRUNCATED, 4),
        }
        for (machine, before, after), fault in faults.items():
            with self.subTest(fault), self.assertRaises(bootkeep.Refused) as caught:
                bootkeep.record_make(machine, 2, before, after, [])
            self.assertEqual(caught.exception, fault)

    def test_a_word_is_text_without_a_zero(self) -> None:
        with self.assertRaises(bootkeep.Refused) as caught:
            bootkeep.record_make(b"m", 2, b"BVS1", b"BVS1", ["first", "\ud800"])
        self.assertEqual(caught.exception, bootkeep.Refused(Fault.RECORD_BAD_WORD, 1))
        with self.assertRaises(ValueError):
            bootkeep.record_make(b"m", 2, b"BVS1", b"BVS1", ["a\0b"])

    def test_what_is_no_record_is_refused(self) -> None:
        faults = {
            b"BKH2": bootkeep.Refused(Fault.RECORD_BAD_MAGIC),
            CHANGE[:8]: bootkeep.Refused(Fault.RECORD_TRUNCATED, 4),
            CHANGE[:21]: bootkeep.Refused(Fault.RECORD_TOO_FEW_FIELDS),
            b"BKH1" + bytes(16): bootkeep.Refused(Fault.RECORD_BAD_MACHINE),
            record(b"BVS1\1", b""): bootkeep.Refused(
                Fault.RECORD_BAD_BEFORE, None, Fault.SET_TRUNCATED, 4
            ),
            record(b"BVS1", b"BVS2"): bootkeep.Refused(
                Fault.RECORD_BAD_AFTER, None, Fault.SET_BAD_MAGIC, 0
            ),
            record(b"BVS1", b"BVS1", b"a", b"\xff"): bootkeep.Refused(Fault.RECORD_BAD_WORD, 1),
        }
        for data, fault in faults.items():
            with self.subTest(fault), self.assertRaises(bootkeep.Refused) as caught:
                bootkeep.record_parts(data)
            self.assertEqual(caught.exception, fault)


class Undoing(unittest.TestCase):
    def test_a_change_stands(self) -> None:
        self.assertEqual(bootkeep.record_standing(CHANGE, kept(AFTER)), Standing.UNCHANGED)
        other = kept({**AFTER, "Lang": b"eng"})
        self.assertEqual(bootkeep.record_standing(CHANGE, other), Standing.UNCHANGED)

    def test_a_change_was_not_made(self) -> None:
        self.assertEqual(bootkeep.record_standing(CHANGE, kept(BEFORE)), Standing.NOT_MADE)

    def test_something_else_has_changed(self) -> None:
        now = kept({**AFTER, "Timeout": b"\6\0"})
        self.assertEqual(bootkeep.record_standing(CHANGE, now), Standing.CHANGED)

    def test_a_start_may_use_boot_next(self) -> None:
        change = record(kept(BEFORE), kept({**AFTER, "BootNext": b"\0\0"}))
        self.assertEqual(bootkeep.record_standing(change, kept(AFTER)), Standing.UNCHANGED)

    def test_what_was_before_is_brought_back(self) -> None:
        self.assertEqual(bootkeep.record_back(CHANGE, kept(AFTER)), kept(BEFORE))

    def test_a_used_boot_next_is_not_brought_back(self) -> None:
        before = {**BEFORE, "BootNext": b"\1\0"}
        change = record(kept(before), kept({**AFTER, "BootNext": b"\0\0"}))
        for now, back in (
            (AFTER, BEFORE),
            ({**AFTER, "BootNext": b"\0\0"}, before),
            ({**AFTER, "BootNext": b"\1\0"}, before),
        ):
            self.assertEqual(bootkeep.record_back(change, kept(now)), kept(back))

    def test_a_timeout_that_the_record_leaves_out_stays(self) -> None:
        old = {name: data for name, data in BEFORE.items() if name != "Timeout"}
        change = record(kept(old), kept({**old, "BootOrder": b"\1\0\0\0"}))
        self.assertEqual(bootkeep.record_standing(change, kept(AFTER)), Standing.UNCHANGED)
        self.assertEqual(bootkeep.record_back(change, kept(AFTER)), kept(BEFORE))

    def test_variables_are_refused_after_the_record(self) -> None:
        for call in (bootkeep.record_standing, bootkeep.record_back):
            with self.assertRaises(bootkeep.Refused) as caught:
                call(CHANGE, b"BVS2")
            self.assertEqual(caught.exception, bootkeep.Refused(Fault.SET_BAD_MAGIC, 0))
            with self.assertRaises(bootkeep.Refused) as caught:
                call(b"", b"BVS2")
            self.assertEqual(caught.exception, bootkeep.Refused(Fault.RECORD_BAD_MAGIC))


if __name__ == "__main__":
    unittest.main()
