"""Tests of journals and of the notes at the start of their files, with bytes as docs/formats/machine.md has them."""

from __future__ import annotations

import hashlib
import unittest
from typing import Optional

import bootkeep
from bootkeep import Fault, Same
from test_moves import all_done, new_machine

IDENTITY = bytes(range(16))

#: Notes with that identity and no digests.
EMPTY = b"BKJ3" + IDENTITY + b"\0"

#: The journal of a machine `m` with no state, of which nothing is left to do, and with changes that are being made.
IDLE = b"BKJ2\1\0\0\0m\0\0\0\0"
BEGUN = IDLE + b"\1\5start\0\0\0\0"


def kept(number: int, frame: bytes) -> bytes:
    """The digest that notes keep of a frame, with its number."""
    return number.to_bytes(4, "little") + hashlib.sha256(frame).digest()[:8]


def request(number: int, entry: int) -> bytes:
    """The frame of a request that names an entry for the next boot."""
    return bootkeep.Next(entry).frame(number)


class Journals(unittest.TestCase):
    def test_nothing_is_left_to_do(self) -> None:
        self.assertTrue(bootkeep.journal_is_idle(b""))
        self.assertTrue(bootkeep.journal_is_idle(IDLE))

    def test_something_is_left_to_do(self) -> None:
        self.assertFalse(bootkeep.journal_is_idle(BEGUN))

    def test_notes_are_no_journal(self) -> None:
        with self.assertRaises(bootkeep.Refused) as caught:
            bootkeep.journal_is_idle(EMPTY + IDLE)
        self.assertEqual(caught.exception, bootkeep.Refused(Fault.JOURNAL_BAD_MAGIC))

    def test_a_fault_has_its_place(self) -> None:
        with self.assertRaises(bootkeep.Refused) as caught:
            bootkeep.journal_is_idle(IDLE + b"\3")
        self.assertEqual(caught.exception, bootkeep.Refused(Fault.JOURNAL_BAD_COURSE, 13))


class Notes(unittest.TestCase):
    def test_notes_are_made(self) -> None:
        self.assertEqual(bootkeep.notes_make(IDENTITY), EMPTY)
        with self.assertRaises(bootkeep.Refused) as caught:
            bootkeep.notes_make(IDENTITY[:15])
        self.assertEqual(caught.exception, bootkeep.Refused(Fault.NOTES_BAD_IDENTITY))

    def test_notes_are_cut_off_their_file(self) -> None:
        self.assertEqual(bootkeep.notes_len(EMPTY + IDLE), 21)
        self.assertEqual(bootkeep.notes_identity(EMPTY + IDLE), IDENTITY)

    def test_a_file_has_no_notes(self) -> None:
        for data in (b"", IDLE, b"BKJ"):
            self.assertEqual(bootkeep.notes_len(data), 0)
            self.assertIsNone(bootkeep.notes_identity(data))

    def test_faults_have_their_places(self) -> None:
        faults = {
            EMPTY[:19]: (Fault.NOTES_TRUNCATED, 4),
            EMPTY[:20]: (Fault.NOTES_TRUNCATED, 20),
            EMPTY[:20] + b"\x81": (Fault.NOTES_TOO_MANY, 20),
            EMPTY[:20] + b"\2" + bytes(23): (Fault.NOTES_TRUNCATED, 33),
        }
        for data, fault in faults.items():
            for call in (bootkeep.notes_len, bootkeep.notes_identity):
                with self.subTest(data), self.assertRaises(bootkeep.Refused) as caught:
                    call(data)
                self.assertEqual(caught.exception, bootkeep.Refused(*fault))


class Noted(unittest.TestCase):
    """What is noted of commands of frames."""

    def setUp(self) -> None:
        self.machine = new_machine()

    def run_frames(self, frames: Optional[bytes]) -> bootkeep.Moves:
        """A command that has happened."""
        moves = bootkeep.Moves(self.machine.state(), frames)
        self.addCleanup(moves.close)
        while (move := moves.next()) is not None:
            self.machine.make(move)
            moves.tell(next(all_done()))
        return moves

    def test_what_is_applied_is_noted(self) -> None:
        first, second = request(0, 1), request(1, 0)
        notes = self.run_frames(second + first).notes(EMPTY + IDLE)
        self.assertEqual(notes, EMPTY[:20] + b"\2" + kept(0, first) + kept(1, second))

    def test_without_notes_there_are_none_after_it(self) -> None:
        moves = self.run_frames(request(0, 1))
        self.assertEqual(moves.notes(IDLE), b"")
        self.assertEqual(moves.same(IDLE, 0), Same.UNKNOWN)

    def test_a_frame_that_comes_again_is_told_from_another(self) -> None:
        notes = self.run_frames(request(0, 1)).notes(EMPTY)
        moves = self.run_frames(request(0, 1) + request(0, 0) + request(1, 0) + request(1, 1))
        told = [moves.same(notes, place) for place in range(4)]
        self.assertEqual(told, [Same.YES, Same.NO, Same.UNKNOWN, Same.NO])
        self.assertEqual([moves.same(EMPTY, place) for place in range(2)], [Same.UNKNOWN] * 2)

    def test_other_commands_note_nothing(self) -> None:
        moves = self.run_frames(None)
        with self.assertRaises(bootkeep.Error):
            moves.notes(EMPTY)
        with self.assertRaises(bootkeep.Error):
            self.run_frames(request(0, 1)).same(EMPTY, 1)

    def test_notes_are_refused(self) -> None:
        with self.assertRaises(bootkeep.Refused) as caught:
            self.run_frames(request(0, 1)).notes(EMPTY[:20])
        self.assertEqual(caught.exception, bootkeep.Refused(Fault.NOTES_TRUNCATED, 20))


if __name__ == "__main__":
    unittest.main()
