"""Tests of set files that are kept by requests."""

from __future__ import annotations

import fcntl
import io
import os
import tempfile
import threading
import unittest
from pathlib import Path
from typing import List
from unittest import mock

import bootkeep
from bootkeep import BootVariables, LoadOption

ROOT = Path(__file__).resolve().parents[3]
SET = (ROOT / "docs/examples/set").read_bytes()
STREAM = (ROOT / "docs/examples/stream").read_bytes()

OPTION = LoadOption("Mine", ["PciRoot(0x0)"])


class SetFiles(unittest.TestCase):
    """Files that are kept, each in a folder of its own."""

    def setUp(self) -> None:
        folder = tempfile.TemporaryDirectory()
        self.addCleanup(folder.cleanup)
        self.path = Path(folder.name, "set")
        self.path.write_bytes(SET)

    def test_a_reply_is_given_once_it_is_stored(self) -> None:
        with bootkeep.SetFile(self.path) as kept:
            for frame in bootkeep.frames(io.BytesIO(STREAM)):
                kept.deliver(frame)
                self.assertEqual(self.path.read_bytes(), kept.keeper.set)
                self.assertEqual(bytes(kept.variables), kept.keeper.set)
        self.assertEqual(self.path.read_bytes(), bootkeep.run(SET, STREAM)[0])
        self.assertEqual(os.listdir(self.path.parent), ["set"])

    def test_a_request_is_applied_once(self) -> None:
        with bootkeep.SetFile(str(self.path)) as kept:
            self.assertEqual(str(kept.request(bootkeep.AddFirst(OPTION))), "applied Done 0005 1")
        with bootkeep.SetFile(self.path) as kept:
            again = kept.deliver(bootkeep.AddFirst(OPTION).frame(0))
            self.assertEqual(str(again), "repeat Done 0005")
            self.assertEqual(kept.variables.order[0], 5)

    def test_a_file_keeps_its_rights(self) -> None:
        self.path.chmod(0o640)
        with bootkeep.SetFile(self.path) as kept:
            kept.request(bootkeep.AddFirst(OPTION))
        self.assertEqual(self.path.stat().st_mode & 0o7777, 0o640)

    def test_no_link_is_followed(self) -> None:
        other, beside = self.path.with_name("other"), self.path.with_name("set.new")
        other.write_bytes(b"other")
        beside.symlink_to("other")
        with bootkeep.SetFile(self.path) as kept:
            kept.request(bootkeep.AddFirst(OPTION))
        self.assertEqual(other.read_bytes(), b"other")
        self.assertFalse(beside.is_symlink())
        link = self.path.with_name("link")
        link.symlink_to("set")
        with self.assertRaisesRegex(ValueError, "is no file"):
            bootkeep.SetFile(link).__enter__()

    def test_what_cannot_be_stored_has_not_happened(self) -> None:
        with bootkeep.SetFile(self.path) as kept:
            kept.request(bootkeep.AddFirst(OPTION))
            stored = self.path.read_bytes()
            for call in ("fchown", "fsync", "open"):
                with mock.patch.object(os, call, side_effect=OSError(28, "No space")):
                    self.assertRaises(OSError, kept.request, bootkeep.First(0))
                self.assertEqual(self.path.read_bytes(), stored, call)
                self.assertEqual(bytes(kept.variables), stored)
            self.assertEqual(str(kept.request(bootkeep.First(0))), "applied Done 2")

    def test_others_wait_for_the_end(self) -> None:
        ended: List[str] = []

        def request() -> None:
            with bootkeep.SetFile(self.path) as kept:
                ended.append(str(kept.request(bootkeep.First(1))))

        with bootkeep.SetFile(self.path) as kept:
            thread = threading.Thread(target=request)
            thread.start()
            thread.join(0.1)
            self.assertEqual(ended, [])
            kept.request(bootkeep.AddFirst(OPTION))
        thread.join()
        self.assertEqual(ended, ["applied Done 2"])
        self.assertEqual(BootVariables.from_bytes(self.path.read_bytes()).order[:2], (1, 5))

    def test_the_file_is_locked_too_as_bootkeep_run_locks_it(self) -> None:
        with bootkeep.SetFile(self.path) as kept:
            self.assertTrue(self.is_locked())
            kept.request(bootkeep.AddFirst(OPTION))
            self.assertTrue(self.is_locked())
        self.assertFalse(self.is_locked())

    def is_locked(self) -> bool:
        """Whether somebody has a lock on the file that is there now."""
        with self.path.open("rb") as file:
            try:
                fcntl.flock(file, fcntl.LOCK_EX | fcntl.LOCK_NB)
            except BlockingIOError:
                return True
        return False

    def test_what_is_no_set_is_refused_and_let_go(self) -> None:
        self.path.write_bytes(b"none")
        for _ in range(2):
            with self.assertRaises(bootkeep.Refused):
                bootkeep.SetFile(self.path).__enter__()
        kept = bootkeep.SetFile(self.path)
        self.assertRaises(ValueError, kept.deliver, b"")
        self.path.write_bytes(SET)
        with kept:
            self.assertRaises(ValueError, kept.__enter__)
        self.assertRaises(ValueError, kept.deliver, b"")
        self.assertRaises(OSError, bootkeep.SetFile(self.path / "none").__enter__)


if __name__ == "__main__":
    unittest.main()
