"""Tests of machines: their variables are a folder's files, as Linux shows them, and each change is told by the bytes that
are there then, which are written out by hand."""

from __future__ import annotations

import copy
import errno
import fcntl
import os
import pickle
import shutil
import subprocess
import tempfile
import threading
import unittest
import warnings
from pathlib import Path
from typing import Dict, Optional

import bootkeep
from bootkeep import (
    BootVariables,
    EditedKind,
    EntryState,
    Expected,
    Fault,
    Left,
    LoadOption,
    Machine,
    MachineFault,
    MachinePlace,
    MachineStage,
    MoveKind,
    Same,
)
from bootkeep._machine_faults import machine_error, new_fault

ROOT = Path(__file__).resolve().parents[3]
GUID = "-8be4df61-93ca-11d2-aa0d-00e098032b8c"

#: The attributes of a boot variable that firmware keeps: non-volatile, at boot time and at run time.
KEPT = b"\x07\0\0\0"

OPTION = LoadOption("Mine", ["PciRoot(0x0)"])

#: BootOrder of the example names 0005, which has no entry, and then these.
ORDER = bytes.fromhex("05000100020003000000")


class OfMachines(unittest.TestCase):
    """Tests that have a machine of their own: the example's variables, in a folder."""

    def setUp(self) -> None:
        folder = tempfile.TemporaryDirectory()
        self.addCleanup(folder.cleanup)
        self.root = Path(folder.name)
        self.folder, self.state = self.root / "efivars", self.root / "state"
        shutil.copytree(ROOT / "docs/examples/efivars", self.folder)
        self.before = self.files()
        self.machine = self.open()
        self.addCleanup(self.machine.close)

    def open(self, start: Optional[str] = None, name: Optional[str] = None) -> Machine:
        """Another handle of the machine."""
        return Machine(self.folder, state=self.state, start=start, name=name)

    def files(self) -> Dict[str, bytes]:
        """What is in the folder: the data of each variable, its attributes first, by its name."""
        return {it.name[: -len(GUID)]: it.read_bytes() for it in sorted(self.folder.iterdir())}

    def expect(self, **changed: Optional[bytes]) -> None:
        """Expects that these variables have these data now, or aren't there, and all others what they had."""
        wanted = {**self.before, **{it: KEPT + data for it, data in changed.items() if data}}
        for name in [it for it, data in changed.items() if data is None]:
            wanted.pop(name, None)
        self.assertEqual(self.files(), wanted)


class Reading(OfMachines):
    """What is there."""

    def test_the_plan(self) -> None:
        plan = self.machine.plan()
        self.assertEqual(str(plan), "plan next 0004 normal 0001 0000")
        self.assertEqual((plan.next, plan.normal, plan.tried), (4, (1, 0), (4, 1, 0)))
        self.assertEqual((plan.order, plan.current, plan.timeout), ((5, 1, 2, 3, 0), 1, None))

    def test_the_entries(self) -> None:
        entries = self.machine.entries()
        self.assertEqual([one.number for one in entries], [0, 1, 2, 3, 4])
        states = ["NORMAL", "NORMAL", "INACTIVE", "UNDECODABLE", "OTHER_CATEGORY"]
        self.assertEqual([one.state.name for one in entries], states)
        self.assertEqual([one.order_place for one in entries], [4, 1, 2, 3, None])
        self.assertEqual([one.number for one in entries if one.is_next], [4])
        self.assertEqual([one.number for one in entries if one.is_current], [1])
        self.assertEqual([one.data for one in entries], [it[4:] for it in self.entry_files()])
        assert entries[1].option is not None and entries[3].fault is not None
        self.assertEqual(entries[1].option.description, "Windows Boot Manager")
        self.assertEqual(entries[3].fault.kind, Fault.OPTION_NO_TERMINATOR)
        self.assertTrue(str(entries[2]).startswith("Boot0002 inactive Network PciRoot(0x0)"))

    def entry_files(self) -> "list[bytes]":
        return [self.before[f"Boot000{number}"] for number in range(5)]

    def test_the_variables(self) -> None:
        data = {name: it[4:] for name, it in self.before.items()}
        self.assertEqual(self.machine.variables, BootVariables(data))
        kept = {**self.before, "BootCurrent": data["BootCurrent"]}
        self.assertEqual(self.machine.kept, BootVariables(kept))

    def test_nothing_is_made(self) -> None:
        self.machine.plan()
        self.assertFalse(self.machine.owed)
        self.assertEqual(self.machine.place, MachinePlace.FOLDER)
        self.assertEqual(self.machine.journal().next_number, 0)
        self.assertIsNone(self.machine.journal().identity)
        self.assertFalse(self.state.exists())
        self.expect()

    def test_an_order_that_is_odd_is_refused(self) -> None:
        (self.folder / f"BootOrder{GUID}").write_bytes(KEPT + b"\1")
        with self.assertRaises(bootkeep.MachineRefused) as raised:
            self.machine.plan()
        self.assertEqual(raised.exception.fault, Fault.VARS_BAD_ORDER)
        self.assertEqual(raised.exception.left, Left.NOTHING)

    def test_a_folder_that_is_not_there(self) -> None:
        with Machine(self.root / "none", state=self.state) as machine:
            with self.assertRaises(bootkeep.MachineError) as raised:
                machine.plan()
        self.assertEqual(raised.exception.stage, MachineStage.VARIABLES)
        self.assertEqual(raised.exception.path, str(self.root / "none"))
        self.assertIn(str(self.root / "none"), str(raised.exception))


class Changing(OfMachines):
    """Changes, and their undoing."""

    def test_an_entry_is_added_first_and_undone(self) -> None:
        change = self.machine.add(OPTION, first=True)
        self.assertEqual((change.edited, change.entry), (EditedKind.ADDED, 5))
        self.assertTrue(change.is_changed)
        self.assertFalse(change.is_settled)
        self.assertEqual(change.record, 1)
        self.expect(Boot0005=bytes(OPTION), BootOrder=ORDER)
        self.assertEqual(
            [(one.name, one.kind.name, one.after) for one in change.changes],
            [("Boot0005", "ADDED", KEPT + bytes(OPTION))],
        )
        undone = self.machine.undo()
        self.assertTrue(undone.is_changed)
        self.expect()
        with self.assertRaises(bootkeep.NothingToUndo):
            self.machine.undo()

    def test_an_entry_that_is_there_is_found(self) -> None:
        option = self.machine.variables.option(0)
        change = self.machine.add(option, position=bootkeep.Position.FIRST)
        self.assertEqual((change.edited, change.entry), (EditedKind.PRESENT, 0))
        self.assertEqual((change.is_changed, change.record), (False, None))
        self.expect()
        change = self.machine.add(option, again=True, number=0xABCD)
        self.assertEqual((change.edited, change.entry), (EditedKind.ADDED, 0xABCD))
        self.expect(BootABCD=bytes(option), BootOrder=ORDER + b"\xcd\xab")

    def test_an_entry_comes_in_no_order(self) -> None:
        self.machine.add(bytes(OPTION), position=bootkeep.Position.NONE)
        self.expect(Boot0005=bytes(OPTION))

    def test_an_option_or_a_loader_is_wanted(self) -> None:
        self.assertRaises(TypeError, self.machine.add)
        self.assertRaises(TypeError, self.machine.add, OPTION, loader="a", description="b")
        self.assertRaises(TypeError, self.machine.add, loader="a")
        self.assertRaises(TypeError, self.machine.add, OPTION, description="b")

    def test_each_change_of_entries(self) -> None:
        self.machine.remove(1, 4)
        self.expect(Boot0001=None, Boot0004=None, BootNext=None, BootOrder=ORDER[:2] + ORDER[4:])
        self.machine.undo()
        self.expect()
        inactive = self.before["Boot0002"][4:]
        self.machine.activate(2)
        self.expect(Boot0002=b"\1" + inactive[1:])
        self.machine.deactivate(2)
        self.expect()
        self.machine.first(0, 2)
        self.expect(BootOrder=bytes.fromhex("00000200050001000300"))
        self.machine.order(3, 1, only=True)
        self.expect(BootOrder=b"\3\0\1\0")
        self.machine.order(9, stale=True)
        self.expect(BootOrder=b"\x09\0\3\0\1\0")

    def test_the_next_boot_and_the_timeout(self) -> None:
        self.machine.next(1)
        self.expect(BootNext=b"\1\0")
        self.machine.next(None)
        self.expect(BootNext=None)
        self.machine.timeout(258)
        self.expect(BootNext=None, Timeout=b"\2\1")
        self.assertEqual(self.machine.plan().timeout, 258)
        self.machine.timeout(None)
        self.expect(BootNext=None)

    def test_a_dry_run_changes_nothing(self) -> None:
        change = self.machine.remove(0, dry_run=True)
        self.assertTrue(change.is_changed)
        self.assertIsNone(change.record)
        self.assertEqual([one.name for one in change.changes], ["BootOrder", "Boot0000"])
        self.machine.add(OPTION, dry_run=True)
        self.machine.update(bootkeep.First(0).frame(0), dry_run=True)
        self.machine.write(BootVariables({"Boot0000": OPTION}), dry_run=True)
        self.machine.settle(dry_run=True)
        self.expect()
        self.assertFalse(self.state.exists())

    def test_what_is_there_already_writes_nothing(self) -> None:
        change = self.machine.next(4)
        self.assertEqual((change.is_changed, change.record), (False, None))
        self.assertEqual(change.before, change.after)
        self.assertEqual(list(self.state.glob("history/*")), [])

    def test_a_set_is_written(self) -> None:
        wanted = BootVariables({"Boot0001": OPTION, "BootOrder": b"\1\0"})
        change = self.machine.write(wanted)
        self.assertTrue(change.is_changed)
        self.assertEqual(
            self.files(),
            {
                "Boot0001": KEPT + bytes(OPTION),
                "BootCurrent": self.before["BootCurrent"],
                "BootOrder": KEPT + b"\1\0",
            },
        )
        with self.assertRaises(bootkeep.MachineRefused) as raised:
            self.machine.write(BootVariables())
        self.assertEqual(raised.exception.fault, MachineFault.EMPTY)
        self.machine.write(b"BVS1", empty=True)
        self.assertEqual(list(self.files()), ["BootCurrent"])

    def test_the_words_are_kept(self) -> None:
        self.machine.next(1, words=["mine", "Größe"])
        with Machine(self.folder, state=self.state, words=["of the", "handle"]) as machine:
            machine.next(0)
        kept = [it.read_bytes() for it in sorted((self.state / "history").iterdir())]
        self.assertTrue(kept[0].endswith(b"\4\0\0\0mine\7\0\0\0Gr\xc3\xb6\xc3\x9fe"), kept[0])
        self.assertTrue(kept[1].endswith(b"\6\0\0\0of the\6\0\0\0handle"), kept[1])
        self.assertRaises(ValueError, self.machine.next, 1, words=["a\0b"])

    def test_a_change_of_something_else_is_not_undone(self) -> None:
        self.machine.next(1)
        (self.folder / f"BootOrder{GUID}").write_bytes(KEPT + b"\0\0")
        with self.assertRaises(bootkeep.ChangedSince) as raised:
            self.machine.undo()
        changes = bootkeep.vars_changes(raised.exception.before, raised.exception.after)
        self.assertEqual(
            [(one.name, one.after) for one in changes], [("BootOrder", KEPT + b"\0\0")]
        )
        self.machine.undo(force=True)
        self.expect()

    def test_changes_without_records(self) -> None:
        with Machine(self.folder, state=self.state, keeps_records=False) as machine:
            self.assertIsNone(machine.next(1).record)
        self.assertRaises(bootkeep.NothingToUndo, self.machine.undo)


class Loaders(OfMachines):
    """Entries for files, of a folder that stands for the root of a system, which has a mounted partition."""

    LOADER = "/boot/efi/EFI/debian/shimx64.efi"
    PATH = "HD(1,GPT,5f2c1a9e-7d64-4b0e-9c3b-1e8f60a2d7c4,0x800,0x64000)/\\EFI\\debian\\shimx64.efi"

    def setUp(self) -> None:
        super().setUp()
        self.system = self.root / "system"
        subprocess.run([ROOT / "docs/examples/make-system", self.system], check=True)

    def test_one_is_added_first(self) -> None:
        option = self.machine.loader(self.LOADER, "Mine", root=self.system)
        self.assertEqual(option, LoadOption("Mine", [self.PATH]))
        change = self.machine.add(
            loader=self.LOADER, description="Mine", root=self.system, optional=b"a", first=True
        )
        self.assertEqual((change.edited, change.entry), (EditedKind.ADDED, 5))
        wanted = LoadOption("Mine", [self.PATH], optional=b"a")
        self.expect(Boot0005=bytes(wanted), BootOrder=ORDER)
        self.machine.undo()
        self.expect()

    def test_one_that_firmware_would_not_start_is_refused(self) -> None:
        (self.system / "boot/efi/EFI/text.efi").write_text("no image")
        given = {"loader": "/boot/efi/EFI/text.efi", "description": "Mine", "root": self.system}
        with self.assertRaises(bootkeep.MachineRefused) as raised:
            self.machine.add(**given)  # type: ignore[arg-type]
        self.assertEqual(raised.exception.fault, MachineFault.NOT_STARTED)
        self.assertEqual(raised.exception.failure.inner_fault, Fault.IMAGE_SHORT_DOS_HEADER)
        self.expect()
        self.assertEqual(self.machine.add(**given, force=True).entry, 5)  # type: ignore[arg-type]

    def test_one_on_a_disk_need_not_be_mounted(self) -> None:
        (self.system / "proc/self/mountinfo").unlink()
        name = "\\EFI\\debian\\shimx64.efi"
        for disk, part in (("/dev/nvme0n1", 1), ("/dev/nvme0n1", None), ("/dev/nvme0n1p1", None)):
            option = self.machine.loader(name, "Mine", root=self.system, disk=disk, part=part)
            self.assertEqual(option, LoadOption("Mine", [self.PATH]))
        added = self.machine.add(
            loader=name, description="Mine", root=self.system, disk="/dev/nvme0n1", part=1
        )
        self.assertEqual(added.entry, 5)
        self.assertIn("not looked at", added.remarks[0])
        with self.assertRaises(bootkeep.MachineRefused) as raised:
            self.machine.loader(name, "Mine", root=self.system, disk="/dev/nvme0n1", part=9)
        self.assertEqual(raised.exception.fault, MachineFault.OTHER_PARTITION)
        for given in (None, "/dev/nvme0n1"):
            with self.assertRaises(ValueError):
                self.machine.loader(name, "Mine", root=self.system, disk=given, part=0)

    def test_one_whose_name_firmware_cannot_read_is_refused(self) -> None:
        (self.system / "boot/efi/a\\b.efi").write_bytes(b"")
        with self.assertRaises(bootkeep.MachineRefused) as raised:
            self.machine.loader("/boot/efi/a\\b.efi", "Mine", root=self.system)
        self.assertEqual(raised.exception.stage, MachineStage.LOADER)
        self.assertEqual(raised.exception.fault, MachineFault.BAD_LOADER_NAME)


class Requests(OfMachines):
    """Requests, each of which is applied once. Their state folder is made by whoever installs a machine."""

    def setUp(self) -> None:
        super().setUp()
        self.state.mkdir(mode=0o700)

    def test_each_is_applied_once(self) -> None:
        frames = [bootkeep.AddFirst(OPTION).frame(0), bootkeep.Next(0).frame(1)]
        replies = self.machine.update(frames)
        self.assertEqual([str(one) for one in replies], ["applied Done 0005 1", "applied Done 2"])
        self.assertEqual([one.same for one in replies], [Same.UNKNOWN] * 2)
        self.expect(Boot0005=bytes(OPTION), BootOrder=ORDER, BootNext=b"\0\0")
        again = self.machine.update(b"".join(frames) + bootkeep.Next(1).frame(1))
        self.assertEqual([one.kind.name for one in again], ["REPEAT"] * 3)
        self.assertEqual([one.same for one in again], [Same.YES, Same.YES, Same.NO])
        self.expect(Boot0005=bytes(OPTION), BootOrder=ORDER, BootNext=b"\0\0")
        journal = self.machine.journal()
        self.assertEqual((journal.next_number, journal.is_owed), (2, False))
        assert journal.identity is not None
        self.assertEqual((self.state / "journal").read_bytes()[4:20], journal.identity)

    def test_what_is_expected(self) -> None:
        self.machine.update([], Expected(number=0, no_journal=True, order=[5, 1, 2, 3, 0]))
        frame = bootkeep.Next(0).frame(0)
        unmet = [Expected(number=1), Expected(journal=bytes(16)), Expected(order=[1])]
        for expected in [*unmet, Expected(no_order=True)]:
            with self.assertRaises(bootkeep.Unmet, msg=str(expected)):
                self.machine.update(frame, expected)
        self.expect()
        self.machine.update(frame, Expected(number=0))
        self.expect(BootNext=b"\0\0")
        identity = self.machine.journal().identity
        self.machine.update(frame, Expected(number=1, journal=identity))
        self.assertRaises(ValueError, self.machine.update, frame, Expected(journal=b"short"))

    def test_a_state_folder_that_is_not_there_is_not_made(self) -> None:
        self.state.rmdir()
        with self.assertRaises(bootkeep.SystemRefused) as raised:
            self.machine.update(bootkeep.Next(0).frame(0))
        self.assertEqual(
            (raised.exception.stage, raised.exception.path), (MachineStage.STATE, str(self.state))
        )
        self.expect()

    def test_a_stream_that_is_cut_off_is_refused(self) -> None:
        with self.assertRaises(bootkeep.MachineRefused) as raised:
            self.machine.update(bootkeep.Next(0).frame(0)[:-1])
        self.assertEqual(raised.exception.fault, Fault.STREAM_REST)
        self.assertEqual(raised.exception.failure.place, 13)
        self.expect()


class Settling(OfMachines):
    """What a change that was cut off has left."""

    def setUp(self) -> None:
        super().setUp()
        self.machine.next(1)
        self.before = self.files()

    def cut_off(self) -> None:
        """Leaves the journal of a change that has Boot0000 first, none of whose variables is changed."""
        name = str(self.folder).encode()
        state = bootkeep.MachineState(name, b"first", self.machine.kept)
        with bootkeep.Moves(state, bootkeep.Edit(bootkeep.EditKind.FIRST, [0])) as moves:
            move = moves.next()
        assert move is not None and move.kind == MoveKind.JOURNAL and move.data is not None
        (self.state / "journal").write_bytes(move.data)

    def test_it_is_done_alone(self) -> None:
        self.assertFalse(self.machine.settle().is_settled)
        self.cut_off()
        self.assertTrue(self.machine.owed)
        self.assertTrue(self.machine.journal().is_owed)
        self.assertTrue(self.machine.settle(dry_run=True).is_settled)
        self.expect()
        self.assertTrue(self.machine.settle().is_settled)
        self.expect(BootOrder=bytes.fromhex("00000500010002000300"))
        self.assertFalse(self.machine.owed)

    def test_it_is_done_before_a_change(self) -> None:
        self.cut_off()
        change = self.machine.timeout(5)
        self.assertTrue(change.is_settled)
        self.expect(BootOrder=bytes.fromhex("00000500010002000300"), Timeout=b"\5\0")


class VariableFiles(unittest.TestCase):
    """A machine whose variables are in an emulator's variable file: the example's, with the entries 0000 and 0001."""

    def setUp(self) -> None:
        folder = tempfile.TemporaryDirectory()
        self.addCleanup(folder.cleanup)
        self.root = Path(folder.name)
        self.file, self.state = self.root / "vars.fd", self.root / "state"
        shutil.copy(ROOT / "docs/examples/vars.fd", self.file)
        self.before = self.kept()
        self.machine = Machine(self.file, state=self.state, start="1")
        self.addCleanup(self.machine.close)

    def kept(self) -> Dict[str, bytes]:
        """What the file has: the data of each variable, its attributes first."""
        return bootkeep.vars_list(bootkeep.store_vars(self.file.read_bytes()))

    def test_what_is_there(self) -> None:
        self.assertEqual(self.machine.place, MachinePlace.FILE)
        self.assertEqual(str(self.machine.plan()), "plan next - normal 0001 0000")
        self.assertEqual(self.machine.kept, BootVariables(self.before))
        self.assertFalse(self.state.exists())

    def test_an_entry_is_added_first_and_undone(self) -> None:
        change = self.machine.add(OPTION, first=True)
        self.assertEqual((change.entry, change.record), (2, 1))
        wanted = {"Boot0002": KEPT + bytes(OPTION), "BootOrder": KEPT + b"\2\0\1\0\0\0"}
        self.assertEqual(self.kept(), {**self.before, **wanted})
        self.machine.undo()
        self.assertEqual(self.kept(), self.before)

    def test_a_request_is_applied_once(self) -> None:
        self.state.mkdir(mode=0o700)
        for kind in ("APPLIED", "REPEAT"):
            (reply,) = self.machine.update([bootkeep.Next(0).frame(0)])
            self.assertEqual(reply.kind.name, kind)
        self.assertEqual(self.kept(), {**self.before, "BootNext": KEPT + b"\0\0"})

    def test_the_start_is_needed_for_requests(self) -> None:
        self.state.mkdir(mode=0o700)
        with Machine(self.file, state=self.state) as machine:
            machine.timeout(4)
            with self.assertRaises(bootkeep.MachineRefused) as raised:
                machine.update([bootkeep.Next(0).frame(0)])
        self.assertEqual(raised.exception.fault, MachineFault.NO_START)
        self.assertEqual(self.kept(), {**self.before, "Timeout": KEPT + b"\4\0"})

    def test_what_is_no_variable_file_is_refused(self) -> None:
        whole = self.file.read_bytes()
        self.file.write_bytes(b"BVS1")
        for call in ("plan", "first"):
            with self.assertRaises(bootkeep.MachineRefused) as raised:
                getattr(self.machine, call)(*([0] if call == "first" else []))
            self.assertEqual(raised.exception.fault, Fault.STORE_NO_VOLUME)
        with self.assertRaises(bootkeep.MachineRefused):
            self.assertIsNone(self.machine.place)
        end = whole.rindex(b"\xaa\x55")
        damaged = whole[: end + 400] + b"x" + whole[end + 401 :]
        self.file.write_bytes(damaged)
        with self.assertRaises(bootkeep.MachineRefused) as raised:
            self.machine.first(0)
        self.assertEqual(raised.exception.fault, MachineFault.DAMAGED)
        self.assertEqual(raised.exception.failure.place, end + 400)
        self.assertEqual(self.file.read_bytes(), damaged)
        self.assertEqual(self.machine.plan().normal, (1, 0))
        self.assertIn("damaged at byte", self.machine.remarks[0])


class Faults(OfMachines):
    """What is raised, and what is left then."""

    def test_an_entry_that_is_missing(self) -> None:
        with self.assertRaises(bootkeep.MachineRefused) as raised:
            self.machine.first(9)
        why = raised.exception
        self.assertEqual((why.stage, why.fault), (MachineStage.RUN, Fault.UNEDITED_MISSING))
        self.assertEqual((why.failure.place, why.left, why.errno), (9, Left.NOTHING, None))
        self.assertIsInstance(why, ValueError)
        self.expect()

    def test_numbers_that_are_none(self) -> None:
        self.assertRaises(OverflowError, self.machine.remove, 0x10000)
        self.assertRaises(OverflowError, self.machine.next, -1)
        self.assertRaises(OverflowError, self.machine.timeout, 0x10000)

    def test_a_lock_that_another_has(self) -> None:
        self.machine.next(1)
        self.before = self.files()
        held = os.open(self.state, os.O_RDONLY)
        self.addCleanup(os.close, held)
        fcntl.flock(held, fcntl.LOCK_EX)
        self.assertRaises(bootkeep.MachineBusy, self.machine.next, 0)
        fcntl.flock(held, fcntl.LOCK_UN)
        self.expect()
        self.machine.next(0)

    def test_a_state_folder_that_others_may_write(self) -> None:
        self.state.mkdir()
        self.state.chmod(0o777)
        with self.assertRaises(bootkeep.MachineRefused) as raised:
            self.machine.next(1)
        self.assertEqual(raised.exception.fault, MachineFault.SHARED_STATE)
        self.assertEqual(raised.exception.stage, MachineStage.STATE)
        self.expect()

    def test_a_state_folder_that_cannot_be_made(self) -> None:
        with Machine(self.folder, state=self.root / "none/state") as machine:
            with self.assertRaises(bootkeep.SystemRefused) as raised:
                machine.next(1)
        why = raised.exception
        self.assertEqual((why.stage, why.errno), (MachineStage.STATE, errno.ENOENT))
        self.assertEqual(why.path, str(self.root / "none/state"))
        cause = why.__cause__
        assert isinstance(cause, FileNotFoundError)
        self.assertEqual((cause.errno, cause.filename), (why.errno, why.path))
        self.expect()

    def test_a_loader_that_is_not_there(self) -> None:
        file = self.root / "none.efi"
        with self.assertRaises(bootkeep.SystemRefused) as raised:
            self.machine.loader(file, "Mine")
        with self.assertRaises(bootkeep.SystemRefused) as also_raised:
            self.machine.add(loader=file, description="Mine")
        for why in (raised.exception, also_raised.exception):
            self.assertEqual(why.stage, MachineStage.LOADER)
            self.assertEqual((why.errno, why.path), (errno.ENOENT, str(file)))
        self.expect()

    def test_words_that_are_none(self) -> None:
        self.assertRaises(bootkeep.MachineRefused, Machine, "", state=self.state)
        self.assertRaises(bootkeep.MachineRefused, Machine, self.folder, start="a b")
        self.assertRaises(bootkeep.MachineRefused, Machine, self.folder, name="")
        self.assertRaises(ValueError, Machine, "a\0b")

    def test_each_status_has_its_exception(self) -> None:
        classes = {
            1: bootkeep.MachineRefused,
            3: bootkeep.NothingToUndo,
            4: MemoryError,
            6: bootkeep.MachineError,
            0x0100: bootkeep.SystemRefused,
            0x0101: bootkeep.MachineBusy,
            0x0102: bootkeep.TakenBack,
            0x0103: bootkeep.Unsettled,
            0x0104: bootkeep.Unmet,
            0x0105: bootkeep.ChangedSince,
        }
        for status, kind in classes.items():
            self.assertIs(type(machine_error(status, new_fault())), kind)

    def test_all_of_a_fault_is_told(self) -> None:
        told = new_fault()
        told.at, told.left, told.system_error, told.second_error = 8, 2, errno.ENOSPC, errno.EROFS
        told.path, told.second_path, told.text = b"/a/\xff", b"/b", "nein ä".encode()
        told.refusal.kind, told.refusal.place = 0x8015, 7
        told.refusal.inner_kind, told.refusal.inner_place = 0x0906, 24
        why = machine_error(0x0103, told)
        assert isinstance(why, bootkeep.Unsettled)
        self.assertEqual(str(why), "nein ä")
        self.assertEqual((why.stage, why.left), (MachineStage.CHANGE, Left.OWED))
        self.assertEqual((why.errno, why.path), (errno.ENOSPC, os.fsdecode(b"/a/\xff")))
        self.assertEqual((why.fault, why.failure.place), (MachineFault.NOT_STARTED, 7))
        self.assertEqual(
            (why.failure.inner_fault, why.failure.inner_place), (Fault.IMAGE_MAGIC, 24)
        )
        self.assertEqual((why.failure.second_errno, why.failure.second_path), (errno.EROFS, "/b"))
        again = pickle.loads(pickle.dumps(why))
        self.assertEqual((type(again), again.failure), (type(why), why.failure))


class Handles(OfMachines):
    """Machines as handles."""

    def test_one_that_is_closed(self) -> None:
        with self.open() as machine:
            machine.plan()
        machine.close()
        self.assertRaises(bootkeep.Closed, machine.plan)
        self.assertRaises(bootkeep.Closed, machine.entries)
        self.assertRaises(bootkeep.Closed, machine.undo)
        with self.assertRaises(bootkeep.Closed):
            machine.variables  # pylint: disable=pointless-statement
        self.assertRaises(TypeError, copy.copy, self.machine)
        self.assertRaises(TypeError, pickle.dumps, self.machine)

    def test_one_that_was_never_closed_warns(self) -> None:
        machine = self.open()
        with warnings.catch_warnings(record=True) as caught:
            warnings.simplefilter("always")
            del machine
        self.assertEqual([it.category for it in caught], [ResourceWarning])

    def test_threads_take_turns(self) -> None:
        def put_first(number: int) -> None:
            for _ in range(20):
                self.machine.first(number)

        threads = [threading.Thread(target=put_first, args=[number]) for number in (0, 1)]
        for thread in threads:
            thread.start()
        for thread in threads:
            thread.join()
        order = self.machine.plan().order
        self.assertEqual(sorted(order), [0, 1, 2, 3, 5])
        self.assertIn(order[0], (0, 1))

    def test_two_handles_see_one_machine(self) -> None:
        with self.open(start="second") as other:
            self.machine.next(0)
            self.assertEqual(other.plan().next, 0)
            self.assertEqual(other.entries()[0].state, EntryState.NORMAL)
            other.undo()
        self.expect()

    def test_another_machines_journal(self) -> None:
        self.machine.next(1)
        with self.open(name="other") as other:
            with self.assertRaises(bootkeep.MachineRefused) as raised:
                other.next(0)
        self.assertEqual(raised.exception.fault, MachineFault.OF_ANOTHER)
        with Machine(self.folder, state=self.state, name="other", adopt=True) as other:
            other.next(0)
        self.expect(BootNext=b"\0\0")


if __name__ == "__main__":
    unittest.main()
