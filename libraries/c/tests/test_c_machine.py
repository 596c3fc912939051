"""Tests of libbootkeep-linux over folders as Linux shows variables, by the program machine_calls.c, which makes one call.

BOOTKEEP_C names the folder of the library for C, which `tools/build-c` made; without it nothing is tried. What a state folder
holds is written here by hand, as docs/formats/machine.md has it."""

from __future__ import annotations

import fcntl
import os
import re
import shutil
import subprocess
import tempfile
import unittest
from pathlib import Path
from typing import Dict, List, NamedTuple, Optional

C = Path(__file__).resolve().parents[1]
LIBRARY = os.environ.get("BOOTKEEP_C", "")
GUID = "8be4df61-93ca-11d2-aa0d-00e098032b8c"
NAME = "tested"
ATTRIBUTES = bytes([7, 0, 0, 0])

REFUSED, ABSENT = 1, 3
SYSTEM, BUSY, TAKEN_BACK, UNMET, CHANGED = 0x100, 0x101, 0x102, 0x104, 0x105
AT_STATE, AT_VARIABLES, AT_JOURNAL, AT_SETTLING, AT_RUN, AT_RECORD, AT_CHANGE = 1, 2, 4, 5, 6, 7, 8
EACCES, ENOENT, ENOTDIR, ENOSPC, EROFS = 13, 2, 20, 28, 30


def option(name: str, active: bool = True) -> bytes:
    """A load option with this description and the path of a file (UEFI 2.10, 3.1.3)."""
    path = bytes.fromhex("04040800" + "61000000" + "7fff0400")
    attributes = bytes([1 if active else 0, 0, 0, 0])
    return attributes + len(path).to_bytes(2, "little") + name.encode("utf-16-le") + b"\0\0" + path


def numbers(*given: int) -> bytes:
    """Numbers in two bytes each, little-endian."""
    return b"".join(number.to_bytes(2, "little") for number in given)


def field(data: bytes) -> bytes:
    """A field with its length in four bytes."""
    return len(data).to_bytes(4, "little") + data


def idle_journal(machine: str = NAME) -> bytes:
    """A journal of version 2 that has nothing left to do, and no BootKeepState."""
    return b"BKJ2" + field(machine.encode()) + field(b"")


def pending_journal(name: str, before: bytes, after: bytes, start: str = "start") -> bytes:
    """One whose change of one variable is yet to be made."""
    begun = idle_journal() + b"\1" + bytes([len(start)]) + start.encode() + field(b"")
    return begun + bytes([len(name)]) + name.encode() + field(before) + field(after)


def set_file(items: Dict[str, bytes]) -> bytes:
    """A set file of these variables."""
    records = [bytes([len(name)]) + name.encode() + field(items[name]) for name in sorted(items)]
    return b"BVS1" + b"".join(records)


def frame(kind: int, number: int, payload: bytes) -> bytes:
    """A frame of version 1 (docs/formats/requests.md)."""
    head = bytes([0x42, 0x51, 1, kind])
    return head + number.to_bytes(4, "little") + field(payload)


class Told(NamedTuple):
    """What a call told."""

    status: int
    at: int
    left: int
    error: int
    kind: int
    text: str
    changed: bool
    settled: bool
    entry: str
    record: int
    output: str


def build(folder: Path) -> Path:
    """The program that makes calls, compiled into a folder."""
    compiler = os.environ.get("CC", "cc").split()
    flags = [
        "-std=c11",
        "-O1",
        "-g",
        "-Wall",
        "-Wextra",
        "-Werror",
        "-pedantic",
        f"-I{C / 'include'}",
    ]
    flags += os.environ.get("CFLAGS", "").split()
    sources = [C / "tests" / "machine_calls.c", *sorted((C / "linux").glob("*.c"))]
    made = folder / "machine_calls"
    archive = Path(LIBRARY) / "libbootkeep.a"
    subprocess.run([*compiler, *flags, "-o", made, *sources, archive], check=True)
    return made


@unittest.skipUnless(LIBRARY, "BOOTKEEP_C doesn't name the folder of the library for C")
class OfMachines(unittest.TestCase):
    """Each test has a machine of its own, with the entries 0000, 0001 and 0002, in this order."""

    built: "tempfile.TemporaryDirectory[str]"
    program: Path

    @classmethod
    def setUpClass(cls) -> None:
        cls.built = tempfile.TemporaryDirectory()
        cls.program = build(Path(cls.built.name))

    @classmethod
    def tearDownClass(cls) -> None:
        cls.built.cleanup()

    def setUp(self) -> None:
        self.folder = Path(tempfile.mkdtemp())
        self.addCleanup(shutil.rmtree, self.folder, True)
        self.variables = self.folder / "efivars"
        self.state = self.folder / "state"
        self.variables.mkdir()
        for number, name in enumerate(["first", "second", "third"]):
            self.store(f"Boot{number:04X}", option(name))
        self.store("BootOrder", numbers(0, 1, 2))

    def store(self, name: str, data: bytes) -> None:
        """Stores a variable."""
        (self.variables / f"{name}-{GUID}").write_bytes(ATTRIBUTES + data)

    def stored(self, name: str) -> Optional[bytes]:
        """The data of a variable, or None."""
        path = self.variables / f"{name}-{GUID}"
        return path.read_bytes()[4:] if path.is_file() else None

    def all_stored(self) -> Dict[str, bytes]:
        """All files of variables."""
        return {it.name: it.read_bytes() for it in self.variables.iterdir() if it.is_file()}

    def file(self, name: str, data: bytes) -> str:
        """A file beside the machine."""
        (self.folder / name).write_bytes(data)
        return str(self.folder / name)

    def make_state(self, journal: bytes = b"") -> None:
        """Makes the state folder, with a journal if it has bytes."""
        self.state.mkdir(mode=0o700, exist_ok=True)
        if journal:
            (self.state / "journal").write_bytes(journal)

    def words(self, *call: str) -> List[str]:
        """The words of a call."""
        place = ["--variables", str(self.variables), "--state", str(self.state)]
        return [str(self.program), *place, "--name", NAME, "--start", "start", *call]

    def call(self, *call: str, user: Optional[int] = None) -> Told:
        """Makes a call, perhaps as another user, and reads what it told."""
        return self.told(self.words(*call), user)

    def told(self, words: List[str], user: Optional[int] = None) -> Told:
        """Runs the program by these words, perhaps as another user, and reads what it told."""
        made = subprocess.run(
            words, capture_output=True, text=True, check=False, user=user, group=user
        )
        fault = re.search(
            r"^status (\w+) at (\d+) left (\d+) errno (\d+) kind (\w+)", made.stdout, re.M
        )
        change = re.search(
            r"^changed (\d) settled (\d) edited \d entry (\w+) record (\d+)", made.stdout, re.M
        )
        text = re.search(r"^text (.*)$", made.stdout, re.M)
        assert fault and change and text, (made.stdout, made.stderr, made.returncode)
        return Told(
            status=int(fault[1], 16),
            at=int(fault[2]),
            left=int(fault[3]),
            error=int(fault[4]),
            kind=int(fault[5], 16),
            text=text[1],
            changed=change[1] == "1",
            settled=change[2] == "1",
            entry=change[3],
            record=int(change[4]),
            output=made.stdout,
        )

    def assert_refused(self, told: Told, at: int, kind: int) -> None:
        """A call was refused at a step for this."""
        self.assertEqual((told.status, told.at, told.kind), (REFUSED, at, kind), told.output)


class MachineTest(OfMachines):
    """Machines whose variables a folder shows."""

    # ---- Changes

    def test_first_puts_an_entry_first(self) -> None:
        told = self.call("first", "0002")
        self.assertEqual((told.status, told.changed, told.record), (0, True, 1), told.output)
        self.assertEqual(self.stored("BootOrder"), numbers(2, 0, 1))
        self.assertEqual((self.state / "journal").read_bytes(), idle_journal())
        self.assertEqual(self.state.stat().st_mode & 0o777, 0o700)
        self.assertEqual((self.state / "journal").stat().st_mode & 0o777, 0o600)

    def test_what_is_so_already_changes_nothing_and_keeps_no_record(self) -> None:
        told = self.call("first", "0000")
        self.assertEqual((told.status, told.changed, told.record), (0, False, 0), told.output)
        self.assertEqual(list(self.state.iterdir()), [])

    def test_a_dry_run_touches_nothing(self) -> None:
        before = self.all_stored()
        told = self.call("--flags", "1", "first", "0002")
        self.assertEqual((told.status, told.changed, told.record), (0, True, 0), told.output)
        self.assertEqual(self.all_stored(), before)
        self.assertFalse(self.state.exists())

    def test_add_takes_the_lowest_free_number(self) -> None:
        told = self.call("add", self.file("option", option("new")), "none", "1")
        self.assertEqual((told.status, told.entry), (0, "00003"), told.output)
        self.assertEqual(self.stored("Boot0003"), option("new"))
        self.assertEqual(self.stored("BootOrder"), numbers(3, 0, 1, 2))
        again = self.call("add", self.file("option", option("new")), "none", "1")
        self.assertEqual((again.changed, again.entry), (False, "00003"), again.output)

    def test_remove_takes_entries_out_everywhere(self) -> None:
        self.store("BootNext", numbers(1))
        self.assertEqual(self.call("remove", "0001,0002").status, 0)
        self.assertEqual(self.stored("BootOrder"), numbers(0))
        self.assertEqual((self.stored("Boot0001"), self.stored("BootNext")), (None, None))

    def test_activate_and_deactivate_change_the_bit_of_the_attributes(self) -> None:
        self.assertEqual(self.call("deactivate", "0001").status, 0)
        self.assertEqual(self.stored("Boot0001"), option("second", active=False))
        self.assertEqual(self.call("activate", "0001").status, 0)
        self.assertEqual(self.stored("Boot0001"), option("second"))

    def test_order_keeps_the_others_behind_unless_it_is_the_whole(self) -> None:
        self.assertEqual(self.call("order", "0002").status, 0)
        self.assertEqual(self.stored("BootOrder"), numbers(2, 0, 1))
        self.assertEqual(self.call("--flags", "8", "order", "0001").status, 0)
        self.assertEqual(self.stored("BootOrder"), numbers(1))

    def test_next_and_timeout_are_set_and_deleted(self) -> None:
        self.assertEqual(self.call("next", "0001").status, 0)
        self.assertEqual(self.call("timeout", "a").status, 0)
        self.assertEqual(
            (self.stored("BootNext"), self.stored("Timeout")), (numbers(1), numbers(10))
        )
        self.assertEqual(self.call("next", "none").status, 0)
        self.assertEqual(self.call("timeout", "none").status, 0)
        self.assertEqual((self.stored("BootNext"), self.stored("Timeout")), (None, None))

    def test_an_edit_of_an_entry_that_is_missing_is_refused(self) -> None:
        told = self.call("remove", "0009")
        self.assert_refused(told, AT_RUN, 0x0E04)
        self.assertIn("place 9 ", told.output)
        self.assertEqual(self.stored("BootOrder"), numbers(0, 1, 2))

    def test_write_brings_a_set_and_keeps_the_timeout(self) -> None:
        self.store("Timeout", numbers(5))
        given = set_file({"Boot0007": option("other"), "BootOrder": numbers(7)})
        self.assertEqual(self.call("write", self.file("set", given)).status, 0)
        self.assertEqual(self.stored("BootOrder"), numbers(7))
        self.assertEqual((self.stored("Boot0000"), self.stored("Timeout")), (None, numbers(5)))

    def test_write_leaves_out_what_firmware_refuses(self) -> None:
        given = set_file(
            {
                "Boot0007": b"\1",
                "Boot0000": option("first"),
                "BootOrder": numbers(7, 0),
                "BootNext": numbers(7),
            }
        )
        told = self.call("write", self.file("set", given))
        self.assertEqual(told.status, 0)
        self.assertIn("Boot0007 is ignored", told.output)
        self.assertEqual((self.stored("Boot0007"), self.stored("BootNext")), (None, None))
        self.assertEqual(self.stored("BootOrder"), numbers(0))

    def test_a_set_without_an_entry_is_refused(self) -> None:
        given = self.file("set", set_file({"BootOrder": numbers(0)}))
        self.assertEqual(self.call("write", given).kind, 0x8011)
        self.assertEqual(self.call("--flags", "20", "write", given).status, 0)
        self.assertIsNone(self.stored("Boot0000"))

    def test_write_replaces_an_entry_without_a_value(self) -> None:
        (self.variables / f"Boot0003-{GUID}").write_bytes(ATTRIBUTES)
        given = set_file({"Boot0003": option("other"), "BootOrder": numbers(3)})
        self.assertEqual(self.call("write", self.file("set", given)).status, 0)
        self.assertEqual(self.stored("Boot0003"), option("other"))

    # ---- Undo

    def test_undo_brings_back_one_change_after_the_other(self) -> None:
        before = self.all_stored()
        self.call("first", "0002")
        between = self.all_stored()
        self.call("remove", "0001")
        self.assertEqual(self.call("undo").status, 0)
        self.assertEqual(self.all_stored(), between)
        self.assertEqual(self.call("undo").status, 0)
        self.assertEqual(self.all_stored(), before)
        self.assertEqual(list((self.state / "history").iterdir()), [])
        self.assertEqual(self.call("undo").status, ABSENT)

    def test_undo_asks_for_force_if_something_else_has_changed_since(self) -> None:
        self.call("first", "0002")
        self.store("BootOrder", numbers(1))
        self.assertEqual(self.call("undo").status, CHANGED)
        self.assertEqual(self.stored("BootOrder"), numbers(1))
        self.assertEqual(self.call("--flags", "10", "undo").status, 0)
        self.assertEqual(self.stored("BootOrder"), numbers(0, 1, 2))

    def test_sixteen_records_of_a_machine_stay(self) -> None:
        for seconds in range(20):
            self.assertEqual(self.call("timeout", f"{seconds + 1:x}").status, 0)
        names = sorted(it.name for it in (self.state / "history").iterdir())
        self.assertEqual(names, [f"{number:010}" for number in range(5, 21)])

    def test_the_words_of_a_record_are_those_that_were_given(self) -> None:
        self.call("--word", "my program", "--word", "ä", "timeout", "1")
        data = (self.state / "history" / "0000000001").read_bytes()
        self.assertTrue(data.startswith(b"BKH1" + field(NAME.encode())))
        self.assertTrue(data.endswith(field(b"my program") + field("ä".encode())))

    def test_nothing_is_kept_if_that_is_asked_for(self) -> None:
        told = self.call("--no-record", "timeout", "1")
        self.assertEqual((told.status, told.record), (0, 0))
        self.assertFalse((self.state / "history").exists())

    # ---- Requests

    def test_a_request_is_applied_once(self) -> None:
        self.make_state()
        stream = self.file("stream", frame(5, 0, numbers(2)))
        first = self.call("update", stream)
        self.assertIn("reply 7 fault 0 outcome 1 entry 10000 next 1 same 0", first.output)
        self.assertEqual(self.stored("BootNext"), numbers(2))
        (self.variables / f"BootNext-{GUID}").unlink()
        again = self.call("update", stream)
        self.assertIn("reply 2 fault 0 outcome 1", again.output)
        self.assertIn("same 1", again.output)
        self.assertIsNone(self.stored("BootNext"))
        other = self.call("update", self.file("stream", frame(5, 0, numbers(1))))
        self.assertIn("same 2", other.output)
        self.assertIn("number 1 owed 0", self.call("journal").output)

    def test_requests_without_a_state_folder_are_not_run(self) -> None:
        told = self.call("update", self.file("stream", frame(5, 0, numbers(2))))
        self.assertEqual((told.status, told.at, told.error), (SYSTEM, AT_STATE, ENOENT))
        self.assertIsNone(self.stored("BootNext"))

    def test_a_stream_that_is_cut_is_refused_before_anything_is_written(self) -> None:
        self.make_state()
        told = self.call("update", self.file("stream", frame(5, 0, numbers(2))[:-1]))
        self.assert_refused(told, 0, 0x0704)
        self.assertEqual(list(self.state.iterdir()), [])

    def test_what_is_expected_has_to_be_so(self) -> None:
        self.make_state()
        stream = self.file("stream", frame(5, 0, numbers(2)))
        for words in (
            ["--expect-number", "1"],
            ["--expect-order", "0001"],
            ["--expect-journal", "00" * 16],
        ):
            self.assertEqual(self.call(*words, "update", stream).status, UNMET, words)
        self.assertIsNone(self.stored("BootNext"))
        good = ["--expect-number", "0", "--expect-order", "0000,0001,0002"]
        self.assertEqual(self.call(*good, "update", stream).status, 0)

    # ---- What is there

    def test_plan_and_entries_tell_what_is_there(self) -> None:
        self.store("BootNext", numbers(2))
        self.store("BootCurrent", numbers(1))
        self.store("Boot0001", option("second", active=False))
        self.assertIn(
            "next 00002 current 00001 timeout 10000 plan 0000 0002 order 0000 0001 0002",
            self.call("plan").output,
        )
        entries = self.call("entries").output
        self.assertIn(
            'Boot0001 state 3 position 00001 attributes 00000000 next 0 current 1 "second" File(a)',
            entries,
        )

    def test_sets_have_what_is_stored(self) -> None:
        out = str(self.folder / "out")
        self.call("data", out)
        data = {f"Boot{n:04X}": option(it) for n, it in enumerate(["first", "second", "third"])}
        data["BootOrder"] = numbers(0, 1, 2)
        self.assertEqual(Path(out).read_bytes(), set_file(data))
        self.call("variables", out)
        kept = {name: ATTRIBUTES + value for name, value in data.items()}
        self.assertEqual(Path(out).read_bytes(), set_file(kept))

    def test_an_entry_without_a_value_is_left_alone(self) -> None:
        (self.variables / f"Boot0003-{GUID}").write_bytes(ATTRIBUTES)
        told = self.call("add", self.file("option", option("new")), "none", "0")
        self.assertEqual((told.status, told.entry), (0, "00004"), told.output)
        self.assertIn("it has no value", told.output)
        self.assert_refused(self.call("remove", "0003"), AT_RUN, 0x800D)

    # ---- Loaders

    def loader(self, file: str) -> List[str]:
        """The words for an entry of a loader, below a root that stands for a system with a disk of two partitions."""
        root = self.folder / "root"
        if not root.exists():
            subprocess.run([C.parents[1] / "docs/examples/make-system", root], check=True)
        return [file, "rescue", str(root)]

    def test_the_option_of_a_loader_has_its_partition_and_its_name(self) -> None:
        told = self.call("loader", *self.loader("/boot/efi/EFI/rescue/grubx64.efi"))
        # UEFI 2.10, 10.3.5.1 and 10.3.5.4: partition 1 from block 0x800 on, of 0x64000 blocks, by its GUID; and the file.
        guid = bytes.fromhex("9e1a2c5f647d0e4b9c3b1e8f60a2d7c4")
        drive = b"\4\1\x2a\0" + (1).to_bytes(4, "little") + (0x800).to_bytes(8, "little")
        drive += (0x64000).to_bytes(8, "little") + guid + b"\2\2"
        name = "\\EFI\\rescue\\grubx64.efi\0".encode("utf-16-le")
        path = drive + b"\4\4" + (len(name) + 4).to_bytes(2, "little") + name + b"\x7f\xff\4\0"
        made = b"\1\0\0\0" + len(path).to_bytes(2, "little") + "rescue\0".encode("utf-16-le") + path
        self.assertEqual(told.output.splitlines()[0], made.hex())

    def test_a_loader_that_firmware_does_not_start_is_refused_unless_forced(self) -> None:
        words = self.loader("/boot/efi/EFI/rescue/grubx64.efi")
        (self.folder / "root/boot/efi/EFI/rescue/grubx64.efi").write_bytes(b"MZ")
        told = self.call("add_loader", *words)
        self.assertEqual((told.status, told.kind), (REFUSED, 0x8015), told.output)
        self.assertIsNone(self.stored("Boot0003"))
        self.assertEqual(self.call("--flags", "10", "add_loader", *words).status, 0)
        self.assertIsNotNone(self.stored("Boot0003"))

    def test_the_option_of_a_loader_on_a_disk_need_not_be_mounted(self) -> None:
        _file, *rest = self.loader("")
        loader = "/boot/efi/EFI/rescue/grubx64.efi"
        mounted = self.call("loader", *self.loader(loader))
        wanted = mounted.output.splitlines()[0]
        (self.folder / "root/proc/self/mountinfo").unlink()
        for disk, part in (("/dev/nvme0n1", "1"), ("/dev/nvme0n1", "0"), ("/dev/nvme0n1p1", "0")):
            for name in ("\\EFI\\rescue\\grubx64.efi", "EFI/rescue/grubx64.efi"):
                told = self.call("loader", name, *rest, disk, part)
                self.assertEqual(told.output.splitlines()[0], wanted, (disk, part, name))
        added = self.call("add_loader", "\\no\\such.efi", *rest, "/dev/nvme0n1", "1")
        self.assertEqual((added.status, added.entry), (0, "00003"), added.output)
        self.assertIn("remark \\no\\such.efi: not looked at: its partition", added.output)

    def test_a_loader_on_a_disk_is_looked_at_if_it_is_mounted(self) -> None:
        _file, *rest = self.loader("")
        disk = [*rest, "/dev/nvme0n1", "1"]
        name = "\\EFI\\rescue\\grubx64.efi"
        missing = self.call("--flags", "1", "add_loader", "\\no\\such.efi", *disk)
        self.assertIn("remark \\no\\such.efi: no file of this name", missing.output)
        good = self.call("--flags", "1", "add_loader", name, *disk)
        self.assertEqual(good.status, 0, good.output)
        self.assertNotIn("remark", good.output)
        (self.folder / "root/boot/efi/EFI/rescue/grubx64.efi").write_bytes(b"MZ")
        told = self.call("add_loader", name, *disk)
        self.assertEqual((told.status, told.kind), (REFUSED, 0x8015), told.output)
        self.assertEqual(self.call("--flags", "10", "add_loader", name, *disk).status, 0)
        self.assertIsNotNone(self.stored("Boot0003"))

    def test_a_disk_or_a_partition_that_is_not_there_is_refused(self) -> None:
        _file, *rest = self.loader("")
        self.assertEqual(self.call("loader", "x", *rest, "/dev/nvme0n1", "9").kind, 0x801B)
        self.assertEqual(self.call("loader", "x", *rest, "/dev/nvme0n1p1", "2").kind, 0x801B)
        (self.folder / "root/dev/sda").write_bytes(b"")
        self.assertEqual(self.call("loader", "x", *rest, "/dev/sda", "1").kind, 0x801A)
        self.assertEqual(self.call("loader", "x", *rest, "/boot/efi", "1").kind, 0x801A)
        missing = self.call("loader", "x", *rest, "/dev/sdb", "1")
        self.assertEqual((missing.status, missing.error), (SYSTEM, ENOENT), missing.output)
        unread = self.call("loader", "x\U0001f600", *rest, "/dev/nvme0n1", "1")
        self.assertEqual(unread.kind, 0x8014, unread.output)
        self.assert_refused(self.call("loader", "x", *rest, "", "1"), 0, 0x8017)

    def test_a_loader_that_is_on_no_known_partition_is_refused(self) -> None:
        words = self.loader("/boot/efi/EFI/rescue/grubx64.efi")
        (told,) = (self.folder / "root/sys/devices").glob("**/nvme0n1p1")
        (told / "uevent").unlink()
        self.assertEqual(self.call("loader", *words).kind, 0x8013)
        (told / "partition").unlink()
        self.assertEqual(self.call("loader", *words).kind, 0x8012)
        missing = self.call("loader", *self.loader("/boot/efi/missing"))
        self.assertEqual((missing.status, missing.error), (SYSTEM, ENOENT), missing.output)

    # ---- What is owed

    def test_what_was_left_to_do_is_done_first(self) -> None:
        order = ATTRIBUTES + numbers(0, 1, 2)
        self.make_state(pending_journal("BootOrder", order, ATTRIBUTES + numbers(1, 0)))
        self.assertIn("owed 1", self.call("owed").output)
        told = self.call("timeout", "3")
        self.assertEqual((told.status, told.settled), (0, True), told.output)
        self.assertEqual(
            (self.stored("BootOrder"), self.stored("Timeout")), (numbers(1, 0), numbers(3))
        )
        self.assertIn("owed 0", self.call("owed").output)

    def test_settle_does_no_more(self) -> None:
        order = ATTRIBUTES + numbers(0, 1, 2)
        self.make_state(pending_journal("BootOrder", order, ATTRIBUTES + numbers(1, 0)))
        told = self.call("settle")
        self.assertEqual((told.status, told.settled, told.record), (0, True, 0), told.output)
        self.assertEqual(self.stored("BootOrder"), numbers(1, 0))
        self.assertEqual((self.state / "journal").read_bytes(), idle_journal())

    def test_a_next_of_a_start_before_is_not_set_again(self) -> None:
        self.make_state(pending_journal("BootNext", b"", ATTRIBUTES + numbers(1), start="earlier"))
        told = self.call("settle")
        self.assertEqual(told.status, 0)
        self.assertIn("BootNext not set again", told.output)
        self.assertIsNone(self.stored("BootNext"))

    def test_what_is_overwritten_by_what_was_left_is_told(self) -> None:
        before, after = ATTRIBUTES + numbers(2, 1, 0), ATTRIBUTES + numbers(1, 0)
        self.make_state(pending_journal("BootOrder", before, after))
        told = self.call("settle")
        self.assertIn("BootOrder was changed meanwhile, and is overwritten", told.output)
        self.assertEqual(self.stored("BootOrder"), numbers(1, 0))

    def test_settle_without_a_state_folder_is_done(self) -> None:
        self.assertEqual(self.call("settle").status, 0)
        self.assertFalse(self.state.exists())

    def owe(self, family: str, digits: str) -> Path:
        """Has a change of an entry of another family begun: its state folder."""
        folder = self.state / family.lower()
        folder.mkdir(mode=0o700)
        begun = (
            b"BKJ2" + field(f"{NAME} {family}".encode()) + field(b"") + b"\1\5start" + field(b"")
        )
        name = f"Boot{digits}".encode()
        (folder / "journal").write_bytes(
            begun + bytes([len(name)]) + name + field(b"") + field(ATTRIBUTES + option("driver"))
        )
        return folder

    def test_settle_does_what_is_left_of_other_families(self) -> None:
        order = ATTRIBUTES + numbers(0, 1, 2)
        self.make_state(pending_journal("BootOrder", order, ATTRIBUTES + numbers(1, 0)))
        folders = [self.owe("Driver", "0004"), self.owe("SysPrep", "000A")]
        told = self.call("settle")
        self.assertEqual((told.status, told.settled), (0, True), told.output)
        self.assertEqual(self.stored("BootOrder"), numbers(1, 0))
        self.assertEqual(self.stored("Driver0004"), option("driver"))
        self.assertEqual(self.stored("SysPrep000A"), option("driver"))
        self.assertEqual((self.stored("Boot0004"), self.stored("Boot000A")), (None, None))
        for folder, family in zip(folders, ("Driver", "SysPrep")):
            self.assertEqual((folder / "journal").read_bytes(), idle_journal(f"{NAME} {family}"))
        again = self.call("settle")
        self.assertEqual((again.status, again.settled), (0, False), again.output)

    def test_what_is_owed_of_another_family_alone_is_owed(self) -> None:
        self.make_state()
        self.owe("SysPrep", "0001")
        self.assertIn("owed 1", self.call("owed").output)
        self.assertIn("owed 0", self.call("journal").output)
        told = self.call("timeout", "3")
        self.assertEqual((told.status, told.settled), (0, False), told.output)
        self.assertIsNone(self.stored("SysPrep0001"))
        told = self.call("--flags", "1", "settle")
        self.assertEqual((told.status, told.settled), (0, True), told.output)
        self.assertIsNone(self.stored("SysPrep0001"))
        self.assertEqual(self.call("settle").status, 0)
        self.assertEqual(self.stored("SysPrep0001"), option("driver"))
        self.assertIn("owed 0", self.call("owed").output)

    def test_a_family_is_settled_also_if_another_one_is_refused(self) -> None:
        self.make_state(b"BKJ9")
        driver = self.owe("Driver", "0004")
        self.owe("SysPrep", "0001")
        (driver / "journal").write_bytes(idle_journal("another Driver"))
        told = self.call("settle")
        self.assert_refused(told, AT_JOURNAL, 0x0C01)
        self.assertIn(f"path {self.state / 'journal'}\n", told.output)
        self.assertIn(f"remark {driver / 'journal'}: it is the journal of another", told.output)
        self.assertEqual(self.stored("SysPrep0001"), option("driver"))

    def test_what_another_family_overwrites_is_told_by_its_names(self) -> None:
        self.make_state()
        self.owe("Driver", "0004")
        self.store("Driver0004", b"other")
        told = self.call("settle")
        self.assertIn("Driver0004 was changed meanwhile, and is overwritten", told.output)
        self.assertEqual(self.stored("Driver0004"), option("driver"))

    # ---- Hostile situations

    def test_a_state_folder_that_others_may_write_is_refused(self) -> None:
        self.make_state()
        self.state.chmod(0o770)
        self.assert_refused(self.call("first", "0002"), AT_STATE, 0x8001)
        self.assertEqual(self.stored("BootOrder"), numbers(0, 1, 2))

    @unittest.skipIf(os.getuid(), "only root gives folders away")
    def test_a_state_folder_of_another_user_is_refused(self) -> None:
        self.make_state()
        os.chown(self.state, 65534, 65534)
        self.assert_refused(self.call("first", "0002"), AT_STATE, 0x8002)

    def test_a_pipe_in_the_place_of_the_state_folder_is_refused(self) -> None:
        os.mkfifo(self.state)
        self.assert_refused(self.call("first", "0002"), AT_STATE, 0x8003)

    def test_a_pipe_in_the_place_of_a_variable_is_refused(self) -> None:
        os.mkfifo(self.variables / f"Boot0005-{GUID}")
        self.assert_refused(self.call("first", "0002"), AT_VARIABLES, 0x8004)

    def test_a_pipe_or_a_folder_in_the_place_of_the_journal_is_refused(self) -> None:
        self.make_state()
        os.mkfifo(self.state / "journal")
        self.assert_refused(self.call("first", "0002"), AT_JOURNAL, 0x8004)
        (self.state / "journal").unlink()
        (self.state / "journal").mkdir()
        self.assertEqual(self.call("first", "0002").status, SYSTEM)
        self.assertEqual(self.stored("BootOrder"), numbers(0, 1, 2))

    def test_a_file_in_the_place_of_the_variables_is_refused(self) -> None:
        self.variables = self.folder / "file"
        self.variables.write_bytes(b"")
        self.assert_refused(self.call("first", "0002"), AT_VARIABLES, 0x1101)
        self.assert_refused(self.call("place"), AT_VARIABLES, 0x1101)
        self.assertFalse(self.state.exists())

    def test_a_pipe_in_the_place_of_the_variables_is_refused(self) -> None:
        self.variables = self.folder / "pipe"
        os.mkfifo(self.variables)
        self.assert_refused(self.call("first", "0002"), AT_VARIABLES, 0x8004)
        self.assert_refused(self.call("plan"), AT_VARIABLES, 0x8004)
        self.assertFalse(self.state.exists())

    def test_a_folder_without_variables_is_refused(self) -> None:
        self.variables = self.folder / "empty"
        self.variables.mkdir()
        self.assert_refused(self.call("first", "0002"), AT_VARIABLES, 0x8006)

    def test_a_link_is_not_written_through(self) -> None:
        outside = self.folder / "outside"
        path = self.variables / f"BootOrder-{GUID}"
        path.rename(outside)
        path.symlink_to(outside)
        told = self.call("first", "0002")
        self.assertEqual(
            (told.status, told.at, told.kind), (TAKEN_BACK, AT_CHANGE, 0x8004), told.output
        )
        self.assertEqual(outside.read_bytes(), ATTRIBUTES + numbers(0, 1, 2))

    def test_a_lock_of_another_program_is_told(self) -> None:
        self.make_state()
        for folder, at in ((self.state, AT_STATE), (self.variables, AT_VARIABLES)):
            lock = os.open(folder, os.O_RDONLY)
            fcntl.flock(lock, fcntl.LOCK_EX)
            told = self.call("first", "0002")
            os.close(lock)
            self.assertEqual((told.status, told.at), (BUSY, at), told.output)
        self.assertEqual(self.call("first", "0002").status, 0)

    def test_the_journal_of_another_machine_is_refused_unless_it_is_adopted(self) -> None:
        self.make_state(idle_journal("another"))
        self.assert_refused(self.call("first", "0002"), AT_JOURNAL, 0x8008)
        self.assertEqual((self.state / "journal").read_bytes(), idle_journal("another"))
        self.assertEqual(self.call("--adopt", "first", "0002").status, 0)
        self.assertEqual((self.state / "journal").read_bytes(), idle_journal())

    def test_a_damaged_journal_is_refused_and_stays(self) -> None:
        for damaged, kind in (
            (b"BKJ9", 0x0C01),
            (idle_journal()[:-1], 0x0C03),
            (b"BKJ3" + b"\0" * 5, 0x0F01),
        ):
            self.make_state(damaged)
            self.assert_refused(self.call("first", "0002"), AT_JOURNAL, kind)
            self.assertEqual((self.state / "journal").read_bytes(), damaged)

    def test_a_damaged_record_is_refused_by_undo_alone(self) -> None:
        self.call("first", "0002")
        record = self.state / "history" / "0000000001"
        record.write_bytes(record.read_bytes()[:40])
        told = self.call("undo")
        self.assertEqual((told.status, told.at), (REFUSED, AT_RECORD), told.output)
        self.assertEqual(told.kind >> 8, 0x10, told.output)
        self.assertEqual(self.call("timeout", "1").status, 0)
        self.assertEqual(self.call("undo").status, 0)

    @unittest.skipIf(os.getuid(), "only root becomes another user")
    def test_a_user_without_rights_changes_nothing(self) -> None:
        self.folder.chmod(0o755)
        Path(self.built.name).chmod(0o755)
        told = self.call("first", "0002", user=65534)
        self.assertEqual(
            (told.status, told.at, told.error), (SYSTEM, AT_STATE, EACCES), told.output
        )
        self.assertEqual(self.stored("BootOrder"), numbers(0, 1, 2))

    @unittest.skipIf(os.getuid(), "only root becomes another user")
    def test_variables_that_may_not_be_written_are_taken_back(self) -> None:
        self.folder.chmod(0o755)
        Path(self.built.name).chmod(0o755)
        self.make_state()
        os.chown(self.state, 65534, 65534)
        told = self.call("first", "0002", user=65534)
        self.assertEqual(
            (told.status, told.at, told.left, told.error),
            (TAKEN_BACK, AT_CHANGE, 1, EACCES),
            told.output,
        )
        self.assertEqual(self.stored("BootOrder"), numbers(0, 1, 2))
        self.assertEqual((self.state / "journal").read_bytes(), idle_journal())
        self.assertEqual(list((self.state / "history").iterdir()), [])

    def test_a_folder_in_the_place_of_a_new_file_is_told(self) -> None:
        self.make_state()
        (self.state / ".bootkeep-journal").mkdir()
        told = self.call("first", "0002")
        self.assertEqual((told.status, told.left), (TAKEN_BACK, 1), told.output)
        self.assertEqual(self.stored("BootOrder"), numbers(0, 1, 2))

    def test_an_order_of_odd_length_is_no_plan_and_becomes_whole_by_an_edit(self) -> None:
        self.store("BootOrder", b"\0\0\1")
        self.assert_refused(self.call("plan"), AT_VARIABLES, 0x0501)
        self.assertEqual(self.call("first", "0002").status, 0)
        self.assertEqual(self.stored("BootOrder"), numbers(2))
        self.make_state()
        self.store("BootOrder", b"\0\0\1")
        stream = self.file("stream", frame(5, 0, numbers(2)))
        self.assert_refused(self.call("update", stream), AT_RUN, 0x0501)
        self.assertEqual(self.stored("BootOrder"), b"\0\0\1")
        given = set_file({"Boot0000": option("first"), "BootOrder": b"\0\0\1\0\2"})
        self.assert_refused(self.call("write", self.file("set", given)), AT_RUN, 0x800E)

    @unittest.skipUnless(os.path.exists("/dev/full"), "there is no full device")
    def test_a_state_folder_on_a_full_disk_changes_nothing(self) -> None:
        mounted = subprocess.run(
            ["unshare", "-m", "true"], capture_output=True, check=False
        ).returncode
        if mounted:
            self.skipTest("nothing can be mounted here")
        self.state.mkdir()
        fill = f"mount -t tmpfs -o size=8k,mode=0700 none {self.state} && head -c 8192 /dev/zero >{self.state}/fill; exec"
        words = ["unshare", "-m", "sh", "-c", f'{fill} "$@"', "sh", *self.words("first", "0002")]
        made = subprocess.run(words, capture_output=True, text=True, check=False)
        self.assertRegex(made.stdout, f"status 010[02] at [78] left [01] errno {ENOSPC}")
        self.assertEqual(self.stored("BootOrder"), numbers(0, 1, 2))


if __name__ == "__main__":
    unittest.main()
