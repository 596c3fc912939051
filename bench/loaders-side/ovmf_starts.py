"""OVMF under qemu, with Secure Boot off or on, over a disk with an EFI system partition and an entry for each of its files:
what its serial line tells of each."""

from __future__ import annotations

import re
import struct
import subprocess
import time
import uuid
from dataclasses import dataclass, field
from enum import Enum
from pathlib import Path
from typing import Dict, List, Optional, Sequence

import ovmf_store
from ovmf_store import ADDED, GLOBAL_GUID, RECORD_HEADER, RECORD_START, Name
from samples import Lists
from signing import run

SECURITY_GUID = uuid.UUID("d719b2cb-3d3a-4596-a3bc-dad00e67656f").bytes_le
"""EFI_IMAGE_SECURITY_DATABASE_GUID, of db and dbx."""

ENABLE_GUID = uuid.UUID("f0a30bc7-af08-4556-99c4-001009c93a44").bytes_le
"""Whose SecureBootEnable turns Secure Boot off in EDK2, though there are keys."""

PARTITION = uuid.UUID("5f2c1a9e-7d64-4b0e-9c3b-1e8f60a2d7c4")
"""By which the partition is known: the first one of docs/examples/make-system."""

FIRST_BLOCK = 2048

FIRST_WORD = 300
"""For how many seconds the first word on an entry is waited for. A start takes six of a processor that has nothing else to
do."""

UNSEEN = re.compile(r"\x1b\[[0-9;?]*[A-Za-z]|\x1b[=>()][0-9A-Z]?|\r")
"""What a terminal does without showing it."""

PIECE = re.compile(r"BdsDxe: (?=loading Boot|starting Boot|failed to )")
WORD = re.compile(r"(loading|starting|failed to load|failed to start) Boot([0-9A-F]{4})")
STATUS = re.compile(r": ([A-Z][A-Za-z ]+?)\s*(?:\n|$)")

ACCELERATORS = ("kvm", "tcg,thread=single")
"""How qemu runs a machine, the fastest first."""


class Outcome(Enum):
    """What becomes of an entry."""

    RAN = "started, and told its name"
    STARTED = "started"
    CRASHED = "started, and crashed"
    STUCK = "started, and nothing after that"
    REFUSED = "refused"
    LOADER_CRASHED = "the loader crashed"
    LOADER_STUCK = "the loader went on without end"
    UNTRIED = "not tried"


STARTS = frozenset([Outcome.RAN, Outcome.STARTED, Outcome.CRASHED, Outcome.STUCK])


@dataclass(frozen=True)
class Seen:
    """What firmware did with an entry."""

    outcome: Outcome
    words: str = ""

    @property
    def is_started(self) -> bool:
        """Whether it was given the processor."""
        return self.outcome in STARTS

    @property
    def is_denied(self) -> bool:
        """Whether Secure Boot refused it."""
        return self.words.endswith("Access Denied")

    def __str__(self) -> str:
        return f"{self.outcome.value} ({self.words})" if self.words else self.outcome.value


@dataclass(frozen=True)
class Entry:
    """An entry: its description, and the file in the partition's root folder."""

    description: str
    file: str


@dataclass(frozen=True)
class Disk:
    """A disk with the partition."""

    path: Path
    blocks: int
    """How many blocks of 512 bytes the partition has."""


@dataclass
class Spent:
    """What the starts took."""

    starts: int = 0
    seconds: float = 0.0


@dataclass(frozen=True)
class Patience:
    """For how many seconds there may be no new word: after the first one, and after an exception was told."""

    quiet: float = 30.0
    crashed: float = 1.0


def make_disk(folder: Path, path: Path) -> Disk:
    """A disk with a partition that has what is in a folder."""
    held = sorted(folder.iterdir())
    megabytes = 41 + (sum(it.stat().st_size for it in held if it.is_file()) >> 20)
    with path.open("wb") as file:
        file.truncate((megabytes + 2) << 20)
    table = f"label: gpt\nstart={FIRST_BLOCK}, size={megabytes * 2048}, type=U, uuid={PARTITION}\n"
    subprocess.run(["sfdisk", "-q", path], input=table.encode(), check=True)
    words = ["-F", "32", "-n", "ESP", "--offset", str(FIRST_BLOCK)]
    run("mkfs.vfat", *words, path, str(megabytes * 1024))
    run("mcopy", "-s", "-Q", "-i", f"{path}@@1M", *held, "::/")
    return Disk(path, megabytes * 2048)


def option(entry: Entry, blocks: int) -> bytes:
    """The load option of an entry (UEFI 2.10, 3.1.3)."""
    name = f"\\{entry.file}\0".encode("utf-16-le")
    place = struct.pack("<BBHIQQ", 4, 1, 42, 1, FIRST_BLOCK, blocks)
    path = place + PARTITION.bytes_le + b"\2\2"
    path += struct.pack("<BBH", 4, 4, 4 + len(name)) + name + b"\x7f\xff\4\0"
    text = f"{entry.description}\0".encode("utf-16-le")
    return struct.pack("<IH", 1, len(path)) + text + path


def variable(vendor: bytes, name: str) -> Name:
    """The vendor and the name as a record has them."""
    return vendor, f"{name}\0".encode("utf-16-le")


@dataclass(frozen=True)
class Value:
    """What a variable has."""

    attributes: int
    data: bytes


KEPT, AT_BOOT, SIGNED = 7, 3, 0x27
"""The attributes of boot variables, of SecureBootEnable, and of db and dbx."""


def boot_values(entries: Sequence[Entry], blocks: int) -> Dict[str, bytes]:
    """The boot variables of these entries, in this order."""
    values = {f"Boot{index:04X}": option(it, blocks) for index, it in enumerate(entries)}
    numbers = range(len(entries))
    return {**values, "BootOrder": struct.pack(f"<{len(entries)}H", *numbers), "Timeout": b"\0\0"}


def with_values(file: bytes, values: Dict[Name, Value]) -> bytes:
    """A variable file with other values, and no entries besides."""
    store = ovmf_store.read_store(file)
    old = ovmf_store.variables(store)
    names = [it for it in old if it[0] != GLOBAL_GUID or not is_boot(it)]
    made = bytearray()
    for key in [*names, *(it for it in values if it not in names)]:
        record, new = old.get(key), values.get(key)
        if new is None and record is not None:
            new = Value(record.attributes, record.value)
        assert new is not None
        more = (record.count, record.time, record.key) if record else (0, bytes(16), 0)
        head = (RECORD_START, ADDED, 0, new.attributes, *more, len(key[1]), len(new.data), key[0])
        made += RECORD_HEADER.pack(*head) + key[1] + new.data
        made += b"\xff" * (-len(made) % 4)
    start, end = store.start + ovmf_store.STORE_HEADER.size, store.start + store.size
    assert len(made) <= end - start
    return file[:start] + bytes(made).ljust(end - start, b"\xff") + file[end:]


def is_boot(key: Name) -> bool:
    """Whether it is a boot variable's name."""
    return ovmf_store.is_boot_name(ovmf_store.name_text(key[1]))


def own_lists(template: bytes) -> Lists:
    """What db and dbx of a variable file have."""
    held = ovmf_store.variables(ovmf_store.read_store(template))

    def data(name: str) -> bytes:
        record = held.get(variable(SECURITY_GUID, name))
        return record.value if record else b""

    return Lists(data("db"), data("dbx"))


@dataclass
class Firmware:
    """OVMF, and a variable file with keys."""

    code: Path
    template: bytes
    work: Path
    accelerator: str = ACCELERATORS[-1]
    spent: Spent = field(default_factory=Spent)

    def choose(self, disk: Disk) -> None:
        """Takes the fastest way to run a machine that works here: in which an entry is tried within a minute."""
        for accelerator in ACCELERATORS[:-1]:
            self.accelerator = accelerator
            try:
                text = self.start(
                    [Entry("none", "NONE.EFI")], disk, False, Lists(b"", b""), until=60
                )
            except RuntimeError:
                continue
            if WORD.search(text):
                return
        self.accelerator = ACCELERATORS[-1]

    def start(
        self,
        entries: Sequence[Entry],
        disk: Disk,
        is_secure: bool,
        lists: Lists,
        patience: Patience = Patience(),
        until: float = FIRST_WORD,
    ) -> str:
        """What is on the serial line of one start over these entries, in this order.

        Raises RuntimeError if qemu ends at once."""
        values = {
            variable(GLOBAL_GUID, name): Value(KEPT, data)
            for name, data in boot_values(entries, disk.blocks).items()
        }
        values[variable(SECURITY_GUID, "db")] = Value(SIGNED, lists.db)
        values[variable(SECURITY_GUID, "dbx")] = Value(SIGNED, lists.dbx)
        values[variable(ENABLE_GUID, "SecureBootEnable")] = Value(AT_BOOT, bytes([is_secure]))
        values = {key: it for key, it in values.items() if it.data}
        (self.work / "vars.fd").write_bytes(with_values(self.template, values))
        began = time.monotonic()
        try:
            return self._watch(disk, patience, until)
        finally:
            self.spent.starts += 1
            self.spent.seconds += time.monotonic() - began

    def _watch(self, disk: Disk, patience: Patience, until: float) -> str:
        line, notes = self.work / "serial", self.work / "notes"
        line.write_bytes(b"")
        with notes.open("wb") as told, subprocess.Popen(
            self._words(disk, line), stdin=subprocess.DEVNULL, stdout=told, stderr=told
        ) as qemu:
            try:
                self._await(qemu, line, patience, until)
            finally:
                qemu.kill()
        text = shown(line)
        if not text and qemu.returncode not in (0, -9):
            raise RuntimeError(notes.read_text(encoding="utf-8", errors="replace").strip())
        return text

    def _await(
        self, qemu: "subprocess.Popen[bytes]", line: Path, patience: Patience, until: float
    ) -> None:
        """Waits until the machine is off, or tells nothing more."""
        size, last = -1, time.monotonic()
        while qemu.poll() is None:
            time.sleep(0.1)
            now = line.stat().st_size
            if now != size:
                size, last, text = now, time.monotonic(), shown(line)
            limit = patience.quiet if WORD.search(text) else until
            if "Exception Type" in text:
                limit = patience.crashed
            if time.monotonic() - last > limit:
                return

    def _words(self, disk: Disk, line: Path) -> List[str]:
        """How qemu is called. The year is one in which certificates of a day have run out."""
        words = f"qemu-system-x86_64 -machine q35,smm=on -accel {self.accelerator} -m 512".split()
        if self.accelerator == "kvm":
            words += ["-cpu", "host"]
        words += "-nodefaults -no-user-config -display none -no-reboot -net none".split()
        words += ["-serial", f"file:{line}", "-rtc", "base=2040-01-01"]
        words += ["-global", "driver=cfi.pflash01,property=secure,value=on"]
        words += ["-drive", f"if=pflash,unit=0,format=raw,readonly=on,file={self.code}"]
        words += ["-drive", f"if=pflash,unit=1,format=raw,file={self.work / 'vars.fd'}"]
        words += ["-drive", f"if=none,id=disk,format=raw,readonly=on,file={disk.path}"]
        return words + ["-device", "virtio-blk-pci,drive=disk"]


def shown(line: Path) -> str:
    """What a file of a serial line shows."""
    return UNSEEN.sub("", line.read_text(encoding="utf-8", errors="replace"))


def read_line(text: str, count: int) -> Dict[int, Seen]:
    """What became of each of the first entries, as far as it is told. Once one is loaded again, firmware has begun anew."""
    found: Dict[int, Seen] = {}
    for piece in PIECE.split(text)[1:]:
        word = WORD.match(piece)
        if word is None:
            continue
        index = int(word[2], 16)
        if index >= count or (word[1] == "loading" and index in found):
            break
        seen = read_piece(word[1], piece, found.get(index))
        if seen is not None:
            found[index] = seen
    return found


def read_piece(word: str, piece: str, before: Optional[Seen]) -> Optional[Seen]:
    """What one line, and what comes after it, tells of an entry; None if it is what is known of it."""
    status = STATUS.search(piece)
    words = status[1] if status else "?"
    if word == "loading":
        crashed = "Exception Type" in piece
        return Seen(Outcome.LOADER_CRASHED if crashed else Outcome.LOADER_STUCK)
    if word == "starting":
        if "Exception Type" in piece:
            return Seen(Outcome.CRASHED)
        return Seen(Outcome.RAN if "[ran " in piece else Outcome.STARTED)
    if word == "failed to load":
        return Seen(Outcome.REFUSED, f"load: {words}")
    # What the loader says of an image that it doesn't start. One that was started says something else here.
    if before == Seen(Outcome.STARTED) and words == "Unsupported":
        return Seen(Outcome.REFUSED, f"start: {words}")
    return None
