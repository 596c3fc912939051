"""The three kinds of places, made of a drawn machine and read again without the program that is tried."""

from __future__ import annotations

import struct
import sys
from pathlib import Path
from typing import Dict, Tuple

from profile_drawn import Machine
from profile_model import Values, is_boot_name

ROOT = Path(__file__).resolve().parents[2]
sys.path.append(str(ROOT / "bench"))

import ovmf_store  # noqa: E402

VENDOR = "8be4df61-93ca-11d2-aa0d-00e098032b8c"

OTHERS = f"Boot0000-{VENDOR.replace('8', '9')}"
"""A variable of another vendor, which has the name of an entry."""

BOOT_ATTRIBUTES = 7
"""Those of a boot variable (UEFI 2.10, 3.3)."""

Kept = Dict[str, Tuple[int, bytes]]
"""The attributes and the data of variables."""


class Place:
    """A place of variables in a folder of its own."""

    kind = ""
    keeps_changes = True
    """Whether changes of it can be undone."""
    keeps_attributes = True

    def __init__(self, home: Path) -> None:
        self.path = home / self.kind

    def make(self, machine: Machine) -> None:
        """Makes it of a machine's variables."""
        raise NotImplementedError

    def read(self) -> Kept:
        """The variables of the standard's vendor."""
        raise NotImplementedError

    def bytes(self) -> Dict[str, bytes]:
        """All bytes of it."""
        raise NotImplementedError

    def others(self) -> object:
        """What is to stay whatever is changed."""
        return {name: it for name, it in self.read().items() if not is_boot_name(name)}

    def values(self) -> Values:
        """The data of the variables."""
        return {name: data for name, (_, data) in self.read().items()}


class Folder(Place):
    """As Linux shows variables."""

    kind = "efivars"

    def make(self, machine: Machine) -> None:
        self.path.mkdir()
        for name, data in machine.values.items():
            head = struct.pack("<I", machine.attributes[name])
            (self.path / f"{name}-{VENDOR}").write_bytes(head + data)
        (self.path / OTHERS).write_bytes(b"\7\0\0\0another")

    def read(self) -> Kept:
        found: Kept = {}
        for name, held in self.bytes().items():
            if name.endswith(VENDOR):
                (attributes,) = struct.unpack_from("<I", held)
                found[name[: -len(VENDOR) - 1]] = attributes, held[4:]
        return found

    def bytes(self) -> Dict[str, bytes]:
        return {it.name: it.read_bytes() for it in self.path.iterdir()}

    def others(self) -> object:
        return super().others(), (self.path / OTHERS).read_bytes()


class VariableFile(Place):
    """That of an emulator."""

    kind = "vars.fd"

    def make(self, machine: Machine) -> None:
        data = bytearray((ROOT / "docs/examples/vars.fd").read_bytes())
        store = ovmf_store.check(bytes(data))
        place, end = store.start + ovmf_store.STORE_HEADER.size, store.start + store.size
        data[place:end] = b"\xff" * (end - place)
        records = [
            (ovmf_store.GLOBAL_GUID, name, machine.attributes[name], held)
            for name, held in machine.values.items()
        ]
        for vendor, name, attributes, held in [
            *records,
            (ovmf_store.FILL_GUID, "Boot0000", 7, b"another"),
        ]:
            record = record_of(vendor, name, attributes, held)
            data[place : place + len(record)] = record
            place += len(record)
        ovmf_store.check(bytes(data))
        self.path.write_bytes(data)

    def read(self) -> Kept:
        found = ovmf_store.variables(ovmf_store.check(self.path.read_bytes()))
        return {
            ovmf_store.name_text(name): (record.attributes, record.value)
            for (vendor, name), record in found.items()
            if vendor == ovmf_store.GLOBAL_GUID
        }

    def bytes(self) -> Dict[str, bytes]:
        return {self.kind: self.path.read_bytes()}

    def others(self) -> object:
        return ovmf_store.other_variables(ovmf_store.check(self.path.read_bytes()))


def record_of(vendor: bytes, name: str, attributes: int, data: bytes) -> bytes:
    """The bytes of a record, padded with those of erased memory."""
    text = f"{name}\0".encode("utf-16-le")
    head = ovmf_store.RECORD_HEADER.pack(
        *(ovmf_store.RECORD_START, ovmf_store.ADDED, 0, attributes, 0, bytes(16), 0),
        *(len(text), len(data), vendor),
    )
    record = head + text + data
    return record + b"\xff" * (-len(record) % 4)


def set_values(file: Path) -> Values:
    """The values in a set file."""
    return ovmf_store.read_set(file.read_bytes())


class SetFile(Place):
    """A set file."""

    kind = "set"
    keeps_changes = False
    keeps_attributes = False

    def make(self, machine: Machine) -> None:
        self.path.write_bytes(ovmf_store.write_set(machine.values))

    def read(self) -> Kept:
        return {name: (BOOT_ATTRIBUTES, data) for name, data in set_values(self.path).items()}

    def bytes(self) -> Dict[str, bytes]:
        return {self.kind: self.path.read_bytes()}


PLACES = (Folder, VariableFile, SetFile)


def attributes_wanted(before: Kept, after: Values, place: Place) -> Kept:
    """The variables that a place has to have: those that are there keep their attributes."""
    return {
        name: (
            before[name][0] if name in before and place.keeps_attributes else BOOT_ATTRIBUTES,
            data,
        )
        for name, data in after.items()
    }
