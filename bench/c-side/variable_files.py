"""Variable files of OVMF, made at random, and what the calls for such files answer. It is written from
docs/formats/sets.md, and what it makes is held against bench/ovmf_store.py, which reads such files too.
"""

from __future__ import annotations

import random
import re
import struct
import sys
from dataclasses import dataclass, replace
from pathlib import Path

from state_files import Refused

sys.path.append(str(Path(__file__).resolve().parent.parent))

import ovmf_store  # noqa: E402
from ovmf_store import ADDED, GLOBAL_GUID, IN_TRANSITION, RECORD_HEADER, is_boot_name  # noqa: E402

START, BLANK = b"\xaa\x55", b"\xff\xff\xff\xff"

# The store of the older kind, whose records have no times.
PLAIN_GUID = bytes.fromhex("1636cfdd75326441" "98b6fe85707ffe7d")

# How many bytes a value of a set has at most, and a variable's attributes if nothing says others.
DATA_MAX, NEW = 1 << 20, b"\7\0\0\0"

# Files without variables that Debian's package ovmf has.
INSTALLED = [Path("/usr/share/OVMF/OVMF_VARS.fd"), Path("/usr/share/OVMF/OVMF_VARS_4M.fd")]

OTHER_GUID = bytes(range(16))
OTHER_NAMES = ["Lang", "PlatformLang", "BootOptionSupport", "Boot00zz", "K" * 64, "K" * 65, ""]


@dataclass(frozen=True)
class Record:
    """A record of a store: its state, the 57 bytes of its header after that, and what follows them."""

    state: int
    header: bytes
    name: bytes = b""
    value: bytes = b""
    padding: bytes = b""

    def data(self) -> bytes:
        return b"".join(
            [START, bytes([self.state]), self.header, self.name, self.value, self.padding]
        )

    def attributes(self) -> bytes:
        return self.header[1:5]

    def key(self) -> bytes:
        return self.header[41:57] + self.name

    def is_alive(self) -> bool:
        return self.state in (ADDED, IN_TRANSITION)

    def global_name(self) -> str:
        """The name that a set has for it, or none: the vendor is another one, or no set can have that name."""
        spelled = re.fullmatch(rb"((?:[!-~]\0){1,64})\0\0", self.name, re.S)
        return spelled[1].decode("utf-16-le") if spelled and self.key()[:16] == GLOBAL_GUID else ""


@dataclass(frozen=True)
class Store:
    """The parts of a file."""

    head: bytes
    records: list[Record]
    free: bytes
    rest: bytes

    def there(self) -> dict[bytes, Record]:
        """The records that are there, by vendor and name: the first that was added, or else the last that is being replaced."""
        found: dict[bytes, Record] = {}
        for record in self.records:
            if record.is_alive() and found.get(record.key(), record).state == IN_TRANSITION:
                found[record.key()] = record
            elif record.is_alive():
                found.setdefault(record.key(), record)
        return found

    def variables(self) -> dict[str, bytes]:
        """The attributes and the value of each variable that a set can hold."""
        named = {record.global_name(): record for record in self.there().values()}
        return {
            name: record.attributes() + record.value
            for name, record in named.items()
            if name and 1 <= len(record.value) <= DATA_MAX
        }


def padded(count: int) -> bytes:
    """What follows so many bytes up to a multiple of four."""
    return b"\xff" * (-count % 4)


def record_at(data: bytes, place: int, end: int) -> tuple[Record, int]:
    """The record at a place, and the place after it."""
    if place + RECORD_HEADER.size > end:
        raise Refused("STORE_CUT_RECORD", place)
    state, header = data[place + 2], data[place + 3 : place + 60]
    name, value = (int.from_bytes(header[at : at + 4], "little") for at in (33, 37))
    if state == 0xFF or BLANK in (header[1:5], header[33:37], header[37:41]):
        name = value = 0
    value_at = place + RECORD_HEADER.size + name
    after = value_at + value + len(padded(name + value))
    if after > end:
        raise Refused("STORE_CUT_RECORD", place)
    parts = data[place + 60 : value_at], data[value_at : value_at + value]
    return Record(state, header, *parts, data[value_at + value : after]), after


def size_of_header(data: bytes) -> int:
    """The length of the header of the volume that a file is, if that has a good one."""
    found = data[16:32], data[40:44], data[55:56]
    if found != (ovmf_store.VOLUME_GUID, b"_FVH", b"\2"):
        raise Refused("STORE_NO_VOLUME")
    size, length = (
        int.from_bytes(data[at : at + count], "little") for at, count in ((48, 2), (32, 8))
    )
    if size % 2 or not 56 <= size <= len(data) or length > len(data):
        raise Refused("STORE_BAD_HEADER")
    if sum(struct.unpack_from(f"<{size // 2}H", data)) % 0x10000:
        raise Refused("STORE_BAD_HEADER")
    if size + 28 > length:
        raise Refused("STORE_NO_STORE")
    return size


def read(data: bytes) -> Store:
    """The parts of a file.

    Raises Refused if it has none."""
    start = size_of_header(data)
    guid, formatted = data[start : start + 16], data[start + 20 : start + 22]
    if guid != ovmf_store.STORE_GUID:
        raise Refused("STORE_UNAUTHENTICATED" if guid == PLAIN_GUID else "STORE_NO_STORE")
    size = int.from_bytes(data[start + 16 : start + 20], "little")
    length = int.from_bytes(data[32:40], "little")
    if formatted != b"\x5a\xfe" or size % 4 or not 28 <= size <= length - start:
        raise Refused("STORE_BAD_STORE")
    records, place, end = [], start + 28, start + size
    while data[place:end].startswith(START):
        record, place = record_at(data, place, end)
        records.append(record)
    return Store(data[: start + 28], records, data[place:end], data[end:])


def kept_in(data: bytes) -> dict[str, bytes]:
    """What a machine with this file keeps.

    Raises Refused if there is none."""
    kept = read(data).variables()
    if any(len(held) > DATA_MAX for name, held in kept.items() if is_boot_name(name)):
        raise Refused("MACHINE_TOO_LONG")
    return {name: held if is_boot_name(name) else held[4:] for name, held in kept.items()}


def new_record(there: Record | None, name: str, held: bytes) -> bytes:
    """A new record of a variable of a set, in the place of the one that is there."""
    attributes = held[:4]
    if attributes == BLANK:
        attributes = NEW if there is None else there.attributes()
    stored = name.encode("utf-16-le") + b"\0\0"
    lengths = struct.pack("<II", len(stored), len(held) - 4)
    header = b"\0" + attributes + bytes(28) + lengths + GLOBAL_GUID
    return Record(ADDED, header, stored, held[4:], padded(len(stored) + len(held) - 4)).data()


def with_variables(data: bytes, kept: dict[str, bytes]) -> bytes:
    """The file with the boot manager's variables of what a machine keeps.

    Raises Refused if there is none."""
    wanted = {name: held for name, held in sorted(kept.items()) if is_boot_name(name)}
    if any(len(held) <= 4 for held in wanted.values()):
        raise Refused("MACHINE_NO_DATA")
    store = read(data)
    there = store.there()
    now = {name: held for name, held in store.variables().items() if is_boot_name(name)}
    changed = {
        name for name in {*now, *wanted} if now.get(name, b"")[4:] != wanted.get(name, b"")[4:]
    }
    keys = {name: GLOBAL_GUID + name.encode("utf-16-le") + b"\0\0" for name in changed}
    new = b"".join(
        new_record(there.get(keys[name]), name, held)
        for name, held in wanted.items()
        if name in changed
    )
    body = spelled(store, changed) + new + store.free[len(new) :]
    if len(new) > len(store.free) or store.free[len(new) :].startswith(START):
        stay = (record for _, record in sorted(there.items()))
        body = b"".join(it.data() for it in stay if it.global_name() not in changed) + new
    size = len(data) - len(store.head) - len(store.rest)
    if len(body) > size:
        raise Refused("STORE_FULL")
    return store.head + body.ljust(size, b"\xff") + store.rest


def spelled(store: Store, changed: set[str]) -> bytes:
    """The records, of which those of the variables that change are deleted."""
    return b"".join(
        (
            replace(record, state=record.state & 0xFD)
            if record.is_alive() and record.global_name() in changed
            else record
        ).data()
        for record in store.records
    )


# ---- files that are made


def some_record(chance: random.Random, boot: dict[str, bytes]) -> bytes:
    """A record of a variable, in any state. A boot variable is one of these, at times with other data."""
    name = chance.choice([*boot, *boot, *OTHER_NAMES])
    value = boot.get(name, chance.randbytes(chance.choice([1, 2, 9])))
    if chance.randrange(6) == 0:
        value = chance.randbytes(chance.choice([0, 1, 2, 6]))
    stored = name.encode("utf-16-le") + b"\0\0"
    if chance.randrange(12) == 0:
        stored = chance.choice([stored[:-2], stored + b"\0", b"\xe9\0\0\0", b"\0\0", b""])
    state = chance.choice([ADDED] * 6 + [IN_TRANSITION] * 2 + list(ovmf_store.STATES))
    attributes = chance.choice([7, 7, 7, 0x27, 3, 0x80000007, 0xFFFFFFFF])
    vendor = chance.choice([GLOBAL_GUID] * 4 + [OTHER_GUID])
    lengths = len(stored), len(value)
    numbers = 0x55AA, state, 0, attributes, chance.randrange(9), bytes(16), 0, *lengths, vendor
    head = RECORD_HEADER.pack(*numbers)
    if state == 0xFF or attributes == 0xFFFFFFFF:
        return head
    return head + stored + value + padded(sum(lengths))


def headers(size: int, rest: int) -> bytes:
    """The headers of a volume with a store of so many bytes, and so many bytes of the volume after that."""
    length = ovmf_store.VOLUME_HEADER.size + 16 + size
    blocks = struct.pack("<IIII", 1, length + rest, 0, 0)
    fixed = bytes(16), ovmf_store.VOLUME_GUID, length + rest, b"_FVH", 0x0004FEFF, 72
    unsummed = ovmf_store.VOLUME_HEADER.pack(*fixed, 0, 0, 0, 2) + blocks
    total = -sum(struct.unpack(f"<{len(unsummed) // 2}H", unsummed)) % 0x10000
    volume = ovmf_store.VOLUME_HEADER.pack(*fixed, total, 0, 0, 2) + blocks
    return volume + ovmf_store.STORE_HEADER.pack(ovmf_store.STORE_GUID, size, 0x5A, 0xFE, bytes(6))


def some_file(chance: random.Random, boot: dict[str, bytes]) -> bytes:
    """A file with records of these boot variables and of others; or one that is installed, with some of them."""
    installed = [path for path in INSTALLED if path.is_file()]
    if installed and chance.randrange(20) == 0:
        some = {name: NEW + data for name, data in boot.items() if chance.randrange(2)}
        return with_variables(chance.choice(installed).read_bytes(), some)
    records = b"".join(some_record(chance, boot) for _ in range(chance.choice([0, 1, 3, 8, 20])))
    if chance.randrange(30) == 0:
        value = bytes(chance.choice([DATA_MAX - 4, DATA_MAX - 3, DATA_MAX, DATA_MAX + 1]))
        records += new_record(None, "Boot0042", NEW + value)
    free = b"\xff" * chance.choice([0, 4, 88, 400, 4000])
    if free and chance.randrange(6) == 0:
        at = chance.randrange(len(free) // 4) * 4
        free = free[:at] + START + free[at + 2 :]
    rest = b"\xff" * chance.choice([0, 16])
    size = 28 + len(records) + len(free)
    return (
        headers(size, len(rest)) + records + free + rest + chance.randbytes(chance.choice([0, 9]))
    )


def summed(data: bytearray) -> bytes:
    """The bytes, in whose header of a volume the sum is right."""
    data[50:52] = bytes(2)
    total = -sum(struct.unpack_from("<36H", data)) % 0x10000
    data[50:52] = total.to_bytes(2, "little")
    return bytes(data)


def damaged(chance: random.Random, data: bytes) -> bytes:
    """A file of which a number is another one, and in whose header the sum is right nevertheless."""
    places = {16: 1, 32: 8, 40: 1, 48: 2, 55: 1, 72: 16, 88: 4, 92: 1, 93: 1, 133: 4, 137: 4}
    held, at = bytearray(data), chance.choice([*places])
    now = int.from_bytes(held[at : at + places[at]], "little")
    other = chance.choice([0, 1, now + 1, now + 2, now + 4, max(0, now - 4), 2 * now, 0x10000])
    held[at : at + places[at]] = (other % 256 ** places[at]).to_bytes(places[at], "little")
    if at == 72 and chance.randrange(2):
        held[72:88] = PLAIN_GUID
    return summed(held)


def some_kept(chance: random.Random, boot: dict[str, bytes], file: bytes) -> dict[str, bytes]:
    """What a machine is to keep: of what it keeps some, and some of these boot variables."""
    try:
        kept = kept_in(file)
    except Refused:
        kept = {}
    kept = {name: held for name, held in kept.items() if chance.randrange(4)}
    for name in chance.sample(sorted(boot), k=chance.randrange(len(boot) + 1)):
        there = kept.get(name, NEW)[:4]
        kept[name] = chance.choice([there, there, BLANK, b"\x27\0\0\0"]) + boot[name]
    if chance.randrange(3) == 0:
        kept["Timeout"] = NEW + chance.randbytes(2)
    if chance.randrange(12) == 0:
        kept["BootNext"] = chance.choice([NEW, NEW[:2]])
    return kept


# ---- what is held against the other reader


def values_of(kept: dict[str, bytes]) -> dict[str, bytes]:
    """The values of what a machine keeps, without attributes."""
    return {name: held[4:] if is_boot_name(name) else held for name, held in kept.items()}


def is_at_rest(data: bytes) -> bool:
    """Whether the other reader takes the file, and a set can hold all that it has of the boot manager's."""
    try:
        found = ovmf_store.boot_values(ovmf_store.global_values(ovmf_store.check(data)))
    except ovmf_store.Malformed:
        return False
    return all(ovmf_store.fits_set(name, value) for name, value in found.items())


def vars_of(file: bytes) -> dict[str, bytes]:
    """What a machine with this file keeps, which is held against the other reader.

    Raises Refused if there is none."""
    kept = kept_in(file)
    if is_at_rest(file):
        found = ovmf_store.global_values(ovmf_store.read_store(file))
        held = {name: value for name, value in found.items() if ovmf_store.fits_set(name, value)}
        assert held == values_of(kept), "the two readers don't agree on what a file has"
    return kept


def file_with(file: bytes, kept: dict[str, bytes]) -> bytes:
    """The file with the boot manager's variables of what a machine keeps. It is held against what the other reader says of
    such a file, if that takes the one before, and no variable gets other attributes. A Timeout stays there if the set has
    none, and is deleted here.

    Raises Refused if there is none."""
    after = with_variables(file, kept)
    boot = {name: held for name, held in kept.items() if is_boot_name(name)}
    there = read(file).variables()
    same = all(held[:4] in (BLANK, there.get(name, NEW)[:4]) for name, held in boot.items())
    if is_at_rest(file) and same and ("Timeout" in boot or "Timeout" not in there):
        ovmf_store.compare(file, after, ovmf_store.write_set(values_of(boot)))
    return after
