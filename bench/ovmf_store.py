#!/usr/bin/env python3
"""Reads and checks variable files of edk2's OVMF, and set files. It is written from the formats, and shares nothing
with the program that it is compared with. The formats are those of edk2's headers PiFirmwareVolume.h and
VariableFormat.h, and that of docs/formats/sets.md for set files.

    ovmf_store.py vars FILE                 writes a set of the variables of the standard's vendor to standard output
    ovmf_store.py check FILE                says what isn't as edk2 leaves it, or how many variables are there
    ovmf_store.py used FILE                 how many bytes the records have
    ovmf_store.py compare BEFORE AFTER SET  says what isn't as it has to be once SET was written to BEFORE
    ovmf_store.py gone BEFORE AFTER         the names of the variables of BEFORE that AFTER doesn't have
    ovmf_store.py put SET NAME HEX          writes the set with these data under the name to standard output
    ovmf_store.py fill FILE LEFT            writes the file to standard output, with variables of a vendor of its own, so
                                            that so many bytes of the store are left, or a few more

The status is 0 if nothing is wrong, and 1 otherwise.
"""

from __future__ import annotations

import struct
import sys
import uuid
from dataclasses import dataclass
from pathlib import Path
from typing import Callable, Dict, List, Tuple, Union

VOLUME_GUID = uuid.UUID("fff12b8d-7696-4c8b-a985-2747075b4f50").bytes_le
STORE_GUID = uuid.UUID("aaf32c78-947b-439a-a180-2e144ec37792").bytes_le
GLOBAL_GUID = uuid.UUID("8be4df61-93ca-11d2-aa0d-00e098032b8c").bytes_le

# Whose variables fill a store, and how many bytes each has at most.
FILL_GUID = uuid.UUID("5f2c1a9e-7d64-4b0e-9c3b-1e8f60a2d7c5").bytes_le
FILL_MAX = 32000

# The volume's header up to its block map: a vector of zeros, the GUID, the length, the signature, attributes, the
# length of the header, its checksum, the place of a second header, a byte that isn't used, and the revision.
VOLUME_HEADER = struct.Struct("<16s16sQ4sIHHHBB")
# The store's: the GUID, the size, the format, the state, and six bytes that aren't used.
STORE_HEADER = struct.Struct("<16sIBB6s")
# A record's: the start, the state, a byte that isn't used, attributes, a count, a time, the index of a key, the sizes
# of the name and of the value, and the vendor.
RECORD_HEADER = struct.Struct("<HBBIQ16sIII16s")

RECORD_START = 0x55AA
ADDED = 0x3F
IN_TRANSITION = 0x3E
# Bits are taken away one by one: the header is written, the variable is added, is being replaced, is deleted.
STATES = (0xFF, 0x7F, ADDED, IN_TRANSITION, 0x3D, 0x3C, 0x7D, 0xFD)

Values = Dict[str, bytes]
Name = Tuple[bytes, bytes]
"""The vendor and the name of a variable, as its record has them."""


@dataclass(frozen=True)
class Record:
    """A record of a store."""

    place: int
    state: int
    reserved: int
    attributes: int
    count: int
    time: bytes
    key: int
    vendor: bytes
    name: bytes
    value: bytes
    padding: bytes


@dataclass(frozen=True)
class Store:
    """A store of variables."""

    volume: int
    """The length of the volume that it is in."""
    start: int
    size: int
    records: List[Record]
    free_place: int
    """Where the bytes after the records begin."""


class Malformed(Exception):
    """What isn't as it has to be."""


def expect(is_so: bool, what: str) -> None:
    """Goes on only if this is so."""
    if not is_so:
        raise Malformed(what)


def read_volume(data: bytes) -> Tuple[int, int]:
    """The lengths of the volume and of its header."""
    expect(len(data) >= VOLUME_HEADER.size, "the file is too short for a volume")
    zeros, guid, length, signature, _, header, _, second, _, revision = VOLUME_HEADER.unpack_from(
        data
    )
    expect(zeros == bytes(16), "the volume's first 16 bytes aren't 0")
    expect(
        guid == VOLUME_GUID and signature == b"_FVH",
        "the file doesn't begin with a volume of variables",
    )
    expect(revision == 2 and second == 0, "the volume isn't of revision 2, without a second header")
    expect(length <= len(data), "the volume ends after the file")
    expect(
        header % 8 == 0 and VOLUME_HEADER.size < header <= length,
        "the length of the volume's header",
    )
    expect(
        sum(struct.unpack_from(f"<{header // 2}H", data)) % 0x10000 == 0, "the volume's checksum"
    )
    blocks = list(struct.iter_unpack("<II", data[VOLUME_HEADER.size : header]))
    expect(blocks[-1] == (0, 0), "the block map has no end")
    expect(
        sum(count * size for count, size in blocks) == length,
        "the block map isn't that of the volume",
    )
    return length, header


def read_record(data: bytes, place: int, end: int) -> Tuple[Record, int]:
    """The record at a place, and the place after it."""
    expect(place + RECORD_HEADER.size <= end, f"the record at {place} is cut")
    fields = RECORD_HEADER.unpack_from(data, place)
    _, state, reserved, attributes, count, time, key, name_size, value_size, vendor = fields
    expect(state in STATES, f"the record at {place} is in the state {state:#x}")
    if state == 0xFF or 0xFFFFFFFF in (attributes, name_size, value_size):
        name_size = value_size = 0
    name_at = place + RECORD_HEADER.size
    value_at = name_at + name_size
    after = value_at + value_size
    next_at = (after + 3) // 4 * 4
    expect(next_at <= end, f"the record at {place} is cut")
    record = Record(
        place,
        state,
        reserved,
        attributes,
        count,
        time,
        key,
        vendor,
        data[name_at:value_at],
        data[value_at:after],
        data[after:next_at],
    )
    return record, next_at


def read_store(data: bytes) -> Store:
    """The store in the bytes of a file."""
    volume, start = read_volume(data)
    expect(start + STORE_HEADER.size <= volume, "the volume has no room for a store")
    guid, size, formatted, healthy, _ = STORE_HEADER.unpack_from(data, start)
    expect(guid == STORE_GUID, "no store of variables with times")
    expect((formatted, healthy) == (0x5A, 0xFE), "the store isn't formatted and healthy")
    expect(size % 4 == 0 and STORE_HEADER.size <= size <= volume - start, "the size of the store")
    records, place, end = [], start + STORE_HEADER.size, start + size
    while data[place : place + 2] == struct.pack("<H", RECORD_START) and place + 2 <= end:
        record, place = read_record(data, place, end)
        records.append(record)
    return Store(volume, start, size, records, place)


def variables(store: Store) -> Dict[Name, Record]:
    """The records of the variables that are there, by vendor and name: the first that was added, or else the last that
    is being replaced."""
    found: Dict[Name, Record] = {}
    for record in store.records:
        key = record.vendor, record.name
        if record.state in (ADDED, IN_TRANSITION) and (
            key not in found or found[key].state != ADDED
        ):
            found[key] = record
    return found


def check(data: bytes) -> Store:
    """The store, if it is in every part as edk2 leaves it when it is at rest."""
    store = read_store(data)
    added = set()
    for record in store.records:
        where = f"the record at {record.place}"
        expect(record.reserved == 0, f"{where} has another byte than 0 after its state")
        expect(set(record.padding) <= {0xFF}, f"{where} has other bytes than FF after it")
        if record.state not in (ADDED, IN_TRANSITION):
            continue
        expect(len(record.name) % 2 == 0, f"{where} has half a unit in its name")
        units = [unit for unit, in struct.iter_unpack("<H", record.name)]
        expect(len(units) > 1 and units[-1] == 0 and units.count(0) == 1, f"{where} has no name")
        expect(record.value != b"", f"{where} has no value")
        expect(record.attributes & 1 == 1, f"{where} is of a variable that isn't kept")
        if record.state == ADDED:
            expect(
                (record.vendor, record.name) not in added,
                f"{where} is of a variable that was there",
            )
            added.add((record.vendor, record.name))
    free = data[store.free_place : store.start + store.size]
    expect(set(free) <= {0xFF}, "the bytes after the records aren't FF")
    return store


def name_text(name: bytes) -> str:
    """The name of a variable as text, without its zero unit."""
    return name[:-2].decode("utf-16-le", "surrogatepass")


def global_values(store: Store) -> Values:
    """The values of the variables of the standard's vendor, by name."""
    return {
        name_text(name): record.value
        for (vendor, name), record in variables(store).items()
        if vendor == GLOBAL_GUID
    }


def is_boot_name(name: str) -> bool:
    """Whether it is Boot####, BootOrder, BootNext or Timeout."""
    digits = name.removeprefix("Boot")
    is_entry = (
        name.startswith("Boot") and len(digits) == 4 and set(digits) <= set("0123456789ABCDEF")
    )
    return is_entry or name in ("BootOrder", "BootNext", "Timeout")


def fits_set(name: str, value: bytes) -> bool:
    """Whether a set made of a machine's variables has it."""
    is_name = 1 <= len(name) <= 64 and all("!" <= character <= "~" for character in name)
    return is_name and name != "BootKeepState" and 1 <= len(value) <= 1 << 20


def write_set(values: Values) -> bytes:
    """The bytes of a set file."""
    parts = [b"BVS1"]
    for name in sorted(values):
        parts += [
            bytes([len(name)]),
            name.encode(),
            struct.pack("<I", len(values[name])),
            values[name],
        ]
    return b"".join(parts)


def read_set(data: bytes) -> Values:
    """The values in a set file, by name."""
    expect(data[:4] == b"BVS1", "it is no set")
    values, place = {}, 4
    while place < len(data):
        name = data[place + 1 : place + 1 + data[place]].decode()
        place += 1 + data[place]
        (size,) = struct.unpack_from("<I", data, place)
        values[name] = data[place + 4 : place + 4 + size]
        place += 4 + size
    expect(place == len(data), "the set is cut")
    return values


def boot_values(values: Values) -> Values:
    """Those of the values that are of Boot####, BootOrder, BootNext and Timeout."""
    return {name: value for name, value in values.items() if is_boot_name(name)}


def other_variables(store: Store) -> Dict[Name, Tuple[int, int, bytes, int, bytes]]:
    """All but the boot variables, of all vendors, with what their records tell besides the value."""
    return {
        key: (record.attributes, record.count, record.time, record.key, record.value)
        for key, record in variables(store).items()
        if not (key[0] == GLOBAL_GUID and is_boot_name(name_text(key[1])))
    }


def compare(before_data: bytes, after_data: bytes, set_data: bytes) -> None:
    """Goes on only if the one file is the other with the boot variables of the set, and nothing else. A Timeout stays if the
    set has none."""
    before, after = check(before_data), check(after_data)
    expect(len(before_data) == len(after_data), "the file has another length")
    head, end = before.start + STORE_HEADER.size, before.start + before.size
    expect(before_data[:head] == after_data[:head], "bytes before the records are changed")
    expect(before_data[end:] == after_data[end:], "bytes after the store are changed")
    expect(other_variables(before) == other_variables(after), "another variable is changed")
    kept = {name: it for name, it in global_values(before).items() if name == "Timeout"}
    expect(
        boot_values(global_values(after)) == kept | boot_values(read_set(set_data)),
        "the boot variables aren't the set's",
    )
    was, now = variables(before), variables(after)
    for key in now.keys() - other_variables(after).keys():
        attributes = was[key].attributes if key in was else 7
        expect(
            now[key].attributes == attributes,
            f"{name_text(key[1])} has the attributes {now[key].attributes:#x}",
        )


def read_file(name: Union[str, Path]) -> bytes:
    """The bytes of a file."""
    with open(name, "rb") as file:
        return file.read()


def print_vars(file: str) -> None:
    """Writes a set of the variables of the standard's vendor to standard output."""
    values = global_values(read_store(read_file(file)))
    sys.stdout.buffer.write(
        write_set({name: value for name, value in values.items() if fits_set(name, value)})
    )


def print_count(file: str) -> None:
    """Says how many variables there are, if the file is in order."""
    print(len(variables(check(read_file(file)))))


def print_used(file: str) -> None:
    """Says how many bytes the records have."""
    store = read_store(read_file(file))
    print(store.free_place - store.start - STORE_HEADER.size)


def compare_files(before: str, after: str, set_file: str) -> None:
    """Says what isn't as it has to be once the set was written."""
    compare(read_file(before), read_file(after), read_file(set_file))


def print_gone(before: str, after: str) -> None:
    """Says which variables aren't there any more."""
    gone = (
        variables(read_store(read_file(before))).keys() - variables(check(read_file(after))).keys()
    )
    for name in sorted(name_text(name) for _, name in gone):
        print(name)


def print_with(set_file: str, name: str, digits: str) -> None:
    """Writes the set with these data under the name to standard output."""
    sys.stdout.buffer.write(
        write_set(read_set(read_file(set_file)) | {name: bytes.fromhex(digits)})
    )


def print_filled(file: str, left: str) -> None:
    """Writes the file with variables that fill the store but for so many bytes to standard output."""
    data = bytearray(read_file(file))
    store = check(bytes(data))
    place, end = store.free_place, store.start + store.size - int(left)
    for name in (f"Full{number}\0".encode("utf-16-le") for number in range(10)):
        size = min(FILL_MAX, end - place - RECORD_HEADER.size - len(name)) // 4 * 4
        if size <= 0:
            break
        head = RECORD_HEADER.pack(
            RECORD_START, ADDED, 0, 7, 0, bytes(16), 0, len(name), size, FILL_GUID
        )
        record = head + name + bytes(size)
        data[place : place + len(record)] = record
        place += len(record)
    check(bytes(data))
    sys.stdout.buffer.write(data)


COMMANDS: Dict[str, Callable[..., None]] = {
    "vars": print_vars,
    "check": print_count,
    "used": print_used,
    "compare": compare_files,
    "gone": print_gone,
    "put": print_with,
    "fill": print_filled,
}


if __name__ == "__main__":
    try:
        COMMANDS[sys.argv[1]](*sys.argv[2:])
    except Malformed as fault:
        sys.exit(f"ovmf_store: {' '.join(sys.argv[1:])}: {fault}")
