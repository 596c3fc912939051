"""Emulators' variable files, made and read by hand: a firmware volume, a store of variables in it, and a record for each of
these, as edk2 writes them. For the tests of this folder and for bench/machine-c."""

from __future__ import annotations

from typing import Dict, List

ATTRIBUTES = bytes([7, 0, 0, 0])
VENDOR = bytes.fromhex("61dfe48bca93d211aa0d00e098032b8c")
OTHER_VENDOR = bytes.fromhex("cbb219d73a3d9645a3bcdad00e67656f")
VOLUME = bytes.fromhex("8d2bf1ff96768b4ca9852747075b4f50")
STORE = bytes.fromhex("782cf3aa7b949a43a1802e144ec37792")
VOLUME_LEN, STORE_LEN, RECORD_LEN = 72, 28, 60
ADDED, REPLACED, DELETED = 0x3F, 0x3E, 0x3D
ROOM = 4096
"""How many bytes there are for records."""
TAIL = b"\x5a" * 64
"""What comes after the store."""


def record(
    name: str,
    data: bytes,
    state: int = ADDED,
    attributes: bytes = ATTRIBUTES,
    vendor: bytes = VENDOR,
) -> bytes:
    """A record of a variable."""
    stored = name.encode("utf-16-le") + b"\0\0"
    lengths = len(stored).to_bytes(4, "little") + len(data).to_bytes(4, "little")
    made = b"\xaa\x55" + bytes([state, 0]) + attributes + bytes(28) + lengths + vendor
    made += stored + data
    return made + b"\xff" * (-len(made) % 4)


def variable_file(*records: bytes, room: int = ROOM, free: bytes = b"") -> bytes:
    """A variable file with these records, and these bytes after them."""
    area = b"".join(records) + free
    area += b"\xff" * (room - len(area))
    store = STORE + (STORE_LEN + room).to_bytes(4, "little") + b"\x5a\xfe" + bytes(6)
    volume_len = VOLUME_LEN + STORE_LEN + room
    head = bytes(16) + VOLUME + volume_len.to_bytes(8, "little") + b"_FVH\xff\xfe\x04\0"
    head += VOLUME_LEN.to_bytes(2, "little") + bytes(2) + bytes(3) + b"\2"
    head += (1).to_bytes(4, "little") + volume_len.to_bytes(4, "little") + bytes(8)
    words = [int.from_bytes(head[i : i + 2], "little") for i in range(0, len(head), 2)]
    checksum = -sum(words) & 0xFFFF
    head = head[:50] + checksum.to_bytes(2, "little") + head[52:]
    return head + store + area + TAIL


def records_in(file: bytes) -> List[bytes]:
    """The records of a variable file."""
    found, at = [], VOLUME_LEN + STORE_LEN
    while file[at : at + 2] == b"\xaa\x55":
        sizes = file[at + 36 : at + 44]
        size = int.from_bytes(sizes[:4], "little") + int.from_bytes(sizes[4:], "little")
        end = at + RECORD_LEN + size + -size % 4
        found.append(file[at:end])
        at = end
    return found


def variables_in(file: bytes) -> Dict[str, bytes]:
    """The variables of the standard's vendor in a variable file, with their attributes."""
    found = {}
    for one in records_in(file):
        if one[2] == ADDED and one[44:60] == VENDOR:
            name_len = int.from_bytes(one[36:40], "little")
            data_len = int.from_bytes(one[40:44], "little")
            name = one[RECORD_LEN : RECORD_LEN + name_len].decode("utf-16-le")[:-1]
            data = one[RECORD_LEN + name_len : RECORD_LEN + name_len + data_len]
            found[name] = one[4:8] + data
    return found
