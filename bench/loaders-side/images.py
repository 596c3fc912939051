"""The headers of images as Microsoft's PE/COFF specification has them, read and changed, and their Authenticode digest. It
is written from that specification, and shares nothing with the program that it is compared with."""

from __future__ import annotations

import hashlib
import struct
from dataclasses import dataclass
from typing import List, Optional

CERTIFICATES, RELOCATIONS, RESOURCES, DEBUG = 4, 5, 2, 6
"""The indexes of data directories."""

PE32_PLUS = 0x20B


@dataclass(frozen=True)
class Directory:
    """A data directory."""

    start: int
    size: int


@dataclass(frozen=True)
class Section:
    """A section's header, in part."""

    virtual_size: int
    address: int
    raw_size: int
    raw_start: int


def number(data: bytes, place: int, form: str = "I") -> int:
    """The little-endian number at a place, of a form of `struct`."""
    (value,) = struct.unpack_from("<" + form, data, place)
    return int(value)


def put(data: bytes, place: int, form: str, value: int) -> bytes:
    """The bytes with this number at the place."""
    changed = bytearray(data)
    struct.pack_into("<" + form, changed, place, value)
    return bytes(changed)


def flip(data: bytes, place: int) -> bytes:
    """The bytes with the lowest bit at the place turned over."""
    return data[:place] + bytes([data[place] ^ 1]) + data[place + 1 :]


class Headers:
    """The fields of an image's headers, wherever they are.

    Raises struct.error if the bytes end before them."""

    def __init__(self, data: bytes) -> None:
        self.pe = number(data, 0x3C)
        pe = self.pe
        self.section_count, self.optional_size = number(data, pe + 6, "H"), number(
            data, pe + 20, "H"
        )
        self.is_wide = number(data, pe + 24, "H") == PE32_PLUS
        self.base = number(data, pe + 48, "Q") if self.is_wide else number(data, pe + 52)
        self.image_size, self.headers_size = number(data, pe + 80), number(data, pe + 84)
        self.directories = pe + 24 + (112 if self.is_wide else 96)
        self.directory_count = number(data, self.directories - 4)
        self.table = pe + 24 + self.optional_size
        self.table_end = self.table + 40 * self.section_count

    def directory_place(self, index: int) -> int:
        """Where a data directory is in the file."""
        return self.directories + 8 * index

    def directory(self, data: bytes, index: int) -> Directory:
        """A data directory, which is empty if there are fewer."""
        if index >= self.directory_count:
            return Directory(0, 0)
        place = self.directory_place(index)
        return Directory(number(data, place), number(data, place + 4))

    def section(self, data: bytes, index: int) -> Section:
        """The header of a section."""
        return Section(*struct.unpack_from("<IIII", data, self.table + 40 * index + 8))

    def sections(self, data: bytes) -> List[Section]:
        """All of them, in the order of the table."""
        return [self.section(data, index) for index in range(self.section_count)]


def digest(data: bytes, kind: str = "sha256") -> Optional[bytes]:
    """The Authenticode digest of an image by a hash of this name, as firmware takes it; None if there is none."""
    try:
        headers = Headers(data)
        sections = headers.sections(data)
    except struct.error:
        return None
    hashed, checksum = hashlib.new(kind), headers.pe + 88
    certificates = headers.directory(data, CERTIFICATES).size
    hashed.update(data[:checksum])
    if headers.directory_count > CERTIFICATES:
        place = headers.directory_place(CERTIFICATES)
        hashed.update(data[checksum + 4 : place] + data[place + 8 : headers.headers_size])
    else:
        hashed.update(data[checksum + 4 : headers.headers_size])
    taken = headers.headers_size
    for section in sorted((it for it in sections if it.raw_size), key=lambda it: it.raw_start):
        hashed.update(data[section.raw_start : section.raw_start + section.raw_size])
        taken += section.raw_size
    if len(data) > taken:
        if len(data) < taken + certificates:
            return None
        hashed.update(data[taken : len(data) - certificates])
    return hashed.digest()
