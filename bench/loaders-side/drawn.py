"""Images with other values in the fields of their headers: each with those around what a loader may compare it with, and
bytes that are drawn at random."""

from __future__ import annotations

import random
from dataclasses import replace
from typing import Iterable, Iterator, List

from images import (
    CERTIFICATES,
    DEBUG,
    RELOCATIONS,
    RESOURCES,
    Directory,
    Headers,
    digest,
    number,
    put,
)
from kinds import Change, changed
from samples import Sample
from signing import Signing, digest_list

FFS = 0xFFFFFFFF
NOT_READ = {
    "SizeOfCode": 28,
    "SizeOfInitializedData": 32,
    "BaseOfCode": 44,
    "FileAlignment": 60,
    "OperatingSystemVersion": 64,
    "SubsystemVersion": 72,
    "Win32VersionValue": 76,
    "CheckSum": 88,
    "LoaderFlags": 128,
}
"""Fields at which no loader has to look, by their offsets from the PE signature."""


def half_in_db(samples: Iterable[Sample]) -> List[Sample]:
    """The files, of every second of which the digest is in db, so that Secure Boot lets the loader look at it."""
    made = list(samples)
    for index in range(1, len(made), 2):
        found = digest(made[index].data or b"")
        if found is not None:
            name = f"{made[index].name}, its digest in db"
            made[index] = replace(made[index], name=name, db=digest_list(found))
    return made


def new_byte(old: int) -> int:
    """Another value of a byte: any, or one with one bit turned over. It may be the same."""
    return random.choice((random.randrange(256), old ^ 1 << random.randrange(8)))


def mutations(signing: Signing, count: int) -> Iterator[Sample]:
    """Images that aren't signed, of whose headers a byte or two are others."""
    headers = Headers(signing.application)
    for index in range(count):
        data, what = bytearray(signing.named(f"m{index}")), []
        for _ in range(random.choice((1, 1, 1, 2))):
            places = [random.randrange(64)]
            places += [random.randrange(headers.pe, headers.table_end) for _ in range(3)]
            place = random.choice(places)
            new = new_byte(data[place])
            if new != data[place]:
                what.append(f"{place:#x}: {data[place]:02x} -> {new:02x}")
                data[place] = new
        yield Sample(f"mutation {index}: {', '.join(what) or 'none'}", bytes(data))


def signed_mutations(signing: Signing, count: int) -> Iterator[Sample]:
    """Signed images of which a byte is another, most often one of the headers or of the certificate table."""
    maker = signing.certificate_list("maker")
    for index in range(count):
        data = bytearray(signing.sign(signing.named(f"s{index}"), "leaf"))
        headers = Headers(bytes(data))
        table = headers.directory(bytes(data), CERTIFICATES)
        places = [
            random.randrange(headers.pe, headers.table_end),
            random.randrange(len(data)),
            random.randrange(table.start, table.start + 200),
            random.randrange(table.start, table.start + table.size),
        ]
        place = random.choice(places)
        new = new_byte(data[place])
        name = f"signed mutation {index}: {place:#x}: {data[place]:02x} -> {new:02x}"
        data[place] = new
        yield Sample(name, bytes(data), db=maker)


class Fields:
    """Makes the images of which one field has another value, or a few that belong together."""

    def __init__(self, application: bytes) -> None:
        self.data, self.size = application, len(application)
        self.headers = Headers(application)
        self.pe = self.headers.pe
        self.last = self.headers.table_end - 40
        self.count = self.headers.section_count

    def all(self) -> List[Sample]:
        """All of them, each with other bytes than before."""
        made = [
            *self.of_dos(),
            *self.of_file(),
            *self.of_memory(),
            *self.of_sizes(),
            *self.of_moved_tables(),
            *self.of_directories(),
            *self.of_sections(),
            *self.of_no_sections(),
            *self.of_empty_sections(),
            *self.of_relocations(),
        ]
        return [it for it in made if it.data != self.data]

    def each(self, name: str, place: int, form: str, values: Iterable[int]) -> Iterator[Sample]:
        """The image with each of these values at a place."""
        for value in values:
            old = number(self.data, place, form)
            what = f"{name} ({self.where(place)}) {old:#x} -> {value:#x}"
            yield Sample(what, put(self.data, place, form, value))

    def where(self, place: int) -> str:
        """A place for a person."""
        return f"PE+{place - self.pe}" if place >= self.pe else f"{place:#x}"

    def several(self, name: str, *changes: Change) -> Sample:
        """The image with changes that belong together."""
        return Sample(name, changed(self.data, changes))

    def of_dos(self) -> Iterator[Sample]:
        """The fields before the PE signature, and it."""
        pe, size = self.pe, self.size
        places = [0, pe - 1, pe + 8, size - 264, size - 263, FFS]
        yield from self.each("e_lfanew", 0x3C, "I", places)
        yield from self.each("e_magic", 0, "H", [0, 0x4550])
        yield from self.each("Signature", pe, "I", [0, 0x5A56])

    def of_file(self) -> Iterator[Sample]:
        """The fields of the file header, and those that no loader has to read."""
        pe = self.pe
        machines = [0, 0x14C, 0x1C2, 0x1C4, 0x200, 0xAA64, 0x5064]
        yield from self.each("Machine", pe + 4, "H", machines)
        yield from self.each("NumberOfSections", pe + 6, "H", [0, 1, 3, 5, 11, 12, 13, 0xFFFF])
        yield from self.each("TimeDateStamp", pe + 8, "I", [FFS])
        yield from self.each("PointerToSymbolTable", pe + 12, "I", [FFS])
        sizes = [0, 112, 0xE8, 0xF8, 0xFFFF]
        yield from self.each("SizeOfOptionalHeader", pe + 20, "H", sizes)
        yield from self.each("Characteristics", pe + 22, "H", [0, 2, 0x20, 0x2022, 0xFFFE])
        yield from self.each("Magic", pe + 24, "H", [0, 0x107, 0x10B])
        for name, offset in NOT_READ.items():
            yield from self.each(name, pe + offset, "I", [0, FFS])
        yield from self.each("Subsystem", pe + 92, "H", [0, 1, 9, 11, 12, 13, 14, 0x10A])
        yield from self.each("DllCharacteristics", pe + 94, "H", [0, 0xFFFF])
        counts = [0, 1, 4, 5, 6, 15, 17, FFS]
        yield from self.each("NumberOfRvaAndSizes", pe + 132, "I", counts)

    def of_memory(self) -> Iterator[Sample]:
        """The fields that tell where the image is in memory."""
        pe, image = self.pe, self.headers.image_size
        yield from self.each("AddressOfEntryPoint", pe + 40, "I", [0, image - 1, image])
        bases = [0, 1, 0x1000, 0x100000, 0x1000000, 0x10000001, 2**64 - 1]
        yield from self.each("ImageBase", pe + 48, "Q", bases)
        alignments = [0, 1, 3, 0x200, 0x1001, 0x2000, 0x200000, 0x80000000, FFS]
        yield from self.each("SectionAlignment", pe + 56, "I", alignments)

    def of_sizes(self) -> Iterator[Sample]:
        """SizeOfImage and SizeOfHeaders."""
        held = self.headers
        sizes = [0, 1, held.table - 1, held.table, held.table_end - 1, held.table_end]
        sizes += [held.table_end + 40, held.headers_size - 1, held.headers_size + 1]
        sizes += [held.image_size - 1, held.image_size + 1, 0x4000, 0x4001, 0x400B, 0x400C]
        sizes += [self.size, self.size + 1, 0x7FFFFFFF, FFS]
        yield from self.each("SizeOfImage", self.pe + 80, "I", sizes)
        yield from self.each("SizeOfHeaders", self.pe + 84, "I", sizes)

    def of_moved_tables(self) -> Iterator[Sample]:
        """Images with other numbers of directories, and the section table behind these."""
        held = self.headers
        rows = self.data[held.table : held.table_end]
        for count in (0, 4, 5, 6, 17):
            table = self.pe + 24 + 112 + 8 * count
            data = put(self.data, self.pe + 132, "I", count)
            data = put(data, self.pe + 20, "H", 112 + 8 * count)
            front = (data[: held.table] + bytes(8))[:table] + rows
            filled = front.ljust(held.headers_size, b"\0")
            what = f"{count} directories, the section table moved"
            yield Sample(what, filled + self.data[held.headers_size :])

    def of_directories(self) -> Iterator[Sample]:
        """The data directories."""
        for index in range(16):
            place = self.headers.directory_place(index)
            if index not in (RESOURCES, CERTIFICATES, RELOCATIONS, DEBUG):
                data = put(self.data, place, "Q", 2**64 - 1)
                yield Sample(f"directory {index} ({self.where(place)}) ffffffff+ffffffff", data)
                continue
            for found in self.directory_values():
                what = f"directory {index} ({self.where(place)}) {found.start:#x}+{found.size:#x}"
                start, size = Change(place, "I", found.start), Change(place + 4, "I", found.size)
                yield self.several(what, start, size)

    def directory_values(self) -> List[Directory]:
        """The values of a directory at which a loader looks."""
        pairs = [(0, 1), (0, 15), (0, 16), (1, 28), (0x1000, 28), (0x1000, 64), (0x4000, 0)]
        pairs += [(0x4000, size) for size in (7, 12, 13, 24, 0x1000)] + [(0x4001, 0x1000)]
        pairs += [(self.size - 8, 8), (self.size - 8, 9), (self.size, 1)]
        pairs += [(self.headers.image_size, 4), (FFS, 1), (FFS, 2), (0xFFFFFFF0, 0xFFFFFFF0)]
        return [Directory(start, size) for start, size in pairs]

    def of_sections(self) -> Iterator[Sample]:
        """The fields of each section."""
        headers, image = self.headers.headers_size, self.headers.image_size
        for index in range(self.count):
            place, name = self.headers.table + 40 * index, f"section {index}"
            held = self.headers.section(self.data, index)
            raw, start, address = held.raw_size, held.raw_start, held.address
            sizes = [0, 1, raw, raw + 1, 0x1000, 0x1001, image - address, image - address + 1]
            yield from self.each(f"{name} VirtualSize", place + 8, "I", sizes)
            fits = image - held.virtual_size
            places = [0, headers - 1, headers, address + 1, fits, fits + 1, image - 1, image, FFS]
            yield from self.each(f"{name} VirtualAddress", place + 12, "I", places)
            left = self.size - start
            sizes = [0, 1, left, left + 1, FFS - start, FFS + 1 - start, FFS]
            yield from self.each(f"{name} SizeOfRawData", place + 16, "I", sizes)
            places = [0, headers - 1, headers, self.size - raw, self.size - raw + 1, FFS]
            yield from self.each(f"{name} PointerToRawData", place + 20, "I", places)
            yield from self.each(f"{name} Characteristics", place + 36, "I", [0, FFS])

    def of_no_sections(self) -> Iterator[Sample]:
        """Images without sections and relocations."""
        pe, headers = self.pe, self.headers.headers_size
        empty = (Change(pe + 6, "H", 0), Change(pe + 180, "I", 0))
        entry = Change(pe + 40, "I", 0x200)
        yield self.several("no sections", *empty)
        for more in (0, 1):
            what = f"no sections, SizeOfImage = SizeOfHeaders + {more}"
            yield self.several(what, *empty, Change(pe + 80, "I", headers + more), entry)
        bare = changed(self.data, empty)
        yield Sample("no sections, the file ends before SizeOfHeaders", bare[: headers - 1])
        yield Sample("no sections, the file ends at SizeOfHeaders", bare[:headers])

    def of_empty_sections(self) -> Iterator[Sample]:
        """Images without relocations whose last section has no data, or is elsewhere."""
        last, image = self.last, self.headers.image_size

        def moved(name: str, size: int, address: int, raw: int) -> Sample:
            changes = [Change(last + 8, "I", size), Change(last + 12, "I", address)]
            if raw == 0:
                changes.append(Change(last + 16, "I", 0))
            return self.several(name, *changes, Change(self.pe + 180, "I", 0))

        raw = self.headers.section(self.data, self.count - 1).raw_size
        yield moved("a section without data over the headers", 0x200, 0, 0)
        yield moved("a section without data beyond the image", 1, 0x100000, 0)
        what = "a section without data, and without size, beyond the image"
        yield moved(what, 0, 0x100000, 0)
        yield moved("VirtualSize 0, the data end beyond the image", 0, image - 0x100, raw)
        yield moved("VirtualAddress + VirtualSize overflows", 0xFFFFD000, 0x4000, raw)

    def of_relocations(self) -> Iterator[Sample]:
        """The block of relocations, and the first of them."""
        place, image = number(self.data, self.last + 20), self.headers.image_size
        yield from self.each("block address", place, "I", [0, image - 1, image, FFS])
        yield from self.each("block size", place + 4, "I", [0, 1, 4, 8, 10, 13, 14, FFS])
        values = [0x1000, 0x2000, 0x3000, 0x4000, 0x5000, 0x9000, 0xB000, 0xFFFF]
        yield from self.each("relocation", place + 10, "H", values)
