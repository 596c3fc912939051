"""Journals and the fields of records as docs/formats/machine.md has them: what is read of any bytes, and journals that are
made at random.
"""

from __future__ import annotations

import random
import re

DATA_MAX, MACHINE_MAX, IDENTITY_MAX = 1 << 20, 4096, 64

NAMES = ["Boot0001", "BootOrder", "BootNext", "Timeout"]


class Refused(Exception):
    """Why bytes aren't what they have to be: the name of the refusal, and perhaps its place and the two numbers of a
    refusal in it."""


class Journal:
    """What is read of the bytes of a journal, from a place on."""

    def __init__(self, data: bytes) -> None:
        self.data, self.at = data, 4

    def taken(self, count: int, start: int) -> bytes:
        """So many bytes of the field that begins at a place."""
        found = self.data[self.at : self.at + count]
        if len(found) < count:
            raise Refused("JOURNAL_TRUNCATED", start)
        self.at += count
        return found

    def number(self, width: int, start: int) -> int:
        return int.from_bytes(self.taken(width, start), "little")

    def machine(self) -> None:
        start = self.at
        size = self.number(4, start)
        if not 1 <= size <= MACHINE_MAX:
            raise Refused("JOURNAL_BAD_MACHINE", start)
        self.taken(size, start)

    def value(self) -> None:
        start = self.at
        size = self.number(4, start)
        if size > DATA_MAX:
            raise Refused("JOURNAL_VALUE_TOO_LONG", start)
        self.taken(size, start)

    def identity(self) -> None:
        start = self.at
        size = self.number(1, start)
        if not 1 <= size <= IDENTITY_MAX or not re.fullmatch(b"[!-~]+", self.taken(size, start)):
            raise Refused("JOURNAL_BAD_IDENTITY", start)

    def change(self) -> None:
        start = self.at
        name = self.taken(self.number(1, start), start)
        if not re.fullmatch(b"Boot[0-9A-F]{4}|BootOrder|BootNext|Timeout", name):
            raise Refused("JOURNAL_BAD_NAME", start)
        self.value()
        self.value()


def is_idle(data: bytes) -> bool:
    """Whether the journal tells of nothing that is left to do. No bytes are that of a machine with none.

    Raises Refused if they are no journal."""
    if data and data[:4] not in (b"BKJ1", b"BKJ2"):
        raise Refused("JOURNAL_BAD_MAGIC")
    journal = Journal(data)
    if data[:4] == b"BKJ2":
        journal.machine()
    if data:
        journal.value()
    if journal.at >= len(data):
        return True
    start = journal.at
    course = journal.taken(1, start)
    if course not in (b"\1", b"\2"):
        raise Refused("JOURNAL_BAD_COURSE", start)
    journal.identity()
    if course == b"\1":
        journal.value()
    while journal.at < len(data):
        journal.change()
    return False


def with_length(data: bytes, width: int = 4) -> bytes:
    """The bytes after their length."""
    return len(data).to_bytes(width, "little") + data


def some_journal(chance: random.Random) -> bytes:
    """A journal of any version, in which something is left to do, or nothing."""
    machine = chance.randbytes(chance.choice([1, 7, 7, 7, MACHINE_MAX]))
    begun = chance.choice([b"BKJ1", b"BKJ2" + with_length(machine)])
    begun += with_length(chance.randbytes(chance.choice([0, 5])))
    course = chance.choice([b"", b"\1", b"\2"])
    if not course:
        return begun
    begun += course + with_length(chance.choice([b"start", b"!", b"~" * IDENTITY_MAX]), 1)
    if course == b"\1":
        begun += with_length(chance.randbytes(chance.choice([0, 5])))
    for name in chance.choices(NAMES, k=chance.choice([0, 1, 1, 3])):
        begun += with_length(name.encode(), 1)
        begun += b"".join(with_length(chance.randbytes(chance.choice([0, 6]))) for _ in "12")
    return begun


def record_fields(data: bytes) -> list[bytes]:
    """The fields of a record, four or more.

    Raises Refused if there are none."""
    if not data.startswith(b"BKH1"):
        raise Refused("RECORD_BAD_MAGIC")
    fields, place = [], 4
    while place < len(data):
        end = place + 4 + int.from_bytes(data[place : place + 4], "little")
        if len(data) < max(place + 4, end):
            raise Refused("RECORD_TRUNCATED", place)
        fields.append(data[place + 4 : end])
        place = end
    if len(fields) < 4:
        raise Refused("RECORD_TOO_FEW_FIELDS")
    if not 1 <= len(fields[0]) <= MACHINE_MAX:
        raise Refused("RECORD_BAD_MACHINE")
    if len(fields[1]) != 8:
        raise Refused("RECORD_BAD_TIME")
    return fields
