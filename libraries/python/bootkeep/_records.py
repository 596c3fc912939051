"""Records of changes of a machine's boot variables, by which the changes can be undone."""

from __future__ import annotations

import ctypes
from ctypes import byref
from dataclasses import dataclass
from typing import Sequence, SupportsBytes, Tuple, Union

from ._buffers import Bytes, bytes_in, bytes_of, number_of, utf8
from ._faults import failure, number_in
from ._library import RawRecordParts, RawRefusal, library
from ._numbers import DONE, Standing


@dataclass(frozen=True)
class RecordParts:
    """The parts of a record."""

    #: What the machine is called.
    machine: bytes
    #: When the change was made, in seconds since 1970-01-01T00:00:00Z.
    time: int
    #: The set of what the machine kept before the change of Boot####, BootOrder, BootNext and Timeout, with attributes.
    before: bytes
    #: The same after the change.
    after: bytes
    #: The words of the command that made it.
    words: Tuple[str, ...]


def record_make(
    machine: Bytes,
    time: int,
    before: Union[Bytes, SupportsBytes],
    after: Union[Bytes, SupportsBytes],
    words: Sequence[str],
) -> bytes:
    """The record of a change of a machine, at a time in seconds since 1970, from what it kept before the change to what it
    keeps after it, as ``MachineState.variables`` has that, by a command of these words, none of which has a zero in it.

    ``Refused`` has the kind ``MACHINE_BAD_NAME``, ``RECORD_BAD_WORD``, ``SET_..`` or ``RECORD_TOO_LONG``.
    """
    if any("\0" in word for word in words):
        raise ValueError("a zero is in a word")
    line = b"".join(utf8(word) + b"\0" for word in words)
    sets = (*bytes_in(before), *bytes_in(after))
    refusal, given = RawRefusal(), (*bytes_in(machine), number_in(time, 64), *sets, *bytes_in(line))
    room = sum(len(part) for part in given if isinstance(part, bytes)) + 16 + 4 * (4 + len(words))
    return bytes_of(
        lambda *out: library.bootkeep_record_make(*given, *out, byref(refusal)), room, refusal
    )


def record_parts(record: Bytes) -> RecordParts:
    """The parts of a record, all the bytes of its file. ``Refused`` has a kind ``RECORD_..``."""
    parts, refusal = RawRecordParts(size=ctypes.sizeof(RawRecordParts)), RawRefusal()
    held, count = bytes_in(record)
    status = library.bootkeep_record_parts(held, count, byref(parts), byref(refusal))
    if status != DONE:
        raise failure(status, refusal)
    return RecordParts(
        held[parts.machine : parts.machine + parts.machine_len],
        parts.time,
        held[parts.before : parts.before + parts.before_len],
        held[parts.after : parts.after + parts.after_len],
        tuple(_word(held, number) for number in range(parts.words)),
    )


def _word(record: bytes, number: int) -> str:
    """A word of the command of a record that has it."""
    refusal, given = RawRefusal(), bytes_in(record)
    word = bytes_of(
        lambda *out: library.bootkeep_record_word(*given, number, *out, byref(refusal)),
        refusal=refusal,
    )
    return word.decode("utf-8")


def record_standing(record: Bytes, variables: Union[Bytes, SupportsBytes]) -> Standing:
    """What the boot manager's variables of a machine, which keeps these as ``MachineState.variables`` has them, are beside a
    record of a change of it. ``Refused`` has a kind ``RECORD_..``, or otherwise ``SET_..``."""
    refusal, given = RawRefusal(), (*bytes_in(record), *bytes_in(variables))
    return Standing(
        number_of(
            lambda out: library.bootkeep_record_standing(*given, out, byref(refusal)), refusal
        )
    )


def record_back(record: Bytes, variables: Union[Bytes, SupportsBytes]) -> bytes:
    """The set that undoes the change of a record, for ``Restore``, where the machine keeps these variables: what was before
    the change, with the Timeout that is there now if the record says nothing of it, and without a BootNext that a start may
    have used. ``Refused`` has a kind ``RECORD_..``, or otherwise ``SET_..``."""
    refusal, given = RawRefusal(), (*bytes_in(record), *bytes_in(variables))
    return bytes_of(
        lambda *out: library.bootkeep_record_back(*given, *out, byref(refusal)), refusal=refusal
    )
