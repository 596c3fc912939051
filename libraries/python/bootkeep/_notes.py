"""Journals: whether something is left to do, and the notes at the start of their files."""

from __future__ import annotations

from ctypes import byref, c_size_t
from typing import Optional

from ._buffers import Bytes, bytes_in, bytes_of, number_of
from ._faults import failure
from ._library import RawRefusal, library
from ._numbers import ABSENT, DONE, IDENTITY_LEN, NOTES_MAX


def journal_is_idle(journal: Bytes) -> bool:
    """Whether a journal, the bytes of its file after its notes, tells of nothing that is left to do; so it is without such
    a file, of no bytes. ``Refused`` has a kind ``JOURNAL_..``."""
    refusal, given = RawRefusal(), bytes_in(journal)
    idle = number_of(
        lambda out: library.bootkeep_journal_is_idle(*given, out, byref(refusal)), refusal
    )
    return idle != 0


def notes_len(notes: Bytes) -> int:
    """How many bytes of notes a journal's file begins with: 0 if it has none. ``Refused`` has a kind ``NOTES_..``."""
    taken, refusal = c_size_t(), RawRefusal()
    status = library.bootkeep_notes_len(*bytes_in(notes), byref(taken), byref(refusal))
    if status != DONE:
        raise failure(status, refusal)
    return taken.value


def notes_make(identity: Bytes) -> bytes:
    """Notes with this identity, 16 bytes that were drawn at random, of which no frame was applied as yet. ``Refused`` has
    the kind ``NOTES_BAD_IDENTITY``."""
    refusal, given = RawRefusal(), bytes_in(identity)
    return bytes_of(
        lambda *out: library.bootkeep_notes_make(*given, *out, byref(refusal)), NOTES_MAX, refusal
    )


def notes_identity(notes: Bytes) -> Optional[bytes]:
    """The identity in the notes that these bytes begin with, or ``None`` if they don't. ``Refused`` has a kind
    ``NOTES_..``."""
    refusal, given = RawRefusal(), bytes_in(notes)
    absent = False

    def found(*out: object) -> int:
        nonlocal absent
        status: int = library.bootkeep_notes_identity(*given, *out, byref(refusal))
        absent = status == ABSENT
        return DONE if absent else status

    identity = bytes_of(found, IDENTITY_LEN, refusal)
    return None if absent else identity
