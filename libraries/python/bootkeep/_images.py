"""Files that firmware starts, and the signature lists by which Secure Boot tells of them."""

from __future__ import annotations

from ctypes import byref, c_uint32
from dataclasses import dataclass
from typing import Optional, Tuple

from ._buffers import Bytes, bytes_in, bytes_of, items_of
from ._faults import failure, refused
from ._library import RawList, RawRefusal, library
from ._numbers import DONE, REFUSED, Effect, Fault, Stage


@dataclass(frozen=True)
class ImageFault:
    """The first thing that isn't in an image as firmware wants it."""

    #: The fault: ``IMAGE_..``.
    kind: Fault
    #: Where it is: the offset of the field that has it, or of a section's header.
    place: int
    #: Which part of firmware finds it.
    stage: Stage
    #: What comes of it.
    effect: Effect


def image_check(image: Bytes) -> Optional[ImageFault]:
    """What firmware for x86-64 asks of a file that an entry names, all its bytes: the first fault, or ``None`` if there
    is none. Then the file may still be refused, as by Secure Boot."""
    stage, effect, refusal = c_uint32(), c_uint32(), RawRefusal()
    status = library.bootkeep_image_check(
        *bytes_in(image), byref(stage), byref(effect), byref(refusal)
    )
    if status == DONE:
        return None
    if status != REFUSED:
        raise failure(status, refusal)
    kind = refused(refusal).kind
    return ImageFault(kind, refusal.place, Stage(stage.value), Effect(effect.value))


def image_digest(image: Bytes) -> bytes:
    """The Authenticode digest of an image by SHA-256, by which a signature, db and dbx tell of it. ``Refused`` has a kind
    ``IMAGE_..``."""
    refusal, given = RawRefusal(), bytes_in(image)
    return bytes_of(
        lambda *out: library.bootkeep_image_digest(*given, *out, byref(refusal)), 32, refusal
    )


@dataclass(frozen=True)
class SignatureList:
    """A list of db, dbx or KEK (UEFI 2.10, 32.4.1)."""

    #: Where it begins in the data.
    place: int
    #: The GUID of its type, as it is stored.
    kind: bytes
    #: Its header, which no type of the standard has.
    header: bytes
    #: Its signatures, each of the GUID of its owner, in 16 bytes, and its data.
    signatures: Tuple[bytes, ...]


def signature_lists(data: Bytes) -> Tuple[SignatureList, ...]:
    """The lists that the data of db, dbx or KEK is, in their order. ``Refused`` has a kind ``LISTS_..``, and the place of
    the list with the fault."""
    refusal, given = RawRefusal(), bytes_in(data)
    lists = items_of(
        RawList,
        lambda *out: library.bootkeep_signature_lists(*given, *out, byref(refusal)),
        refusal,
    )
    return tuple(_list_at(given[0], places) for places in lists)


def _list_at(held: bytes, places: RawList) -> SignatureList:
    """The list at these places."""
    start = places.place + 28
    first, end = start + places.header_len, places.place + places.len
    size = places.signature_len
    return SignatureList(
        places.place,
        held[places.place : places.place + 16],
        held[start:first],
        tuple(held[at : at + size] for at in range(first, end, size)),
    )
