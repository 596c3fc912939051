"""A file that an entry names, and what db and dbx have because of it."""

from __future__ import annotations

from dataclasses import dataclass
from typing import Iterable, Iterator, List, Optional


@dataclass(frozen=True)
class Sample:
    """A file of the EFI system partition."""

    name: str
    """What is with it, for a person."""
    data: Optional[bytes]
    """Its bytes, if there is such a file."""
    is_folder: bool = False
    db: bytes = b""
    """The signature lists that db has besides."""
    dbx: bytes = b""
    """Those that dbx has besides."""


@dataclass(frozen=True)
class Lists:
    """What db and dbx have."""

    db: bytes
    dbx: bytes


def lists_of(samples: Iterable[Sample], own: Lists) -> Lists:
    """The lists of a machine's own, and those of these files, each of them once."""
    held = list(samples)
    return Lists(
        b"".join([own.db, *once(it.db for it in held)]),
        b"".join([own.dbx, *once(it.dbx for it in held)]),
    )


def once(lists: Iterable[bytes]) -> List[bytes]:
    """Those that aren't empty, without what was there before."""
    return [it for it in dict.fromkeys(lists) if it]


def parts(samples: List[Sample], size: int) -> Iterator[List[Sample]]:
    """As many at once as fit a start."""
    for place in range(0, len(samples), size):
        yield samples[place : place + size]
