"""Boot entries: as a machine shows them, and as somebody means them."""

from __future__ import annotations

import re
import struct
from typing import Any, Dict, NamedTuple, Optional, Tuple

import bootkeep

ESCAPE = re.compile(r"\\u([0-9a-fA-F]{4})")

NUMBER = re.compile(r"[0-9a-fA-F]{4}")


class Parts(NamedTuple):
    """What makes a load option (UEFI 2.10, 3.1.3): all that is in its bytes."""

    attributes: int
    description: bytes
    paths: Tuple[bytes, ...]
    optional: bytes

    def option(self) -> bytes:
        """The load option of the parts."""
        paths = b"".join(self.paths)
        header = struct.pack("<IH", self.attributes, len(paths))
        return header + self.description + b"\0\0" + paths + self.optional


class Entry(NamedTuple):
    """An entry as a machine shows it: its number, and its parts, or its bytes if they are no load option."""

    number: int
    parts: Optional[Parts]
    undecodable: bytes = b""

    def data(self) -> bytes:
        """All of its bytes."""
        return self.undecodable if self.parts is None else self.parts.option()


def entry_number(text: object) -> int:
    """The number of an entry, as a machine shows it: four digits. Raises ValueError for anything else."""
    if not isinstance(text, str) or not NUMBER.fullmatch(text):
        raise ValueError(f"{text!r:.40} isn't a number of an entry")
    return int(text, 16)


def units(text: str) -> bytes:
    """The units of a description of JSON, in which `\\u` and four digits are one unit."""
    pieces = ESCAPE.split(text)
    return b"".join(
        int(piece, 16).to_bytes(2, "little") if at % 2 else piece.encode("utf-16-le")
        for at, piece in enumerate(pieces)
    )


def parts_of_option(option: bytes) -> Parts:
    """The parts of a load option. Raises `bootkeep.Refused` for bytes that are none."""
    read = bootkeep.option(option)
    return Parts(read.attributes, read.description_bytes, read.paths, read.optional)


def activated(option: bytes, is_active: bool) -> bytes:
    """A load option, made active or inactive: the lowest bit of its attributes (UEFI 2.10, 3.1.3)."""
    lowest = option[0] & ~bootkeep.ATTRIBUTE_ACTIVE | (
        bootkeep.ATTRIBUTE_ACTIVE if is_active else 0
    )
    return bytes([lowest]) + option[1:]


def entry_of_shown(shown: Dict[str, Any]) -> Entry:
    """An entry of what `bootvars show --json` prints. Raises what is wrong with it otherwise."""
    number = entry_number(shown["entry"])
    if shown["kind"] != "option":
        return Entry(number, None, bytes.fromhex(shown["data"]))
    as_hex = shown["description_hex"]
    parts = Parts(
        int(shown["attributes"]),
        units(shown["description"]) if as_hex is None else bytes.fromhex(as_hex),
        tuple(bootkeep.path_parse_exact(text) for text in shown["paths"]),
        bytes.fromhex(shown["optional"] or ""),
    )
    return Entry(number, parts)


class Wanted(NamedTuple):
    """Which entry somebody means: that of a load option, to the byte; or those with a description, with paths, or with
    both."""

    option: Optional[bytes]
    description: Optional[str] = None
    paths: Tuple[str, ...] = ()

    def whole(self) -> bytes:
        """The load option. Raises ValueError if it is meant by less."""
        if self.option is None:
            raise ValueError(f"{self}: only a whole load option can be added")
        return self.option

    def is_meant(self, entry: Entry) -> bool:
        """Whether an entry is one of these."""
        parts = entry.parts
        if parts is None:
            return False
        if self.option is not None:
            return parts == parts_of_option(self.option)
        described = self.description is None or parts.description == self.description.encode(
            "utf-16-le"
        )
        paths = tuple(bootkeep.path_parse_exact(text) for text in self.paths)
        return described and paths in ((), parts.paths)

    def __str__(self) -> str:
        if self.option is not None:
            return bootkeep.option(self.option).description_line or "without a description"
        return " ".join([self.description or "", *self.paths]).strip()

    def to_json(self) -> Dict[str, Any]:
        option = None if self.option is None else self.option.hex()
        return {"option": option, "description": self.description, "paths": list(self.paths)}

    @classmethod
    def from_json(cls, held: Dict[str, Any]) -> Wanted:
        option = None if held["option"] is None else bytes.fromhex(held["option"])
        return cls(option, held["description"], tuple(held["paths"]))


def entry_name(number: Optional[int]) -> Optional[str]:
    """An entry's number as it is shown."""
    return None if number is None else f"{number:04X}"
