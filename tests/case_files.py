"""Files of cases: what they state. tests/cases/FORMAT.md has their form."""

from __future__ import annotations

import json
from pathlib import Path
from typing import Any, Dict, Iterator, List, NamedTuple

Stated = Any
"""What a member of a case is: text, digits or numbers, as JSON has them."""


class Case(NamedTuple):
    """A case of a file."""

    call: str
    """The call that it is of."""
    number: int
    """Its place among the cases of the call, from 1."""
    members: Dict[str, Stated]
    """What it states, with what all cases of its group do."""

    @property
    def name(self) -> str:
        """What it is told by."""
        title = self.members.get("name")
        return f"{self.call} {self.number}" + (f" ({title})" if title else "")

    @property
    def is_slow(self) -> bool:
        """Whether it takes many seconds."""
        return "slow" in self.members

    @property
    def is_of_program(self) -> bool:
        """Whether the program alone runs it: what makes calls takes minutes for it, or has files without rights."""
        members = self.members
        return members.get("slow") == "program" or "modes" in members or "owners" in members

    @property
    def gives_files_away(self) -> bool:
        """Whether it has files of other users, or of groups."""
        return "owners" in self.members


def read_cases(file: Path) -> List[Case]:
    """The cases of a file, in their order."""
    groups = json.loads(file.read_text(encoding="utf-8"))
    return [case for group in groups for case in _cases_of_group(group)]


def _cases_of_group(group: Dict[str, Stated]) -> Iterator[Case]:
    shared = {name: it for name, it in group.items() if name not in ("call", "cases")}
    for number, case in enumerate(group["cases"], 1):
        members = {**shared, **case}
        for name, stated in shared.items():
            if isinstance(stated, dict) and isinstance(case.get(name), dict):
                members[name] = {**stated, **case[name]}
        yield Case(group["call"], number, members)


def text_of(stated: Stated) -> str:
    """A text: a string, or a list of pieces one after the other."""
    pieces = stated if isinstance(stated, list) else [stated]
    return "".join(_text_of_piece(piece) for piece in pieces)


def bytes_of(stated: Stated) -> bytes:
    """The bytes whose hexadecimal digits are stated."""
    return bytes.fromhex(text_of(stated))


def image_of(image: Stated, stated: Dict[str, Stated]) -> bytes:
    """The bytes of an image, of which a case states other bytes at offsets, and how many there are."""
    changed = bytearray(bytes_of(image))
    for place, digits in stated.get("changes", {}).items():
        other, start = bytes_of(digits), int(place, 16)
        changed[start : start + len(other)] = other
    length = stated.get("len", len(changed))
    return bytes(changed[:length]).ljust(length, b"\0")


def _text_of_piece(piece: Stated) -> str:
    if isinstance(piece, str):
        return piece
    if "numbers" in piece:
        first, last = piece["numbers"]
        return "".join(number.to_bytes(2, "little").hex() for number in range(first, last + 1))
    if "for" in piece:
        first, last = piece["for"]
        return "".join(_counted(piece["of"], number) for number in range(first, last + 1))
    return str(piece["of"]) * int(piece["times"])


def _counted(pattern: str, number: int) -> str:
    """The pattern with the number in the place of its mark."""
    front, _, marked = pattern.partition("{")
    mark, _, behind = marked.partition("}")
    shown = {
        "n": str(number),
        "n:04X": f"{number:04X}",
        "n:le32": number.to_bytes(4, "little").hex(),
    }
    return front + shown[mark] + behind
