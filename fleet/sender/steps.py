"""Steps: what a machine shows, what was asked of it for a goal so far, and what is to be done next."""

from __future__ import annotations

from typing import NamedTuple, Optional, Tuple, Union

from bootkeep import Request

from .entries import Entry, entry_name

MOST_TRIES = 3
"""How often the same request is made for one goal."""


class Asked(NamedTuple):
    """A request without its number: what it is to do with which entry, and what came of it if that is known."""

    kind: int
    entry: Optional[int] = None
    outcome: Optional[str] = None
    stored: Optional[int] = None
    part: int = 0
    """Which one of a `send` it is, from 0 on."""
    data: Optional[str] = None
    """Of a `try`: the SHA-256 of the entry's data."""
    start: Optional[str] = None
    """Of a `try`: in which start the machine was when the request was made, as long as the trial isn't over."""


class Past(NamedTuple):
    """The requests for a goal that were answered."""

    asked: Tuple[Asked, ...] = ()
    came_up_by: Optional[int] = None
    """The entry of a trial, once a look showed that the machine came up by it."""

    def stored(self) -> Optional[int]:
        """The entry under which one of them stored the goal's option."""
        return next((it.stored for it in self.asked if it.stored is not None), None)

    def tries(self, kind: int, entry: Optional[int]) -> int:
        return sum((it.kind, it.entry) == (kind, entry) for it in self.asked)

    def done(self, kind: int) -> Optional[Asked]:
        """The last one of a kind that was done."""
        found = [it for it in self.asked if it.kind == kind and it.outcome == "Done"]
        return found[-1] if found else None


class Start(NamedTuple):
    """What a machine tells of its start: which one it is, and by which entry it came up, if these are known; and whether
    its boot is complete, if its agent tells that."""

    identity: Optional[str]
    current: Optional[int]
    is_complete: Optional[bool]


class Shown(NamedTuple):
    """What a machine shows of its boot entries, and of its start if its `bootvars` tells that."""

    entries: Tuple[Entry, ...]
    order: Tuple[int, ...]
    next: Optional[int]
    start: Optional[Start] = None


class Reached(NamedTuple):
    """The machine is as it is to be."""

    entry: Optional[int] = None


class Failed(NamedTuple):
    """The goal can't be reached."""

    why: str


class Ask(NamedTuple):
    """One request brings the machine nearer, with this option if it takes one."""

    asked: Asked
    option: bytes = b""


class AskAll(NamedTuple):
    """Requests bring the machine nearer that are applied together or not at all. In a trial they may be made since the
    machine came up by an entry, which is kept in mind."""

    asks: Tuple[Ask, ...]
    came_up_by: Optional[int] = None


class Send(NamedTuple):
    """These of the goal's frames are to be sent as they are, but for their numbers."""

    parts: Tuple[int, ...]


class Wait(NamedTuple):
    """Nothing is to be done before something happens at the machine, which is looked at after so many seconds at most."""

    until: str
    seconds: float


Step = Union[Reached, Failed, Ask, AskAll, Send, Wait]


def request_words(asked: Asked) -> str:
    """A request for a person, in the words of `bootvars frame`."""
    kind = Request(asked.kind).name.lower().replace("_", "-")
    return kind if asked.entry is None else f"{kind} {entry_name(asked.entry)}"
