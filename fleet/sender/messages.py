"""Messages to machines: frames, and what a machine has to be like for them to be applied.

A message begins with a line of text, `bootfleet 2 WORD ..`, and goes on with frames, none for a look. The words are
those of `bootvars update --expect`, which changes nothing unless each of them is so: each message guards itself, however
late it comes, and however often. The word `look=..` has no meaning: by it no two looks are one message.

What is expected is what the machine showed when the requests were made of it: its journal, its next number, the bytes of
each entry that a frame names, and BootOrder where a frame sets it or puts something into it, or it matters otherwise.
"""

from __future__ import annotations

import hashlib
import secrets
from dataclasses import dataclass, field
from typing import NamedTuple, Optional, Sequence, Set, Tuple

import bootkeep
from bootkeep import Request

from .answers import Answer, digest
from .entries import entry_name

FIRST = b"bootfleet 2"
"""How the line of a message begins."""

MOST_LINE = 1 << 17
"""How many bytes the line may have: Linux hands a program no longer word."""

CHANGES_ORDER = (
    Request.ADD,
    Request.ORDER,
    Request.ADD_FREE,
    Request.ADD_FIRST,
    Request.FIRST,
)
"""The requests that set BootOrder or put something into it."""


class Stored(NamedTuple):
    """A request as the ledger has it: of those that were stored under its number, the one of this attempt."""

    number: int
    attempt: int
    frame: bytes


@dataclass(frozen=True)
class Message:
    """What is sent to a machine: which requests are in it, and whether it only asks what became of them."""

    words: Tuple[str, ...]
    requests: Tuple[Stored, ...] = ()
    is_question: bool = False
    payload: bytes = field(init=False)
    asked: str = field(init=False)

    def __post_init__(self) -> None:
        line = b" ".join([FIRST, *(word.encode() for word in self.words)])
        payload = b"".join([line, b"\n", *(it.frame for it in self.requests)])
        object.__setattr__(self, "payload", payload)
        object.__setattr__(self, "asked", digest(payload))

    def is_too_long(self) -> bool:
        """Whether its line is longer than an agent takes it."""
        return sum(len(word) + 1 for word in self.words) + len(FIRST) >= MOST_LINE


def look() -> Message:
    """A message that asks a machine what it is like."""
    return Message((f"look={secrets.token_hex(8)}",))


def request(answer: Answer, requests: Sequence[Stored], is_order_expected: bool = False) -> Message:
    """A message of requests that were made of what a machine has just shown."""
    frames = [it.frame for it in requests]
    words = [_journal(answer), f"next={answer.next}"]
    words += [_entry(answer, number) for number in sorted(entries_of(frames))]
    kinds = (bootkeep.frame_parts(frame).kind for frame in frames)
    if is_order_expected or any(kind in CHANGES_ORDER for kind in kinds):
        words.append(_order(answer))
    return Message(tuple(words), tuple(requests))


def question(answer: Answer, requests: Sequence[Stored]) -> Message:
    """A message that asks what became of requests whose numbers have been used: they change nothing any more."""
    return Message((_journal(answer), f"next={answer.next}"), tuple(requests), True)


def found(word: str, answer: Answer) -> Optional[str]:
    """What a machine shows of what a word expects, as the word that expects that."""
    name = word.partition("=")[0]
    if name == "journal":
        return _journal(answer)
    if name == "next":
        return f"next={answer.next}"
    return _order(answer) if name == "order" else _entry(answer, int(name, 16))


def entries_of(frames: Sequence[bytes]) -> Set[int]:
    """The entries that frames name."""
    named: Set[int] = set()
    for frame in frames:
        parts = bootkeep.frame_parts(frame)
        named.update(parts.order or ())
        if parts.entry is not None:
            named.add(parts.entry)
    return named


def renumbered(frame: bytes, number: int) -> bytes:
    """A frame with another number."""
    return bootkeep.Frame.from_bytes(frame).request.frame(number)


def _journal(answer: Answer) -> str:
    return f"journal={answer.journal or 'none'}"


def _entry(answer: Answer, number: int) -> str:
    there = next((it for it in answer.shown.entries if it.number == number), None)
    value = "none" if there is None else hashlib.sha256(there.data()).hexdigest()
    return f"{entry_name(number)}={value}"


def _order(answer: Answer) -> str:
    return f"order={','.join(f'{number:04X}' for number in answer.shown.order) or 'none'}"
