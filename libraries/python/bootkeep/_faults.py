"""What the calls raise, and the words of their numbers."""

from __future__ import annotations

import ctypes
import operator
from ctypes import byref, c_size_t
from typing import Any, Callable, Optional, Tuple

from ._library import RawRefusal, library
from ._numbers import CLOSED, DONE, NO_KIND, NO_MEMORY, NO_PLACE, REFUSED, WORD_MAX, Fault


def _word(call: Callable[..., int], number: int) -> Optional[str]:
    """The word that a call has for a number."""
    out, count = ctypes.create_string_buffer(WORD_MAX), c_size_t()
    status = call(number_in(number, 32), out, WORD_MAX, byref(count))
    return ctypes.string_at(out, count.value).decode("ascii") if status == DONE else None


def status_word(status: int) -> Optional[str]:
    """The word for a status of the header, as ``NoRoom``; ``None`` if none has this number."""
    return _word(library.bootkeep_status_word, status)


def refusal_word(kind: int) -> Optional[str]:
    """The word for the number of a fault, as ``PathNoEnd``; ``None`` if none has this number."""
    return _word(library.bootkeep_refusal_word, kind)


def outcome_word(outcome: int) -> Optional[str]:
    """The word for an outcome, as the line of a reply has it; ``None`` if none has this number."""
    return _word(library.bootkeep_outcome_word, outcome)


def fault_word(kind: int, family: str = "") -> str:
    """The word of a fault, without that of its family."""
    word = refusal_word(kind) or f"{kind:#06x}"
    return word[len(family) :] if word.startswith(family) else word


def number_in(number: int, bits: int) -> int:
    """The number, if it is one of so many bits: C would drop the others."""
    number = operator.index(number)
    if not 0 <= number < 1 << bits:
        raise OverflowError(f"{number} isn't a number of {bits} bits")
    return number


class Error(Exception):
    """What the calls of this module raise beside Python's own exceptions."""


class Closed(Error):
    """The keeper, or the command over a machine, isn't open."""

    def __init__(self) -> None:
        super().__init__("it is closed")

    def __reduce__(self) -> Tuple[Any, ...]:
        return type(self), ()


class BytesLeft(Error, ValueError):
    """Bytes come after a device path that has to be all of them: ``count``, at ``place``."""

    def __init__(self, place: int, count: int) -> None:
        self.place, self.count = place, count
        super().__init__(f"bytes come after the path: {count} at {place}")

    def __reduce__(self) -> Tuple[Any, ...]:
        return type(self), (self.place, self.count)


class Refused(Error, ValueError):
    """What was handed in isn't what it has to be.

    ``kind`` is the fault, and ``place`` is where it is, or ``None``.
    ``inner_kind`` and ``inner_place`` are those of the fault within, if there is one. Places count bytes, also in a
    text, whose bytes are those of its UTF-8.
    """

    def __init__(
        self,
        kind: int,
        place: Optional[int] = None,
        inner_kind: Optional[int] = None,
        inner_place: Optional[int] = None,
    ) -> None:
        self.kind = Fault(kind)
        self.place = place
        self.inner_kind = None if inner_kind is None else Fault(inner_kind)
        self.inner_place = inner_place
        words = _words(self.kind, place)
        if self.inner_kind is not None:
            words += f": {_words(self.inner_kind, inner_place)}"
        super().__init__(words)

    def __reduce__(self) -> Tuple[Any, ...]:
        return type(self), (self.kind, self.place, self.inner_kind, self.inner_place)

    def __eq__(self, other: object) -> bool:
        if not isinstance(other, Refused):
            return NotImplemented
        return self.__reduce__() == other.__reduce__()

    def __hash__(self) -> int:
        return hash(self.__reduce__())


def _words(kind: Fault, place: Optional[int]) -> str:
    name = kind.name if kind.is_known else fault_word(kind)
    return name if place is None else f"{name} at {place}"


def refused(told: RawRefusal) -> Refused:
    """The exception of a refusal."""
    return Refused(
        told.kind,
        None if told.place == NO_PLACE else told.place,
        None if told.inner_kind == NO_KIND else told.inner_kind,
        None if told.inner_place == NO_PLACE else told.inner_place,
    )


def failure(status: int, refusal: Optional[RawRefusal] = None) -> Exception:
    """The exception of a status that isn't done."""
    if status == REFUSED and refusal is not None:
        return refused(refusal)
    if status == NO_MEMORY:
        return MemoryError("libbootkeep is out of memory")
    if status == CLOSED:
        return Closed()
    return Error(
        f"libbootkeep answers {status_word(status) or status}, which this module doesn't know"
    )
