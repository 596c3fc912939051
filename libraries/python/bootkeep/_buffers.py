"""What is handed to calls, and what they give: buffers that are as long as an answer."""

from __future__ import annotations

import ctypes
from ctypes import byref, c_size_t, c_uint16, c_uint32, sizeof
from typing import Any, Callable, Optional, Sequence, SupportsBytes, Tuple, Union

from ._faults import failure
from ._library import RawRefusal
from ._numbers import ABSENT, DONE, NO_ROOM

Bytes = Union[bytes, bytearray, memoryview]

#: How many bytes or numbers a first call has room for.
ROOM = 512


class NoVariable(KeyError):
    """What a set without a variable of a name raises: its argument is the name, and its text says what is wrong with it."""

    def __str__(self) -> str:
        return f"there is no variable {self.args[0]}"


def bytes_in(data: Union[Bytes, SupportsBytes]) -> Tuple[bytes, int]:
    """The two arguments of C for these bytes, or for those of a value of this package."""
    if isinstance(data, str):
        raise TypeError("bytes are wanted, not a text")
    if isinstance(data, bytes):
        held = data
    elif isinstance(data, SupportsBytes):
        held = bytes(data)
    else:
        held = bytes(memoryview(data))
    return held, len(held)


def utf8(text: str) -> bytes:
    """The text as bytes, to which a surrogate gives three that aren't UTF-8: the library says so, with their place."""
    if not isinstance(text, str):
        raise TypeError(f"a text is wanted, not {type(text).__name__}")
    return text.encode("utf-8", "surrogatepass")


def bytes_of(
    call: Callable[..., int], room: int = ROOM, refusal: Optional[RawRefusal] = None
) -> bytes:
    """What a call puts into its buffer: a second call is made if the first has no room for it."""
    count = c_size_t()
    while True:
        out = ctypes.create_string_buffer(max(room, 1))
        status = call(out, room, byref(count))
        if status == DONE:
            return ctypes.string_at(out, count.value)
        if status != NO_ROOM:
            raise failure(status, refusal)
        room = count.value


def unless_absent(
    name: str, call: Callable[..., int], refusal: Optional[RawRefusal] = None, room: int = ROOM
) -> bytes:
    """What a call puts into its buffer, unless there is no variable of the name."""

    def found(*out: object) -> int:
        status = call(*out)
        if status == ABSENT:
            raise NoVariable(name)
        return status

    return bytes_of(found, room, refusal)


def items_of(kind: Any, call: Callable[..., int], refusal: Optional[RawRefusal]) -> Sequence[Any]:
    """The structs that a call puts into its buffer, which is told how large one is: a second call is made if the first
    has no room for them."""
    return _in_room(kind, refusal, lambda at, room, count: call(at, room, sizeof(kind), count))


def numbers_of(call: Callable[..., int], refusal: Optional[RawRefusal] = None) -> Tuple[int, ...]:
    """The numbers that a call puts into its buffer."""
    return tuple(_in_room(c_uint16, refusal, call))


def _in_room(kind: Any, refusal: Optional[RawRefusal], call: Callable[..., int]) -> Sequence[Any]:
    """What a call puts into its buffer: a second call is made if the first has no room for it."""
    count, room = c_size_t(), ROOM
    while True:
        items = (kind * max(room, 1))()
        status = call(items, room, byref(count))
        if status == DONE:
            return list(items[: count.value])
        if status != NO_ROOM:
            raise failure(status, refusal)
        room = count.value


def number_of(call: Callable[[Any], Any], refusal: Optional[RawRefusal] = None) -> int:
    """The number that a call tells."""
    number = c_uint32()
    status = call(byref(number))
    if status != DONE:
        raise failure(status, refusal)
    return number.value
