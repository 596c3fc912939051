"""Numbered requests: their kinds as classes, their frames, and streams of frames."""

from __future__ import annotations

from ctypes import byref, c_uint16, sizeof
from dataclasses import dataclass
from typing import Any, BinaryIO, ClassVar, Dict, Iterator, Optional, Sequence, Tuple, Type, Union

from ._buffers import Bytes, bytes_in, bytes_of, numbers_of
from ._faults import Refused, number_in
from ._library import RawFrame, RawRefusal, library
from ._numbers import FRAME_MAX, Fault, RequestKind
from ._options import LoadOption
from ._sets import entry_numbers, entry_or_none
from ._values import EntryNumber, Value

#: Which parts a request of each kind has.
_PARTS: Dict[RequestKind, Tuple[str, ...]] = {
    RequestKind.ADD: ("entry", "option"),
    RequestKind.REPLACE: ("entry", "option"),
    RequestKind.REMOVE: ("entry",),
    RequestKind.ORDER: ("order",),
    RequestKind.NEXT: ("entry",),
    RequestKind.ADD_FREE: ("option",),
    RequestKind.ADD_FIRST: ("option",),
    RequestKind.FIRST: ("entry",),
}

#: A frame begins with a header: two bytes that are always these, the version, the kind, the number, and in four bytes
#: how many bytes the payload after it has.
_HEADER, _MAGIC, _VERSIONS = 12, b"\x42\x51", range(1, 4)


def _check_parts(number: int, request: RequestKind, given: Dict[str, object]) -> None:
    """Raises ``TypeError`` unless these are the parts of a request of this kind, which stands behind its number."""
    if not isinstance(request, RequestKind) or isinstance(number, RequestKind):
        raise TypeError(
            "a number and then a RequestKind are wanted, as in frame_make(0, RequestKind.NEXT)"
        )
    for name, part in given.items():
        is_wanted = name in _PARTS[request]
        if is_wanted != (part is not None):
            verb = "needs" if is_wanted else "doesn't take"
            raise TypeError(f"RequestKind.{request.name} {verb} the argument {name}")
    if isinstance(given["order"], (str, bytes, bytearray, memoryview)):
        raise TypeError("order is the numbers of entries, and neither bytes nor a text")


def frame_make(
    number: int,
    request: RequestKind,
    *,
    entry: Optional[int] = None,
    option: Optional[Union[LoadOption, Bytes]] = None,
    order: Optional[Sequence[int]] = None,
) -> bytes:
    """The frame of a request with this number. ``entry`` is the number of an entry, ``option`` a load option or its bytes,
    and ``order`` numbers of entries; which of them a kind of request has, no more and no less::

        ADD, REPLACE          entry and option
        REMOVE, NEXT, FIRST   entry
        ADD_FREE, ADD_FIRST   option
        ORDER                 order, which may be empty: BootOrder is empty then

    ``TypeError`` is of a part that is missing or too much, and of what is no :class:`RequestKind`. ``Refused`` has a kind
    ``OPTION_..``, otherwise ``FRAME_TOO_LONG`` or ``FRAME_BAD_NUMBER``; ``OverflowError`` is of a number with too many
    bits. The classes of requests, as :class:`AddFirst`, have a :meth:`~BootRequest.frame` too, whose parts are those of
    their kinds.
    """
    _check_parts(number, request, {"entry": entry, "option": option, "order": order})
    refusal, listed = RawRefusal(), () if order is None else order
    numbers = (c_uint16 * max(len(listed), 1))(*(number_in(one, 16) for one in listed))
    given = (
        number_in(number, 32),
        request,
        0 if entry is None else number_in(entry, 16),
        *bytes_in(b"" if option is None else option),
        numbers,
        len(listed),
    )
    return bytes_of(
        lambda *out: library.bootkeep_frame_make(*given, *out, byref(refusal)), refusal=refusal
    )


@dataclass(frozen=True)
class FrameParts:
    """The parts of a frame, as :func:`frame_parts` reads it. A request has those that :func:`frame_make` takes for its
    kind, and the others are ``None``."""

    #: The number of the request.
    number: int
    #: What it is to do.
    kind: RequestKind
    #: The number of the entry.
    entry: Optional[EntryNumber]
    #: The bytes of the load option.
    option: Optional[bytes]
    #: The numbers of the order.
    order: Optional[Tuple[EntryNumber, ...]]


def frame_parts(data: Bytes) -> FrameParts:
    """The parts of the frame that the bytes are, all of them. ``Refused`` has a kind ``FRAME_..``, or ``OPTION_..`` of a
    load option that isn't one, with places in the option."""
    parts, refusal, given = RawFrame(size=sizeof(RawFrame)), RawRefusal(), bytes_in(data)
    numbers = numbers_of(
        lambda *out: library.bootkeep_frame_parts(*given, byref(parts), *out, byref(refusal)),
        refusal,
    )
    if parts.kind not in list(RequestKind):
        raise Refused(Fault.FRAME_BAD_KIND)
    kind, option = RequestKind(parts.kind), given[0][parts.option :][: parts.option_len]
    return FrameParts(
        parts.number,
        kind,
        entry_or_none(parts.entry),
        option if "option" in _PARTS[kind] else None,
        entry_numbers(numbers) if "order" in _PARTS[kind] else None,
    )


@dataclass(frozen=True)
class BootRequest:
    """What a frame asks for: one of the classes below."""

    #: The kind of all requests of a class.
    kind: ClassVar[RequestKind]

    def frame(self, number: int) -> bytes:
        """The frame of the request with this number. ``Refused`` has ``FRAME_TOO_LONG`` or ``FRAME_BAD_NUMBER``;
        ``OverflowError`` is of a number with more than 32 bits."""
        return frame_make(number, self.kind, **self.__dict__)


@dataclass(frozen=True)
class _OfEntry(BootRequest):
    """A request about an entry."""

    #: The number of the entry.
    entry: int

    def __post_init__(self) -> None:
        """``OverflowError`` is of a number with more than 16 bits."""
        EntryNumber(self.entry)


@dataclass(frozen=True)
class _OfOption(BootRequest):
    """A request that stores a load option under the lowest free number."""

    #: The load option.
    option: LoadOption


@dataclass(frozen=True)
class _OfBoth(_OfEntry):
    """A request that stores a load option under a number."""

    #: The load option.
    option: LoadOption


class Add(_OfBoth):
    """To store an option under a number that is free, and to append that to BootOrder."""

    kind = RequestKind.ADD


class Replace(_OfBoth):
    """To store an option in the place of an entry."""

    kind = RequestKind.REPLACE


class Remove(_OfEntry):
    """To take out an entry, its number from BootOrder, and a BootNext that names it."""

    kind = RequestKind.REMOVE


@dataclass(frozen=True)
class Order(BootRequest):
    """To set BootOrder, which is empty if there are no numbers. ``OverflowError`` is of a number with more than 16 bits,
    and ``TypeError`` of bytes and a text."""

    kind = RequestKind.ORDER

    #: The numbers, in their order.
    order: Tuple[int, ...]

    def __post_init__(self) -> None:
        if isinstance(self.order, (str, bytes, bytearray, memoryview)):
            raise TypeError("order is the numbers of entries, and neither bytes nor a text")
        object.__setattr__(self, "order", tuple(map(EntryNumber, self.order)))


class Next(_OfEntry):
    """To set BootNext."""

    kind = RequestKind.NEXT


class AddFree(_OfOption):
    """To store an option under the lowest free number, and to append that to BootOrder."""

    kind = RequestKind.ADD_FREE


class AddFirst(_OfOption):
    """To store an option under the lowest free number, and to put that in front of BootOrder."""

    kind = RequestKind.ADD_FIRST


class First(_OfEntry):
    """To put an entry in front of BootOrder."""

    kind = RequestKind.FIRST


_REQUESTS: Tuple[Type[Any], ...] = (Add, Replace, Remove, Order, Next, AddFree, AddFirst, First)


def _request_of(parts: FrameParts) -> BootRequest:
    """The request whose frame has these parts."""
    given: Dict[str, Any] = {name: getattr(parts, name) for name in _PARTS[parts.kind]}
    if parts.option is not None:
        given["option"] = LoadOption.from_bytes(parts.option)
    request: BootRequest = next(it for it in _REQUESTS if it.kind == parts.kind)(**given)
    return request


class Frame(Value):
    """A request with its number, as it is sent::

        frame = Frame.from_bytes(data)
        print(frame.number, frame.request)
        again = Frame(frame.number + 1, frame.request)

    Each frame goes both ways, to the byte: ``bytes(Frame.from_bytes(data)) == data``. Two are the same if their bytes
    are.
    """

    __slots__ = ("_number", "_request")

    _number: int
    _request: BootRequest

    def __init__(self, number: int, request: BootRequest) -> None:
        """The frame of the request with this number. Faults as of :meth:`BootRequest.frame`."""
        self._set(_data=request.frame(number), _number=number, _request=request)

    @classmethod
    def from_bytes(cls, data: Bytes) -> Frame:
        """The frame that the bytes are, all of them. ``Refused`` as of :func:`frame_parts`."""
        held = bytes_in(data)[0]
        parts, frame = frame_parts(held), cls.__new__(cls)
        frame._set(_data=held, _number=parts.number, _request=_request_of(parts))
        return frame

    @property
    def number(self) -> int:
        """The number of the request."""
        return self._number

    @property
    def request(self) -> BootRequest:
        """What it asks for."""
        return self._request

    def __repr__(self) -> str:
        return f"Frame.from_bytes(bytes.fromhex({self._data.hex()!r}))"


def frames(stream: BinaryIO) -> Iterator[bytes]:
    """The frames of a stream, each as soon as it is read, up to the stream's end. Whether each is a request is told by the
    reply to it.

    ``Refused`` has ``STREAM_BAD_MAGIC``, ``STREAM_BAD_VERSION`` or ``STREAM_TOO_LONG`` of a header after which nothing
    more can be cut, and ``STREAM_REST`` if the stream ends in a frame, with how many bytes of that are there as the place.
    """
    while True:
        header = _read(stream, _HEADER)
        if not header:
            return
        count = int.from_bytes(header[8:], "little")
        _check_header(header, count)
        payload = _read(stream, count)
        if len(payload) < count:
            raise Refused(Fault.STREAM_REST, len(header) + len(payload))
        yield header + payload


def _check_header(header: bytes, count: int) -> None:
    """Raises ``Refused`` unless these bytes are the header of a frame with so many bytes of payload."""
    if len(header) < _HEADER:
        raise Refused(Fault.STREAM_REST, len(header))
    if not header.startswith(_MAGIC):
        raise Refused(Fault.STREAM_BAD_MAGIC)
    if header[2] not in _VERSIONS:
        raise Refused(Fault.STREAM_BAD_VERSION)
    if count > FRAME_MAX - _HEADER:
        raise Refused(Fault.STREAM_TOO_LONG)


def _read(stream: BinaryIO, count: int) -> bytes:
    """So many bytes of the stream, or those before its end."""
    read = b""
    while len(read) < count:
        piece = stream.read(count - len(read))
        if not piece:
            break
        read += piece
    return read
