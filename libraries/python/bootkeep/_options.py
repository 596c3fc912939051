"""Load options (UEFI 2.10, 3.1.3)."""

from __future__ import annotations

import struct
from ctypes import byref, c_uint16
from dataclasses import dataclass
from typing import Iterable, Optional, Tuple, Union

from ._buffers import Bytes, bytes_in, bytes_of, utf8
from ._faults import Refused, failure, number_in
from ._library import RawParts, RawRefusal, library
from ._numbers import ATTRIBUTE_CATEGORY_BOOT, DONE, Attributes, Fault
from ._paths import DevicePath, list_of, paths_in
from ._values import Value


@dataclass(frozen=True)
class OptionParts:
    """The parts of a load option (UEFI 2.10, 3.1.3), as :func:`option_parts` reads it."""

    #: All 32 bits as they are stored.
    attributes: int
    #: The description as a text, which :func:`option_make` takes; ``None`` if its units are none, as half of a pair
    #: stands alone. All characters are as they are, also those that a terminal acts on.
    description: Optional[str]
    #: The description as one line of ASCII, for a terminal or a log: units that don't print are shown by their numbers.
    description_line: str
    #: The units of the description, two bytes each, little-endian, without the zero unit that closes it, which
    #: :func:`option_make_units` takes.
    description_bytes: bytes
    #: The device paths of the list, each as its bytes.
    paths: Tuple[bytes, ...]
    #: The optional data.
    optional: bytes

    @property
    def is_active(self) -> bool:
        """Whether the option has LOAD_OPTION_ACTIVE."""
        return bool(self.attributes & Attributes.ACTIVE)

    @property
    def category(self) -> int:
        """The bits of LOAD_OPTION_CATEGORY, where they are in the attributes."""
        return Attributes(self.attributes).category

    @property
    def is_normal(self) -> bool:
        """Whether the boot manager tries the option by itself."""
        return self.is_active and self.category == ATTRIBUTE_CATEGORY_BOOT


def option_parts(data: Bytes) -> OptionParts:
    """The parts of the load option that the bytes are, all of them. ``Refused`` has a kind ``OPTION_..``; ``OPTION_PATH`` has the
    place of the path in the bytes, and the path's fault within."""
    parts, refusal, given = RawParts(), RawRefusal(), bytes_in(data)
    status = library.bootkeep_option_parts(*given, byref(parts), byref(refusal))
    if status != DONE:
        raise failure(status, refusal)
    line = bytes_of(
        lambda *out: library.bootkeep_option_description(*given, *out, byref(refusal)),
        refusal=refusal,
    )
    held = given[0]
    return OptionParts(
        parts.attributes,
        _description(held),
        line.decode("ascii"),
        held[parts.description : parts.description + parts.description_len],
        tuple(map(bytes, paths_in(held[parts.list : parts.list + parts.list_len]))),
        held[parts.optional : parts.optional + parts.optional_len],
    )


def _description(data: bytes) -> Optional[str]:
    """The description of a load option, if it is a text."""
    refusal, given = RawRefusal(), bytes_in(data)
    try:
        text = bytes_of(
            lambda *out: library.bootkeep_option_description_utf8(*given, *out, byref(refusal)),
            refusal=refusal,
        )
    except Refused as why:
        if why.kind == Fault.OPTION_NOT_UTF16:
            return None
        raise
    return text.decode("utf-8")


def option_make(
    attributes: int,
    description: str,
    paths: Iterable[Union[DevicePath, str, Bytes]],
    optional: Bytes = b"",
) -> bytes:
    """The load option of these parts. The description is a text, as :attr:`LoadOption.description`. A path is its text,
    as of :func:`path_parse`, or a :class:`DevicePath`, or its bytes; the place of a fault of bytes is in all of them, one path after the other.
    ``Refused`` has a kind ``OPTION_..``, or ``TEXT_..`` of a path's text; ``OverflowError`` is of attributes with more
    than 32 bits, and ``TypeError`` of one path that isn't in a list."""
    held = list_of(paths)
    refusal = RawRefusal()
    given = (
        number_in(attributes, 32),
        *bytes_in(utf8(description)),
        *bytes_in(held),
        *bytes_in(optional),
    )
    return bytes_of(
        lambda *out: library.bootkeep_option_make(*given, *out, byref(refusal)), refusal=refusal
    )


def option_make_units(
    attributes: int,
    units: Bytes,
    paths: Iterable[Union[DevicePath, str, Bytes]],
    optional: Bytes = b"",
) -> bytes:
    """The same of the units of a description, two bytes each, little-endian, as :attr:`LoadOption.description_bytes`: so
    each option can be made again of its parts, to the byte. ``ValueError`` is of bytes that are odd in number.
    """
    held, count = bytes_in(units)
    if count % 2:
        raise ValueError(f"a unit has two bytes, and these are {count}")
    refusal, numbers = RawRefusal(), struct.unpack(f"<{count // 2}H", held)
    given = (
        number_in(attributes, 32),
        (c_uint16 * max(len(numbers), 1))(*numbers),
        len(numbers),
        *bytes_in(list_of(paths)),
        *bytes_in(optional),
    )
    return bytes_of(
        lambda *out: library.bootkeep_option_make_units(*given, *out, byref(refusal)),
        refusal=refusal,
    )


class LoadOption(Value):
    """A load option (UEFI 2.10, 3.1.3)::

        option = LoadOption("Mine", [DevicePath.from_text("PciRoot(0x0)/Pci(0x1,0x0)")])

    Each load option goes both ways, to the byte: ``bytes(LoadOption.from_bytes(data)) == data``. As a text it is its
    description, as one line of ASCII, and its paths.
    """

    __slots__ = ("_parts",)

    _parts: OptionParts

    def __init__(
        self,
        description: str,
        paths: Iterable[Union[DevicePath, str, Bytes]],
        attributes: int = Attributes.ACTIVE,
        optional: Bytes = b"",
    ) -> None:
        """The load option of these parts. A path may be its text or its bytes too, as of :func:`option_make`, whose faults
        these are."""
        self._fill(option_make(attributes, description, paths, optional))

    @classmethod
    def from_units(
        cls,
        units: Bytes,
        paths: Iterable[Union[DevicePath, str, Bytes]],
        attributes: int = Attributes.ACTIVE,
        optional: Bytes = b"",
    ) -> LoadOption:
        """The same of the units of a description, whether or not they are a text, two bytes each, little-endian, as
        :attr:`description_bytes` has them. Faults as of :func:`option_make_units`."""
        return cls.from_bytes(option_make_units(attributes, units, paths, optional))

    @classmethod
    def from_bytes(cls, data: Bytes) -> LoadOption:
        """The load option that the bytes are, all of them. ``Refused`` as of :func:`option_parts`."""
        option = cls.__new__(cls)
        option._fill(bytes_in(data)[0])
        return option

    def _fill(self, data: bytes) -> None:
        self._set(_data=data, _parts=option_parts(data))

    @property
    def attributes(self) -> Attributes:
        """The attributes, all 32 bits as they are stored."""
        return Attributes(self._parts.attributes)

    @property
    def description(self) -> Optional[str]:
        """The description, all of its characters as they are, also those that a terminal acts on; ``None`` if its units
        are no text, as half of a pair stands alone."""
        return self._parts.description

    @property
    def description_line(self) -> str:
        """The description as one line of ASCII, for a terminal or a log: units that don't print are shown by their
        numbers."""
        return self._parts.description_line

    @property
    def description_bytes(self) -> bytes:
        """The units of the description, two bytes each, little-endian, without the zero unit that closes it."""
        return self._parts.description_bytes

    @property
    def paths(self) -> Tuple[DevicePath, ...]:
        """The device paths, of which there is one at least."""
        return tuple(map(DevicePath.from_bytes, self._parts.paths))

    @property
    def optional(self) -> bytes:
        """The optional data, which the loader is given."""
        return self._parts.optional

    @property
    def is_active(self) -> bool:
        """Whether the option has LOAD_OPTION_ACTIVE."""
        return self._parts.is_active

    @property
    def is_normal(self) -> bool:
        """Whether the boot manager tries the option by itself."""
        return self._parts.is_normal

    def replace(
        self,
        *,
        description: Optional[str] = None,
        paths: Optional[Iterable[Union[DevicePath, str, Bytes]]] = None,
        attributes: Optional[int] = None,
        optional: Optional[Bytes] = None,
    ) -> LoadOption:
        """The option with other parts in the place of those that are given. ``Refused`` as of :func:`option_make`."""
        parts = self._parts
        bits = parts.attributes if attributes is None else attributes
        others = parts.paths if paths is None else paths
        rest = parts.optional if optional is None else optional
        if description is None:
            return self.from_units(parts.description_bytes, others, bits, rest)
        return LoadOption(description, others, bits, rest)

    def __str__(self) -> str:
        return " ".join([self.description_line, *map(str, self.paths)])

    def __repr__(self) -> str:
        return f"LoadOption.from_bytes(bytes.fromhex({self._data.hex()!r}))"
