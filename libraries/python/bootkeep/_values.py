"""Values that are their bytes, and the numbers of entries."""

from __future__ import annotations

import re
from typing import Any, NoReturn, Tuple, Type, TypeVar

from ._buffers import Bytes
from ._faults import number_in

V = TypeVar("V", bound="Value")

_NAME, _DIGITS = re.compile("Boot([0-9A-F]{4})"), re.compile("[0-9A-Fa-f]{4}")


class Value:
    """What is its bytes: never changed, and compared and hashed by them."""

    __slots__ = ("_data",)

    _data: bytes

    @classmethod
    def from_bytes(cls: Type[V], data: Bytes) -> V:
        """The value that the bytes are, all of them."""
        raise NotImplementedError

    def __bytes__(self) -> bytes:
        return self._data

    def __eq__(self, other: object) -> bool:
        if not isinstance(other, type(self)):
            return NotImplemented
        return self._data == other._data

    def __hash__(self) -> int:
        return hash((type(self), self._data))

    def __setattr__(self, name: str, value: object) -> NoReturn:
        raise AttributeError(f"{type(self).__name__} is never changed")

    def __delattr__(self, name: str) -> NoReturn:
        raise AttributeError(f"{type(self).__name__} is never changed")

    def __reduce__(self) -> Tuple[Any, ...]:
        return type(self).from_bytes, (self._data,)

    def _set(self, **fields: object) -> None:
        """Sets the fields of a value that is just made."""
        for name, field in fields.items():
            object.__setattr__(self, name, field)


def is_entry_name(name: str) -> bool:
    """Whether it is the name of an entry's variable: ``Boot`` and four digits, in upper case (UEFI 2.10, 3.3)."""
    return _NAME.fullmatch(name) is not None


class EntryNumber(int):
    """The number of an entry, as ``0x0005`` of Boot0005. It is an int; as a text it is its four digits, ``0005``."""

    def __new__(cls, number: int) -> EntryNumber:
        """``OverflowError`` is of a number with more than 16 bits."""
        return super().__new__(cls, number_in(number, 16))

    @classmethod
    def from_text(cls, text: str) -> EntryNumber:
        """The number of four hexadecimal digits, in either case. ``ValueError`` is of any other text."""
        if _DIGITS.fullmatch(text) is None:
            raise ValueError(f"{text!r:.80} isn't the number of an entry, as 0005")
        return cls(int(text, 16))

    @classmethod
    def from_name(cls, name: str) -> EntryNumber:
        """The number in the name of a variable, as ``Boot0005``, whose digits are in upper case (UEFI 2.10, 3.3).
        ``ValueError`` is of any other name."""
        found = _NAME.fullmatch(name)
        if found is None:
            raise ValueError(f"{name!r:.80} isn't the name of an entry, as Boot0005")
        return cls(int(found[1], 16))

    @property
    def name(self) -> str:
        """The name of the entry's variable."""
        return f"Boot{self:04X}"

    def __str__(self) -> str:
        return f"{self:04X}"

    def __repr__(self) -> str:
        return f"EntryNumber(0x{self:04X})"
