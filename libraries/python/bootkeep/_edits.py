"""Edits of sets, as an administrator asks for them (UEFI 2.10, chapter 3): entries that are added, removed, put first,
made active or not, another BootOrder, BootNext and Timeout."""

from __future__ import annotations

from ctypes import byref, c_size_t, c_uint16, sizeof
from dataclasses import dataclass
from typing import Any, Optional, Sequence, Tuple, Union

from ._buffers import Bytes, bytes_in, bytes_of
from ._faults import number_in
from ._library import RawEdit, RawEdited, RawRefusal, library
from ._numbers import NO_ENTRY, EditedKind, EditKind, Position
from ._options import LoadOption
from ._values import EntryNumber

#: How many bytes an edit adds to a set at most, besides those of an option: a name, a number in BootOrder, lengths.
_MORE = 256


@dataclass(frozen=True)
class Edit:
    """An edit. What its kind doesn't take isn't looked at::

    ADD                                 option, number, position, again
    REMOVE, FIRST, ACTIVATE, DEACTIVATE numbers
    ORDER                               numbers, stale, only
    NEXT, TIMEOUT                       number
    UNREPEAT                            nothing
    """

    #: What is to be done.
    kind: EditKind
    #: The numbers of entries.
    numbers: Sequence[int] = ()
    #: The load option of a new entry, or its bytes.
    option: Union[LoadOption, Bytes] = b""
    #: The number of a new entry or of the next one, or seconds; ``None`` for the lowest free number, or to delete the variable.
    number: Optional[int] = None
    #: Where a new entry comes in BootOrder.
    position: Position = Position.LAST
    #: Whether an entry is added even if one with its description and its paths is there.
    again: bool = False
    #: Whether a number of an order may have no entry.
    stale: bool = False
    #: Whether the numbers are the whole order: if not, those that it had come behind them.
    only: bool = False

    def arguments(self) -> Tuple[Any, ...]:
        """What a call is handed of it. ``OverflowError`` is of a number with more than 16 bits."""
        asked = RawEdit(
            size=sizeof(RawEdit),
            kind=self.kind,
            number=NO_ENTRY if self.number is None else number_in(self.number, 16),
            position=self.position,
            again=self.again,
            stale=self.stale,
            only=self.only,
        )
        listed = [number_in(one, 16) for one in self.numbers]
        numbers = (c_uint16 * max(len(listed), 1))(*listed)
        return byref(asked), numbers, c_size_t(len(listed)), *bytes_in(self.option)


@dataclass(frozen=True)
class Edited:
    """A set after an edit, and what came of that."""

    #: The bytes of the set.
    data: bytes
    #: Whether an entry was added, or was there already.
    kind: EditedKind
    #: The number of that entry, or ``None``.
    entry: Optional[EntryNumber]


def vars_edit(variables: Bytes, edit: Edit) -> Edited:
    """What becomes of a set file, all its bytes, by an edit. ``Refused`` has a kind ``UNEDITED_..``, whose place is the
    number of the entry that it is for, or one of sets or of load options, ``VARS_BAD_ORDER`` or ``VARS_BAD_NEXT``.
    ``OverflowError`` is of a number with more than 16 bits."""
    refusal, edited = RawRefusal(), RawEdited(size=sizeof(RawEdited))
    asked, held = edit.arguments(), bytes_in(variables)
    data = bytes_of(
        lambda *out: library.bootkeep_vars_edit(*asked, *held, *out, byref(edited), byref(refusal)),
        held[1] + asked[-1] + 2 * len(edit.numbers) + _MORE,
        refusal,
    )
    return Edited(data, EditedKind(edited.kind), entry_of(edited.entry))


def entry_of(number: int) -> Optional[EntryNumber]:
    """The number of an entry, unless it stands for none."""
    return None if number == NO_ENTRY else EntryNumber(number)
