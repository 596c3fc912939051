"""Sets of variables: the bytes of a set file, all of them.

Each call raises ``Refused`` for bytes that are no set, with a kind ``SET_..`` and the place of the record with the
fault.
"""

from __future__ import annotations

from ctypes import byref, c_size_t, c_uint32
from dataclasses import dataclass
from typing import Dict, Iterator, Mapping, Optional, Sequence, Tuple, Union

from ._buffers import (
    Bytes,
    NoVariable,
    bytes_in,
    bytes_of,
    unless_absent,
    items_of,
    number_of,
    numbers_of,
    utf8,
)
from ._edits import Edit, vars_edit
from ._faults import Refused, number_in
from ._library import RawChange, RawNamed, RawRefusal, RawVariable, library
from ._numbers import (
    NO_ENTRY,
    VARIABLE_NEXT,
    VARIABLE_ORDER,
    VARIABLE_TIMEOUT,
    ChangeKind,
    EditedKind,
    EditKind,
    EntryState,
    Position,
)
from ._options import LoadOption
from ._values import EntryNumber, Value, is_entry_name

#: The bytes of a set without a variable.
EMPTY = b"BVS1"


@dataclass(frozen=True)
class Plan:
    """What a boot would try (UEFI 2.10, 3.3)."""

    #: The number of BootNext's entry, which is tried first, or ``None``.
    next: Optional[EntryNumber]
    #: The numbers of the normal entries of BootOrder, in its order.
    normal: Tuple[EntryNumber, ...]

    @property
    def tried(self) -> Tuple[EntryNumber, ...]:
        """All of these numbers, in the order in which a boot tries them."""
        return self.normal if self.next is None else (self.next, *self.normal)

    def __str__(self) -> str:
        first = "-" if self.next is None else str(self.next)
        return f"plan next {first} normal {' '.join(map(str, self.normal)) or '-'}"


def entry_numbers(numbers: Tuple[int, ...]) -> Tuple[EntryNumber, ...]:
    """These numbers as those of entries."""
    return tuple(map(EntryNumber, numbers))


def entry_or_none(number: int) -> Optional[EntryNumber]:
    """The number of an entry, unless it stands for none."""
    return None if number == NO_ENTRY else EntryNumber(number)


def vars_plan(variables: Bytes) -> Plan:
    """What a boot would try with the variables of a set file, all its bytes (UEFI 2.10, 3.3). ``Refused`` may also have
    ``VARS_BAD_ORDER`` or ``VARS_BAD_NEXT``."""
    first, refusal, given = c_uint32(), RawRefusal(), bytes_in(variables)
    normal = numbers_of(
        lambda *out: library.bootkeep_vars_plan(*given, *out, byref(first), byref(refusal)), refusal
    )
    return Plan(entry_or_none(first.value), entry_numbers(normal))


@dataclass(frozen=True)
class AtRisk:
    """The entries that a start of firmware may write over or delete, by their numbers, which rise."""

    #: Those that neither BootOrder nor BootNext names: firmware may write over them.
    unnamed: Tuple[EntryNumber, ...]
    #: Those of BootOrder that are no load option: firmware may delete them.
    undecodable: Tuple[EntryNumber, ...]


def vars_at_risk(variables: Bytes) -> AtRisk:
    """The entries of a set file, all its bytes, that a start of firmware may write over or delete. ``Refused`` as of
    :func:`vars_plan`."""
    unnamed, refusal, given = c_size_t(), RawRefusal(), bytes_in(variables)
    numbers = entry_numbers(
        numbers_of(
            lambda *out: library.bootkeep_vars_at_risk(
                *given, *out, byref(unnamed), byref(refusal)
            ),
            refusal,
        )
    )
    return AtRisk(numbers[: unnamed.value], numbers[unnamed.value :])


def vars_get(variables: Bytes, name: str) -> bytes:
    """The data of the variable of this name; ``KeyError`` if the set has none."""
    refusal, given = RawRefusal(), (*bytes_in(variables), *bytes_in(utf8(name)))
    return unless_absent(
        name, lambda *out: library.bootkeep_vars_get(*given, *out, byref(refusal)), refusal
    )


def vars_put(variables: Bytes, name: str, data: Bytes) -> bytes:
    """The set with this data for the variable of this name, in the place of what it had, if it had any. ``Refused`` may
    also have a kind ``PUT_..``."""
    refusal, given = RawRefusal(), (*bytes_in(variables), *bytes_in(utf8(name)), *bytes_in(data))
    return bytes_of(
        lambda *out: library.bootkeep_vars_put(*given, *out, byref(refusal)),
        len(variables) + len(data) + 69,
        refusal,
    )


def vars_remove(variables: Bytes, name: str) -> bytes:
    """The set without the variable of this name; ``KeyError`` if it has none."""
    refusal, given = RawRefusal(), (*bytes_in(variables), *bytes_in(utf8(name)))
    return unless_absent(
        name,
        lambda *out: library.bootkeep_vars_remove(*given, *out, byref(refusal)),
        refusal,
        len(variables),
    )


def vars_list(variables: Bytes) -> Dict[str, bytes]:
    """The data of each variable of a set file, all its bytes, by their names, in the order of these."""
    refusal, given = RawRefusal(), bytes_in(variables)
    places = items_of(
        RawVariable,
        lambda *out: library.bootkeep_vars_list(*given, *out, byref(refusal)),
        refusal,
    )
    held = given[0]
    return {
        held[place.name : place.name + place.name_len].decode("ascii"): held[
            place.data : place.data + place.data_len
        ]
        for place in places
    }


def vars_lowest_free(variables: Bytes) -> Optional[EntryNumber]:
    """The lowest number under which a set file, all its bytes, has no entry; ``None`` if all are taken."""
    refusal = RawRefusal()
    given = bytes_in(variables)
    number = number_of(
        lambda out: library.bootkeep_vars_lowest_free(*given, out, byref(refusal)), refusal
    )
    return entry_or_none(number)


def vars_entry(variables: Bytes, number: int) -> EntryState:
    """What a boot makes of an entry that BootOrder names: why its number isn't in the plan, or that it is. That of BootNext
    isn't if it is absent or undecodable."""
    refusal, given = RawRefusal(), (*bytes_in(variables), number_in(number, 16))
    return EntryState(
        number_of(lambda out: library.bootkeep_vars_entry(*given, out, byref(refusal)), refusal),
    )


@dataclass(frozen=True)
class NamedEntry:
    """A number that BootNext or BootOrder names, and what a boot makes of its entry."""

    #: ``BootNext`` or ``BootOrder``.
    variable: str
    #: The number.
    number: EntryNumber
    #: What a boot makes of the entry.
    state: EntryState


def vars_named(variables: Bytes) -> Tuple[NamedEntry, ...]:
    """What BootNext and then BootOrder of a set file, all its bytes, name, in the order in which a boot looks at it.
    ``Refused`` as of :func:`vars_plan`."""
    refusal, given = RawRefusal(), bytes_in(variables)
    named = items_of(
        RawNamed, lambda *out: library.bootkeep_vars_named(*given, *out, byref(refusal)), refusal
    )
    return tuple(
        NamedEntry(_variable_name(one.variable), EntryNumber(one.number), EntryState(one.state))
        for one in named
    )


@dataclass(frozen=True)
class Change:
    """A change of one variable of the boot manager."""

    #: The name of the variable: ``Boot####``, ``BootOrder`` or ``BootNext``. Of another variable, which a later library
    #: may tell, it is a text that is the name of none: ``variable 0x00010003``.
    name: str
    #: What becomes of it.
    kind: ChangeKind
    #: Its data before, or ``None`` if there was no such variable.
    before: Optional[bytes] = None
    #: Its data after, or ``None`` if there is no such variable then.
    after: Optional[bytes] = None


def vars_changes(before: Bytes, after: Bytes) -> Tuple[Change, ...]:
    """The changes that lead from one set file to the boot manager's variables of another, all bytes of each, in an
    order in which a machine can make them. ``Refused`` has the fault of the first, otherwise that of the second.
    """
    refusal, given = RawRefusal(), (*bytes_in(before), *bytes_in(after))
    changes = items_of(
        RawChange, lambda *out: library.bootkeep_vars_changes(*given, *out, byref(refusal)), refusal
    )
    old, new = vars_list(before), vars_list(after)
    names = ((_variable_name(change.variable), ChangeKind(change.kind)) for change in changes)
    return tuple(Change(name, kind, old.get(name), new.get(name)) for name, kind in names)


def _variable_name(number: int) -> str:
    """The name of the variable for which a number stands. What this module doesn't know isn't an entry."""
    if number < NO_ENTRY:
        return f"Boot{number:04X}"
    names = {VARIABLE_ORDER: "BootOrder", VARIABLE_NEXT: "BootNext", VARIABLE_TIMEOUT: "Timeout"}
    return names.get(number, f"variable {number:#010x}")


@dataclass(frozen=True)
class Entry:
    """An entry of a set: a variable Boot####."""

    #: Its number.
    number: EntryNumber
    #: Its data.
    data: bytes
    #: What a boot makes of it if BootOrder names it.
    state: EntryState
    #: The load option that its data is, or ``None``.
    option: Optional[LoadOption]
    #: Why its data is no load option, or ``None``.
    fault: Optional[Refused]
    #: Its first place in BootOrder, from 0, or ``None`` if that doesn't name it.
    order_place: Optional[int]
    #: Whether BootNext names it.
    is_next: bool

    @property
    def is_in_order(self) -> bool:
        """Whether BootOrder names it."""
        return self.order_place is not None

    def __str__(self) -> str:
        state = self.state.name.lower().replace("_", " ")
        return f"{self.number.name} {state} {self.fault or self.option}"


@dataclass(frozen=True)
class WithEntry:
    """A set with an entry that was asked for."""

    #: The set.
    variables: BootVariables
    #: The number of the entry.
    entry: EntryNumber
    #: Whether it was added: otherwise it was there already, and the set is as it was.
    is_new: bool


class BootVariables(Value, Mapping[str, bytes]):
    """A set of variables, by their names, as a set file has it::

        variables = BootVariables.from_bytes(Path("set").read_bytes())
        for entry in variables.entries:
            print(entry)

    It is a mapping from names to data, in the order of the names, and equals another set alone, and no ``dict``. Each
    set goes both ways, to the byte: ``bytes(BootVariables.from_bytes(data)) == data``.
    """

    __slots__ = ("_by_name",)

    _by_name: Dict[str, bytes]

    def __init__(self, variables: Optional[Mapping[str, Union[LoadOption, Bytes]]] = None) -> None:
        """The set of these variables, in any order, or one without any. ``Refused`` has a kind ``PUT_..``."""
        data = EMPTY
        for name, held in (variables or {}).items():
            data = vars_put(data, name, bytes_in(held)[0])
        self._fill(data)

    @classmethod
    def from_bytes(cls, data: Bytes) -> BootVariables:
        """The set that the bytes are, all of them. ``Refused`` has a kind ``SET_..`` and the place of the record with the
        fault."""
        variables = cls.__new__(cls)
        variables._fill(bytes_in(data)[0])
        return variables

    def _fill(self, data: bytes) -> None:
        self._set(_data=data, _by_name=vars_list(data))

    def __getitem__(self, name: str) -> bytes:
        try:
            return self._by_name[name]
        except KeyError:
            raise NoVariable(name) from None

    def __iter__(self) -> Iterator[str]:
        return iter(self._by_name)

    def __len__(self) -> int:
        return len(self._by_name)

    def __repr__(self) -> str:
        return f"BootVariables({self._by_name!r})"

    @property
    def plan(self) -> Plan:
        """What a boot would try. ``Refused`` has ``VARS_BAD_ORDER`` or ``VARS_BAD_NEXT``."""
        return vars_plan(self._data)

    @property
    def at_risk(self) -> AtRisk:
        """The entries that a start of firmware may write over or delete. ``Refused`` as of :attr:`plan`."""
        return vars_at_risk(self._data)

    @property
    def named(self) -> Tuple[NamedEntry, ...]:
        """What BootNext and then BootOrder name, also where there is no such entry. ``Refused`` as of :attr:`plan`."""
        return vars_named(self._data)

    @property
    def order(self) -> Tuple[EntryNumber, ...]:
        """The numbers of BootOrder, none if there is no such variable. ``Refused`` as of :attr:`plan`."""
        return tuple(one.number for one in self.named if one.variable == "BootOrder")

    @property
    def next(self) -> Optional[EntryNumber]:
        """The number of BootNext, if it is there. ``Refused`` as of :attr:`plan`."""
        return next((one.number for one in self.named if one.variable == "BootNext"), None)

    @property
    def lowest_free(self) -> Optional[EntryNumber]:
        """The lowest number without an entry; ``None`` if all are taken."""
        return vars_lowest_free(self._data)

    @property
    def entries(self) -> Tuple[Entry, ...]:
        """The entries, whose numbers rise. ``Refused`` as of :attr:`plan`."""
        order, following = self.order, self.next
        places = dict(reversed([(number, place) for place, number in enumerate(order)]))
        return tuple(
            self._entry(EntryNumber.from_name(name), data, places, following)
            for name, data in self.items()
            if is_entry_name(name)
        )

    def _entry(
        self,
        number: EntryNumber,
        data: bytes,
        places: Mapping[EntryNumber, int],
        following: Optional[EntryNumber],
    ) -> Entry:
        """An entry, with the places of numbers in BootOrder, and what BootNext names."""
        option, fault = None, None
        try:
            option = LoadOption.from_bytes(data)
        except Refused as why:
            fault = why
        state = vars_entry(self._data, number)
        return Entry(number, data, state, option, fault, places.get(number), number == following)

    def option(self, number: int) -> LoadOption:
        """The load option of an entry. ``KeyError`` if there is no such entry; ``Refused`` as of
        :meth:`LoadOption.from_bytes` if its data is none; ``OverflowError`` of a number with more than 16 bits.
        """
        return LoadOption.from_bytes(self[EntryNumber(number).name])

    def with_variable(self, name: str, data: Union[LoadOption, Bytes]) -> BootVariables:
        """The set with this data for the variable of this name. ``Refused`` has a kind ``PUT_..``."""
        return BootVariables.from_bytes(vars_put(self._data, name, bytes_in(data)[0]))

    def without(self, name: str) -> BootVariables:
        """The set without the variable of this name; ``KeyError`` if it has none."""
        return BootVariables.from_bytes(vars_remove(self._data, name))

    def with_entry(
        self,
        option: LoadOption,
        number: Optional[int] = None,
        position: Position = Position.LAST,
        again: bool = False,
    ) -> WithEntry:
        """The set with this load option as an entry: under this number, or the lowest free one, and with this position in
        BootOrder. If an entry with its description and its paths is there, nothing is changed, unless it is added again.
        ``Refused`` as of :func:`vars_edit`."""
        edit = Edit(EditKind.ADD, option=option, number=number, position=position, again=again)
        edited = vars_edit(self._data, edit)
        assert edited.entry is not None  # An entry is added, or is there.
        is_new = edited.kind == EditedKind.ADDED
        return WithEntry(BootVariables.from_bytes(edited.data), edited.entry, is_new)

    def without_entries(self, numbers: Sequence[int]) -> BootVariables:
        """The set without these entries, their numbers in BootOrder, and a BootNext that names one. ``Refused`` as of
        :func:`vars_edit`."""
        return self._edited(Edit(EditKind.REMOVE, numbers))

    def with_first(self, numbers: Sequence[int]) -> BootVariables:
        """The set with these entries first in BootOrder, in this sequence. ``Refused`` as of :func:`vars_edit`."""
        return self._edited(Edit(EditKind.FIRST, numbers))

    def with_order(
        self, numbers: Sequence[int], only: bool = False, stale: bool = False
    ) -> BootVariables:
        """The set with a BootOrder of these numbers, and unless they are to be the only ones those behind them that it had.
        If it may be stale, a number needs no entry. ``Refused`` as of :func:`vars_edit`.
        """
        return self._edited(Edit(EditKind.ORDER, numbers, only=only, stale=stale))

    def without_repeats(self) -> BootVariables:
        """The set with each number of BootOrder once, where that is first. ``Refused`` as of :func:`vars_edit`."""
        return self._edited(Edit(EditKind.UNREPEAT))

    def with_next(self, number: Optional[int]) -> BootVariables:
        """The set with this entry as BootNext, or without BootNext. ``Refused`` as of :func:`vars_edit`."""
        return self._edited(Edit(EditKind.NEXT, number=number))

    def with_timeout(self, seconds: Optional[int]) -> BootVariables:
        """The set with a Timeout of so many seconds, or without Timeout. ``Refused`` as of :func:`vars_edit`."""
        return self._edited(Edit(EditKind.TIMEOUT, number=seconds))

    def with_active(self, numbers: Sequence[int], active: bool = True) -> BootVariables:
        """The set with these entries active, or not. ``Refused`` as of :func:`vars_edit`."""
        kind = EditKind.ACTIVATE if active else EditKind.DEACTIVATE
        return self._edited(Edit(kind, numbers))

    def _edited(self, edit: Edit) -> BootVariables:
        return BootVariables.from_bytes(vars_edit(self._data, edit).data)

    def changes_to(self, other: BootVariables) -> Tuple[Change, ...]:
        """The changes that lead from here to the boot manager's variables of another set, as of :func:`vars_changes`."""
        return vars_changes(self._data, bytes(other))
