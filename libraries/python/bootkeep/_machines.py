"""The boot entries of a Linux machine, read and changed where they are."""

from __future__ import annotations

import ctypes
import os
import threading
from ctypes import POINTER, byref, c_char_p, c_size_t, c_uint16, c_uint32, c_void_p, sizeof
from dataclasses import dataclass
from typing import Any, Callable, Iterable, List, Optional, Sequence, Tuple, TypeVar, Union

from ._buffers import Bytes, bytes_in, utf8
from ._faults import Closed, Refused, number_in
from ._keepers import Reply, reply_of
from ._library import RawReply
from ._linux import (
    RawEntry,
    RawExpected,
    RawFault,
    RawJournal,
    RawLoader,
    RawMachineChange,
    RawOptions,
    RawPlan,
    linux,
)
from ._machine_faults import ChangedSince, machine_error, new_fault
from ._machine_numbers import Expects, Flag, MachinePlace, Option
from ._numbers import DONE, NO_ENTRY, Attributes, EditedKind, EntryState, Position, Same
from ._options import LoadOption
from ._owned import Owned
from ._sets import BootVariables, Change, Entry, Plan, entry_numbers, entry_or_none, vars_changes
from ._values import EntryNumber

F = TypeVar("F", Flag, Expects)

PathLike = Union[str, "os.PathLike[str]"]

#: The words of a change: they are kept with it.
Words = Sequence[str]


@dataclass(frozen=True)
class MachinePlan(Plan):
    """What a boot of a machine would try (UEFI 2.10, 3.3). As a text it is the same as a :class:`Plan`."""

    #: All numbers of BootOrder.
    order: Tuple[EntryNumber, ...]
    #: The number of the entry that this boot came from, or ``None``.
    current: Optional[EntryNumber]
    #: How many seconds firmware waits before it tries the plan, or ``None`` if there is no such setting.
    timeout: Optional[int]


@dataclass(frozen=True)
class MachineEntry(Entry):
    """An entry of a machine."""

    #: Whether this boot came from it.
    is_current: bool


@dataclass(frozen=True)
class MachineChange:
    """What came of a change of a machine, or would come of it."""

    #: Whether a variable of the boot manager was changed.
    is_changed: bool
    #: Whether an earlier change had left something to do, which is done now.
    is_settled: bool
    #: What came of an edit, and the number of the entry that was added or found, or ``None``.
    edited: EditedKind
    entry: Optional[EntryNumber]
    #: The number of the record that is kept of the change, for an undo, or ``None``.
    record: Optional[int]
    #: Sets of what the machine kept of its variables before the change, and keeps after it, as :attr:`Machine.kept`.
    before: bytes
    after: bytes
    #: What is to be told of it besides, a line each: a file that was ignored, an entry that was left out.
    remarks: Tuple[str, ...] = ()

    @property
    def changes(self) -> Tuple[Change, ...]:
        """What became of each variable. Its data begin with the variable's attributes, in four bytes."""
        return vars_changes(self.before, self.after)


@dataclass(frozen=True)
class MachineReply(Reply):
    """The reply to a frame that was run over a machine."""

    #: Of a repeat whether the frame is the one that was applied under its number: if not, another sender gave the number
    #: to another request.
    same: Same = Same.UNKNOWN


@dataclass(frozen=True)
class MachineJournal:
    """What the journal of a machine says of requests."""

    #: The number of the request that is to be applied next.
    next_number: int
    #: The identity of the journal, 16 bytes: another one says that the machine was installed anew. ``None`` if it has none.
    identity: Optional[bytes]
    #: Whether an earlier change has left something to do.
    is_owed: bool


@dataclass(frozen=True)
class Expected:
    """What is expected of a machine before requests are run. What is ``None`` isn't looked at."""

    #: The number of the request that is to be applied next.
    number: Optional[int] = None
    #: The identity of the journal, 16 bytes; or that it has none.
    journal: Optional[bytes] = None
    no_journal: bool = False
    #: The numbers of BootOrder; or that it isn't there.
    order: Optional[Sequence[int]] = None
    no_order: bool = False

    def raw(self) -> RawExpected:
        """What a call is handed of it. ``ValueError`` is of an identity with another number of bytes, and
        ``OverflowError`` of a number with too many bits."""
        told = RawExpected(size=sizeof(RawExpected))
        what = _flag(self.no_journal, Expects.NO_JOURNAL) | _flag(self.no_order, Expects.NO_ORDER)
        if self.number is not None:
            what |= Expects.NUMBER
            told.number = number_in(self.number, 32)
        if self.journal is not None:
            what |= Expects.JOURNAL
            told.journal[:] = _identity(self.journal)
        if self.order is not None:
            what |= Expects.ORDER
            told.order, told.order_len = _numbers(self.order)
        told.what = what
        return told


def _identity(data: bytes) -> bytes:
    """The identity of a journal."""
    if len(data) != 16:
        raise ValueError(f"the identity of a journal has 16 bytes, and these are {len(data)}")
    return data


class _Handle:
    """A handle of the library, which is open until it is closed."""

    def __init__(self) -> None:
        self.at = c_void_p()

    @property
    def is_open(self) -> bool:
        """Whether it is open."""
        return self.at.value is not None


class Machine(Owned):
    """The boot entries of a Linux machine: of the one that this runs on, if nothing else is said::

        with bootkeep.Machine() as machine:
            print(machine.plan())
            change = machine.add(loader="/boot/efi/EFI/rescue/grubx64.efi", description="Rescue", first=True)
            print(change.entry, "is first")
            machine.undo()

    Each change is made whole or not at all, also over a loss of power: it takes the locks, the journal and the records
    of ``bootvars``, so that each finishes, takes back and undoes what the other has left. No lock is waited for:
    :class:`MachineBusy` is raised. A change that leads to what is there already writes nothing.

    Any thread may call it: a call waits for that of another thread. :meth:`close`, which the end of ``with`` calls, gives
    up what it holds; after that each call raises :class:`Closed`. A child after ``os.fork`` makes its own.

    Each call may raise :class:`MachineError`, by the class that says what became of it, and ``MemoryError``. With
    ``dry_run`` a change is only told: nothing is written, and no lock is taken. ``words`` are kept with the change, in the
    place of those of the machine, and ``bootvars undo --list`` shows them.
    """

    _called = "a machine"

    def __init__(
        self,
        variables: Optional[PathLike] = None,
        *,
        state: Optional[PathLike] = None,
        name: Optional[str] = None,
        start: Optional[str] = None,
        adopt: bool = False,
        keeps_records: bool = True,
        words: Words = (),
    ) -> None:
        """``variables`` is the folder in which Linux shows the variables, or an emulator's variable file, whose machine has
        to be off, and ``state`` the folder of the journal and the records: if they are left out,
        ``/sys/firmware/efi/efivars`` and ``/var/lib/bootkeep``. ``name`` is what the machine is called, and ``start`` the
        identity of its start, if what the system says of these isn't wanted; of a variable file :meth:`update` and
        :meth:`settle` need it, a text that is another one after each start. With ``adopt`` another machine's journal is
        taken over, if nothing is left to do in it; without ``keeps_records`` no change can be undone. Nothing is looked at
        as yet. ``ImportError`` is of a system without ``libbootkeep-linux``.
        """
        self._handle = _Handle()
        self._lock = threading.Lock()
        self._library = linux()
        self._words = tuple(words)
        self._remarks: Tuple[str, ...] = ()
        flags = Option.ADOPT if adopt else Option.NOTHING
        options = RawOptions(
            size=sizeof(RawOptions),
            variables=_path(variables),
            state=_path(state),
            name=_text(name),
            start=_text(start),
            flags=flags if keeps_records else flags | Option.NO_RECORD,
        )
        status = self._library.bootkeep_machine_open(byref(options), byref(self._handle.at))
        if status != DONE:
            told = new_fault()
            told.text = b"a path is empty, or the name or the start of the machine isn't one"
            raise machine_error(status, told)

    def close(self) -> None:
        """Gives up what it holds. To close it twice is no fault."""
        with self._lock:
            self._library.bootkeep_machine_close(self._handle.at)
            self._handle.at = c_void_p()

    # ---- What is there

    @property
    def place(self) -> MachinePlace:
        """What the variables are in now. :class:`MachineRefused` is of what is neither a folder nor a variable file."""
        with self._lock:
            told = c_uint32()
            self._call(self._library.bootkeep_machine_place, byref(told))
            return MachinePlace(told.value)

    @property
    def variables(self) -> BootVariables:
        """The variables as they are now, without their attributes, as ``bootvars read`` gives them."""
        return BootVariables.from_bytes(self._bytes(self._library.bootkeep_machine_data))

    @property
    def kept(self) -> BootVariables:
        """The variables as the machine keeps them: the data of Boot####, BootOrder, BootNext and Timeout begin with their
        attributes, in four bytes. So :class:`Restore` takes them."""
        return BootVariables.from_bytes(self._bytes(self._library.bootkeep_machine_variables))

    def plan(self) -> MachinePlan:
        """What a boot would try. :class:`MachineRefused` has ``VARS_BAD_ORDER`` or ``VARS_BAD_NEXT``."""
        with self._lock:
            told = RawPlan(size=sizeof(RawPlan))
            self._call(self._library.bootkeep_machine_plan, byref(told))
            return MachinePlan(
                entry_or_none(told.next),
                entry_numbers(tuple(told.numbers[: told.numbers_len])),
                entry_numbers(tuple(told.order[: told.order_len])),
                entry_or_none(told.current),
                None if told.timeout == NO_ENTRY else told.timeout,
            )

    def entries(self) -> Tuple[MachineEntry, ...]:
        """The entries, whose numbers rise."""
        with self._lock:
            place, count = c_void_p(), c_size_t()
            call = self._library.bootkeep_machine_entries
            self._call(call, byref(place), byref(count), sizeof(RawEntry))
            listed = ctypes.cast(place, POINTER(RawEntry))
            return tuple(_entry(listed[at]) for at in range(count.value))

    def journal(self) -> MachineJournal:
        """What the journal says of requests."""
        with self._lock:
            told = RawJournal(size=sizeof(RawJournal))
            self._call(self._library.bootkeep_machine_journal, byref(told))
            identity = bytes(told.identity) if told.has_identity else None
            return MachineJournal(told.next_number, identity, bool(told.is_owed))

    def loader(
        self,
        file: PathLike,
        description: str,
        attributes: int = Attributes.ACTIVE,
        optional: Bytes = b"",
        root: Optional[PathLike] = None,
        disk: Optional[PathLike] = None,
        part: Optional[int] = None,
    ) -> LoadOption:
        """The load option of a loader, whose file is on a partition that is mounted, as ``/boot/efi/EFI/debian/shimx64.efi``;
        or with ``disk`` on the partition ``part`` of that, or on its first, under this name, and need not be there.
        With ``root`` the file, and what is read of ``/proc``, ``/sys`` and ``/dev``, is below that folder. Nothing is
        changed. :class:`MachineRefused` has ``NO_PARTITION``, ``UNKNOWN_PARTITION``, ``BAD_LOADER_NAME``, ``NO_DEVICE`` or
        ``OTHER_PARTITION``, or a fault of load options."""
        loader = _loader(file, description, attributes, optional, root, disk, part)
        return LoadOption.from_bytes(
            self._bytes(self._library.bootkeep_machine_loader, byref(loader))
        )

    @property
    def owed(self) -> bool:
        """Whether an earlier change has left something to do. The next change does it first, and :meth:`settle` alone; what
        is left of Driver#### and SysPrep#### only that."""
        with self._lock:
            told = c_uint32()
            self._call(self._library.bootkeep_machine_owed, byref(told))
            return bool(told.value)

    @property
    def remarks(self) -> Tuple[str, ...]:
        """What is to be told of the last call besides, a line each."""
        return self._remarks

    # ---- Changes

    def add(
        self,
        option: Union[LoadOption, Bytes, None] = None,
        *,
        loader: Optional[PathLike] = None,
        description: Optional[str] = None,
        attributes: int = Attributes.ACTIVE,
        optional: Bytes = b"",
        root: Optional[PathLike] = None,
        disk: Optional[PathLike] = None,
        part: Optional[int] = None,
        number: Optional[int] = None,
        position: Position = Position.LAST,
        first: bool = False,
        again: bool = False,
        force: bool = False,
        dry_run: bool = False,
        words: Optional[Words] = None,
    ) -> MachineChange:
        """Adds an entry: a load option, or the one of the file ``loader``, as of :meth:`loader`, with this ``description``,
        ``attributes``, ``optional`` data, ``root``, ``disk`` and ``part``. It gets this ``number``, or the lowest free one, and comes last in BootOrder
        unless ``position`` says otherwise, or ``first``. If an entry with its description and its paths is there, nothing
        is changed, unless it is added ``again``.

        A loader that firmware wouldn't start is refused, ``NOT_STARTED``, unless that is to be so by ``force``. Otherwise
        :class:`MachineRefused` has a fault ``UNEDITED_..``, whose place is the number of the entry, or one of load
        options; ``TypeError`` is of both an option and a loader, or neither."""
        if (option is None) == (loader is None) or (loader is None) != (description is None):
            raise TypeError("add takes a load option, or a loader and a description")
        flags = _flag(again, Flag.AGAIN) | _flag(force, Flag.FORCE)
        where = (_number(number), Position.FIRST if first else Position(position))
        if loader is None:
            given: Tuple[Any, ...] = bytes_in(option if option is not None else b"")
            call = self._library.bootkeep_machine_add
        else:
            made = _loader(loader, description or "", attributes, optional, root, disk, part)
            given = (byref(made),)
            call = self._library.bootkeep_machine_add_loader
        return self._change(call, *given, *where, flags=flags, dry_run=dry_run, words=words)

    def remove(
        self, *numbers: int, dry_run: bool = False, words: Optional[Words] = None
    ) -> MachineChange:
        """Deletes these entries, takes their numbers out of BootOrder, and deletes BootNext if it names one."""
        call = self._library.bootkeep_machine_remove
        return self._change(call, *_numbers(numbers), dry_run=dry_run, words=words)

    def activate(
        self, *numbers: int, dry_run: bool = False, words: Optional[Words] = None
    ) -> MachineChange:
        """Gives these entries LOAD_OPTION_ACTIVE."""
        call = self._library.bootkeep_machine_activate
        return self._change(call, *_numbers(numbers), dry_run=dry_run, words=words)

    def deactivate(
        self, *numbers: int, dry_run: bool = False, words: Optional[Words] = None
    ) -> MachineChange:
        """Takes LOAD_OPTION_ACTIVE from these entries."""
        call = self._library.bootkeep_machine_deactivate
        return self._change(call, *_numbers(numbers), dry_run=dry_run, words=words)

    def first(
        self,
        *numbers: int,
        stale: bool = False,
        dry_run: bool = False,
        words: Optional[Words] = None,
    ) -> MachineChange:
        """Puts these entries first in BootOrder, in this sequence. If it may be ``stale``, a number needs no entry."""
        call, flags = self._library.bootkeep_machine_first, _flag(stale, Flag.STALE)
        return self._change(call, *_numbers(numbers), flags=flags, dry_run=dry_run, words=words)

    def order(
        self,
        *numbers: int,
        only: bool = False,
        stale: bool = False,
        dry_run: bool = False,
        words: Optional[Words] = None,
    ) -> MachineChange:
        """Makes these entries BootOrder, and unless they are to be the ``only`` ones those after them that it had. If it may
        be ``stale``, a number needs no entry."""
        call, flags = (
            self._library.bootkeep_machine_order,
            _flag(stale, Flag.STALE) | _flag(only, Flag.ONLY),
        )
        return self._change(call, *_numbers(numbers), flags=flags, dry_run=dry_run, words=words)

    def next(
        self, number: Optional[int], *, dry_run: bool = False, words: Optional[Words] = None
    ) -> MachineChange:
        """Has the next boot try this entry first, once, by BootNext; ``None`` deletes BootNext."""
        call = self._library.bootkeep_machine_next
        return self._change(call, _number(number), dry_run=dry_run, words=words)

    def timeout(
        self, seconds: Optional[int], *, dry_run: bool = False, words: Optional[Words] = None
    ) -> MachineChange:
        """Has firmware wait for so many seconds, by Timeout; ``None`` deletes Timeout."""
        call = self._library.bootkeep_machine_timeout
        return self._change(call, _number(seconds), dry_run=dry_run, words=words)

    def write(
        self,
        variables: Union[BootVariables, Bytes],
        *,
        empty: bool = False,
        dry_run: bool = False,
        words: Optional[Words] = None,
    ) -> MachineChange:
        """Brings the boot manager's variables to those of a set, as :attr:`variables` has it. Timeout stays if the set has
        none, and in a folder an entry that is no load option is left out, which :attr:`remarks` tells. A set without an entry is
        refused, ``EMPTY``, unless that is to be so."""
        call, flags = self._library.bootkeep_machine_write, _flag(empty, Flag.EMPTY)
        return self._change(call, *bytes_in(variables), flags=flags, dry_run=dry_run, words=words)

    def update(
        self,
        frames: Union[Bytes, Iterable[bytes]],
        expected: Optional[Expected] = None,
        *,
        dry_run: bool = False,
        words: Optional[Words] = None,
    ) -> List[MachineReply]:
        """Runs frames over the machine, in their order: a stream of them, or each as bytes. Each request is applied once,
        however often it is delivered. The replies are theirs, in the same order. The state folder has to be there, since
        without its journal each would be applied again. :class:`Unmet` is raised if something isn't
        as it is ``expected``; :class:`MachineRefused` has a fault ``STREAM_..``."""
        stream = frames if isinstance(frames, (bytes, bytearray, memoryview)) else b"".join(frames)
        raw = None if expected is None else byref(expected.raw())
        replies: List[MachineReply] = []
        self._change(
            self._library.bootkeep_machine_update,
            *bytes_in(stream),
            raw,
            dry_run=dry_run,
            words=words,
            told=lambda raw_change: replies.extend(map(self._reply, range(raw_change.replies))),
        )
        return replies

    def undo(
        self, *, force: bool = False, dry_run: bool = False, words: Optional[Words] = None
    ) -> MachineChange:
        """Brings back what was there before the last change, whoever made it. The next call undoes the one before that.
        :class:`NothingToUndo` is raised if nothing is kept, and :class:`ChangedSince` if something else has changed the
        variables since, unless that is undone too, by ``force``."""
        call, flags = self._library.bootkeep_machine_undo, _flag(force, Flag.FORCE)
        return self._change(call, flags=flags, dry_run=dry_run, words=words)

    def settle(self, *, dry_run: bool = False) -> MachineChange:
        """Does what an earlier change has left to do, and no more, in a folder also of Driver#### and SysPrep####:
        ``is_settled`` says whether there was something."""
        return self._change(self._library.bootkeep_machine_settle, dry_run=dry_run, words=None)

    # ---- Calls

    def _change(
        self,
        call: Callable[..., int],
        *given: object,
        dry_run: bool,
        words: Optional[Words],
        flags: Flag = Flag.NOTHING,
        told: Optional[Callable[[RawMachineChange], None]] = None,
    ) -> MachineChange:
        """Makes a change, and tells what came of it."""
        with self._lock:
            self._set_words(self._words if words is None else tuple(words))
            change = RawMachineChange(size=sizeof(RawMachineChange))
            try:
                self._call(call, *given, flags | _flag(dry_run, Flag.DRY_RUN), byref(change))
            except ChangedSince as why:
                why.before = _held(change.before, change.before_len)
                why.after = _held(change.after, change.after_len)
                raise
            if told is not None:
                told(change)
            return _change(change, self._remarks)

    def _set_words(self, words: Tuple[str, ...]) -> None:
        """Has the next change kept with these words."""
        texts = [_text(word) for word in words]
        listed = (c_char_p * max(len(texts), 1))(*texts)
        self._call(self._library.bootkeep_machine_words, listed, len(texts))

    def _bytes(self, call: Callable[..., int], *given: object) -> bytes:
        """The bytes that a call tells."""
        with self._lock:
            place, count = c_void_p(), c_size_t()
            self._call(call, *given, byref(place), byref(count))
            return _held(place.value, count.value)

    def _reply(self, place: int) -> MachineReply:
        """The reply to the frame at this place."""
        told, same = RawReply(size=sizeof(RawReply)), c_uint32()
        status = self._library.bootkeep_machine_reply(
            self._handle.at, place, byref(told), byref(same)
        )
        assert status == DONE, "there is a reply to each frame"
        return MachineReply(**vars(reply_of(told, ())), same=Same(same.value))

    def _call(self, call: Callable[..., int], *given: object) -> None:
        """Makes a call, and raises what it says if it failed. The lock is held."""
        if not self._handle.is_open:
            raise Closed()
        status = call(self._handle.at, *given)
        self._remarks = tuple(self._told_remarks())
        if status != DONE:
            raise machine_error(status, self._told_fault())

    def _told_fault(self) -> RawFault:
        told = new_fault()
        status = self._library.bootkeep_machine_fault(self._handle.at, byref(told))
        assert status == DONE, "the struct has its size"
        return told

    def _told_remarks(self) -> Iterable[str]:
        text, place = c_char_p(), 0
        while self._library.bootkeep_machine_remark(self._handle.at, place, byref(text)) == DONE:
            yield (text.value or b"").decode("utf-8", "replace")
            place += 1


def _change(told: RawMachineChange, remarks: Tuple[str, ...]) -> MachineChange:
    """What came of a change, copied."""
    return MachineChange(
        bool(told.changed),
        bool(told.settled),
        EditedKind(told.edited),
        entry_or_none(told.entry),
        told.record or None,
        _held(told.before, told.before_len),
        _held(told.after, told.after_len),
        remarks,
    )


def _entry(told: RawEntry) -> MachineEntry:
    """An entry, copied."""
    data, option, fault = _held(told.option, told.option_len), None, None
    try:
        option = LoadOption.from_bytes(data)
    except Refused as why:
        fault = why
    return MachineEntry(
        EntryNumber(told.number),
        data,
        EntryState(told.state),
        option,
        fault,
        None if told.position == NO_ENTRY else told.position,
        bool(told.is_next),
        bool(told.is_current),
    )


def _held(place: Optional[int], count: int) -> bytes:
    """The bytes at a place, copied."""
    return b"" if place is None or count == 0 else ctypes.string_at(place, count)


def _loader(
    file: PathLike,
    description: str,
    attributes: int,
    optional: Bytes,
    root: Optional[PathLike],
    disk: Optional[PathLike],
    part: Optional[int],
) -> RawLoader:
    """What a call is handed of a loader. ``ValueError`` is of a partition without a disk, and of the number 0."""
    if part is not None and (disk is None or part == 0):
        raise ValueError("part is the number of a partition of a disk, from 1 on")
    data, count = bytes_in(optional)
    return RawLoader(
        size=sizeof(RawLoader),
        file=_path(file),
        description=_text(description),
        attributes=number_in(attributes, 32),
        optional=data,
        optional_len=count,
        root=_path(root),
        disk=_path(disk),
        part=0 if part is None else number_in(part, 32),
    )


def _numbers(numbers: Sequence[int]) -> Tuple[Any, int]:
    """The two arguments of C for numbers of entries."""
    listed = [number_in(one, 16) for one in numbers]
    return (c_uint16 * max(len(listed), 1))(*listed), len(listed)


def _number(number: Optional[int]) -> int:
    """A number of 16 bits, or what stands for none."""
    return NO_ENTRY if number is None else number_in(number, 16)


def _flag(is_wanted: bool, flag: F) -> F:
    """The flag, if it is wanted, or none."""
    return flag if is_wanted else type(flag)(0)


def _path(path: Optional[PathLike]) -> Optional[bytes]:
    """A path as C takes it."""
    return None if path is None else _without_zero(os.fsencode(path))


def _text(text: Optional[str]) -> Optional[bytes]:
    """A text as C takes it."""
    return None if text is None else _without_zero(utf8(text))


def _without_zero(data: bytes) -> bytes:
    """The bytes, unless C would take those before a zero for all of them."""
    if b"\0" in data:
        raise ValueError("a path or a text has a zero character, which would end it")
    return data
