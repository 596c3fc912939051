"""Keepers, which apply numbered requests, and runs of them."""

from __future__ import annotations

import ctypes
import threading
from ctypes import byref, c_size_t
from dataclasses import dataclass
from typing import Callable, List, Optional, Tuple, Union

from ._buffers import ROOM, Bytes, bytes_in, bytes_of, number_of, numbers_of
from ._faults import Refused, failure, fault_word, outcome_word, refused
from ._library import RawKeeper, RawRefusal, RawReply, library
from ._numbers import DONE, NO_KIND, NO_NUMBER, NO_ROOM, Fault, Outcome, ReplyKind
from ._owned import Owned
from ._requests import BootRequest, Frame
from ._sets import BootVariables, Plan, entry_numbers, entry_or_none
from ._values import EntryNumber


def run(variables: Union[BootVariables, Bytes], stream: Bytes) -> Tuple[bytes, List[str]]:
    """Delivers each frame of a stream to a keeper of the set: the set after them, and the line of each reply.
    ``Refused`` has a kind ``SET_..``, otherwise ``STREAM_..``, otherwise ``VARS_..``.
    """
    refusal, given = RawRefusal(), (*bytes_in(variables), *bytes_in(stream))
    set_count, lines_count = c_size_t(), c_size_t()
    set_room, lines_room = given[1] + given[3] + ROOM, given[3] + ROOM
    while True:
        after = ctypes.create_string_buffer(set_room)
        lines = ctypes.create_string_buffer(lines_room)
        status = library.bootkeep_run(
            *given,
            after,
            set_room,
            byref(set_count),
            lines,
            lines_room,
            byref(lines_count),
            byref(refusal),
        )
        if status == DONE:
            text = ctypes.string_at(lines, lines_count.value).decode("ascii")
            return ctypes.string_at(after, set_count.value), text.splitlines()
        if status != NO_ROOM:
            raise failure(status, refusal)
        set_room, lines_room = max(set_room, set_count.value), max(lines_room, lines_count.value)


@dataclass(frozen=True)
class Reply:
    """The reply to an event of a keeper. As a text it is its line, as ``bootkeep run`` prints it."""

    #: What it is.
    kind: ReplyKind
    #: Why what was delivered isn't a frame, ``FRAME_..``, or ``None``.
    fault: Optional[Fault] = None
    #: The fault of the frame's option, if ``fault`` is :attr:`Fault.FRAME_OPTION`.
    option_fault: Optional[Refused] = None
    #: What came of the request, or ``None``.
    outcome: Optional[Outcome] = None
    #: The entry that was added, if the request left its number open.
    entry: Optional[EntryNumber] = None
    #: The number of the request that is to be applied next, where the reply tells it.
    next_number: Optional[int] = None
    #: How many options the plan has that is prepared or handed out.
    count: Optional[int] = None
    #: The plan that is handed out.
    plan: Optional[Plan] = None

    def __str__(self) -> str:
        if self.plan is not None:
            return str(self.plan)
        name = self.kind.name if self.kind.is_known else f"reply {int(self.kind)}"
        told = [name.lower().replace("_", " ")]
        if self.fault is not None:
            told.append(fault_word(self.fault, "Frame"))
        if self.option_fault is not None:
            told.append(_option_words(self.option_fault))
        if self.outcome is not None:
            told.append(outcome_word(self.outcome) or str(int(self.outcome)))
        if self.entry is not None:
            told.append(str(self.entry))
        if self.next_number is not None:
            told.append(str(self.next_number))
        if self.kind == ReplyKind.PREPARED:
            told.append(str(self.count))
        return " ".join(told)


def _option_words(fault: Refused) -> str:
    """The fault of an option as the lines of replies have it."""
    word = fault_word(fault.kind, "Option")
    if fault.inner_kind is None:
        return word
    return f"{word} {fault.place} {fault_word(fault.inner_kind, 'Path')} {fault.inner_place}"


def reply_of(told: RawReply, numbers: Tuple[int, ...]) -> Reply:
    """The reply of these numbers."""
    kind = ReplyKind(told.kind)
    is_plan = kind == ReplyKind.PLAN
    return Reply(
        kind,
        fault=None if told.fault == NO_KIND else Fault(told.fault),
        option_fault=None if told.option_fault.kind == NO_KIND else refused(told.option_fault),
        outcome=None if told.outcome == 0 else Outcome(told.outcome),
        entry=entry_or_none(told.entry),
        next_number=None if told.next_number == NO_NUMBER else told.next_number,
        count=told.count if is_plan or kind == ReplyKind.PREPARED else None,
        plan=Plan(entry_or_none(told.plan_next), entry_numbers(numbers)) if is_plan else None,
    )


class Keeper(Owned):
    """What keeps the boot entries of a machine, from a set of variables on, or its bytes::

        with bootkeep.Keeper(Path("set").read_bytes()) as keeper:
            print(keeper.request(bootkeep.First(0x0001)))
            print(keeper.variables.plan)

    Any thread may call it: a call waits for that of another thread. :meth:`close`, which the end of ``with`` calls,
    gives up what it holds; so does the thread that collects it, which then warns. After that each call raises
    :class:`Closed`. It writes nothing: store ``bytes(keeper.variables)`` after each event that a loss of power must not
    undo, as :class:`SetFile` does with a file. After an event that raised ``MemoryError`` nothing has happened, and the same event may come again. To make one raises
    ``Refused`` with a kind ``SET_..``, otherwise ``VARS_..``.
    """

    _called = "a keeper"

    def __init__(self, variables: Union[BootVariables, Bytes]) -> None:
        self._handle = RawKeeper()
        self._lock = threading.Lock()
        self._set_len = len(bytes_in(variables)[0])
        refusal = RawRefusal()
        status = library.bootkeep_keeper_open(
            byref(self._handle), *bytes_in(variables), byref(refusal)
        )
        if status != DONE:
            raise failure(status, refusal)

    def deliver(self, frame: Union[Frame, Bytes]) -> Reply:
        """These bytes are delivered, which may be a frame."""
        return self._event(library.bootkeep_keeper_deliver_reply, *bytes_in(frame))

    def request(self, request: BootRequest) -> Reply:
        """The request is delivered with the number of the one that is to be applied next. Faults as of
        :meth:`BootRequest.frame`. Of a keeper that several threads call another may be delivered in between.
        """
        return self.deliver(request.frame(self.next_number))

    def prepare(self) -> Reply:
        """A boot is prepared: its plan is made, and BootNext is deleted."""
        return self._event(library.bootkeep_keeper_prepare_reply)

    def hand(self) -> Optional[Plan]:
        """The plan that is prepared is handed out, once; ``None`` if none is."""
        return self._event(library.bootkeep_keeper_hand_reply).plan

    def restart(self) -> Reply:
        """The keeper starts again, without what waits and what is prepared."""
        return self._event(library.bootkeep_keeper_restart_reply)

    @property
    def variables(self) -> BootVariables:
        """The variables of the machine as they are to be stored, BootKeepState among them. They are read anew each
        time."""
        return BootVariables.from_bytes(self.set)

    @property
    def set(self) -> bytes:
        """The bytes of :attr:`variables`: those of a set file."""
        with self._lock:
            # It grows by little from one event to the next.
            variables = bytes_of(
                lambda *out: library.bootkeep_keeper_set(byref(self._handle), *out),
                self._set_len + 4096,
            )
            self._set_len = len(variables)
            return variables

    @property
    def next_number(self) -> int:
        """The number of the request that is to be applied next."""
        with self._lock:
            return number_of(
                lambda out: library.bootkeep_keeper_next_number(byref(self._handle), out)
            )

    def close(self) -> None:
        """Gives up what the keeper holds. To close it twice is no fault."""
        with self._lock:
            library.bootkeep_keeper_close(byref(self._handle))

    def _event(self, call: Callable[..., int], *given: object) -> Reply:
        """What comes of an event."""
        told = RawReply(size=ctypes.sizeof(RawReply))
        with self._lock:
            numbers = numbers_of(lambda *out: call(byref(self._handle), *given, byref(told), *out))
        return reply_of(told, numbers)
