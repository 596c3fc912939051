"""Commands over a machine, whose moves their caller makes."""

from __future__ import annotations

import ctypes
from ctypes import byref
from dataclasses import dataclass
from typing import Any, Optional, SupportsBytes, Tuple, Union

from ._buffers import Bytes, bytes_in, bytes_of, number_of
from ._edits import Edit, entry_of
from ._faults import failure, number_in
from ._keepers import Reply, reply_of
from ._library import RawEnd, RawMoves, RawRefusal, RawReply, library
from ._numbers import (
    DONE,
    NO_KIND,
    NOTES_MAX,
    Became,
    EditedKind,
    EndKind,
    Fault,
    MoveKind,
    Same,
)
from ._owned import Owned
from ._values import EntryNumber


@dataclass(frozen=True)
class MachineState:
    """What was read of a machine."""

    #: What it is called: no two machines have the same name.
    machine: Bytes
    #: The identity of its start: another one after each start, as in ``/proc/sys/kernel/random/boot_id``.
    start: Bytes
    #: A set of what the machine keeps: of each variable of the boot manager its attributes, in four bytes, and then its data.
    variables: Union[Bytes, SupportsBytes]
    #: The bytes of the journal's file: none if there is no such file.
    journal: Bytes = b""

    def arguments(self) -> Tuple[Any, ...]:
        """What a call is handed of it."""
        parts = (self.machine, self.start, self.variables, self.journal)
        return tuple(it for part in parts for it in bytes_in(part))


@dataclass(frozen=True)
class Restore:
    """The variables of the boot manager are brought back to those of a set: what it has is there then, and what it hasn't is
    gone. All else stays."""

    #: A set of what the machine is to keep, as ``MachineState.variables`` has it: so what was read before a change undoes it.
    back: Union[Bytes, SupportsBytes]


@dataclass(frozen=True)
class Move:
    """A move of a machine. It is made whole, or not at all."""

    #: What it is.
    kind: MoveKind
    #: The name of the variable that is to be set or deleted.
    name: Optional[str] = None
    #: What the variable is to have, its attributes first; or the bytes of the journal's file.
    data: Optional[bytes] = None


@dataclass(frozen=True)
class End:
    """How a command over a machine ended."""

    #: How.
    kind: EndKind
    #: The reply to each frame, if it has happened.
    replies: Tuple[Reply, ...] = ()
    #: The caller's number of why a move was refused, and that of one that takes it back.
    reason: int = 0
    second_reason: int = 0
    #: Why the variables were refused, ``VARS_..``, ``MACHINE_..`` or ``UNEDITED_..``, or ``None``.
    fault: Optional[Fault] = None
    #: What came of an edit that has happened, and the number of the entry that it added or found.
    edited: EditedKind = EditedKind.DONE
    entry: Optional[EntryNumber] = None


class Moves(Owned):
    """A change of a machine of which the caller makes each move, and tells what became of it::

        with bootkeep.Moves(state, bootkeep.Edit(bootkeep.EditKind.FIRST, [3])) as moves:
            while (move := moves.next()) is not None:
                moves.tell(make(move))
            print(moves.end)

    What an earlier command has left is done first. Then an edit is made of the machine's variables, or they are brought
    back to those of a set, or the frames of a stream are run over them; with none of these that is all. The header says, under *Machines*, what the caller promises:
    moves are made one by one, whole, and so that a loss of power doesn't undo them. :meth:`close`, which the end of
    ``with`` calls, gives up what it holds. It is used by one thread at a time. To make one raises ``Refused`` with a
    kind ``STREAM_..``, or one ``SET_..`` or ``MACHINE_NO_DATA`` of the set that is to be brought back; otherwise
    ``MACHINE_..``, otherwise ``SET_..``, otherwise ``JOURNAL_..``; an edit that the variables refuse is told by
    :attr:`end`.
    """

    _called = "a command over a machine"

    def __init__(self, state: MachineState, run: Union[Edit, Restore, Bytes, None] = None) -> None:
        self._handle = RawMoves()
        call, given = library.bootkeep_moves_settle, state.arguments()
        if isinstance(run, Edit):
            call, given = library.bootkeep_moves_edit, (*given, *run.arguments())
        elif isinstance(run, Restore):
            call, given = library.bootkeep_moves_restore, (*given, *bytes_in(run.back))
        elif run is not None:
            call, given = library.bootkeep_moves_requests, (*given, *bytes_in(run))
        refusal = RawRefusal()
        status = call(byref(self._handle), *given, byref(refusal))
        if status != DONE:
            raise failure(status, refusal)

    def next(self) -> Optional[Move]:
        """The move that comes next, by what was told so far, or ``None`` if the command has ended."""
        kind = MoveKind(
            number_of(lambda out: library.bootkeep_moves_next(byref(self._handle), out))
        )
        if kind == MoveKind.NONE:
            return None
        return Move(
            kind,
            None if kind == MoveKind.JOURNAL else self._bytes("name").decode("ascii"),
            None if kind == MoveKind.DELETE else self._bytes("bytes"),
        )

    def tell(self, became: Became, reason: int = 0) -> None:
        """Tells what became of the move that :meth:`next` gave, and by a number of the caller's why it was refused."""
        status = library.bootkeep_moves_tell(
            byref(self._handle), Became(became), number_in(reason, 32)
        )
        if status != DONE:
            raise failure(status)

    @property
    def end(self) -> End:
        """How the command ended, once :meth:`next` gave ``None``."""
        told = RawEnd(size=ctypes.sizeof(RawEnd))
        status = library.bootkeep_moves_end(byref(self._handle), byref(told))
        if status != DONE:
            raise failure(status)
        return End(
            EndKind(told.kind),
            tuple(self._reply(place) for place in range(told.replies)),
            told.reason,
            told.second_reason,
            None if told.fault == NO_KIND else Fault(told.fault),
            EditedKind(told.edited),
            entry_of(told.entry),
        )

    def notes(self, before: Bytes) -> bytes:
        """The notes after a command of frames that has happened, from those before it, or the journal's file that begins
        with them: no bytes if there were none. ``Refused`` has a kind ``NOTES_..``."""
        refusal, given = RawRefusal(), bytes_in(before)
        return bytes_of(
            lambda *out: library.bootkeep_moves_notes(
                byref(self._handle), *given, *out, byref(refusal)
            ),
            NOTES_MAX,
            refusal,
        )

    def same(self, before: Bytes, place: int) -> Same:
        """Whether the frame at this place of the stream, which was a repeat, is the one that was applied under its number, by
        the notes before the command, or the journal's file that begins with them. ``Refused`` has a kind ``NOTES_..``.
        """
        refusal, given = RawRefusal(), (*bytes_in(before), number_in(place, 64))
        return Same(
            number_of(
                lambda out: library.bootkeep_moves_same(
                    byref(self._handle), *given, out, byref(refusal)
                ),
                refusal,
            )
        )

    def close(self) -> None:
        """Gives up what the command holds, at any time: what it has left to do, the next one does. To close it twice is no
        fault."""
        library.bootkeep_moves_close(byref(self._handle))

    def _bytes(self, of: str) -> bytes:
        """What a call gives of the move that is asked for."""
        call = getattr(library, f"bootkeep_moves_{of}")
        return bytes_of(lambda *out: call(byref(self._handle), *out))

    def _reply(self, place: int) -> Reply:
        """The reply to the frame at this place."""
        told = RawReply(size=ctypes.sizeof(RawReply))
        status = library.bootkeep_moves_reply(byref(self._handle), place, byref(told))
        if status != DONE:
            raise failure(status)
        return reply_of(told, ())
