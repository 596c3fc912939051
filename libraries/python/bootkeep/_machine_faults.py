"""What calls over a machine raise."""

from __future__ import annotations

import os
from ctypes import sizeof
from dataclasses import dataclass
from typing import Any, Dict, Optional, Tuple, Type, Union

from ._faults import Error
from ._linux import RawFault
from ._machine_numbers import (
    BUSY,
    CHANGED,
    SYSTEM,
    TAKEN_BACK,
    UNMET,
    UNSETTLED,
    Left,
    MachineFault,
    MachineStage,
)
from ._numbers import ABSENT, NO_KIND, NO_MEMORY, NO_PLACE, REFUSED, Fault

#: The first number of a fault that only a machine has.
_OF_MACHINES = 0x8000


@dataclass(frozen=True)
class MachineFailure:
    """What is told of a call over a machine that failed."""

    #: One line that says all of it.
    text: str
    #: At which step it failed.
    stage: MachineStage = MachineStage.NONE
    #: What is left of the change.
    left: Left = Left.NOTHING
    #: The system's reason, a number of :mod:`errno`, or ``None``.
    errno: Optional[int] = None
    #: The path of the file or folder it was about, or ``None``.
    path: Optional[str] = None
    #: Why it is refused, or ``None`` if the system refused it.
    fault: Union[Fault, MachineFault, None] = None
    #: Where in what was handed in, or in the file, the fault is: of edits the number of an entry. ``None`` if nowhere.
    place: Optional[int] = None
    #: The fault within, and its place, counted from ``place``.
    inner_fault: Optional[Fault] = None
    inner_place: Optional[int] = None
    #: Why taking the change back failed too, and the path of what that was about, or ``None``.
    second_errno: Optional[int] = None
    second_path: Optional[str] = None


class MachineError(Error):
    """A call over a machine failed. What became of it is said by the classes below; ``failure`` tells the step, the file
    and the reason. If the system refused something, ``__cause__`` is the ``OSError`` of that."""

    def __init__(self, failure: MachineFailure) -> None:
        self.failure = failure
        super().__init__(failure.text)
        if failure.errno is not None:
            self.__cause__ = OSError(failure.errno, os.strerror(failure.errno), failure.path)

    def __reduce__(self) -> Tuple[Any, ...]:
        return type(self), (self.failure,), dict(self.__dict__)

    @property
    def stage(self) -> MachineStage:
        """At which step the call failed."""
        return self.failure.stage

    @property
    def errno(self) -> Optional[int]:
        """The system's reason, a number of :mod:`errno`, or ``None``."""
        return self.failure.errno

    @property
    def path(self) -> Optional[str]:
        """The path of the file or folder it was about, or ``None``."""
        return self.failure.path

    @property
    def fault(self) -> Union[Fault, MachineFault, None]:
        """Why it is refused, or ``None`` if the system refused it."""
        return self.failure.fault

    @property
    def left(self) -> Left:
        """What is left of the change."""
        return self.failure.left


class MachineRefused(MachineError, ValueError):
    """What is there, or was handed in, doesn't allow it: ``fault`` says why. Nothing is changed."""


class NothingToUndo(MachineError, LookupError):
    """Nothing is kept that could be undone."""


class SystemRefused(MachineError):
    """The system refused to read or write something. Nothing is changed."""


class MachineBusy(MachineError):
    """Another program has the lock of the state folder or of the variables: try again later. Nothing is changed."""


class TakenBack(MachineError):
    """The system refused a step of the change, and what was made before it is taken back: it hasn't happened."""


class Unsettled(MachineError):
    """The system refused a step of the change, and then one that takes it back. The next change, or
    :meth:`Machine.settle`, begins with what is left: it may still happen."""


class Unmet(MachineError):
    """Something isn't as it was expected, and no request was run."""


class ChangedSince(MachineError):
    """Something else has changed the variables since the change that is to be undone. Nothing is changed. ``before`` and
    ``after`` are sets, as of :class:`MachineChange`: of what was there after that change, and of what is there now.
    """

    before = after = b""


_CLASSES: Dict[int, Type[MachineError]] = {
    REFUSED: MachineRefused,
    ABSENT: NothingToUndo,
    SYSTEM: SystemRefused,
    BUSY: MachineBusy,
    TAKEN_BACK: TakenBack,
    UNSETTLED: Unsettled,
    UNMET: Unmet,
    CHANGED: ChangedSince,
}


def machine_error(status: int, told: RawFault) -> Exception:
    """The exception of a status of a call over a machine that isn't done."""
    if status == NO_MEMORY:
        return MemoryError("libbootkeep-linux is out of memory")
    return _CLASSES.get(status, MachineError)(failure_of(told))


def failure_of(told: RawFault) -> MachineFailure:
    """What the library tells of a call that failed."""
    refusal = told.refusal
    return MachineFailure(
        text=(told.text or b"").decode("utf-8", "replace"),
        stage=MachineStage(told.at),
        left=Left(told.left),
        errno=told.system_error or None,
        path=_path(told.path),
        fault=_fault(refusal.kind),
        place=_place(refusal.kind, refusal.place),
        inner_fault=None if refusal.inner_kind == NO_KIND else Fault(refusal.inner_kind),
        inner_place=_place(refusal.inner_kind, refusal.inner_place),
        second_errno=told.second_error or None,
        second_path=_path(told.second_path),
    )


def new_fault() -> RawFault:
    """A fault that a call can fill."""
    return RawFault(size=sizeof(RawFault))


def _path(told: Optional[bytes]) -> Optional[str]:
    return None if told is None else os.fsdecode(told)


def _place(kind: int, told: int) -> Optional[int]:
    return None if kind == NO_KIND or told == NO_PLACE else told


def _fault(kind: int) -> Union[Fault, MachineFault, None]:
    if kind == NO_KIND:
        return None
    return MachineFault(kind) if kind >= _OF_MACHINES else Fault(kind)
