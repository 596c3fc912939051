"""Set files that are kept by requests."""

from __future__ import annotations

import fcntl
import os
import stat
from contextlib import ExitStack, contextmanager, suppress
from pathlib import Path
from types import TracebackType
from typing import Iterator, Optional, Type, Union

from ._buffers import Bytes
from ._keepers import Keeper, Reply
from ._requests import BootRequest, Frame
from ._sets import BootVariables


@contextmanager
def _opened(folder: Path) -> Iterator[int]:
    """A folder that is open meanwhile."""
    number = os.open(folder, os.O_RDONLY | os.O_DIRECTORY | os.O_CLOEXEC)
    try:
        yield number
    finally:
        os.close(number)


def _lock(path: Path) -> int:
    """Opens a file, and locks it as `bootkeep run` does, for which it waits. ``ValueError`` is of what is no regular file."""
    while True:
        if not stat.S_ISREG(path.lstat().st_mode):
            raise ValueError(f"{path} is no file")
        number = os.open(path, os.O_RDONLY | os.O_NOFOLLOW | os.O_NONBLOCK | os.O_CLOEXEC)
        try:
            fcntl.flock(number, fcntl.LOCK_EX)
            # Who had it may have replaced the file meanwhile.
            if os.path.samestat(os.fstat(number), path.lstat()):
                return number
        except BaseException:
            os.close(number)
            raise
        os.close(number)


def _make_other(path: Path, other: Path) -> int:
    """Makes the file `other`, which is to take the place of a file, with the rights and the owner of that one. What a
    program that was killed left under this name goes. No link is followed: what it leads to isn't touched.
    """
    old = path.lstat()
    with suppress(FileNotFoundError):
        other.unlink()
    flags = os.O_WRONLY | os.O_CREAT | os.O_EXCL | os.O_NOFOLLOW | os.O_CLOEXEC
    number = os.open(other, flags, 0o600)
    os.fchown(number, old.st_uid, old.st_gid)
    os.fchmod(number, stat.S_IMODE(old.st_mode))
    return number


def _replace(path: Path, data: bytes, folder: int) -> int:
    """Replaces a file by one of these bytes, which is there as a whole or not at all, also if power fails. The new file is
    locked before it is there, and what it gives is open on it."""
    other = path.with_name(path.name + ".new")
    number = _make_other(path, other)
    try:
        fcntl.flock(number, fcntl.LOCK_EX)
        with os.fdopen(os.dup(number), "wb") as file:
            file.write(data)
            file.flush()
            os.fsync(file.fileno())
        other.replace(path)
        os.fsync(folder)
    except BaseException:
        os.close(number)
        raise
    return number


class SetFile:
    """A set file that is kept by numbered requests::

        with bootkeep.SetFile("set") as kept:
            for frame in bootkeep.frames(sys.stdin.buffer):
                print(kept.deliver(frame), flush=True)

    From ``with`` on it has a lock on the file's folder, and one on the file, for which it waits: another program that
    keeps files there, and ``bootkeep run`` over this one, wait until the end of ``with``. A reply is given once the
    variables after it are stored, BootKeepState among them: so whoever has it knows that its request is stored, also if
    power fails. The file is replaced as a whole, with the rights and the owner that it had.

    ``ValueError`` is of a path that leads to no regular file, as a link; ``OSError`` of what the system refuses; and
    ``Refused`` as of :class:`Keeper`. If the variables can't be stored, ``OSError`` is raised in the place of the reply,
    and what is kept from there on is what was stored before: the request has to be delivered again, and what waited too.
    """

    def __init__(self, path: Union[str, "os.PathLike[str]"]) -> None:
        self._path = Path(path)
        self._held = ExitStack()
        self._folder = self._file = -1
        self._stored = b""
        self._keeper: Optional[Keeper] = None

    def __enter__(self) -> SetFile:
        if self._keeper is not None:
            raise ValueError(f"{self._path} is kept already")
        with ExitStack() as held:
            self._folder = held.enter_context(_opened(self._path.parent))
            fcntl.flock(self._folder, fcntl.LOCK_EX)
            self._file = _lock(self._path)
            held.callback(self._unlock)
            self._stored = self._path.read_bytes()
            self._keeper = Keeper(self._stored)
            self._held = held.pop_all()
        return self

    def __exit__(
        self,
        kind: Optional[Type[BaseException]],
        error: Optional[BaseException],
        trace: Optional[TracebackType],
    ) -> None:
        if self._keeper is not None:
            self._keeper.close()
            self._keeper = None
        self._held.close()

    def _unlock(self) -> None:
        os.close(self._file)
        self._file = -1

    @property
    def keeper(self) -> Keeper:
        """The keeper of the file's variables. An event that it is given isn't stored. ``ValueError`` is of one that is
        asked for outside of ``with``."""
        if self._keeper is None:
            raise ValueError(f"{self._path} is kept in the block of `with` alone")
        return self._keeper

    @property
    def variables(self) -> BootVariables:
        """The variables that are stored."""
        return BootVariables.from_bytes(self._stored)

    def deliver(self, frame: Union[Frame, Bytes]) -> Reply:
        """These bytes are delivered, which may be a frame, and what comes of them is stored."""
        return self._store(self.keeper.deliver(frame))

    def request(self, request: BootRequest) -> Reply:
        """The request is applied, with the next number, and what comes of it is stored. Faults as of
        :meth:`BootRequest.frame`."""
        return self._store(self.keeper.request(request))

    def _store(self, reply: Reply) -> Reply:
        """Stores the keeper's variables, and gives the reply. If they can't be, those that are stored are kept from here
        on."""
        variables = self.keeper.set
        if variables == self._stored:
            return reply
        try:
            file = _replace(self._path, variables, self._folder)
        except OSError:
            self.keeper.close()
            self._keeper = Keeper(self._stored)
            raise
        self._unlock()
        self._file = file
        self._stored = variables
        return reply
