"""What holds memory of the library until it is closed."""

from __future__ import annotations

import warnings
from types import TracebackType
from typing import Any, ClassVar, Optional, Tuple, Type, TypeVar

_Self = TypeVar("_Self", bound="Owned")


class Owned:
    """A handle with one owner: it isn't copied, the end of ``with`` closes it, and so does the thread that collects it,
    which then warns."""

    #: What it is called.
    _called: ClassVar[str]
    _handle: Any = None

    def close(self) -> None:
        """Gives up what it holds."""
        raise NotImplementedError

    def __enter__(self: _Self) -> _Self:
        return self

    def __exit__(
        self,
        kind: Optional[Type[BaseException]],
        error: Optional[BaseException],
        trace: Optional[TracebackType],
    ) -> None:
        self.close()

    def __del__(self) -> None:
        if self._handle is None or not self._handle.is_open:
            return
        warnings.warn(f"{self!r} was never closed", ResourceWarning, source=self)
        self.close()

    def __copy__(self: _Self) -> _Self:
        raise TypeError(f"{self._called} has one owner, and is not copied")

    def __deepcopy__(self: _Self, memo: object) -> _Self:
        return self.__copy__()

    def __reduce__(self) -> Tuple[Any, ...]:
        raise TypeError(f"{self._called} has one owner, and is not copied")
