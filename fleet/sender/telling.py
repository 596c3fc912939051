"""Standard error: lines that stay, and on a terminal perhaps a last one that is written over."""

from __future__ import annotations

import os
import shutil
import sys
import threading
from typing import Optional, TextIO

CLEAR = "\r\033[K"
"""What has a terminal forget its last line."""


class Teller:
    """Standard error, with lines that stay, and on a terminal perhaps a last one that doesn't. Any thread may tell."""

    def __init__(self, stream: Optional[TextIO] = None) -> None:
        self._stream = stream
        self._lock = threading.Lock()
        self._shown = ""

    @property
    def stream(self) -> TextIO:
        return sys.stderr if self._stream is None else self._stream

    def is_terminal(self) -> bool:
        return self.stream.isatty() and os.environ.get("TERM", "dumb") != "dumb"

    def say(self, what: str) -> None:
        """Tells a line that stays."""
        with self._lock:
            clear = CLEAR if self._shown else ""
            print(f"{clear}bootfleet: {what}\n{self._shown}", end="", file=self.stream, flush=True)

    def show(self, what: str) -> None:
        """Shows something in the last line of a terminal, in place of what is there."""
        columns = shutil.get_terminal_size().columns
        line = f"bootfleet: {what}"[: max(1, columns - 1)] if what else ""
        with self._lock:
            if line != self._shown:
                self._shown = line
                print(f"{CLEAR}{line}", end="", file=self.stream, flush=True)
