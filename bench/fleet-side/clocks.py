"""Clocks of `bench/fleet` that somebody sets: the time of day of a process and of those that it starts is true but for so
many seconds (clock.c). What measures how long something takes goes on as it is."""

from __future__ import annotations

import struct
import subprocess
from pathlib import Path
from typing import List

SOURCE = Path(__file__).resolve().parent / "clock.c"

COMPILER = "cc"

STEPS = (20, 600, 3 * 3600, 3 * 86_400, 400 * 86_400)
"""By how many seconds a clock is set, forth or back."""


class Clocks:
    """Clocks by their names, each with a file that says by how much it is wrong."""

    def __init__(self, folder: Path) -> None:
        folder.mkdir()
        self.folder, self.library = folder, folder / "clock.so"
        words = [COMPILER, "-std=c11", "-O2", "-shared", "-fPIC", "-o", self.library, SOURCE]
        subprocess.run(list(map(str, words)), check=True)

    def _file(self, name: str) -> Path:
        return self.folder / f"{name}.clock"

    def words(self, name: str) -> List[str]:
        """What a process is told whose clock this is, as words of env."""
        if not self._file(name).exists():
            self._file(name).write_bytes(bytes(8))
        return [f"LD_PRELOAD={self.library}", f"BENCH_CLOCK={self._file(name)}"]

    def set(self, name: str, seconds: int) -> None:
        """Sets a clock, which is wrong by so many seconds from now on. Processes have the file in their memory, so it is
        written where it is."""
        with self._file(name).open("r+b", buffering=0) as out:
            out.write(struct.pack("<q", seconds))
