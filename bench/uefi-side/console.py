"""A machine of qemu with OVMF whose console is a serial line: what its screen shows, and keys that are sent to it."""

from __future__ import annotations

import os
import re
import select
import subprocess
import time
from pathlib import Path
from typing import List

COLUMNS, LINES = 160, 60

PATIENCE = 600
"""For how many seconds what has to be shown is waited for. A start takes ten of a processor with nothing else to do."""

SEQUENCE = re.compile(rb"\x1b\[([?=0-9;]*)([A-Za-z])|\x1b[^\[]")
"""What a terminal of the kind that OVMF takes this one for does without showing it."""

UNFINISHED = re.compile(rb"\x1b(\[[?=0-9;]*)?\Z")

KEYS = {"up": b"\x1b[A", "down": b"\x1b[B", "enter": b"\r", "escape": b"\x1b"}


class Ended(Exception):
    """Why there is nothing more to be shown."""


class Screen:
    """What a terminal shows of the bytes that it gets."""

    def __init__(self) -> None:
        self.rows = [[" "] * COLUMNS for _ in range(LINES)]
        self.row = self.column = 0
        self.rest = b""

    def take(self, data: bytes) -> None:
        """Takes the next bytes."""
        data = self.rest + data
        cut = UNFINISHED.search(data)
        self.rest = data[cut.start() :] if cut else b""
        data = data[: len(data) - len(self.rest)]
        at = 0
        for found in SEQUENCE.finditer(data):
            self._write(data[at : found.start()])
            self._obey(found)
            at = found.end()
        self._write(data[at:])

    def _obey(self, found: "re.Match[bytes]") -> None:
        if found[2] is None:
            return
        numbers = [int(it) for it in found[1].split(b";") if it.isdigit()]
        first = numbers[0] if numbers else 1
        letter = found[2]
        if letter == b"H":
            self.row, self.column = (it - 1 for it in (numbers + [1, 1])[:2])
        elif letter == b"J":
            self.rows = [[" "] * COLUMNS for _ in range(LINES)]
        elif letter in (b"C", b"D"):
            self.column += first if letter == b"C" else -first

    def _write(self, text: bytes) -> None:
        for byte in text:
            if byte == 13:
                self.column = 0
            elif byte == 10:
                self.row = min(self.row + 1, LINES - 1)
            elif byte == 8:
                self.column -= 1
            elif 32 <= byte < 127:
                if self.column < COLUMNS and self.row < LINES:
                    self.rows[self.row][self.column] = chr(byte)
                self.column += 1

    def lines(self) -> List[str]:
        """The lines, without spaces at their ends."""
        return ["".join(row).rstrip() for row in self.rows]


class Machine:
    """A machine that runs, with a variable file and a folder as its disk."""

    def __init__(self, code: Path, variables: Path, disk: Path) -> None:
        self.screen = Screen()
        self.said = b""
        self.process = subprocess.Popen(
            ["qemu-system-x86_64", "-machine", "q35,accel=tcg", "-cpu", "max", "-m", "256"]
            + ["-nodefaults", "-no-user-config", "-display", "none", "-net", "none"]
            + ["-serial", "stdio", "-monitor", "none", "-no-reboot"]
            + ["-drive", f"if=pflash,unit=0,format=raw,readonly=on,file={code}"]
            + ["-drive", f"if=pflash,unit=1,format=raw,file={variables}"]
            + ["-drive", f"if=none,id=disk,format=raw,readonly=on,file=fat:{disk}"]
            + ["-device", "virtio-blk-pci,addr=5,drive=disk"],
            stdin=subprocess.PIPE,
            stdout=subprocess.PIPE,
            stderr=subprocess.STDOUT,
        )

    def send(self, key: str) -> None:
        """Sends a key: a character or one of KEYS."""
        assert self.process.stdin is not None
        self.process.stdin.write(KEYS.get(key, key.encode()))
        self.process.stdin.flush()

    def await_text(self, text: str, times: int = 1, since: int = 0) -> None:
        """Waits until the text came so many times after a place of what was said.

        Raises Ended if it doesn't come."""
        until = time.monotonic() + PATIENCE
        while self.said.count(text.encode(), since) < times:
            self._read(until)

    def _read(self, until: float) -> None:
        assert self.process.stdout is not None
        ready, _, _ = select.select(
            [self.process.stdout], [], [], max(0.0, until - time.monotonic())
        )
        if not ready:
            raise Ended(f"nothing for {PATIENCE} seconds: {self.screen.lines()}")
        data = os.read(self.process.stdout.fileno(), 1 << 16)
        if not data:
            raise Ended(f"the machine ended: {self.said[-500:]!r}")
        self.said += data
        self.screen.take(data)

    def end(self) -> None:
        """Turns the machine off."""
        self.process.kill()
        self.process.wait()
