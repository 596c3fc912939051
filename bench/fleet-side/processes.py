"""The processes of `bench/fleet`: each is killed by its number, and none outlives the bench. Once a group of processes has
ended, another one may get its number, so each has a mark in its environment, by which it is known."""

from __future__ import annotations

import os
import secrets
import signal
import subprocess
import time
from pathlib import Path
from typing import Dict, List, NamedTuple

TICK = os.sysconf("SC_CLK_TCK")

MARK = "BENCH_PROCESSES"
"""The name of the mark, which each process hands on to those that it starts."""

ENDED_WITHIN = 5
"""For how many seconds it is waited until all that is killed has ended."""


class Spent(NamedTuple):
    """Seconds of a processor: of a process, and of those that it waited for."""

    own: float
    children: float


class Memory(NamedTuple):
    """KiB of memory: all that is mapped, and what is of this process alone."""

    resident: int
    private: int


class Started(NamedTuple):
    """What was started: the number of the process, which its group has too, and the mark of all that are in the group."""

    number: int
    mark: str


class Processes:
    """Processes by their names, each with a group of its own."""

    def __init__(self, folder: Path) -> None:
        self.folder, self.mark, self.count = folder, f"{MARK}={secrets.token_hex(8)}", 0
        self.running: Dict[str, "subprocess.Popen[bytes]"] = {}
        self.started: Dict[str, List[Started]] = {}

    def start(self, name: str, words: List[str]) -> "subprocess.Popen[bytes]":
        """Starts a program. It is killed if the bench is."""
        self.count += 1
        mark = f"{self.mark}.{self.count}."
        with open(self.folder / f"{name}.log", "ab") as log:
            made = subprocess.Popen(
                ["setpriv", "--pdeathsig", "KILL", "--", *words],
                stdin=subprocess.DEVNULL,
                stdout=log,
                stderr=subprocess.STDOUT,
                start_new_session=True,
                env={**os.environ, MARK: mark.partition("=")[2]},
            )
        self.running[name] = made
        self.started.setdefault(name, []).append(Started(made.pid, mark))
        return made

    def log(self, name: str) -> str:
        return (self.folder / f"{name}.log").read_text(errors="replace")

    def kill(self, name: str) -> None:
        """Kills a process, and not what it has started."""
        self.running[name].kill()
        self.running[name].wait()

    def kill_group(self, name: str) -> None:
        """Kills a process with all that it has started, as far as it hasn't ended."""
        made = self.running[name]
        if made.poll() is None:
            os.killpg(made.pid, signal.SIGKILL)
        else:
            self._kill(self._there(self.started[name][-1]))
        made.wait()

    def await_quiet(self, name: str, seconds: float) -> bool:
        """Waits for so long until nothing is at work that a process has started, nor what one before it by this name has.
        Whether that is so."""
        until = time.monotonic() + seconds
        while self._is_at_work(name):
            if time.monotonic() > until:
                return False
            time.sleep(0.01)
        return True

    def _is_at_work(self, name: str) -> bool:
        started = self.started.get(name, [])
        if not started:
            return False
        self.started[name] = [it for it in started[:-1] if self._there(it)] + started[-1:]
        if len(self.started[name]) > 1:
            return True
        has_ended = self.running[name].poll() is not None
        return bool(self._there(started[-1]) if has_ended else children(started[-1].number))

    def spent(self, name: str) -> Spent:
        fields = self._stat(self.running[name].pid)
        return Spent((fields[11] + fields[12]) / TICK, (fields[13] + fields[14]) / TICK)

    def memory(self, name: str) -> Memory:
        held: Dict[str, int] = {}
        path = f"/proc/{self.running[name].pid}/smaps_rollup"
        for line in Path(path).read_text().splitlines()[1:]:
            key, value, *_ = line.split()
            held[key] = int(value)
        return Memory(held["Rss:"], held["Private_Clean:"] + held["Private_Dirty:"])

    @staticmethod
    def _stat(pid: int) -> List[int]:
        """The fields of a process from its state on."""
        text = Path(f"/proc/{pid}/stat").read_text()
        return [
            int(it) if it.lstrip("-").isdigit() else 0 for it in text.rpartition(")")[2].split()
        ]

    def end(self) -> int:
        """Kills all, and gives how many are left after that."""
        until = time.monotonic() + ENDED_WITHIN
        while self.left() and time.monotonic() < until:
            self._kill(marked(self.mark))
            time.sleep(0.05)
        for made in self.running.values():
            made.wait()
        return self.left()

    def left(self) -> int:
        """How many processes there are."""
        return len(marked(self.mark))

    @staticmethod
    def _there(started: Started) -> List[int]:
        """What is there of what was started."""
        return marked(started.mark) if is_there(started.number) else []

    @staticmethod
    def _kill(processes: List[int]) -> None:
        for process in processes:
            try:
                os.kill(process, signal.SIGKILL)
            except ProcessLookupError:
                pass


def marked(mark: str) -> List[int]:
    """The processes with a variable in their environment that begins so. One that has ended has none."""
    found = []
    for folder in Path("/proc").glob("[0-9]*"):
        try:
            variables = (folder / "environ").read_bytes().split(b"\0")
        except OSError:
            continue  # It is gone, or somebody else's.
        if any(it.startswith(mark.encode()) for it in variables):
            found.append(int(folder.name))
    return found


def is_there(group: int) -> bool:
    """Whether there is a process in a group, perhaps another one that got the number."""
    try:
        os.killpg(group, 0)
    except ProcessLookupError:
        return False
    except PermissionError:
        pass
    return True


def children(pid: int) -> List[int]:
    """The processes that one has started and that haven't ended."""
    found = []
    try:
        for it in Path(f"/proc/{pid}/task").iterdir():
            found += [int(child) for child in (it / "children").read_text().split()]
    except OSError:
        return []  # It has ended.
    return [child for child in found if not has_ended(child)]


def has_ended(pid: int) -> bool:
    try:
        return Path(f"/proc/{pid}/stat").read_text().rpartition(")")[2].split()[0] == "Z"
    except OSError:
        return True
