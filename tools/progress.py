"""How far a build is, and how long it may still take."""

from __future__ import annotations

import contextlib
import os
import re
import threading
import time
from pathlib import Path
from typing import Callable, Dict, Iterator, List

from repository import ROOT, Crate, crates_below

FIGURES = re.compile(r"^\| `(\w+)` \| ([\d,]+) \|", re.MULTILINE)
"""A row of the table of what proofs cost: a crate, and the seconds of processor time for its proof."""

UNKNOWN = 60
"""The seconds that are taken for a crate of which the table has no row."""

STEP = re.compile(r"^(?:so far:|checked .*,) (\d+) of (\d+)\b")
"""What `rt` says as it goes."""

EACH = 10
"""After how many seconds a new line may be told."""

QUIET = 60
"""After how many seconds a line is told though nothing is new."""


def proof_seconds(root: Path = ROOT) -> Dict[str, int]:
    """The seconds of processor time that each crate's proof took when docs/performance.md was measured."""
    page = (root / "docs" / "performance.md").read_text(encoding="utf-8")
    section = page.partition("\n## What proofs cost\n")[2].partition("\n## ")[0]
    return {name: int(figure.replace(",", "")) for name, figure in FIGURES.findall(section)}


class Progress:
    """What is known of a build of some crates, each after those that it stands on."""

    def __init__(
        self,
        name: str,
        wanted: List[str],
        crates: Dict[str, Crate],
        say: Callable[[str, str], None],
        seconds: Callable[[], Dict[str, int]] = proof_seconds,
        clock: Callable[[], float] = time.monotonic,
    ) -> None:
        known = seconds()
        self.name, self.say, self.clock = name, say, clock
        self.seconds = {it: float(known.get(it, UNKNOWN)) for it in wanted}
        self.below = {
            it: [low for low in crates_below(it, crates) if low in wanted] for it in wanted
        }
        self.lanes = len(os.sched_getaffinity(0))
        self.steps: Dict[str, "tuple[int, int]"] = {}
        self.done: List[str] = []
        self.begun = clock()
        self.lock = threading.Lock()

    def begin(self, crate: str) -> None:
        """A crate's proof begins."""
        with self.lock:
            self.steps[crate] = (0, 1)

    def tell(self, crate: str, line: str) -> None:
        """`rt` says something of a crate's proof."""
        step = STEP.match(line)
        if step:
            with self.lock:
                self.steps[crate] = (int(step[1]), max(1, int(step[2])))

    def end(self, crate: str) -> None:
        """A crate is proved."""
        with self.lock:
            self.steps.pop(crate, None)
            self.done.append(crate)

    def passed(self) -> str:
        """How long it took so far."""
        return _duration(self.clock() - self.begun)

    def outlook(self) -> str:
        """How long all of it may take, before it begins."""
        crates = "1 crate" if len(self.seconds) == 1 else f"{len(self.seconds)} crates"
        return f"{crates}, about {_duration(self._model(self.seconds))}"

    def line(self) -> str:
        """How far it is."""
        with self.lock:
            left = self._left()
            at_work = [
                f"{crate} {done} of {of}" if of > 1 else crate
                for crate, (done, of) in self.steps.items()
            ]
            behind = self._model(self.seconds) - self._model(left)
            # Too little is done at first to tell how fast this machine is.
            scale = (self.clock() - self.begun) / behind if behind > UNKNOWN else 1.0
            return (
                f"{len(self.done)} of {len(self.seconds)} crates proved, "
                f"about {_duration(scale * self._model(left))} left: {', '.join(at_work)}"
            )

    def _left(self) -> Dict[str, float]:
        """The seconds that are left of each crate, by the table."""
        left = {}
        for crate, seconds in self.seconds.items():
            done, of = self.steps.get(crate, (0, 1))
            left[crate] = 0.0 if crate in self.done else seconds * (1 - done / of)
        return left

    def _model(self, seconds: Dict[str, float]) -> float:
        """How long so much takes: the longest chain of crates, or all of it over all processors."""
        ends: Dict[str, float] = {}
        for crate in self.seconds:
            before = (ends[low] for low in self.below[crate])
            ends[crate] = seconds[crate] + max(before, default=0.0)
        return max(max(ends.values()), sum(seconds.values()) / self.lanes)

    @contextlib.contextmanager
    def shown(self) -> Iterator[None]:
        """Tells how far it is, now and then, until what is inside has ended."""
        ended = threading.Event()
        thread = threading.Thread(target=self._show, args=(ended,), daemon=True)
        thread.start()
        try:
            yield
        finally:
            ended.set()
            thread.join()

    def _show(self, ended: threading.Event) -> None:
        shown, at = "", self.clock()
        while not ended.wait(EACH):
            line = self.line()
            if line != shown or self.clock() - at >= QUIET:
                shown, at = line, self.clock()
                self.say(self.name, line)


def _duration(seconds: float) -> str:
    """A time for a person."""
    if seconds < 90:
        return f"{round(seconds)} seconds"
    return f"{round(seconds / 60)} minutes"
