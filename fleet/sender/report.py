"""How far a sender is, told while it runs: on a terminal in the last line, and elsewhere, as in a journal, by a line now and
then, unless it is the same as before."""

from __future__ import annotations

import math
import time
from collections import deque
from typing import Callable, Deque, List, Optional, Set

from .ledger import Ledger
from .progress import read_open_jobs, read_standing
from .remaining import WINDOW, Moment, Standing, estimate, words
from .telling import Teller

LOOK_EVERY, LINE_EVERY = 2.0, 60.0
"""After how many seconds it is looked anew how far it is, and a line is written where there is no terminal."""

SELDOM = 100
"""How many times as long as a look took nobody looks after it, so that it costs little however many machines there are."""


class Report:
    """Tells now and then how far a sender is."""

    def __init__(self, ledger: Ledger, teller: Teller) -> None:
        self.ledger, self.teller = ledger, teller
        self.jobs: Set[int] = set()
        self.moments: Deque[Moment] = deque()
        self.later = 0
        self.told = -WINDOW
        self.due = -math.inf
        self.line = ""

    def tell(self, silent: Callable[[], List[str]], now: float, day: float) -> None:
        """Tells how far it is if it is time for that, by the machines that don't answer, a clock that nobody sets, and
        the time of day."""
        if now < self.due:
            return
        began = time.thread_time()
        standing = self._look(silent(), now, day)
        self.due = now + max(LOOK_EVERY, SELDOM * (time.thread_time() - began))
        if standing is None:
            self.teller.show("")
            self.told = now
            return
        line = words(standing, estimate(standing, self.moments))
        if self.teller.is_terminal():
            self.teller.show(line)
        elif now >= self.told + LINE_EVERY and line != self.line:
            self.told, self.line = now, line
            self.teller.say(line)

    def _look(self, silent: List[str], now: float, day: float) -> Optional[Standing]:
        """How it stands, unless nothing is left to be done. What was reached before that, or in an earlier wave, says
        nothing of how fast it goes now."""
        self.jobs |= read_open_jobs(self.ledger)
        standing = read_standing(self.ledger, self.jobs, silent, day) if self.jobs else None
        if standing is None or not standing.is_any():
            self.jobs.clear()
            self.moments.clear()
            return None
        if standing.later != self.later or not standing.left:
            self.moments.clear()
        self.later = standing.later
        self.moments.append(Moment(now, standing.ended))
        while len(self.moments) > 1 and self.moments[1].when <= now - WINDOW:
            self.moments.popleft()
        return standing

    def end(self) -> None:
        """Leaves no line on a terminal that will be written over."""
        self.teller.show("")
