"""How long it will take until all is done, by the goals that were reached so far, and in which words that is told.

There is a number only where something speaks for one: enough goals were reached in the last minutes, and what is left is
of machines that answer. When a machine comes back that is off, or is started, nobody knows."""

from __future__ import annotations

import math
from enum import Enum
from typing import NamedTuple, Sequence

WINDOW = 300.0
"""For how many seconds what was reached counts."""

LEAST_ENDED = 10
"""How many goals have to be reached in that time: of less the next few may be quite otherwise."""

LEAST_QUIET = 60.0
"""After how many seconds in which none was reached that is told."""

MINUTE, HOUR, DAY = 60.0, 3600.0, 86_400.0


class Standing(NamedTuple):
    """How it stands with the jobs of which something is or was left since the sender began: how many goals were asked for,
    were reached and have failed; how many are left of machines that answer; and how many machines with something left to
    be done don't answer, are to be started, or are in a wave that hasn't begun. And how many are in trouble.
    """

    asked: int
    reached: int
    failed: int
    left: int
    silent: int = 0
    waiting: int = 0
    later: int = 0
    trouble: int = 0

    @property
    def ended(self) -> int:
        return self.reached + self.failed

    def is_any(self) -> bool:
        """Whether anything is left to be done."""
        return bool(self.left or self.silent or self.waiting or self.later)


class Moment(NamedTuple):
    """How many goals had been reached, or had failed, at a time of a clock that nobody sets."""

    when: float
    ended: int


class Known(Enum):
    """Whether it is known how long it will take."""

    DONE = "nothing is left"
    ABOUT = "about so long"
    TOO_FEW = "too few goals were reached so far"
    STALLED = "none was reached for a while"
    WAITING = "what is left waits for something of which nobody knows when it happens"


class Estimate(NamedTuple):
    """How many seconds it will take, if that is known; or for how many none was reached."""

    known: Known
    seconds: float = 0.0


def estimate(standing: Standing, moments: Sequence[Moment]) -> Estimate:
    """How long it will take, by how it stands, and by moments, of which the last one is now. It isn't taken for shorter
    than the time for which none was reached."""
    if not standing.left:
        return Estimate(Known.WAITING if standing.is_any() else Known.DONE)
    now = moments[-1]
    since = next((it for it in reversed(moments) if it.when <= now.when - WINDOW), moments[0])
    quiet = now.when - next(it for it in moments if it.ended == now.ended).when
    ended = now.ended - since.ended
    if not ended and quiet >= LEAST_QUIET:
        return Estimate(Known.STALLED, quiet)
    if ended < LEAST_ENDED:
        return Estimate(Known.TOO_FEW)
    return Estimate(Known.ABOUT, max(standing.left * (now.when - since.when) / ended, quiet))


def duration(seconds: float) -> str:
    """A time in words, no more exact than it is known."""
    if seconds < MINUTE:
        return f"{max(10, 10 * math.ceil(seconds / 10))} seconds"
    for unit, size, most in (("minute", MINUTE, 90), ("hour", HOUR, 48)):
        count = math.ceil(seconds / size)
        if count < most:
            return f"{count} {unit}{'s' if count > 1 else ''}"
    return f"{math.ceil(seconds / DAY)} days"


def words(standing: Standing, found: Estimate) -> str:
    """How far it is, and how long it will take, on one line: what matters most first, as a terminal may cut it off."""
    told = f"{standing.reached:,} of {standing.asked:,} goals reached: {_time(found)}"
    held_up = _held_up(standing)
    if held_up:
        told += f"{BETWEEN.get(found.known, '; ')}{held_up}"
    return f"{told}; {_machines(standing.trouble)} in trouble" if standing.trouble else told


BETWEEN = {Known.ABOUT: ", not counting ", Known.WAITING: ": "}
"""What stands before the machines that aren't gone on with."""


def _held_up(standing: Standing) -> str:
    """The machines that have something left to be done, and aren't gone on with as most are."""
    counts = (
        (standing.silent, "not answering"),
        (standing.waiting, "waiting for a start"),
        (standing.later, "in later waves"),
    )
    told = [(count, what) for count, what in counts if count]
    first = [f"{_machines(count)} {what}" for count, what in told[:1]]
    return ", ".join(first + [f"{count:,} {what}" for count, what in told[1:]])


def _machines(count: int) -> str:
    return f"{count:,} machine{'' if count == 1 else 's'}"


def _time(found: Estimate) -> str:
    if found.known == Known.DONE:
        return "nothing else is left to be done"
    if found.known == Known.ABOUT:
        return f"about {duration(found.seconds)} left"
    if found.known == Known.TOO_FEW:
        return "too few for an estimate"
    if found.known == Known.STALLED:
        return f"no estimate, as none was reached for {duration(found.seconds)}"
    return "no estimate while all that is left waits"
