"""How the goals of the jobs that aren't done were reached as time went on."""

from __future__ import annotations

import json
from collections import Counter
from itertools import accumulate
from typing import Dict, Iterable, List, NamedTuple, Optional, Set, Tuple

from .ledger import Ledger
from .remaining import Standing

STEPS = 120
"""How many steps there are from the first job to now."""


class Progress(NamedTuple):
    """How many goals were asked for, were reached and had failed at the end of each step, from one time to another; and
    whether something is left to be done."""

    began: float
    ended: float
    is_open: bool
    asked: List[int]
    reached: List[int]
    failed: List[int]


class Span(NamedTuple):
    """A time in which jobs were gone after."""

    began: float
    ended: float

    def step(self, when: float) -> int:
        """In which step something was. What a clock that was set back says was before is in the first one."""
        passed = STEPS * (when - self.began) / (self.ended - self.began)
        return min(max(0, int(passed)), STEPS - 1)


def read_progress(ledger: Ledger, now: float) -> Optional[Progress]:
    """How it went with the jobs that aren't done, up to now, or if all are, with the last one; nothing without a job."""
    jobs, is_open = _jobs(ledger)
    if not jobs:
        return None
    goals = f"FROM goal JOIN job ON job.id = goal.job WHERE job IN ({','.join(map(str, jobs))})"
    first, last = ledger.one(f"SELECT MIN(made), MAX(ended) {goals} AND state != 'cancelled'")
    if first is None:
        return None
    ended = now if is_open else float(last or now)
    span = Span(float(first), max(ended, float(first) + 1))
    counts = {
        "asked": f"SELECT made, COUNT(*) {goals} AND state != 'cancelled' GROUP BY made",
        "reached": _ended_query(goals, "reached"),
        "failed": _ended_query(goals, "failed"),
    }
    found = {name: _sums(ledger, query, span) for name, query in counts.items()}
    return Progress(span.began, span.ended, is_open, **found)


def _jobs(ledger: Ledger) -> Tuple[List[int], bool]:
    """The jobs that aren't done, or else the last one, and whether something is left to be done of them."""
    query = (
        "SELECT job, SUM(state = 'open') FROM goal WHERE state IN ('open', 'failed') GROUP BY job"
    )
    left: Dict[int, int] = dict(ledger.db.execute(query))
    if left:
        return list(left), any(left.values())
    (last,) = ledger.one("SELECT MAX(job) FROM goal")
    return ([] if last is None else [int(last)]), False


def _ended_query(goals: str, state: str) -> str:
    return f"SELECT CAST(ended AS INTEGER), COUNT(*) {goals} AND state = '{state}' GROUP BY 1"


def _sums(ledger: Ledger, query: str, span: Span) -> List[int]:
    """How many there were up to the end of each step, by a query for times and how many."""
    counts = [0] * STEPS
    for when, count in ledger.db.execute(query):
        counts[span.step(span.ended if when is None else when)] += count
    return list(accumulate(counts))


def read_open_jobs(ledger: Ledger) -> Set[int]:
    """The jobs of which something is left to be done."""
    return {
        job for (job,) in ledger.db.execute("SELECT DISTINCT job FROM goal WHERE state = 'open'")
    }


def read_standing(
    ledger: Ledger, jobs: Iterable[int], silent: Iterable[str], now: float
) -> Standing:
    """How it stands with jobs, all that aren't done among them, by the machines that don't answer the sender that asks;
    those that are left for a while don't either."""
    query = (
        f"SELECT state, COUNT(*) FROM goal WHERE job IN ({','.join(map(str, jobs))}) GROUP BY state"
    )
    goals: Dict[str, int] = dict(ledger.db.execute(query))
    held_up = _held_up(ledger, silent, now)
    query = "SELECT machine, COUNT(*) FROM goal WHERE state = 'open' AND machine IN (SELECT value FROM json_each(?))"
    names = (json.dumps(list(held_up)),)
    left: Dict[str, int] = dict(ledger.db.execute(f"{query} GROUP BY machine", names))
    machines = Counter(held_up[name] for name in left)
    return Standing(
        sum(goals.values()) - goals.get("cancelled", 0),
        goals.get("reached", 0),
        goals.get("failed", 0),
        goals.get("open", 0) - sum(left.values()),
        machines["silent"],
        machines["waiting"],
        machines["later"],
        sum(kind == "trouble" for kind in held_up.values()),
    )


def _held_up(ledger: Ledger, silent: Iterable[str], now: float) -> Dict[str, str]:
    """The machines that aren't gone on with, as most are, and why."""
    later = -1 if ledger.waves() is None else ledger.begun_wave()
    query = "SELECT DISTINCT machine FROM goal WHERE state = 'open' AND note IS NOT NULL"
    kinds: Dict[str, Iterable[str]] = {
        "trouble": _names(ledger, "SELECT name FROM machine WHERE trouble IS NOT NULL"),
        "later": _names(ledger, "SELECT name FROM machine WHERE wave > ?", later),
        "waiting": _names(ledger, query),
        "silent": [*silent, *_names(ledger, "SELECT name FROM machine WHERE due > ?", now)],
    }
    held_up: Dict[str, str] = {}
    for kind, names in kinds.items():
        for name in names:
            held_up.setdefault(name, kind)
    return held_up


def _names(ledger: Ledger, query: str, *values: object) -> List[str]:
    return [name for (name,) in ledger.db.execute(query, values)]
