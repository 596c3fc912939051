"""How it stands: the jobs and the machines of a ledger, as a table, as JSON, and as what can be measured."""

from __future__ import annotations

import json
import os
import tempfile
import time
from collections import Counter
from pathlib import Path
from typing import Any, Dict, List, NamedTuple, Optional, Tuple

from .endings import Ending, ending_soon
from .entries import entry_name
from .goals import Goal
from .ledger import Ledger
from .progress import Progress, read_progress

STATES = ("reached", "open", "failed", "cancelled")


class JobStatus(NamedTuple):
    """How many machines of a job are in each state."""

    job: int
    goal: str
    counts: Dict[str, int]


class MachineStatus(NamedTuple):
    """How a machine stands."""

    name: str
    state: str
    job: Optional[int]
    goals: Dict[str, int]
    entry: Optional[str]
    next: int
    journal: Optional[str]
    sent: int
    age: Optional[int]
    why: Optional[str]


class WaveStatus(NamedTuple):
    """How many machines of a wave have nothing left to be done, have something, and are in trouble; and whether the wave
    is `done`, `begun`, `waiting` or `stopped`."""

    wave: int
    state: str
    done: int
    open: int
    trouble: int


class Status(NamedTuple):
    """How it stands with all of a ledger."""

    jobs: List[JobStatus]
    machines: List[MachineStatus]
    now: float
    endings: List[Ending]
    waves: List[WaveStatus]
    progress: Optional[Progress]

    def goals(self, state: str) -> int:
        return sum(job.counts[state] for job in self.jobs)

    def count(self, state: str) -> int:
        """How many machines are in a state."""
        return sum(machine.state == state for machine in self.machines)


RANK = {"trouble": 0, "waiting": 1, "asked": 2, "open": 3, "quiet": 4}
"""The states of machines, the most urgent first: in trouble; to be started; sent a request; with something to be done; and
without."""


def read_status(ledger: Ledger) -> Status:
    """How it stands, at one moment."""
    now = time.time()
    endings = ending_soon(Path(ledger.setting("certs") or ""), now)
    with ledger.transaction():
        machines = sorted(_machines(ledger, now), key=lambda it: (RANK[it.state], it.name))
        waves, progress = _waves(ledger, machines), read_progress(ledger, now)
        return Status(_jobs(ledger), machines, now, endings, waves, progress)


def _waves(ledger: Ledger, machines: List[MachineStatus]) -> List[WaveStatus]:
    wave_of = dict(ledger.db.execute("SELECT name, wave FROM machine WHERE wave IS NOT NULL"))
    counts: Dict[int, Counter[str]] = {wave: Counter() for wave in sorted(set(wave_of.values()))}
    for machine in machines:
        if machine.name in wave_of:
            counts[wave_of[machine.name]][machine.state] += 1
    is_stopped, begun = ledger.is_stopped(), ledger.begun_wave()
    found = []
    for wave, of in counts.items():
        left = of["waiting"] + of["asked"] + of["open"]
        if left and is_stopped:
            state = "stopped"
        else:
            state = "done" if not left else "begun" if wave <= begun else "waiting"
        found.append(WaveStatus(wave + 1, state, of["quiet"], left, of["trouble"]))
    return found


def _jobs(ledger: Ledger) -> List[JobStatus]:
    counts: Dict[int, Dict[str, int]] = {}
    for job, state, count in ledger.db.execute(
        "SELECT job, state, COUNT(*) FROM goal GROUP BY job, state"
    ):
        counts.setdefault(job, dict.fromkeys(STATES, 0))[state] = count
    goals = dict(ledger.db.execute("SELECT id, goal FROM job"))
    return [JobStatus(job, str(Goal.from_json(goals[job])), counts[job]) for job in sorted(counts)]


def _machines(ledger: Ledger, now: float) -> List[MachineStatus]:
    goals: Dict[str, Dict[str, int]] = {}
    first: Dict[str, int] = {}
    last: Dict[str, Tuple[int, Optional[int]]] = {}
    waits: Dict[str, str] = {}
    for name, job, state, entry, note in ledger.db.execute(
        "SELECT machine, job, state, entry, note FROM goal ORDER BY machine, job"
    ):
        held = goals.setdefault(name, dict.fromkeys(STATES, 0))
        held[state] += 1
        if state in ("open", "failed"):
            first.setdefault(name, job)
        if state == "open" and note is not None:
            waits[name] = f"waits for {note}"
        if entry is not None:
            last[name] = (job, entry)
    sent = _sent(ledger)
    found = []
    for name, following, journal, seen, note, trouble in ledger.db.execute(
        "SELECT name, next, journal, seen, note, trouble FROM machine"
    ):
        state = _state(trouble, sent.get(name, 0), name in waits, name in first)
        found.append(
            MachineStatus(
                name,
                state,
                first.get(name),
                goals.get(name, dict.fromkeys(STATES, 0)),
                entry_name(last[name][1]) if name in last else None,
                following,
                journal,
                sent.get(name, 0),
                None if seen is None else max(0, int(now - seen)),
                trouble or note or waits.get(name),
            )
        )
    return found


def _sent(ledger: Ledger) -> Dict[str, int]:
    """How many requests each machine was sent that aren't answered."""
    query = "SELECT machine, COUNT(*) FROM request WHERE state = 'sent' GROUP BY machine"
    return dict(ledger.db.execute(query))


def _state(trouble: Optional[str], sent: int, is_waiting: bool, is_open: bool) -> str:
    if trouble is not None:
        return "trouble"
    if sent:
        return "asked"
    return "waiting" if is_waiting else "open" if is_open else "quiet"


def as_json(status: Status) -> str:
    """All of it as one object."""
    held: Dict[str, Any] = {
        "time": int(status.now),
        "jobs": [job._asdict() for job in status.jobs],
        "machines": [machine._asdict() for machine in status.machines],
        "waves": [wave._asdict() for wave in status.waves],
        "certificates": [ending._asdict() for ending in status.endings],
    }
    return json.dumps(held)


def age(seconds: Optional[int]) -> str:
    """How long ago something was, in a few characters."""
    if seconds is None:
        return "never"
    for unit, size in (("d", 86_400), ("h", 3600), ("m", 60)):
        if seconds >= 2 * size:
            return f"{seconds // size}{unit}"
    return f"{seconds}s"


def counts_line(status: Status) -> str:
    goals = ", ".join(f"{status.goals(it)} {it}" for it in STATES if status.goals(it)) or "none"
    told = [f"{len(status.machines)} machines", f"{status.count('trouble')} in trouble"]
    if status.count("waiting"):
        told.append(f"{status.count('waiting')} waiting for a start")
    return f"{', '.join(told)}; goals: {goals}"


def endings_line(status: Status) -> str:
    """Which certificates end soon, or have ended."""
    told = [
        f"{it.name} {'has ended' if it.days < 0 else f'in {it.days} days'}" for it in status.endings
    ]
    return f"certificates end: {', '.join(told)}"


def as_table(status: Status, columns: int, lines: Optional[int] = None) -> List[str]:
    """All of it in lines of so many columns, and only the first machines if there are more than so many lines."""
    out = [counts_line(status), *([endings_line(status)] if status.endings else []), ""]
    for job in status.jobs:
        done, of = job.counts["reached"], sum(job.counts.values())
        out.append(f"{job.job:>4}  {_bar(done, of, 20)} {done}/{of}  {job.goal}")
    for wave in status.waves:
        of = wave.done + wave.open + wave.trouble
        told = f"{wave.state}, {wave.trouble} in trouble" if wave.trouble else wave.state
        out.append(f"wave  {_bar(wave.done, of, 20)} {wave.done}/{of}  {wave.wave}: {told}")
    width = max([7, *(len(it.name) for it in status.machines)])
    out += ["", f"{'MACHINE':<{width}}  STATE    GOALS  GOAL  SEEN   NEXT  WHY"]
    room = len(status.machines) if lines is None else max(0, lines - len(out) - 1)
    for it in status.machines[:room]:
        reached = f"{it.goals['reached']}/{sum(it.goals.values())}"
        goal = "-" if it.job is None else str(it.job)
        left = f"{it.name:<{width}}  {it.state:<7}  {reached:>5}  {goal:>4}  {age(it.age):>5}"
        out.append(f"{left}  {it.next:>4}  {it.why or ''}")
    if room < len(status.machines):
        out.append(f"and {len(status.machines) - room} more")
    return [line[:columns].rstrip() for line in out]


def _bar(done: int, of: int, width: int) -> str:
    filled = width * done // of if of else 0
    return "[" + "#" * filled + "." * (width - filled) + "]"


class Metric(NamedTuple):
    """A measure for Prometheus: its name, what it is, and its values by their labels."""

    name: str
    about: str
    values: List[Tuple[Dict[str, str], float]]

    def __str__(self) -> str:
        lines = [f"# HELP {self.name} {self.about}", f"# TYPE {self.name} gauge"]
        for labels, value in self.values:
            inner = ",".join(f'{name}="{text}"' for name, text in labels.items())
            lines.append(f"{self.name}{f'{{{inner}}}' if inner else ''} {value:.16g}")
        return "\n".join(lines) + "\n"


def as_metrics(status: Status) -> str:
    """What can be measured of it, in the text format of Prometheus, as its node exporter takes it from a file."""
    states = Counter(machine.state for machine in status.machines)
    waves = [
        ({"wave": str(wave.wave), "state": state}, float(count))
        for wave in status.waves
        for state, count in (("done", wave.done), ("open", wave.open), ("trouble", wave.trouble))
    ]
    goals = [
        ({"job": str(job.job), "state": state}, float(job.counts[state]))
        for job in status.jobs
        for state in STATES
    ]
    metrics = [
        Metric(
            "bootfleet_machines",
            "Machines by their state.",
            [({"state": state}, float(states[state])) for state in RANK],
        ),
        Metric("bootfleet_goals", "Goals of each job by their state.", goals),
        Metric("bootfleet_wave_machines", "Machines of each wave by what is left of them.", waves),
        Metric(
            "bootfleet_certificate_days",
            "Days that are left of the certificates that end soon.",
            [({"name": ending.name}, float(ending.days)) for ending in status.endings],
        ),
        Metric("bootfleet_seen_timestamp_seconds", "When this was so.", [({}, status.now)]),
    ]
    return "".join(str(metric) for metric in metrics if metric.values)


def write_whole(path: Path, text: str) -> None:
    """Writes a file as a whole: who reads it meanwhile has the one before."""
    with tempfile.NamedTemporaryFile(
        "w", encoding="utf-8", dir=path.parent, prefix=".bootfleet-", delete=False
    ) as out:
        out.write(text)
    os.chmod(out.name, 0o644)
    os.replace(out.name, path)
