"""Goals: what a machine is to be like, and which one request brings it nearer.

`step` decides by what a machine shows and by what the goal's requests came to so far, and by nothing else:

- `first`: the entry is there, and first in BootOrder. If it isn't there, `add-first` of its option; if it isn't first,
  `first`.
- `order`: several entries are the first ones of BootOrder, in their sequence. The last one is put first that isn't
  where it is to be, so that the others come before it one by one.
- `next`: the entry is there, and is the next one, once: BootNext is set once at most, since a boot uses it.
- `remove`: no such entry is there. `remove` of one after the other.
- `send`: requests that somebody made, each once.
- `try`: one start tries the entry, and it is first only if the machine came up by it: `trials.py`.

`next`, `send` and `try` are done once each: what is known to be done is never asked for again, whatever becomes of the
goal, but of a trial that failed.

An entry that is there under several numbers, to the byte, is the one that comes first in BootOrder, or otherwise the
lowest; of those that are meant by a description or by paths alone there has to be one. The same request is made three
times at most: if the machine isn't as it is to be then, something else changes it, and the goal has failed.
"""

from __future__ import annotations

import json
from typing import Any, Dict, List, NamedTuple, Tuple, Union

from bootkeep import Request

from . import trials
from .entries import Wanted, entry_name
from .steps import (
    MOST_TRIES,
    Ask,
    Asked,
    Failed,
    Past,
    Reached,
    Send,
    Shown,
    Step,
    request_words,
)

KINDS = ("first", "order", "next", "remove", "send", "try")


class Goal(NamedTuple):
    """What a machine is to be like: one of `KINDS`, of these entries, or by these frames, whose numbers don't count."""

    kind: str
    wanted: Tuple[Wanted, ...] = ()
    frames: Tuple[bytes, ...] = ()

    def is_once(self) -> bool:
        """Whether it isn't told by what a machine is like whether the goal was reached."""
        return self.kind in ("next", "send", "try")

    def is_for_good(self, asked: Asked) -> bool:
        """Whether a request that was done for it counts in each later attempt."""
        if self.kind == "try":
            is_it = asked.kind in (Request.NEXT, Request.REPLACE) and asked.start is not None
        else:
            is_it = self.kind == "send" or (self.kind == "next" and asked.kind == Request.NEXT)
        return is_it and asked.outcome == "Done"

    def __str__(self) -> str:
        if self.kind == "send":
            return f"send {len(self.frames)} requests"
        return f"{self.kind} {', '.join(map(str, self.wanted))}"

    def to_json(self) -> str:
        held: Dict[str, Any] = {"kind": self.kind}
        held["wanted"] = [wanted.to_json() for wanted in self.wanted]
        held["frames"] = [frame.hex() for frame in self.frames]
        return json.dumps(held)

    @classmethod
    def from_json(cls, text: str) -> Goal:
        held = json.loads(text)
        return cls(
            held["kind"],
            tuple(Wanted.from_json(wanted) for wanted in held["wanted"]),
            tuple(bytes.fromhex(frame) for frame in held["frames"]),
        )


def step(goal: Goal, shown: Shown, past: Past) -> Step:
    """What is to be done next for a goal."""
    if goal.kind == "send":
        return _next_frames(goal, past)
    if goal.kind == "try":
        return trials.next_step(goal.wanted[0].whole(), shown, past)
    taken = _taken(goal, shown, past)
    if isinstance(taken, Ask) and past.tries(*taken.asked[:2]) >= MOST_TRIES:
        return Failed(f"{request_words(taken.asked)} was made {MOST_TRIES} times, and it is undone")
    return taken


def _taken(goal: Goal, shown: Shown, past: Past) -> Step:
    if goal.kind == "remove":
        left = sorted(it.number for it in shown.entries if goal.wanted[0].is_meant(it))
        return Ask(Asked(Request.REMOVE, left[0])) if left else Reached()
    done = past.done(Request.NEXT)
    if goal.kind == "next" and done is not None:
        return Reached(done.entry)
    found: List[int] = []
    for wanted in goal.wanted:
        entry = _find(wanted, goal.kind, shown, past)
        if not isinstance(entry, int):
            return entry
        found.append(entry)
    if goal.kind == "next":
        return Reached(found[0]) if shown.next == found[0] else Ask(Asked(Request.NEXT, found[0]))
    return _in_front(found, shown.order)


def _find(wanted: Wanted, kind: str, shown: Shown, past: Past) -> Union[int, Step]:
    """The entry that is meant, or what is to be done since it isn't there."""
    there = {it.number for it in shown.entries if wanted.is_meant(it)}
    stored = past.stored()
    if not there:
        return _missing(wanted, kind, past)
    if stored in there and stored is not None:
        return stored
    if wanted.option is None and len(there) > 1:
        numbers = " ".join(f"{number:04X}" for number in sorted(there))
        return Failed(f"several entries are meant by {wanted}: {numbers}")
    return next((number for number in shown.order if number in there), min(there))


def _missing(wanted: Wanted, kind: str, past: Past) -> Step:
    if past.stored() is not None:
        return Failed(f"entry {entry_name(past.stored())} was added, and is gone or changed")
    if wanted.option is None or kind == "order":
        return Failed(f"there is no entry {wanted}")
    if any(it.outcome == "NoFree" for it in past.asked):
        return Failed("no number of an entry is free")
    added = Request.ADD_FIRST if kind == "first" else Request.ADD_FREE
    return Ask(Asked(added), wanted.option)


def _in_front(wanted: List[int], order: Tuple[int, ...]) -> Step:
    """The request after which one entry more stands where it is to be, in front of BootOrder."""
    if len(set(wanted)) != len(wanted):
        return Failed("two of the entries are one on this machine")
    for at in range(len(wanted) + 1):
        tail = tuple(wanted[at:])
        if order[: len(tail)] == tail:
            return Ask(Asked(Request.FIRST, wanted[at - 1])) if at else Reached(wanted[0])
    raise AssertionError("the empty tail is in front of each order")


def _next_frames(goal: Goal, past: Past) -> Step:
    asked = {it.part: it for it in past.asked}
    left = tuple(part for part in range(len(goal.frames)) if part not in asked)
    if left:
        return Send(left)
    bad = [f"{request_words(it)}: {it.outcome}" for it in asked.values() if it.outcome != "Done"]
    return Failed(", ".join(bad)) if bad else Reached()
