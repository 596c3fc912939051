"""Trials: an entry is added, tried by one start, and kept only if the machine came up by it.

    nothing asked   the entry is added, and BootNext names it, in one message: inactive, so that no order tries it by
                    itself, and at the end of BootOrder, since firmware writes over entries that no order names. A
                    BootNext of somebody else, as of an update of the firmware, is waited for
    asked           wait until the machine was started, and BootNext was used
    started         by this entry, and its boot is complete: it is made active and put first, in one message
                    by another entry: the goal has failed, and nothing else is changed
    made active     it is to be first

What is known of a trial is its request to make the entry the next one: the entry's number, the SHA-256 of its data, and
the start in which it was asked for; and then that the machine came up by it, whatever the next start is by. Each message
expects BootOrder and the entry as the machine showed them.

An entry that is there to the byte, but for being active, isn't added again. One that no order names is stored anew.
"""

from __future__ import annotations

import hashlib
from typing import List, Optional

from bootkeep import Request

from .entries import Entry, Wanted, activated, entry_name
from .steps import (
    MOST_TRIES,
    Ask,
    AskAll,
    Asked,
    Failed,
    Past,
    Reached,
    Shown,
    Step,
    Wait,
    request_words,
)

NUMBERS = 1 << 16
"""How many numbers entries can have."""

START_PAUSE, COMPLETE_PAUSE = 300.0, 20.0
"""After how many seconds at most a machine is looked at that is to be started, and one whose boot isn't complete. One
that comes back says so by itself."""


def next_step(option: bytes, shown: Shown, past: Past) -> Step:
    """What is to be done next for the goal to try an option."""
    kept, tried, unable = past.done(Request.REPLACE), past.done(Request.NEXT), _unable(shown)
    taken: Step
    if kept is not None:
        taken = _stay(kept, option, shown)
    elif unable is not None:
        taken = Failed(unable)
    elif tried is not None:
        taken = _outcome(tried, option, shown, past.came_up_by == tried.entry)
    else:
        taken = _begin(option, shown)
    return _limited(taken, past)


def _unable(shown: Shown) -> Optional[str]:
    """Why nothing can be tried on a machine, and nothing is known of it: it doesn't tell enough."""
    if shown.start is None:
        return (
            "it can't try an entry: its bootvars is an older one, which doesn't tell of its start"
        )
    if shown.start.identity is None:
        return "it can't try an entry: it isn't known which start this is"
    if shown.start.is_complete is None:
        return "it can't try an entry: its agent is an older one, or can't tell whether a boot is complete"
    return None


def _limited(taken: Step, past: Past) -> Step:
    """The step, unless one of its requests was made often enough."""
    for ask in taken.asks if isinstance(taken, AskAll) else ():
        if past.tries(*ask.asked[:2]) >= MOST_TRIES:
            words = request_words(ask.asked)
            return Failed(f"{words} was made {MOST_TRIES} times, and it is undone")
    return taken


def _begin(option: bytes, shown: Shown) -> Step:
    """The entry is there at the end, and is the next one."""
    inactive = activated(option, False)
    there = _there(option, shown)
    if shown.next in {it.number for it in shown.entries if it != there}:
        return Wait(f"BootNext, which is {entry_name(shown.next)}, to be used", START_PAUSE)
    if there is not None and there.number in shown.order:
        return _ask_all(shown, [Ask(_next(there.number, there.data()))])
    number = _free(shown) if there is None else there.number
    if number is None:
        return Failed("no number of an entry is free")
    asks = [] if there is None else [Ask(Asked(Request.REMOVE, number))]
    asks.append(Ask(Asked(Request.ADD, number), inactive))
    asks.append(Ask(_next(number, inactive)))
    return _ask_all(shown, asks)


def _next(number: int, data: bytes) -> Asked:
    return Asked(Request.NEXT, number, data=_digest(data))


def _ask_all(shown: Shown, asks: List[Ask]) -> AskAll:
    """The requests, with the start in which they are made."""
    start = None if shown.start is None else shown.start.identity
    return AskAll(tuple(Ask(it.asked._replace(start=start), it.option) for it in asks))


def _there(option: bytes, shown: Shown) -> Optional[Entry]:
    """The entry that is there already: one that isn't active before one that is, and the first one in BootOrder, or
    otherwise the lowest."""
    for is_active in (False, True):
        wanted = Wanted(activated(option, is_active))
        there = {it.number: it for it in shown.entries if wanted.is_meant(it)}
        if there:
            return there[next((it for it in shown.order if it in there), min(there))]
    return None


def _free(shown: Shown) -> Optional[int]:
    """The lowest number that nothing names: an entry with one that BootOrder has wouldn't be its last, and one with the
    number by which the machine came up might be taken for that."""
    taken = {it.number for it in shown.entries} | set(shown.order)
    current = None if shown.start is None else shown.start.current
    return next((it for it in range(NUMBERS) if it not in taken and it != current), None)


def _outcome(tried: Asked, option: bytes, shown: Shown, is_up: bool) -> Step:
    """What came of a trial, unless it is known already that the machine came up by the entry."""
    there, name, start = _entry(tried, shown), entry_name(tried.entry), shown.start
    assert start is not None
    if there is None:
        return Failed(f"entry {name} was removed before it was kept")
    if _digest(there.data()) not in (tried.data, _digest(activated(option, True))):
        return Failed(f"entry {name} was changed before it was kept")
    if is_up:
        return _keep(there, option, shown)
    if shown.next == tried.entry:
        return Wait(f"a start by {name}", START_PAUSE)
    if start.identity == tried.start:
        following = entry_name(shown.next) or "nothing"
        return Failed(f"BootNext is {following} and not {name}, and it wasn't started meanwhile")
    if start.current is None:
        return Failed(f"it was started, and it isn't known whether it came up by {name}")
    if start.current != tried.entry:
        return Failed(f"it came up by {entry_name(start.current)}, not by {name}")
    if not start.is_complete:
        return Wait(f"its boot by {name} to be complete", COMPLETE_PAUSE)
    return _keep(there, option, shown)


def _keep(there: Entry, option: bytes, shown: Shown) -> Step:
    """The entry is active, and first."""
    active = activated(option, True)
    is_first = shown.order[:1] == (there.number,)
    if is_first and there.data() == active:
        return Reached(there.number)
    asks = [Ask(Asked(Request.REPLACE, there.number), active)]
    if not is_first:
        asks.append(Ask(Asked(Request.FIRST, there.number)))
    return _ask_all(shown, asks)._replace(came_up_by=there.number)


def _stay(kept: Asked, option: bytes, shown: Shown) -> Step:
    """An entry that was kept is there, and first."""
    there = _entry(kept, shown)
    if there is None or there.data() != activated(option, True):
        return Failed(f"entry {entry_name(kept.entry)} was kept, and is gone or changed")
    if shown.order[:1] == (there.number,):
        return Reached(there.number)
    return _ask_all(shown, [Ask(Asked(Request.FIRST, there.number))])


def _entry(asked: Asked, shown: Shown) -> Optional[Entry]:
    return next((it for it in shown.entries if it.number == asked.entry), None)


def _digest(data: bytes) -> str:
    return hashlib.sha256(data).hexdigest()
