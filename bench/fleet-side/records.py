"""What people do to the entries of a machine of `bench/fleet`, as they note it themselves, and what was done to it besides.

Entries of **jobs** are those that somebody asked the sender for; all others are **others'**: the machine's own, and what
administrators and installers made. Nobody but the people who keep the record may touch these. What a job did is judged by
the machine's variables and by this record, and not by the sender's ledger."""

from __future__ import annotations

from collections import Counter
from dataclasses import dataclass, field
from typing import Collection, Dict, List, Optional, Set

from machines import Model


@dataclass
class Record:
    """A machine's record: the entries of others and their sequence in BootOrder, how often an entry of a job was taken
    out by hand, how often BootNext had the machine started by one, and which ones BootNext was seen to name.
    """

    others: Dict[int, bytes] = field(default_factory=dict)
    order: List[int] = field(default_factory=list)
    removed: "Counter[bytes]" = field(default_factory=Counter)
    started: "Counter[bytes]" = field(default_factory=Counter)
    named: Set[bytes] = field(default_factory=set)

    def copy(self) -> "Record":
        """The record of a machine that is a copy of this one."""
        return Record(
            dict(self.others),
            list(self.order),
            Counter(self.removed),
            Counter(self.started),
            set(self.named),
        )

    def note(self, before: Model, after: Model, jobs: Collection[bytes]) -> None:
        """Notes what somebody did by hand, or the firmware at a start."""
        self.removed += Counter(_of_jobs(before, jobs)) - Counter(_of_jobs(after, jobs))
        self.look(after, jobs)
        self.others = _others(after, jobs)
        self.order = _order(after, self.others)

    def look(self, model: Model, jobs: Collection[bytes]) -> None:
        """Notes which entry of a job BootNext names."""
        following = _next(model)
        if following in jobs:
            self.named.add(following)

    def start(self, before: Model, jobs: Collection[bytes]) -> None:
        """Notes that a start used BootNext."""
        following = _next(before)
        if following in jobs:
            self.started[following] += 1

    def touched(self, model: Model, jobs: Collection[bytes]) -> List[str]:
        """What was done to entries of others that isn't in the record: to each entry, and to their sequence."""
        found, told = _others(model, jobs), []
        for number in sorted(set(found) | set(self.others)):
            if found.get(number) != self.others.get(number):
                was, now = self.others.get(number), found.get(number)
                told.append(f"Boot{number:04X} was {_words(was)}, and is {_words(now)}")
        order = _order(model, found)
        if not told and order != self.order:
            told.append(f"others' sequence was {self.order}, and is {order}")
        return told

    def times_added(self, model: Model, option: bytes) -> int:
        """How often an entry was added that is added once: it is there, or was taken out by hand."""
        return list(model.entries.values()).count(option) + self.removed[option]

    def times_next(self, model: Model, option: bytes) -> int:
        """How often BootNext was set to an entry that is to be the next one once: starts used it, or one will."""
        return self.started[option] + (_next(model) == option)

    def was_next(self, model: Model, option: bytes) -> bool:
        """Whether BootNext is known to have named an entry."""
        return self.times_next(model, option) > 0 or option in self.named


def record_of(model: Model, jobs: Collection[bytes]) -> Record:
    """The record of a machine as it is."""
    others = _others(model, jobs)
    return Record(others, _order(model, others))


def _others(model: Model, jobs: Collection[bytes]) -> Dict[int, bytes]:
    return {number: data for number, data in model.entries.items() if data not in jobs}


def _of_jobs(model: Model, jobs: Collection[bytes]) -> List[bytes]:
    return [data for data in model.entries.values() if data in jobs]


def _order(model: Model, others: Dict[int, bytes]) -> List[int]:
    return [number for number in model.order if number in others]


def _next(model: Model) -> bytes:
    """The entry that BootNext names; no bytes if there is none."""
    return b"" if model.next is None else model.entries.get(model.next, b"")


def _words(data: Optional[bytes]) -> str:
    """An entry by its description, which ends at a zero unit."""
    if data is None:
        return "not there"
    return repr(data[6:].decode("utf-16-le", "replace").partition("\0")[0])
