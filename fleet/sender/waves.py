"""Waves: a few machines first, then more, then all, so that what is wrong with a job is seen at few machines.

Which machine is in which wave is drawn by a seed that the ledger keeps, among the machines of the jobs that aren't done.
A wave begins when no machine of those before it has anything left to be done, but for those in trouble; once so many are
in trouble, nobody is sent anything.
"""

from __future__ import annotations

import hashlib
import json
import re
from typing import Dict, Iterable, List, NamedTuple, Optional, Tuple

SIZE = re.compile("([1-9][0-9]{0,8})(%?)")
"""How large a wave is with those before it: so many machines, or a part of all."""


class Waves(NamedTuple):
    """How many machines there are in each wave with those before it, and at how many in trouble the rest is stopped."""

    sizes: Tuple[str, ...]
    stop_at: Optional[int] = None

    def is_any(self) -> bool:
        """Whether it isn't the same as to go after all machines at once."""
        return len(self.sizes) > 1 or self.stop_at is not None

    def to_json(self) -> str:
        return json.dumps({"sizes": self.sizes, "stop_at": self.stop_at})

    @classmethod
    def from_json(cls, text: str) -> Waves:
        held = json.loads(text)
        return cls(tuple(held["sizes"]), held["stop_at"])


def read_waves(text: str, stop_at: Optional[int]) -> Waves:
    """The waves of words as `1,5%,100%`. Raises ValueError for what is none."""
    sizes = tuple(text.split(","))
    for size in sizes:
        found = SIZE.fullmatch(size)
        if found is None or (found[2] and int(found[1]) > 100):
            raise ValueError(f"{text}: waves are numbers of machines and percents, as 1,5%,100%")
    if sizes[-1] != "100%":
        raise ValueError(f"{text}: the last wave is 100%")
    if stop_at is not None and stop_at < 1:
        raise ValueError("to stop at no machine in trouble is to begin with nothing")
    return Waves(sizes, stop_at)


def draw(names: Iterable[str], waves: Waves, seed: str) -> Dict[str, int]:
    """The wave of each machine, from 0 on."""
    ordered = sorted(names, key=lambda name: hashlib.sha256(f"{seed}:{name}".encode()).digest())
    drawn: Dict[str, int] = {}
    for wave, end in enumerate(_ends(waves, len(ordered))):
        for name in ordered[len(drawn) : end]:
            drawn[name] = wave
    return drawn


def _ends(waves: Waves, count: int) -> List[int]:
    ends = []
    for size in waves.sizes:
        number = int(size.rstrip("%"))
        ends.append(-(-count * number // 100) if size.endswith("%") else min(number, count))
    return ends
