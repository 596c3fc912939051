"""The person of `bench/fleet` who decides what is to become of machines in trouble, as docs/fleet.md says it under
"Trouble". What was done of a job that is done once this person sees by looking at the machine."""

from __future__ import annotations

import random
import re
import subprocess
from collections import Counter
from dataclasses import dataclass, field
from typing import Any, Callable, Dict, List, Optional

DOUBT = re.compile(r"it may have been done: job (\d+): ")

TOLD_NOTHING = "it has told nothing of itself"

KINDS = {
    "another journal": ("another journal", "adopt"),
    "an older copy of the ledger": ("an older copy of the ledger came back", "adopt"),
    "isn't known to be the one sent": ("another request has the number", "adopt"),
    "an older copy of its journal's folder": ("an older copy of the journal came back", "adopt"),
    "it has no entry any more": ("no entry any more", "adopt"),
    "it changes each time": ("it changes each time", "resend"),
    "it is the journal of machine": ("another machine's journal", "resend"),
    "goal ": ("a goal can't be reached", "goal"),
}
"""Which troubles there may be, by words that each has: what the bench calls it, and what is to be done."""

REINSTALLED_ANEW = 0.3
"""Which part of the machines with another journal is taken for new ones: forgotten, and enrolled again."""

GIVEN_UP = 0.3
"""Which part of the goals that can't be reached is given up. The others are tried again."""


@dataclass
class Decisions:
    """What was decided, and how often."""

    troubles: "Counter[str]" = field(default_factory=Counter)
    done: "Counter[str]" = field(default_factory=Counter)
    unknown: List[str] = field(default_factory=list)


class Decider:
    """Decides about machines in trouble: `bootfleet` calls the program and raises CalledProcessError if it refuses, and
    the others are what the person can do about a machine or find out about it."""

    def __init__(
        self,
        bootfleet: Callable[..., str],
        is_done: Callable[[str, int], bool],
        end_clones: Callable[[str], bool],
        enroll_anew: Callable[[str], None],
        draw: random.Random,
    ) -> None:
        self.bootfleet, self.is_done = bootfleet, is_done
        self.end_clones, self.enroll_anew = end_clones, enroll_anew
        self.draw = draw
        self.made = Decisions()

    def decide(self, machines: List[Dict[str, Any]]) -> int:
        """Decides about all machines in trouble of a status. How many there were."""
        found = [it for it in machines if it["state"] == "trouble"]
        for machine in found:
            self._decide(machine["name"], machine["why"])
        return len(found)

    def _decide(self, name: str, why: str) -> None:
        kind, does = next((KINDS[words] for words in KINDS if words in why), ("", "resend"))
        if not kind:
            self.made.unknown.append(f"{name}: {why}")
        self.made.troubles[kind or "others"] += 1
        if self.end_clones(name):
            self.made.done["a clone ended"] += 1
        if does == "adopt":
            self._adopt(name, kind)
        elif does == "goal":
            self._retry(name, int(why.partition("goal ")[2].partition(":")[0]))
        else:
            self._do("resend", name)

    def _adopt(self, name: str, kind: str) -> None:
        if kind == "another journal" and self.draw.random() < REINSTALLED_ANEW:
            self.enroll_anew(name)
            self.made.done["enrolled anew"] += 1
            return
        said = self._do("adopt", "--yes", name)
        if said is None:
            return
        if TOLD_NOTHING in said:
            self._do("resend", name)
            return
        words: List[str] = []
        for job in dict.fromkeys(map(int, DOUBT.findall(said))):
            word = "--done" if self.is_done(name, job) else "--again"
            self.made.done[word] += 1
            words += [word, str(job)]
        self._do("adopt", "--yes", *words, name)

    def _retry(self, name: str, job: int) -> None:
        if self.draw.random() < GIVEN_UP:
            self._do("cancel", str(job), name)
        else:
            self._do("resend", name)

    def _do(self, command: str, *words: str) -> Optional[str]:
        """Calls bootfleet. What it says if it refuses, and nothing if it doesn't."""
        try:
            self.bootfleet(command, *words)
        except subprocess.CalledProcessError as refused:
            return f"{refused.stdout}{refused.stderr}"
        self.made.done[command] += 1
        return None
