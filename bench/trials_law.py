#!/usr/bin/env python3
"""Checks what a machine told of its starts on trial, and what was found in its flash memory, by what a trial is. It is
written from that definition, and shares nothing with the programs.

    trials_law.py LOG    the lines that begin with an @, of `bench/trials`; each check that fails is told

A trial begins with the variables `old`. Until the machine came up by its entry, whose data is what was tried, each variable
is that of `old`. From then on each may be what `wanted` has: the entry first in BootOrder, and active. Of a machine that
came up all of them are one or the other, and once they are `wanted` they stay it. The last line is `N checks, M failed`,
and the status is 1 if something failed."""

from __future__ import annotations

import base64
import gzip
import io
import sys
import tarfile
from collections import Counter
from dataclasses import dataclass, field
from pathlib import Path
from typing import Callable, Dict, List, Optional

import ovmf_moves
import ovmf_store
from ovmf_moves import Values

VENDOR = "8be4df61-93ca-11d2-aa0d-00e098032b8c"

FAILED, OPEN = "10", "11"
"""The statuses of `bootvars confirm` if the trial failed, and if the machine wasn't started since it began."""

WAYS = {
    "missing": ["old"],
    "panic": ["entry", "old"],
    "incomplete": ["entry", "old"],
    "changed": ["entry"],
    "good": ["entry"],
}
"""By which kernels the machine is started after each kind of trial began, up to the one that tells what came of it."""


def unpacked(data: bytes) -> Values:
    """The boot variables in a set, or in an archive of the files in which Linux shows them, after four bytes of attributes
    and with their vendor's GUID."""
    if data[:4] == b"BVS1":
        return ovmf_store.boot_values(ovmf_store.read_set(data))
    values = {}
    with tarfile.open(fileobj=io.BytesIO(data)) as archive:
        for member in archive:
            file = archive.extractfile(member)
            assert file is not None
            name, _, vendor = Path(member.name).name.partition("-")
            if vendor == VENDOR:
                values[name] = file.read()[4:]
    return ovmf_store.boot_values(values)


def without(values: Values, name: Optional[str]) -> Values:
    """All variables but one."""
    return {it: value for it, value in values.items() if it != name}


def with_first(values: Values, entry: int) -> Values:
    """The variables, with an entry first, and active."""
    numbers = [entry, *(it for it in ovmf_moves.order(values) if it != entry)]
    data = bytearray(values[ovmf_moves.entry_name(entry)])
    data[0] |= 1
    order = b"".join(it.to_bytes(2, "little") for it in numbers)
    return {**values, "BootOrder": order, ovmf_moves.entry_name(entry): bytes(data)}


@dataclass
class Trial:
    """A trial that is to be, or was, begun."""

    kind: str
    entry: int
    old: Values
    """The variables before it, without BootNext."""
    wanted: Values
    """What they are once the entry is confirmed."""
    begun: bool = False
    """Whether `bootvars try` told that it has begun."""
    cut: bool = False
    """Whether the power was cut since."""
    came_up: bool = False
    """Whether the machine's kernel was started by the entry, with the data that was tried, since."""
    kernels: List[int] = field(default_factory=list)
    """By which entries kernels were started since."""


@dataclass
class Start:
    """What was told of a start."""

    kernel: Optional[int] = None
    current: Optional[int] = None
    kept: bool = False
    units: Dict[str, Dict[str, str]] = field(default_factory=dict)
    said: List[str] = field(default_factory=list)
    """What the confirm unit said."""
    told: List[str] = field(default_factory=list)
    """What a command said whose status isn't told yet."""
    found: Values = field(default_factory=dict)

    def is_complete(self) -> bool:
        return self.units["boot-complete.target"]["ActiveState"] == "active"

    def confirmation(self) -> str:
        """How the confirm unit ended: `passed over`, `done` or `failed`, or otherwise."""
        unit = self.units["bootkeep-confirm.service"]
        if unit["ActiveState"] == "failed":
            return "failed" if unit["ExecMainStatus"] == FAILED else str(unit)
        if unit["Result"] == "exec-condition":
            return "passed over"
        is_done = unit["Result"] == "success" and self.said
        return "done" if is_done else "not started"


class Law:
    """What has to be so, checked line by line."""

    def __init__(self) -> None:
        self.checks = self.failed = self.line = 0
        self.trial: Optional[Trial] = None
        self.start = Start()
        self.standing: Optional[Values] = None
        """The variables without BootNext, if there is no trial."""
        self.loose: Optional[str] = None
        """The entry that is made inactive before the next trial."""
        self.old: Values = {}
        self.came_of: "Counter[str]" = Counter()
        self.panics = self.cuts = 0
        self.identities: List[str] = []

    def check(self, what: str, is_so: bool, why: object = "") -> None:
        self.checks += 1
        if not is_so:
            self.failed += 1
            kind = f"{self.trial.kind} {self.trial.entry:04X}" if self.trial else "no trial"
            print(f"line {self.line}, start {len(self.identities)}, {kind}: not so: {what}: {why}")

    def read(self, line: str) -> None:
        """Takes a line, without its @."""
        word, _, rest = line.partition(" ")
        calls: Dict[str, Callable[[str], None]] = {
            "kernel": self.kernel,
            "vars": self.take_vars,
            "units": self.units,
            "start": self.begin_start,
            "kept": self.kept,
            "said": lambda rest: self.start.said.append(rest),
            "deactivating": self.deactivating,
            "begin": self.begin,
            "told": lambda rest: self.start.told.append(rest),
            "cut": self.cut,
            "panic": self.panic,
        }
        if word in calls:
            calls[word](rest)
        elif word not in ("confirming", "restart"):
            self.status(word, rest)

    def panic(self, _rest: str) -> None:
        self.panics += 1

    def kernel(self, rest: str) -> None:
        number = int(rest, 16)
        self.start = Start(kernel=number)
        if self.trial:
            self.trial.kernels.append(number)
            if self.trial.entry == number and self.trial.kind != "changed":
                self.trial.came_up = True

    def begin_start(self, rest: str) -> None:
        current, identity = rest.split()
        self.start.current = int(current, 16)
        self.check("it is another start", identity not in self.identities, identity)
        self.identities.append(identity)
        is_same = self.start.current == self.start.kernel
        self.check("BootCurrent is the entry by whose words the kernel runs", is_same, rest)

    def units(self, rest: str) -> None:
        """Takes the properties of units, with two spaces between these."""
        for unit in rest.strip().split("  "):
            properties = dict(it.split("=", 1) for it in unit.split(" "))
            self.start.units[properties["Id"]] = properties

    def kept(self, rest: str) -> None:
        self.start.kept = rest == "yes"

    def deactivating(self, rest: str) -> None:
        self.loose = ovmf_moves.entry_name(int(rest, 16))

    def take_vars(self, rest: str) -> None:
        name, _, packed = rest.partition(" ")
        values = unpacked(gzip.decompress(base64.b64decode(packed)))
        calls: Dict[str, Callable[[Values], None]] = {
            "found": self.found,
            "after": self.after,
            "old": self.take_old,
            "tried": self.tried,
            "left": self.left,
            "changed": self.changed,
            "put": self.put,
            "again": self.again,
        }
        calls[name](values)

    def status(self, word: str, rest: str) -> None:
        """Takes the status of a command, which comes after what that said."""
        told, self.start.told = " ".join(self.start.told), []
        if word in ("forgotten", "deactivated", "put"):
            self.check(f"a command succeeds: {word}", rest == "0", told)
        elif word == "tried":
            self.check("a trial begins", rest == "0", told)
            assert self.trial is not None
            self.trial.begun = rest == "0"
        elif word == "early":
            self.check("it isn't confirmed before a start", rest == OPEN, told)
        elif word == "confirmed" and self.start.kept:
            wanted = (FAILED, " ".join(self.start.said))
            self.check("by hand it isn't confirmed either", (rest, told) == wanted, (rest, told))
        else:
            self.check("there is no trial any more", (rest, told) == ("0", "no trial"), told)

    # A start

    def found(self, values: Values) -> None:
        """The variables of a machine that came up, after the confirm unit."""
        start, trial = self.start, self.trial
        start.found = values
        self.check("BootNext is gone", "BootNext" not in values)
        if trial is None:
            self.same_as_standing(values)
            self.nothing_kept()
        elif not start.is_complete():
            self.incomplete(trial)
        else:
            self.outcome(trial)
            self.trial, self.standing, self.loose = None, values, None

    def same_as_standing(self, values: Values) -> None:
        if self.standing is not None:
            is_same = without(values, self.loose) == without(self.standing, self.loose)
            self.check("nothing is changed without a trial", is_same)

    def nothing_kept(self) -> None:
        self.check("no trial is kept", not self.start.kept)
        how = self.start.confirmation()
        self.check("the confirm unit is passed over", how == "passed over", how)

    def outcome(self, trial: Trial) -> None:
        """What came of a trial, once a start is complete."""
        values, start = self.start.found, self.start
        is_old, is_new = values == trial.old, values == trial.wanted
        why = differing(trial, values)
        self.check("it is as before, or the entry is first and active", is_old or is_new, why)
        if is_new:
            self.check("it is first since the machine came up by it", trial.came_up, trial.kernels)
            self.confirmed(trial)
        elif start.kept:
            self.not_confirmed(trial)
        else:
            self.check("a trial that isn't kept had not begun", not trial.begun)
            self.nothing_kept()
            self.came_of["never begun"] += 1
        if not trial.cut:
            self.way(trial, is_new)

    def confirmed(self, trial: Trial) -> None:
        """The entry is first. If the power was cut right after the trial was over, nothing was left to do."""
        how = self.start.confirmation()
        is_so = how == "done" or how == "passed over" and trial.cut
        self.check("the confirm unit confirmed it", is_so, how)
        self.check("the trial is over", not self.start.kept)
        self.came_of["confirmed" if how == "done" else "confirmed before a cut"] += 1

    def not_confirmed(self, trial: Trial) -> None:
        """A trial is kept that changed nothing."""
        how, said = self.start.confirmation(), " ".join(self.start.said)
        self.check("the confirm unit failed with that status", how == "failed", how)
        it_says = f"trial of Boot{trial.entry:04X} "
        if said.startswith(it_says + "interrupted"):
            self.check("only one that was cut off is", trial.cut and trial.came_up, said)
            self.came_of["interrupted"] += 1
        elif self.start.current != trial.entry:
            wanted = it_says + f"failed: the machine came up by Boot{self.start.current:04X}"
            self.check("it says by which entry it came up", said == wanted, said)
            self.came_of["failed"] += 1
        else:
            is_so = trial.kind == "changed" and it_says + "failed: " in said and "data" in said
            self.check("it says that the data isn't what was tried", is_so, said)
            self.came_of["changed"] += 1

    def incomplete(self, trial: Trial) -> None:
        """A start by the entry on trial whose boot isn't complete: the confirm unit isn't started."""
        start = self.start
        self.check("it is one of a trial of that", trial.kind == "incomplete")
        self.check(
            "that start is by the entry on trial", start.current == trial.entry, start.current
        )
        self.check("the trial is kept", start.kept)
        why = differing(trial, start.found)
        self.check("and nothing is changed", start.found == trial.old, why)
        how = start.confirmation()
        self.check("the confirm unit isn't started", how == "not started", start.units)
        self.came_of["incomplete"] += 1

    def way(self, trial: Trial, is_new: bool) -> None:
        """By which entries kernels were started in a trial amid which the power wasn't cut."""
        old = ovmf_moves.order(trial.old)[0]
        wanted = [trial.entry if it == "entry" else old for it in WAYS.get(trial.kind, ["entry"])]
        self.check("it was started by these entries", trial.kernels == wanted, trial.kernels)
        is_good = trial.kind not in WAYS or trial.kind == "good"
        self.check("a good entry is confirmed, and no other", is_new == is_good)

    # Beginning a trial

    def take_old(self, values: Values) -> None:
        self.old = without(values, "BootNext")

    def begin(self, rest: str) -> None:
        """A trial is about to begin."""
        kind, number = rest.split()
        entry = int(number, 16)
        self.trial = Trial(kind, entry, self.old, with_first(self.old, entry))
        if kind == "inactive":
            data = self.old[ovmf_moves.entry_name(entry)]
            self.check("the entry is inactive", not data[0] & 1)

    def tried(self, values: Values) -> None:
        """A trial has begun: BootNext names the entry, and nothing else is changed."""
        assert self.trial is not None
        is_so = without(values, "BootNext") == self.trial.old
        self.check("to begin a trial changes BootNext alone", is_so)
        named = ovmf_moves.next_entry(values)
        self.check("BootNext names the entry on trial", named == self.trial.entry, named)

    def changed(self, values: Values) -> None:
        """The entry isn't what was tried any more."""
        assert self.trial is not None
        self.trial.old = without(values, "BootNext")
        self.trial.wanted = with_first(self.trial.old, self.trial.entry)

    # By hand, and cuts

    def after(self, values: Values) -> None:
        """What is there once `bootvars confirm` was called by hand too."""
        self.check("nothing is changed by hand", values == self.start.found)

    def put(self, values: Values) -> None:
        self.standing = values
        self.check("another entry is first", ovmf_moves.order(values)[0] == 0)

    def again(self, values: Values) -> None:
        """An entry was confirmed once, and isn't confirmed a second time."""
        self.check("the entry isn't put first again", values == self.standing)

    def left(self, values: Values) -> None:
        """What is in the flash memory after a cut."""
        trial = self.trial
        if trial is None:
            self.same_as_standing(values)
            return
        named = ovmf_moves.next_entry(values)
        self.check("BootNext names the entry, or isn't there", named in (None, trial.entry), named)
        rest = without(values, "BootNext")
        why = differing(trial, rest)
        self.check("each variable is as before, or as once confirmed", not why, why)
        if rest != trial.old:
            self.check(
                "it is changed since the machine came up by it", trial.came_up, trial.kernels
            )

    def cut(self, _rest: str) -> None:
        self.cuts += 1
        if self.trial:
            self.trial.cut = True

    def end(self) -> int:
        came_of = ", ".join(f"{count} {name}" for name, count in sorted(self.came_of.items()))
        print(
            f"{len(self.identities)} starts, {self.panics} panics, {self.cuts} cuts; trials: {came_of}"
        )
        print(f"{self.checks} checks, {self.failed} failed")
        return 1 if self.failed else 0


def differing(trial: Trial, values: Values) -> str:
    """The variables that are neither as before a trial nor as it is to make them."""
    return " ".join(
        f"{name}: {values.get(name, b'').hex() or '-'} and not {trial.old.get(name, b'').hex() or '-'}"
        for name in sorted(values.keys() | trial.old.keys())
        if values.get(name) not in (trial.old.get(name), trial.wanted.get(name))
    )


def main(words: List[str]) -> int:
    law = Law()
    for number, line in enumerate(Path(words[0]).read_text(errors="replace").splitlines(), 1):
        law.line = number
        if line.startswith("@ "):
            law.read(line[2:])
        elif "Kernel panic - not syncing" in line:
            law.read("panic")
    return law.end()


if __name__ == "__main__":
    sys.exit(main(sys.argv[1:]))
