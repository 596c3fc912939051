#!/usr/bin/env python3
"""Refuses each growth of whole commands of `bootvars`, and sees that the status and the machine agree.

    whole_commands.py BOOTVARS ALLOCATOR

Each command is run over a machine of its own, in a temporary folder: a folder as Linux shows variables, a variable file or a
set file, with a state folder in which an update may have left something to do. The first growth of the run is refused, then
the second, and so on, until a run meets no refusal; each alone, and with all growths after it. ALLOCATOR is the library that
`bench/refused` builds of allocator.c, and is preloaded.

- If the status is that of a run without a refusal, the machine is what that left, and so is standard output.
- If it is 4, the machine is as it was, or as it is once what was left to do is done: so also nothing of an earlier
  update is made by halves. Nothing is printed on standard output.
- If it is 3, the change was taken back, and the machine is so too.
- If it is 8, something is left to do, and `bootvars update --settle` leads to one of these.

What a command says beside is compared neither. The last line is `N commands, M growths refused, K differ`, and the status is
1 if something differs."""

from __future__ import annotations

import os
import re
import shutil
import subprocess
import sys
import tempfile
from concurrent.futures import ProcessPoolExecutor
from functools import partial
from pathlib import Path
from typing import Dict, List, NamedTuple, Optional, Tuple

ROOT = Path(__file__).resolve().parent.parent.parent
EFIVARS, VARIABLE_FILE = ROOT / "docs/examples/efivars", ROOT / "docs/examples/vars.fd"

ALL = 1000000000
"""A number that no growth has."""

NO_MEMORY, REFUSED, UNSETTLED = 4, 3, 8
"""The statuses of a run that was refused memory, whose change is taken back, and that left something to do."""

MACHINE = ["--state", "state", "--boot-id", "1", "--machine", "m"]


MET = {
    "efivars": ["--expect", "next=0", "--expect", "order=0005,0001,0002,0003,0000"],
    "vars.fd": ["--expect", "next=0", "--expect", "order=0001,0000"],
}
"""What an update expects of each machine, and is so."""

UNMET = ["--expect", "next=0", "--expect", "0001=none"]
"""What an update expects, and isn't so."""


class Command(NamedTuple):
    """A command line, and what is there before."""

    words: List[str]
    place: str
    """The name of the place that is changed: `efivars`, `vars.fd` or `set`."""
    first: List[List[str]] = []
    """Command lines that are run before."""
    is_left: bool = False
    """Whether an update has left something to do."""


class Outcome(NamedTuple):
    """What came of a run."""

    status: int
    out: bytes
    err: str
    refused: int


def commands() -> List[Command]:
    """The commands that are tried."""
    add = ["--description", "added", "--path", "PciRoot(0x0)/Pci(0x5,0x0)"]
    some: List[Command] = []
    for place in ("efivars", "vars.fd"):
        first = ["first", place, "0001", *MACHINE]
        some += [
            Command(["add", place, *add, *MACHINE], place),
            Command(["add", place, *add, "--json", *MACHINE], place),
            Command(first, place),
            Command(first, place, is_left=True),
            Command(["remove", place, "0001", *MACHINE], place),
            Command(["timeout", place, "10", *MACHINE], place),
            Command(["undo", place, *MACHINE], place, [first]),
            Command(["undo", place, "--json", *MACHINE], place, [first]),
            Command(["undo", place, *MACHINE], place, [first], is_left=True),
            Command(["write", "other", place, *MACHINE], place),
            Command(["write", "other", place, "--json", *MACHINE], place),
            Command(["write", "other", place, *MACHINE], place, is_left=True),
            Command(["update", place, "script", *MACHINE], place),
            Command(["update", place, "script", "--json", *MACHINE], place),
            Command(["update", place, "script", "--look", *MACHINE], place),
            Command(["update", place, "--look", *MACHINE], place, is_left=True),
            Command(["update", place, "--next", *MACHINE], place, is_left=True),
            Command(["update", place, "script", "--look", *MET[place], *MACHINE], place),
            Command(["update", place, "script", "--json", *UNMET, *MACHINE], place),
            Command(["update", place, "script", *UNMET, *MACHINE], place, is_left=True),
        ]
    some += [
        Command(["add", "set", *add], "set"),
        Command(["first", "set", "0001"], "set"),
        Command(["timeout", "set", "10"], "set"),
        Command(["write", "other", "set"], "set"),
    ]
    return some


class Bench:
    """The program, and folders in which it is run."""

    def __init__(self, bootvars: Path, allocator: Path, work: Path):
        self.bootvars, self.allocator, self.work = bootvars, allocator, work
        self.growths = 0
        self.said: List[str] = []

    def run(
        self, words: List[str], folder: Path, growths: Optional[Tuple[int, int]] = None
    ) -> Outcome:
        """Runs a command line there, perhaps with some growths refused."""
        count = folder / "count"
        environment = dict(os.environ)
        if growths:
            first, last = growths
            environment |= {
                "LD_PRELOAD": str(self.allocator),
                "REFUSE_WHOLE": "1",
                "REFUSE_FROM": str(first),
                "REFUSE_TO": str(last),
            }
        with open(count, "wb") as counted:
            os.dup2(counted.fileno(), 3)
            done = subprocess.run(
                [self.bootvars, *words],
                cwd=folder,
                env=environment,
                pass_fds=[3],
                capture_output=True,
            )
        refused = count.read_text() if growths else "0"
        return Outcome(
            done.returncode,
            done.stdout,
            done.stderr.decode(errors="replace"),
            int(refused.split()[0]) if refused.strip() else -1,
        )

    def look(self, folder: Path, place: str) -> Dict[str, bytes]:
        """The files of a place; of a variable file the set that it has, since what is taken back leaves other records."""
        path = folder / place
        if path.is_dir():
            return {file.name: file.read_bytes() for file in sorted(path.iterdir())}
        if place != "vars.fd":
            return {place: path.read_bytes()}
        self.expect(folder, ["read", place, "--out", "looked"])
        return {place: (folder / "looked").read_bytes()}

    def make(self, command: Command) -> Path:
        """Makes the machine of a command, in a folder."""
        folder = self.work / "made"
        folder.mkdir()
        shutil.copytree(EFIVARS, folder / "efivars")
        shutil.copy(VARIABLE_FILE, folder)
        (folder / "state").mkdir()
        self.expect(
            folder, ["read", command.place if command.place != "set" else "efivars", "--out", "set"]
        )
        self.expect(
            folder, ["option", "--description", "x", "--path", "Pci(0x1,0x0)", "--out", "option"]
        )
        frames = [["0", "add-free", "option"], ["1", "first", "0001"], ["2", "next", "0000"]]
        script = [self.expect(folder, ["frame", *frame]) for frame in frames]
        (folder / "script").write_bytes(b"".join(script))
        shutil.copy(folder / "set", folder / "other")
        self.expect(folder, ["add", "other", "--description", "y", "--path", "Pci(0x2,0x0)"])
        self.expect(folder, ["order", "other", "0001"])
        for words in command.first:
            self.expect(folder, words)
        if command.is_left:
            self.leave(folder, command.place)
        return folder

    def expect(self, folder: Path, words: List[str]) -> bytes:
        """Runs a command line that has to be done, and gives what it prints."""
        done = self.run(words, folder)
        if done.status != 0:
            raise SystemExit(f"whole_commands: {' '.join(words)}: status {done.status}: {done.err}")
        return done.out

    def leave(self, folder: Path, place: str) -> None:
        """Leaves an order to be made by an update that was cut off, in the form of docs/formats/machine.md."""
        order = next(
            line.split(" ")[1:]
            for line in self.expect(folder, ["show", place]).decode().splitlines()
            if line.startswith("order ")
        )
        numbers = [int(number, 16).to_bytes(2, "little") for number in order]

        def kept(data: List[bytes]) -> bytes:
            return value(b"\7\0\0\0" + b"".join(data))

        def value(data: bytes) -> bytes:
            return len(data).to_bytes(4, "little") + data

        due = b"\x09BootOrder" + kept(numbers) + kept(numbers[::-1])
        journal = folder / "state" / "journal"
        journal.write_bytes(b"BKJ2" + value(b"m") + value(b"") + b"\1\x011" + value(b"") + due)

    def try_command(self, command: Command) -> None:
        """Tries a command with each growth refused."""
        made = self.make(command)
        before = self.look(made, command.place)
        wanted, after = self.once(command, made, None)
        settled = before
        if command.is_left:
            copy = self.copy(made)
            self.expect(copy, ["update", command.place, "--settle", *MACHINE])
            settled = self.look(copy, command.place)
            shutil.rmtree(copy)
        number = 0
        while True:
            number += 1
            alone, found = self.once(command, made, (number, number))
            self.compare(
                command, f"growth {number} alone", (wanted, alone), (before, settled, after, found)
            )
            if alone.refused == 0:
                break
            self.growths += 1
            rest, found = self.once(command, made, (number, ALL))
            self.compare(
                command,
                f"growth {number} and all after it",
                (wanted, rest),
                (before, settled, after, found),
            )
        shutil.rmtree(made)

    def copy(self, made: Path) -> Path:
        """A copy of the machine."""
        folder = self.work / "tried"
        shutil.rmtree(folder, ignore_errors=True)
        shutil.copytree(made, folder)
        return folder

    def once(
        self, command: Command, made: Path, growths: Optional[Tuple[int, int]]
    ) -> Tuple[Outcome, Dict[str, bytes]]:
        """Runs the command over a copy of the machine. The boot variables that are there then, settled if it left
        something to do."""
        folder = self.copy(made)
        outcome = self.run(command.words, folder, growths)
        if outcome.status == UNSETTLED:
            self.expect(folder, ["update", command.place, "--settle", *MACHINE])
        return outcome, self.look(folder, command.place)

    def compare(
        self,
        command: Command,
        which: str,
        outcomes: Tuple[Outcome, Outcome],
        places: Tuple[Dict[str, bytes], ...],
    ) -> None:
        """Tells how a run differs from what it may be, if it does."""
        said = self.difference(command, outcomes, places)
        if said:
            found = outcomes[1]
            self.said.append(
                f"{' '.join(command.words)}: {which}: status {found.status}: {said}: {found.err[:300]!r}"
            )

    @staticmethod
    def difference(
        command: Command, outcomes: Tuple[Outcome, Outcome], places: Tuple[Dict[str, bytes], ...]
    ) -> str:
        """How a run differs from what it may be, or nothing."""
        wanted, run = outcomes
        before, settled, after, found = places
        if run.refused < 0:
            return "the end of the run isn't reached"
        if run.status == wanted.status:
            if found != after:
                return "the machine isn't what it has to be"
            return "" if same_but_for_identity(run.out, wanted.out) else "something else is printed"
        if run.status == UNSETTLED:
            return "" if found in (before, settled, after) else "it is settled to something else"
        if run.status not in (NO_MEMORY, REFUSED):
            return "another status"
        if found not in (before, settled):
            return "it is told as if nothing had been changed"
        return (
            "something is printed"
            if run.out and "--json" not in command.words and "--look" not in command.words
            else ""
        )


def same_but_for_identity(one: bytes, other: bytes) -> bool:
    """Whether two outputs are the same but for the identity of a journal, which each first update draws."""
    identity = re.compile(rb'"journal":"[0-9a-f]*"')
    return identity.sub(b"", one) == identity.sub(b"", other)


def try_one(bootvars: Path, allocator: Path, number: int) -> Tuple[int, List[str]]:
    """Tries one of the commands: how many growths were refused, and what differs."""
    with tempfile.TemporaryDirectory(prefix="bootkeep-refused-") as work:
        bench = Bench(bootvars, allocator, Path(work))
        bench.try_command(commands()[number])
        return bench.growths, bench.said


def main(words: List[str]) -> int:
    """Tries all commands, as many at once as there are processors: each has a process, with a descriptor 3 of its own."""
    if len(words) != 2:
        print("whole_commands: takes BOOTVARS and ALLOCATOR", file=sys.stderr)
        return 2
    tries = partial(try_one, *(Path(word).resolve() for word in words))
    count, growths, differ = len(commands()), 0, 0
    with ProcessPoolExecutor() as pool:
        for refused, said in pool.map(tries, range(count)):
            growths += refused
            differ += len(said)
            print("".join(f"{line}\n" for line in said), end="", flush=True)
    print(f"{count} commands, {growths} growths refused, {differ} differ")
    return 1 if differ else 0


if __name__ == "__main__":
    sys.exit(main(sys.argv[1:]))
