"""Machines of `bench/fleet` that people have their hands on: what administrators, installers and the firmware do to their
variables and folders, while the agent is held, so that each knows what it found."""

from __future__ import annotations

import json
import os
import random
import shutil
import signal
import struct
import subprocess
import time
from contextlib import contextmanager
from pathlib import Path
from typing import Iterator, List, Optional, Set

from machines import VENDOR, Model, read_machine
from processes import Processes
from records import Record

TAKE = "take a number"

ACTS = (TAKE, TAKE, TAKE, "install", "first", "next", "deactivate")
"""What an administrator does by hand: an entry is taken out, and another one takes its number, as an installer has it;
one is added in front; one is put first; one is the next one; one is made inactive, and so is no job's any more."""

BY_HAND = (
    r"HD(2,GPT,0b7d6c55-2f0c-4a0e-8f55-9b5f6c0a1d3e,0x64800,0x64000)/File(\EFI\{}\grubx64.efi)"
)
"""The path of an entry that is made by hand."""

QUIET_WITHIN, HANDED_ON_WITHIN, GROWTH = 60, 0.4, 1.5
"""For how many seconds an update of a machine may be at work before its agent is held; and after how many it may wait for
the agent, which is let go on then for a quarter of that. Each is so many times as long at the next try: where all is slow,
both need more."""

READ_TIMES = 20
"""How often a machine's variables are read again that are just being changed."""

WRAPPER = """\
#!/bin/sh
# What the agent of a machine calls: bootvars, by the machine's own UUID and start. The machine keeps what it applied.
[ "$1" = update ] || exec "$BENCH_BOOTVARS" "$@"
shift
read -r start <"$MACHINE_HOME/start"
said=$("$BENCH_BOOTVARS" update --machine "$MACHINE_UUID" --boot-id "$start" "$@")
status=$?
case $said in *'"replies":[{'*) printf '%s\\n' "$said" >>"$MACHINE_HOME/applied" ;; esac
printf '%s\\n' "$said"
exit "$status"
"""


class Machine:
    """A machine: its folder, which has its variables, its journal's folder, the identity of its start and what it has
    applied; the UUID of its firmware; and the record of what people did to it."""

    def __init__(self, home: Path, uuid: str, place: Optional[Path] = None) -> None:
        self.home, self.uuid = home, uuid
        self.place = place or home / "efi"
        self.record = Record()

    @property
    def state(self) -> Path:
        return self.home / "state"

    @property
    def start(self) -> str:
        return (self.home / "start").read_text().strip()

    def make(self) -> None:
        """Makes what isn't there of its folder."""
        self.place.mkdir(parents=True, exist_ok=True)
        self.state.mkdir(exist_ok=True)
        (self.home / "start").write_text("start-1\n")

    def model(self) -> Model:
        """What it is like. While an update is at work a file may be gone, or not yet whole, when it is read."""
        for _ in range(READ_TIMES):
            try:
                return read_machine(self.place)
            except (OSError, struct.error):
                time.sleep(0.05)
        return read_machine(self.place)

    def bootvars(self, command: str, *words: object) -> str:
        """Has somebody call bootvars on the machine, and gives what it prints."""
        own = ["--state", self.state, "--machine", self.uuid, "--boot-id", self.start, self.place]
        run = subprocess.run(
            [os.environ["BOOTVARS"], command, *map(str, [*own, *words])],
            capture_output=True,
            text=True,
            timeout=120,
            check=False,
        )
        if run.returncode:
            raise RuntimeError(f"bootvars {command} {words}: {run.returncode}: {run.stderr}")
        return run.stdout

    def was_next(self, description: str) -> bool:
        """Whether after some update BootNext named the entry of a description, by the machine's own notes."""
        file = self.home / "applied"
        for line in file.read_text().splitlines() if file.exists() else []:
            shown = json.loads(line)["show"]
            following = [it for it in shown["entries"] if it["entry"] == shown["next"]]
            if any(it.get("description") == description for it in following):
                return True
        return False

    def copy_to(self, home: Path) -> "Machine":
        """A copy of it, with all that is known of it."""
        shutil.copytree(self.home, home)
        made = Machine(home, self.uuid)
        made.record = self.record.copy()
        return made


class Hands:
    """What people do to machines, by a generator of random numbers, and how often."""

    def __init__(self, processes: Processes, jobs: Set[bytes]) -> None:
        self.processes, self.jobs = processes, jobs
        self.touched: List[str] = []
        self.made = 0  # How many entries were made by hand: each has a name of its own.

    @contextmanager
    def held(self, key: str, machine: Machine) -> Iterator[Model]:
        """Holds a machine's agent, has the machine finish what was cut off, judges what was done to it until then, and
        gives what it is like. What is done in the block is noted as somebody's."""
        try:
            self._hold(key)
            before = self.judge(key, machine)
            yield before
            machine.record.note(before, machine.model(), self.jobs)
        finally:
            self._signal(key, signal.SIGCONT)

    def _hold(self, key: str) -> None:
        """Stops an agent while nothing that it has started is at work: it may have to hand on what that waits for."""
        until, seconds = time.monotonic() + QUIET_WITHIN, HANDED_ON_WITHIN
        while True:
            self._signal(key, signal.SIGSTOP)
            if self.processes.await_quiet(key, seconds):
                return
            if time.monotonic() > until:
                raise RuntimeError(f"what {key} has started is still at work")
            self._signal(key, signal.SIGCONT)
            time.sleep(seconds / 4)
            seconds *= GROWTH

    def _signal(self, key: str, number: int) -> None:
        agent = self.processes.running.get(key)
        if agent is not None:
            agent.send_signal(number)

    def judge(self, key: str, machine: Machine) -> Model:
        """Notes what was done to entries of others, and gives what the machine is like."""
        machine.bootvars("update", "--settle")
        model = machine.model()
        for what in machine.record.touched(model, self.jobs):
            self.touched.append(f"{key}: {what}")
        machine.record.note(model, model, self.jobs)
        return model

    # What administrators do

    def administer(
        self, key: str, machine: Machine, draw: random.Random, wanted: bytes = b""
    ) -> str:
        """Something that an administrator does by hand: to an entry that is wanted, if it is there, and otherwise rather
        to one of a job. What it was."""
        with self.held(key, machine) as model:
            numbers = sorted(model.entries)
            of_jobs = [it for it in numbers if model.entries[it] in self.jobs]
            chosen = [it for it in numbers if model.entries[it] == wanted]
            if not chosen:
                chosen = of_jobs if draw.random() < 0.6 else []
            number = draw.choice(chosen or numbers) if numbers else None
            act = draw.choice(ACTS) if number is not None else "install"
            self._act(act, machine, number)
        return act

    def _act(self, act: str, machine: Machine, number: Optional[int]) -> None:
        entry = f"{number or 0:04X}"
        if act == "install":
            self.install(machine, "--first")
        elif act == TAKE:
            machine.bootvars("remove", entry)
            self.install(machine, "--entry", entry)
        else:
            machine.bootvars(act, entry)

    def install(self, machine: Machine, *words: str) -> None:
        """An installer adds an entry that nobody else has."""
        self.made += 1
        name = f"by-hand-{self.made}"
        path = BY_HAND.format(name)
        # The words of an entry may stand behind the place.
        machine.bootvars("add", "--description", name, "--path", path, *words)

    # What firmware does

    def start(self, key: str, machine: Machine) -> None:
        """The machine starts anew: its agent is gone, and BootNext is used."""
        with self.held(key, machine) as model:
            self.processes.kill_group(key)
            machine.record.start(model, self.jobs)
            (machine.place / f"BootNext-{VENDOR}").unlink(missing_ok=True)
            number = int(machine.start.rpartition("-")[2]) + 1
            (machine.home / "start").write_text(f"start-{number}\n")

    # What installers do

    def reinstall(self, key: str, machine: Machine, is_cleared: bool) -> None:
        """The machine is set up anew: its journal's folder is lost, with its variables if its firmware was reset, and an
        installer adds an entry."""
        with self.held(key, machine):
            self.processes.kill_group(key)
            self.lose_journal(machine)
            if is_cleared:
                for file in machine.place.glob("Boot*"):
                    file.unlink()
            self.install(machine, "--first")

    @staticmethod
    def lose_journal(machine: Machine) -> None:
        shutil.rmtree(machine.state)
        machine.state.mkdir()
