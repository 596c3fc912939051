"""What the sender of `bench/fleet` has to tell."""

from __future__ import annotations

import shutil
import subprocess
from pathlib import Path

from fleet import ROOT, Fleet, say
from machines import Model, read_machine


class Told:
    """Machines that aren't what the ledger has of them."""

    def __init__(self, fleet: Fleet) -> None:
        self.fleet = fleet

    def try_all(self) -> None:
        """Machines that aren't what the ledger has of them: each has to be in trouble, and then to be adopted."""
        lost, copied, source, second, emptied, gone = self.fleet.names[:6]
        for name in (lost, copied, gone):
            shutil.rmtree(self.fleet.state(name))
        self.fleet.state(lost).mkdir()
        shutil.copytree(self.fleet.state(source), self.fleet.state(copied))
        for file in self.fleet.place(emptied).glob("Boot*"):
            file.unlink()
        self.second_ledger(second)
        before = {
            name: read_machine(self.fleet.place(name))
            for name in (lost, copied, second, emptied, gone)
        }
        self.fleet.add_goal("first", "g", self.fleet.names[:10])
        self.run_to_trouble(self.fleet.ledger)
        troubles = {
            it["name"]: it["why"]
            for it in self.fleet.status(self.fleet.ledger)["machines"]
            if it["state"] == "trouble"
        }
        words = {
            lost: "another journal",
            copied: "it refuses: ",
            second: "its next number is",
            emptied: "it has no entry any more",
            gone: "it refuses: ",
        }
        for name, part in words.items():
            why = troubles.pop(name, "")
            say(f"told of {name}: {why}")
            self.fleet.check(part in why, f"{name} is to be told by {part!r}")
            self.fleet.check(
                read_machine(self.fleet.place(name)) == before[name],
                f"{name} in trouble was changed",
            )
        self.fleet.check(not troubles, f"others are told to be in trouble: {troubles}")
        self.adopt_all(lost, copied, second, emptied, gone)

    def second_ledger(self, name: str) -> None:
        """Another ledger sends to a machine: it is told there that the machine has numbers already, and adopts it."""
        other = self.fleet.work / "second"
        near = f"localhost:{self.fleet.ports[0]}"
        self.fleet.bootfleet("init", other, "--broker", near, "--certs", self.fleet.certs)
        self.fleet.bootfleet("enroll", name, ledger=other)
        option = self.fleet.work / "option-h"
        self.fleet.bootfleet("first", "--option", option, "--all", ledger=other)
        self.run_to_trouble(other)
        (machine,) = self.fleet.status(other)["machines"]
        say(f"told of {name} by a second ledger: {machine['why']}")
        self.fleet.check("its next number is" in str(machine["why"]), "a second ledger isn't told")
        self.fleet.check(
            read_machine(self.fleet.place(name)) == self.fleet.models[name],
            "a second ledger changed a machine unasked",
        )
        self.fleet.bootfleet("adopt", "--yes", name, ledger=other)
        self.fleet.models[name].first(self.fleet.options["h"])
        self.run_until_done(other)

    def adopt_all(self, *names: str) -> None:
        """Each machine in trouble is mended where it has to be, and adopted: then it reaches its goal."""
        lost, copied, second, emptied, gone = names
        for name in (copied, gone):
            shutil.rmtree(self.fleet.state(name), ignore_errors=True)
            self.fleet.state(name).mkdir()
        self.fleet.bootfleet("resend", copied, gone)
        self.run_to_trouble(self.fleet.ledger)
        self.fleet.bootfleet("adopt", "--yes", *names)
        self.fleet.models[emptied] = Model({}, [], None)
        self.fleet.models[emptied].first(self.fleet.options["g"])
        self.run_until_done(self.fleet.ledger)
        self.fleet.compare("told")

    def run_to_trouble(self, ledger: Path) -> None:
        """Lets the sender go on until nothing is left but trouble."""
        run = self.run_sender(ledger)
        self.fleet.check(
            run.returncode == 1,
            f"with trouble the sender has the status {run.returncode}: {run.stderr}",
        )

    def run_until_done(self, ledger: Path) -> None:
        run = self.run_sender(ledger)
        self.fleet.check(
            run.returncode == 0, f"the sender has the status {run.returncode}: {run.stderr}"
        )

    def run_sender(self, ledger: Path) -> "subprocess.CompletedProcess[str]":
        words = [
            ROOT / "fleet/bootfleet",
            "--ledger",
            ledger,
            "run",
            "--until-done",
            "--limit",
            "60",
        ]
        return subprocess.run(list(map(str, words)), capture_output=True, text=True, timeout=90)
