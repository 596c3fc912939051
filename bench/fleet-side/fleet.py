"""The fleet of `bench/fleet`: brokers, a relay between them, machines with their agents, and a sender; and the parts in
which it goes after goals."""

from __future__ import annotations

import json
import os
import random
import re
import resource
import socket
import subprocess
import time
from pathlib import Path
from typing import Any, Dict, List, Optional

import relay as relays
from machines import FAIR, FOUL, Model, make_machine, read_machine
from processes import Processes

ROOT = Path(__file__).resolve().parents[2]

PATIENCE = 200
"""For how many seconds the sender may be at work at three goals."""

KILLING = 40
"""For how many seconds processes are killed."""

KILLED_EVERY = 120
"""After how many seconds of that each agent was killed once, on average."""

MOST_TIMES = 3
"""How many times as long as the calm part the wild one may take."""

OTHER_SENDER = "other"

LOOK_PAUSE = 3
"""For how many seconds an agent waits at most before it looks unasked."""

PATH = r"HD(1,GPT,5f2c1a9e-7d64-4b0e-9c3b-1e8f60a2d7c4,0x800,0x64000)/File(\EFI\{}\shimx64.efi)"


class TooLong(Exception):
    """It takes too long."""


class Fleet:
    """The fleet and its parts."""

    def __init__(self, work: Path, count: int, seed: int) -> None:
        self.work, self.draw, self.seed = work, random.Random(seed), seed
        self.names = [f"m{number:03}" for number in range(count)]
        self.processes = Processes(work)
        self.ports = free_port(), free_port()
        self.certs, self.ledger = work / "certs", work / "ledger"
        self.models: Dict[str, Model] = {}
        self.options: Dict[str, bytes] = {}
        self.checks = self.failed = 0
        self.cpu = 0.0

    def check(self, is_so: bool, what: str) -> None:
        """Counts a check, and tells what isn't as it has to be."""
        self.checks += 1
        if not is_so:
            self.failed += 1
            say(f"FAILED: {what}")

    # What there is

    def bootfleet(self, *words: object, ledger: Optional[Path] = None) -> str:
        """Calls bootfleet, and gives what it prints."""
        run = subprocess.run(
            [ROOT / "fleet/bootfleet", "--ledger", ledger or self.ledger, *map(str, words)],
            capture_output=True,
            text=True,
            timeout=120,
        )
        if run.returncode:
            raise RuntimeError(f"bootfleet {words}: {run.returncode}: {run.stderr}")
        return run.stdout

    def set_up(self) -> None:
        """Makes certificates, brokers, the relay and the machines, and starts the agents."""
        self.make_certificates("x1", "x2")
        for name in ("option", *"abcdefghij"):
            self.options[name] = make_option(self.work, name)
        for name in self.names:
            make_machine(
                self.place(name),
                self.draw,
                self.options["option"],
                [self.options[it] for it in "abcd"],
            )
            self.state(name).mkdir()
            self.models[name] = read_machine(self.place(name))
        self.start_all()

    def make_certificates(self, *others: str) -> None:
        """Makes a ledger with all machines, certificates also of others that are none, and what two brokers read."""
        began = time.monotonic()
        self.bootfleet(
            "init", self.ledger, "--broker", f"localhost:{self.ports[0]}", "--certs", self.certs
        )
        self.bootfleet("enroll", *self.names, *others, relays.NAME)
        self.bootfleet("forget", "--yes", *others, relays.NAME)
        self.bootfleet("enroll-sender", OTHER_SENDER)
        say(f"certificates of {len(self.names)} machines: {time.monotonic() - began:.1f} s")
        with (self.certs / "acl").open("a") as acl:
            acl.write(f"\nuser {relays.NAME}\ntopic readwrite bootkeep/#\n")
        configuration = (self.certs / "mosquitto.conf").read_text()
        first = f"listener {self.ports[0]} "
        other = configuration.replace(first, f"listener {self.ports[1]} ")
        (self.certs / "other.conf").write_text(other)

    def start_all(self) -> None:
        """Starts the brokers, the relay between them, and the agents."""
        self.start_broker("near")
        self.start_broker("far")
        self.relay = relays.Relay(self.certs / relays.NAME, self.ports, self.seed)
        began = time.monotonic()
        for name in self.names:
            self.start_agent(name)
        self.await_agents()
        say(f"agents connected: {time.monotonic() - began:.1f} s")

    def place(self, name: str) -> Path:
        return self.work / name / "efi"

    def state(self, name: str) -> Path:
        return self.work / name / "state"

    def start_broker(self, name: str) -> None:
        file = {"near": "mosquitto.conf", "far": "other.conf"}[name]
        self.processes.start(name, ["/usr/sbin/mosquitto", "-c", str(self.certs / file)])

    def start_agent(self, name: str) -> None:
        broker = f"localhost:{self.ports[1]}"
        words = [
            ROOT / "fleet/bootfleet-agent",
            name,
            broker,
            self.certs / name,
            self.state(name),
            self.place(name),
        ]
        self.processes.start(name, list(map(str, words)))

    def start_sender(self, name: str = "sender") -> None:
        """Starts a sender, by the certificate of this name."""
        words = [ROOT / "fleet/bootfleet", "--ledger", self.ledger, "run", "--until-done"]
        self.processes.start(name, [*map(str, words), "--as", name])

    def await_agents(self) -> None:
        """Waits until the broker has each agent, and until those that look on connecting have done so."""
        missing = set(self.names)
        while missing:
            time.sleep(0.2)
            missing -= set(re.findall(r" as (m\d+) ", self.processes.log("far")))
        time.sleep(LOOK_PAUSE + 1)

    # Goals

    def add_goal(self, kind: str, option: str, names: Optional[List[str]] = None) -> None:
        """Makes a goal of machines, and makes it of their models at once."""
        chosen = self.names if names is None else names
        listed = self.work / "listed"
        listed.write_text("\n".join(chosen))
        self.bootfleet(kind, "--option", self.work / f"option-{option}", "--machines", listed)
        for name in chosen:
            make = {"first": Model.first, "next": Model.next_once, "remove": Model.remove}[kind]
            make(self.models[name], self.options[option])

    def bring(self, what: str, is_wild: bool) -> float:
        """Lets the sender bring the machines to their goals, and gives how long it took."""
        kills = {"agents": 0, "updates": 0, "sender": 0, "brokers": 0}
        counts = dict(vars(self.relay.counts))
        before = resource.getrusage(resource.RUSAGE_CHILDREN)
        began = time.monotonic()
        due = {"agent": began + 0.5, "sender": began + 4.0, "broker": began + 7.0}
        self.start_sender()
        while (status := self.processes.running["sender"].poll()) is None:
            now = time.monotonic()
            if now > began + PATIENCE:
                self.check(False, f"{what}: it takes more than {PATIENCE} s")
                self.processes.kill("sender")
                break
            if is_wild and now < began + KILLING:
                self.kill_some(now, due, kills)
            time.sleep(0.02)
        spent = time.monotonic() - began
        self.check(status == 0, f"{what}: the sender has the status {status}")
        after = resource.getrusage(resource.RUSAGE_CHILDREN)
        self.cpu = after.ru_utime + after.ru_stime - before.ru_utime - before.ru_stime
        moved = {it: value - counts[it] for it, value in vars(self.relay.counts).items()}
        say(f"{what}: {spent:.1f} s, messages {moved}" + (f", killed {kills}" if is_wild else ""))
        return spent

    def killable(self) -> List[str]:
        """The agents that may be killed."""
        return self.names

    def kill_some(self, now: float, due: Dict[str, float], kills: Dict[str, int]) -> None:
        """Kills what is to be killed by now, and starts it again."""
        if now > due["agent"]:
            name, is_alone = self.draw.choice(self.killable()), self.draw.random() < 0.5
            (self.processes.kill if is_alone else self.processes.kill_group)(name)
            kills["agents" if is_alone else "updates"] += 1
            self.start_agent(name)
            due["agent"] = now + KILLED_EVERY / len(self.names)
        if now > due["sender"]:
            self.processes.kill("sender")
            self.start_sender()
            kills["sender"] += 1
            due["sender"] = now + 9
        if now > due["broker"]:
            name = self.draw.choice(["near", "far"])
            self.processes.kill(name)
            self.start_broker(name)
            kills["brokers"] += 1
            due["broker"] = now + 11

    def compare(self, what: str) -> None:
        """Compares each machine with its model, once no update is at work."""
        time.sleep(1)
        differ = [
            name for name in self.names if read_machine(self.place(name)) != self.models[name]
        ]
        twice = [name for name in self.names if read_machine(self.place(name)).has_twice()]
        for name in differ[:3]:
            say(f"{name} is {read_machine(self.place(name))}, and has to be {self.models[name]}")
        self.check(
            not differ, f"{what}: {len(differ)} machines differ from the model: {differ[:5]}"
        )
        self.check(not twice, f"{what}: {len(twice)} machines have an entry twice: {twice[:5]}")
        say(
            f"{what}: {len(differ)} machines differ from the model, {len(twice)} have an entry twice"
        )

    def calm_and_wild(self) -> None:
        self.relay.weather = FOUL
        times = []
        for what, options in (("calm", "ab"), ("wild", "cd")):
            self.add_goal("first", options[0])
            self.add_goal("next", options[1])
            self.add_goal("remove", options[0])
            times.append(self.bring(what, what == "wild"))
            self.compare(what)
        share = times[1] / times[0]
        say(f"the wild part took {share:.2f} times as long as the calm one")
        self.check(share <= MOST_TIMES, f"the wild part took {share:.2f} times as long")

    def two_senders(self) -> None:
        """Two senders over one ledger, of which each machine is one's at a time. The one that is first is killed, and
        the other one goes on when its lease has ended."""
        self.relay.weather = FAIR
        self.add_goal("first", "i")
        self.add_goal("next", "j")
        began = time.monotonic()
        self.start_sender()
        time.sleep(1.5)
        self.start_sender(OTHER_SENDER)
        time.sleep(1)
        self.processes.kill("sender")
        status = self.processes.running[OTHER_SENDER].wait(PATIENCE)
        say(f"two senders, of which one is killed: {time.monotonic() - began:.1f} s")
        self.check(status == 0, f"the other sender has the status {status}")
        self.compare("two senders")

    def fair(self) -> None:
        """The same without losses and kills, by which the sender's time is measured."""
        self.relay.weather = FAIR
        before = {name: self.processes.spent(name) for name in self.names}
        brokers = self.processes.spent("near").own
        counts = self.relay.counts.requests
        for kind, option in (("first", "e"), ("next", "f"), ("remove", "e")):
            self.add_goal(kind, option)
        spent = self.bring("fair", False)
        self.compare("fair")
        messages = self.relay.counts.requests - counts
        own = sum(self.processes.spent(name).own - before[name].own for name in self.names)
        updates = sum(
            self.processes.spent(name).children - before[name].children for name in self.names
        )
        broker = self.processes.spent("near").own - brokers
        say(
            f"sender: {spent:.1f} s for {len(self.names)} machines and 3 goals, {self.cpu:.2f} s of a processor;"
            f" {messages} messages, of each {1000 * own / messages:.1f} ms of the agent, {1000 * updates / messages:.1f}"
            f" ms of bootvars, {1000 * broker / messages / 2:.2f} ms of a broker a message"
        )

    def status(self, ledger: Path) -> Dict[str, Any]:
        found: Dict[str, Any] = json.loads(self.bootfleet("status", "--json", ledger=ledger))
        return found


def say(what: str) -> None:
    print(what, flush=True)


def free_port() -> int:
    with socket.socket() as made:
        made.bind(("127.0.0.1", 0))
        return int(made.getsockname()[1])


def description_of(name: str) -> str:
    """The description of the option of a name."""
    return name * 7


def make_option(work: Path, name: str) -> bytes:
    out = work / f"option-{name}"
    words = ["option", "--description", description_of(name), "--path", PATH.format(name)]
    words += ["--out", str(out)]
    subprocess.run([os.environ["BOOTVARS"], *words], check=True)
    return out.read_bytes()
