"""A run of `bench/fleet-scale`: a broker, a sender, and so many simulated machines; and what it took."""

from __future__ import annotations

import json
import os
import sqlite3
import statistics
import subprocess
import sys
import time
from pathlib import Path
from typing import Any, Dict, List, NamedTuple, Optional

ROOT = Path(__file__).resolve().parents[2]
sys.path[:0] = [str(ROOT / "fleet"), str(ROOT / "libraries/python")]

import bootkeep  # noqa: E402
from fleet import PATH, ROOT as FLEET_ROOT, free_port, say  # noqa: E402
from processes import Processes  # noqa: E402
from sender.ledger import Ledger  # noqa: E402
from simulator import name_of  # noqa: E402

assert FLEET_ROOT == ROOT

LOST, OFF, OFF_SECONDS = 0.3, 0.05, 60.0
"""Which part of the messages is lost, each way; which part of the machines is off, and for how many seconds."""

GOALS = [("first", "a"), ("remove", "b")]
"""The goals of all machines, and the option of each."""

MOST_IN_PROCESS = 2500
"""How many machines one process simulates at most."""

TURNS = 5
"""How often a sender begins and ends without a machine: what lies in the middle counts."""

MACHINES = "machines"
"""The name in the certificate of the simulated machines."""

LISTENER = """
listener {port} 127.0.0.1
cafile {folder}/broker/ca.pem
certfile {folder}/broker/own.pem
keyfile {folder}/broker/own.key
require_certificate true
use_identity_as_username true
allow_anonymous false
"""
"""Where simulated machines connect, each with an identity of its own and all by one certificate."""

PLAIN_LISTENER = """
listener {port} 127.0.0.1
"""
"""Where they connect without TLS."""


class Took(NamedTuple):
    """What a sender, a ledger and a broker took: seconds of a processor, and bytes."""

    sender_seconds: float
    sender_memory: int
    ledger_bytes: int
    broker_seconds: float
    broker_memory: int


class Outcome(NamedTuple):
    """What a run took in all, how long it was, whether the sender said that all is done, what simulated machines found,
    how many requests the ledger has the outcome of, and how many messages the sender sent."""

    took: Took
    wall: float
    status: int
    found: List[Dict[str, Any]]
    answered: int
    said: str


class TooLong(RuntimeError):
    """It takes too long."""


class Scale:
    """A broker and a ledger in a folder, and what runs over them."""

    def __init__(self, work: Path, seed: int, is_plain: bool) -> None:
        work.mkdir()
        self.work, self.seed, self.is_plain = work, seed, is_plain
        self.processes = Processes(work)
        self.port, self.machines_port = free_port(), free_port()
        self.certs, self.ledger = work / "certs", work / "ledger"
        self.simulators: List["subprocess.Popen[str]"] = []

    def bootfleet(self, *words: object) -> None:
        """Calls bootfleet."""
        run = subprocess.run(
            [ROOT / "fleet/bootfleet", "--ledger", self.ledger, *map(str, words)],
            capture_output=True,
            text=True,
            check=False,
        )
        if run.returncode:
            raise RuntimeError(f"bootfleet {words}: {run.returncode}: {run.stderr}")

    def set_up(self) -> None:
        """Makes certificates, the ledger and the broker."""
        certs = self.certs
        self.bootfleet("init", self.ledger, "--broker", f"localhost:{self.port}", "--certs", certs)
        self.bootfleet("enroll", MACHINES)
        self.bootfleet("forget", "--yes", MACHINES)
        self._let_machines()
        configured = str(certs / "mosquitto.conf")
        self.processes.start("broker", ["/usr/sbin/mosquitto", "-c", configured])
        time.sleep(1)

    def _let_machines(self) -> None:
        """Lets simulated machines connect. Whoever has no certificate is nobody to the broker, and comes by their listener
        alone."""
        acl, configuration = self.certs / "acl", self.certs / "mosquitto.conf"
        rights, configured = acl.read_text(), configuration.read_text()
        if self.is_plain:
            rights = f"topic readwrite bootkeep/#\n{rights}"
            configured = configured.replace("allow_anonymous false", "allow_anonymous true")
            configured += PLAIN_LISTENER.format(port=self.machines_port)
        else:
            rights += f"\nuser {MACHINES}\ntopic readwrite bootkeep/#\n"
            configured += LISTENER.format(port=self.machines_port, folder=self.certs)
        acl.write_text(rights)
        configuration.write_text(configured)

    def add_goals(self, count: int) -> Dict[str, bytes]:
        """Takes machines in, and makes the goals of each. The options of these."""
        ledger = Ledger(self.ledger)
        with ledger.transaction():
            for number in range(count):
                ledger.add_machine(name_of(number))
        ledger.db.close()
        options = {
            name: bootkeep.option_make(1, name * 7, [PATH.format(name)])
            for name in ("option", "a", "b")
        }
        for name, data in options.items():
            (self.work / name).write_bytes(data)
        for kind, name in GOALS:
            self.bootfleet(kind, "--option", self.work / name, "--all")
        return options

    def start_machines(self, count: int, options: Dict[str, bytes]) -> None:
        """Starts the simulated machines, and waits until those that are on are connected."""
        for first in range(0, count, MOST_IN_PROCESS):
            plan = {
                "port": self.machines_port,
                "certs": None if self.is_plain else str(self.certs / MACHINES),
                "first": first,
                "last": min(count, first + MOST_IN_PROCESS),
                "seed": self.seed,
                "lost": LOST,
                "off": OFF,
                "off_seconds": OFF_SECONDS,
                "options": {name: data.hex() for name, data in options.items()},
                "goals": GOALS,
            }
            with open(self.work / f"simulator-{first}.log", "wb") as log:
                made = subprocess.Popen(
                    [sys.executable, "-B", ROOT / "bench/fleet-side/simulator.py"],
                    stdin=subprocess.PIPE,
                    stdout=subprocess.PIPE,
                    stderr=log,
                    text=True,
                )
            self.simulators.append(made)
            self._tell(made, json.dumps(plan))
        for made in self.simulators:
            if self._line(made) != "ready\n":
                raise RuntimeError(f"simulated machines end: {made.wait()}")

    @staticmethod
    def _tell(made: "subprocess.Popen[str]", line: str) -> None:
        assert made.stdin is not None
        made.stdin.write(f"{line}\n")
        made.stdin.flush()

    @staticmethod
    def _line(made: "subprocess.Popen[str]") -> str:
        assert made.stdout is not None
        return made.stdout.readline()

    def bring(self, words: List[str], within: float) -> "tuple[Took, float, int]":
        """Lets a sender run, and gives what it took, for how long, and its status."""
        broker = self.processes.spent("broker").own
        for made in self.simulators:
            self._tell(made, "begin")
        began = time.monotonic()
        words = [str(ROOT / "fleet/bootfleet"), "--ledger", str(self.ledger), "run", *words]
        sender = self.processes.start("sender", words)
        while True:
            pid, status, used = os.wait4(sender.pid, os.WNOHANG)
            if pid:
                break
            if time.monotonic() > began + within:
                raise TooLong(f"the sender takes more than {within:.0f} s")
            time.sleep(0.05)
        wall = time.monotonic() - began
        sender.returncode = os.waitstatus_to_exitcode(status)
        took = Took(
            used.ru_utime + used.ru_stime,
            used.ru_maxrss * 1024,
            sum(file.stat().st_size for file in self.work.glob("ledger*") if file.is_file()),
            self.processes.spent("broker").own - broker,
            self.processes.memory("broker").resident * 1024,
        )
        return took, wall, sender.returncode

    def run(self, count: int, within: float) -> Outcome:
        """So many machines to their goals."""
        self.set_up()
        options = self.add_goals(count)
        began = time.monotonic()
        self.start_machines(count, options)
        say(f"{count} machines connected: {time.monotonic() - began:.0f} s")
        took, wall, status = self.bring(["--until-done"], within)
        found = []
        for made in self.simulators:
            self._tell(made, "end")
            found.append(json.loads(self._line(made)))
        ledger = Ledger(self.ledger)
        (answered,) = ledger.one("SELECT COUNT(*) FROM request WHERE outcome IS NOT NULL")
        ledger.db.close()
        return Outcome(took, wall, status, found, int(answered), self.processes.log("sender"))

    def end(self) -> int:
        """Ends all, and gives how many processes are left."""
        for made in self.simulators:
            made.kill()
            made.wait()
        return self.processes.end()


def fixed(work: Path, seconds: float, is_plain: bool) -> "tuple[Took, float]":
    """What is taken without a machine: by a sender that begins and ends, by a ledger and by a broker; and how many seconds
    of a processor a sender takes for each second in which nothing comes."""
    scale = Scale(work, 0, is_plain)
    try:
        scale.set_up()
        runs = [scale.bring(["--until-done"], 60) for _ in range(TURNS)]
        runs.append(scale.bring(["--limit", str(seconds)], seconds + 60))
    finally:
        scale.end()
    if any(status for _, _, status in runs):
        raise RuntimeError("a sender without machines doesn't come to its end")
    *short, longer = (took for took, _, _ in runs)
    begins = statistics.median(took.sender_seconds for took in short)
    memory = statistics.median_low(took.sender_memory for took in short)
    took = short[-1]._replace(sender_seconds=begins, sender_memory=memory)
    idle = max(0.0, longer.sender_seconds - begins) / seconds
    return took._replace(ledger_bytes=without_rows(scale.ledger)), idle


def without_rows(ledger: Path) -> int:
    """How many bytes of an empty ledger aren't for machines: a table or an index of these has one page, which is filled
    before there is another."""
    db = sqlite3.connect(str(ledger))
    (size,) = db.execute("PRAGMA page_size").fetchone()
    (pages,) = db.execute("PRAGMA page_count").fetchone()
    query = "SELECT COUNT(*) FROM sqlite_master WHERE rootpage > 0 AND tbl_name IN ('machine', 'goal', 'request')"
    (of_machines,) = db.execute(query).fetchone()
    db.close()
    return int(size) * (int(pages) - int(of_machines))


def sent_messages(said: str) -> Optional[int]:
    """How many messages a sender sent, as it said at its end."""
    words = said.rpartition("bootfleet: sent ")[2].partition(",")[0]
    return int(words) if words.isdigit() else None
