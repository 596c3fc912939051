"""What it takes."""

from __future__ import annotations

import time
from typing import Any, Dict, List

import relay as relays
from fleet import Fleet, TooLong, say

NO_ENTRY = 0xFFFE
"""An entry that no machine has."""


class Figures:
    """What it takes, without losses, of an agent and of a machine that is asked alone."""

    def __init__(self, fleet: Fleet) -> None:
        self.fleet = fleet

    def measure(self) -> None:
        """What it takes, without losses, of an agent and of a machine that is asked alone."""
        held = [self.fleet.processes.memory(name) for name in self.fleet.names]
        resident, private = (sum(it[at] for it in held) / len(held) / 1024 for at in (0, 1))
        say(f"an agent: {private:.1f} MiB of its own, {resident:.1f} resident")
        name = self.fleet.names[-1]
        self.fleet.check(private <= 25, f"an agent has {private:.1f} MiB of its own")
        for count in (1, 64):
            self.rate(name, count)
        size = sum(file.stat().st_size for file in self.fleet.work.glob("ledger*"))
        rows = self.fleet.status(self.fleet.ledger)["machines"]
        requests = sum(it["next"] for it in rows)
        say(f"ledger: {size} bytes for {len(rows)} machines and {requests} requests")
        self.flood()

    def rate(self, name: str, count: int) -> None:
        """How many updates a second a machine makes, so many to a message."""
        machine = self.machine(name)
        number, journal = int(machine["next"]), machine["journal"]
        topic, done, messages = f"bootkeep/{name}/reply", 0, 100 if count == 1 else 8
        before, began = self.fleet.processes.spent(name), time.monotonic()
        for _ in range(messages):
            line = f"bootfleet 2 journal={journal} next={number} {NO_ENTRY:04X}=none\n".encode()
            frames = b"".join(next_frame(number + it) for it in range(count))
            number += count
            seen = len(self.fleet.relay.tapped)
            self.fleet.relay.to_machines.publish(f"bootkeep/{name}/request", line + frames)
            self.await_reply(topic, seen)
            done += count
        spent, after = time.monotonic() - began, self.fleet.processes.spent(name)
        own, updates = ((after[at] - before[at]) / messages * 1000 for at in (0, 1))
        say(
            f"{count} to a message: {done / spent:.0f} updates a second, {spent / messages * 1000:.1f} ms a message;"
            f" {own:.1f} ms of the agent, {updates:.1f} ms of bootvars"
        )
        if count == 1:
            self.fleet.check(own <= 3, f"an agent takes {own:.1f} ms of a processor for a message")

    def machine(self, name: str) -> Dict[str, Any]:
        """How a machine stands."""
        machines = self.fleet.status(self.fleet.ledger)["machines"]
        return next(dict(it) for it in machines if it["name"] == name)

    def await_reply(self, topic: str, seen: int) -> None:
        until = time.monotonic() + 10
        while time.monotonic() < until:
            if any(it[0] == topic for it in self.fleet.relay.tapped[seen:]):
                return
            time.sleep(0.0005)
        raise TooLong(f"no reply of {topic}")

    def flood(self) -> None:
        """How many messages a second a broker passes on, by the time of a processor that it takes for them."""
        came: List[relays.Message] = []
        owner = relays.client(
            self.fleet.certs / "x2",
            self.fleet.ports[1],
            "x2",
            came.append,
            "bootkeep/x2/request",
        )
        self.fleet.check(not relays.is_refused(owner, 5), "x2 isn't connected")
        time.sleep(0.5)
        before, count = self.fleet.processes.spent("far").own, 20_000
        for _ in range(count):
            self.fleet.relay.to_machines.publish("bootkeep/x2/request", bytes(100))
        until, seen = time.monotonic() + 30, -1
        while len(came) < count and time.monotonic() < until and len(came) != seen:
            seen = len(came)
            time.sleep(1)
        spent = self.fleet.processes.spent("far").own - before
        say(
            f"broker: {len(came)} of {count} delivered, {len(came) / spent:.0f} messages a second of a processor"
        )
        relays.end(owner)


def next_frame(number: int) -> bytes:
    """A request that sets BootNext to an entry that isn't there: it changes the journal alone."""
    entry = NO_ENTRY.to_bytes(2, "little")
    return b"BQ\1\5" + number.to_bytes(4, "little") + b"\2\0\0\0" + entry
