"""Who is refused by the brokers of `bench/fleet`."""

from __future__ import annotations

import shutil
import signal
import time
from pathlib import Path
from typing import Any, List

import relay as relays
from fleet import Fleet


class Refused:
    """Clients that are up to no good, at the machines' broker. What is delivered to whom decides."""

    def __init__(self, fleet: Fleet) -> None:
        self.fleet = fleet

    def try_all(self) -> None:
        """Tries each, beside a client that may do what it does."""
        heard: List[relays.Message] = []
        owner = relays.client(
            self.fleet.certs / "x2",
            self.fleet.ports[1],
            "x2",
            heard.append,
            "bootkeep/x2/request",
        )
        self.fleet.check(
            not relays.is_refused(owner, 5), "x2 isn't connected with its own certificate"
        )
        self.other_authority()
        self.without_certificate()
        stolen = self.intrude("x1", "x1")
        self.fleet.check(not stolen, f"x1 was delivered what is x2's: {stolen}")
        self.fleet.relay.to_machines.publish("bootkeep/x2/request", b"control")
        time.sleep(1)
        self.fleet.check(
            ("bootkeep/x2/request", b"control") in heard, "x2 isn't delivered what is its own"
        )
        heard.clear()
        stolen = self.intrude("x1", "x2")
        self.fleet.check(not stolen, f"by x2's name x1 was delivered {stolen}")
        self.fleet.check(owner.is_connected(), "x1 ended the session of x2")
        self.fleet.check(
            ("bootkeep/x2/request", b"bait") in heard,
            "x2 isn't delivered what is its own, beside x1",
        )
        self.fleet.check(
            not [it for it in heard if it[1].startswith(b"forged")], "x1 sent x2 a request"
        )
        relays.end(owner)
        self.revoked()

    def revoked(self) -> None:
        """A machine whose certificate is revoked, beside one that stands: the broker reads its files anew."""
        own = self.fleet.work / "revoked"
        shutil.copytree(self.fleet.certs / "x1", own)
        self.fleet.bootfleet("revoke", "x1")
        self.fleet.processes.running["far"].send_signal(signal.SIGHUP)
        time.sleep(1)
        self.shut_out(own, "whose certificate is revoked", "x1")
        other = relays.client(self.fleet.certs / "x2", self.fleet.ports[1], "x2", lambda _: None)
        self.fleet.check(not relays.is_refused(other, 5), "x2 was shut out beside x1")
        relays.end(other)

    def intrude(self, own: str, name: str) -> List[relays.Message]:
        """Reads and writes by a machine's certificate what is another one's. What it was delivered."""
        came: List[relays.Message] = []
        wanted = [
            "bootkeep/x2/request",
            "bootkeep/+/request",
            "bootkeep/x2/reply",
            "bootkeep/#",
            "#",
        ]
        made = relays.client(
            self.fleet.certs / own, self.fleet.ports[1], name, came.append, *wanted
        )
        self.fleet.check(
            not relays.is_refused(made, 5), "x1 isn't connected with its own certificate"
        )
        before = len(self.fleet.relay.tapped)
        for topic in ("bootkeep/x2/reply", "bootkeep/x2/request", "bootkeep/x1/reply"):
            made.publish(topic, f"forged {topic}".encode())
        self.fleet.relay.to_machines.publish("bootkeep/x2/request", b"bait")
        time.sleep(2)
        forged = [it for it in self.fleet.relay.tapped[before:] if it[0] == "bootkeep/x2/reply"]
        self.fleet.check(not forged, f"x1 replied for x2: {forged}")
        own_reply = ("bootkeep/x1/reply", b"forged bootkeep/x1/reply")
        self.fleet.check(own_reply in self.fleet.relay.tapped[before:], "x1 can't reply for itself")
        relays.end(made)
        return [it for it in came if it[0] != "bootkeep/x1/request"]

    def other_authority(self) -> None:
        """A certificate of the same name, of another authority."""
        other = self.fleet.work / "other"
        self.fleet.bootfleet(
            "init", other / "ledger", "--broker", "localhost", "--certs", other / "certs"
        )
        self.fleet.bootfleet("enroll", "x2", ledger=other / "ledger")
        shutil.copy(self.fleet.certs / "ca.pem", other / "certs/x2/ca.pem")
        self.shut_out(other / "certs/x2", "of another authority")

    def without_certificate(self) -> None:
        came: List[Any] = []
        made = relays.new_client("x2")
        made.tls_set(str(self.fleet.certs / "ca.pem"))
        made.on_connect = lambda it, *_: it.subscribe("bootkeep/#")
        made.on_message = lambda *it: came.append(it)
        made.connect_async("localhost", self.fleet.ports[1])
        made.loop_start()
        self.judge(made, came, "without a certificate")

    def shut_out(self, own: Path, what: str, name: str = "x2") -> None:
        came: List[Any] = []
        made = relays.client(own, self.fleet.ports[1], name, came.append, "bootkeep/#")
        self.judge(made, came, what)

    def judge(self, made: Any, came: List[Any], what: str) -> None:
        before = len(self.fleet.relay.tapped)
        for _ in range(20):
            made.publish("bootkeep/x2/reply", b"forged")
            self.fleet.relay.to_machines.publish("bootkeep/x2/request", b"bait")
            time.sleep(0.1)
        self.fleet.check(not came, f"a client {what} was delivered {came}")
        forged = [it for it in self.fleet.relay.tapped[before:] if it[1] == b"forged"]
        self.fleet.check(not forged, f"a client {what} sent a reply")
        relays.end(made)
