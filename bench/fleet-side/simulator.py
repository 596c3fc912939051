"""Simulated machines of `bench/fleet-scale`, many in one process, each with a connection of its own to the broker.

    simulator.py        an object of JSON on the first line of standard input says what is to be simulated

It prints `ready` once all machines are connected that are on, begins to switch machines off and on at a line `begin`, and
at a line `end` compares each with what it is to be, and prints what it found as an object of JSON."""

from __future__ import annotations

import heapq
import itertools
import json
import random
import resource
import select
import socket
import ssl
import sys
import time
from typing import Any, Callable, Dict, Iterator, List, NamedTuple, Optional, Tuple

from machines import Model, draw_variables
from simulated import Machine

PAUSE = 3.0
"""For how many seconds at most a machine waits that has come, before it looks unasked."""

CONNECT, CONNECTED, PUBLISH, SUBSCRIBE, SUBSCRIBED = 0x10, 0x20, 0x30, 0x82, 0x90
"""The first bytes of packets of MQTT 3.1.1 (2.2.1)."""


class Plan(NamedTuple):
    """What is to be simulated: the machines `first` to `last`, of which a part is off for some seconds, by messages of
    which a part is lost, with options and goals, each a kind and the name of an option. Without certificates they are
    connected without TLS."""

    port: int
    certs: Optional[str]
    first: int
    last: int
    seed: int
    lost: float
    off: float
    off_seconds: float
    options: Dict[str, str]
    goals: List[Tuple[str, str]]


def name_of(number: int) -> str:
    """The name of a machine."""
    return f"m{number:05}"


def text(value: str) -> bytes:
    """A text as MQTT has it, behind its length."""
    return len(value).to_bytes(2, "big") + value.encode()


def packet(first: int, body: bytes) -> bytes:
    """A packet: its first byte, the length of the rest, seven bits to a byte, and the rest."""
    length, left = bytearray(), len(body)
    while True:
        left, digit = left >> 7, left & 0x7F
        length.append(digit | (0x80 if left else 0))
        if not left:
            return bytes([first]) + bytes(length) + body


def cut_packets(held: bytearray) -> Iterator[Tuple[int, bytes]]:
    """Takes whole packets from the front of what has come: the first byte and the rest of each."""
    while len(held) >= 2:
        length, shift, at = 0, 0, 1
        while at < len(held) and held[at] & 0x80:
            length |= (held[at] & 0x7F) << shift
            shift, at = shift + 7, at + 1
        if at == len(held):
            return
        length |= held[at] << shift
        end = at + 1 + length
        if len(held) < end:
            return
        whole = held[0], bytes(held[at + 1 : end])
        del held[:end]
        yield whole


class Link:
    """A machine's connection to the broker."""

    def __init__(self, context: Optional[ssl.SSLContext], port: int, name: str) -> None:
        self.socket = socket.create_connection(("127.0.0.1", port), 60)
        self.socket.setsockopt(socket.IPPROTO_TCP, socket.TCP_NODELAY, 1)
        if context is not None:
            self.socket = context.wrap_socket(self.socket, server_hostname="localhost")
        self.held, self.name = bytearray(), name
        # Nothing is kept of an earlier connection, and the broker waits for no sign of life.
        self.socket.sendall(packet(CONNECT, text("MQTT") + b"\4\2\0\0" + text(name)))
        self._await(CONNECTED)
        topic = text(f"bootkeep/{name}/request")
        self.socket.sendall(packet(SUBSCRIBE, b"\0\1" + topic + b"\0"))
        self._await(SUBSCRIBED)
        self.socket.setblocking(False)

    def _await(self, kind: int) -> None:
        """Waits for the broker's consent, whose last byte is 0."""
        while True:
            for first, body in cut_packets(self.held):
                if first != kind or body[-1] != 0:
                    raise ConnectionError(
                        f"{self.name}: the broker answers {first:#x} {body.hex()}"
                    )
                return
            self._fill()

    def _fill(self) -> None:
        came = self.socket.recv(1 << 16)
        if not came:
            raise ConnectionError(f"{self.name}: the broker ended the connection")
        self.held += came

    def receive(self) -> List[bytes]:
        """The messages that have come."""
        try:
            while True:
                self._fill()
        except (ssl.SSLWantReadError, BlockingIOError):
            pass
        messages = []
        for first, body in cut_packets(self.held):
            if first & 0xF0 == PUBLISH:
                messages.append(body[2 + int.from_bytes(body[:2], "big") :])
        return messages

    def send(self, payload: bytes) -> None:
        self.socket.setblocking(True)
        self.socket.sendall(packet(PUBLISH, text(f"bootkeep/{self.name}/reply") + payload))
        self.socket.setblocking(False)

    def close(self) -> None:
        self.socket.close()


def context_of(certs: str) -> ssl.SSLContext:
    """By what a machine is connected whose certificate is in this folder."""
    made = ssl.create_default_context(cafile=f"{certs}/ca.pem")
    made.load_cert_chain(f"{certs}/own.pem", f"{certs}/own.key")
    return made


class Simulator:
    """The machines and their connections."""

    def __init__(self, plan: Plan) -> None:
        self.plan, self.draw = plan, random.Random(f"{plan.seed} {plan.first}")
        self.options = {name: bytes.fromhex(data) for name, data in plan.options.items()}
        self.counts = {"came": 0, "lost": 0, "answered": 0, "off": 0}
        self.machines: Dict[str, Machine] = {}
        self.models: Dict[str, Model] = {}
        self.needed: Dict[str, int] = {}
        self.links: Dict[int, Link] = {}
        self.files: Dict[str, int] = {}
        self.due: List[Tuple[float, int, Callable[[str], None], str]] = []
        self.serial = itertools.count()
        self.poll = select.epoll()
        self.context = None if plan.certs is None else context_of(plan.certs)
        for number in range(plan.first, plan.last):
            self._make(name_of(number))
        names = list(self.machines)
        off = self.draw.sample(names, round(plan.off * len(names)))
        self.late, self.leaving = off[::2], off[1::2]

    def _make(self, name: str) -> None:
        """Makes a machine, and what it is to become."""
        wanted = [self.options[option] for _, option in self.plan.goals]
        variables = draw_variables(self.draw, self.options["option"], wanted)
        self.machines[name] = machine = Machine(variables, self.draw)
        self.models[name] = model = machine.model()
        self.needed[name] = sum(
            model.reach(kind, self.options[option]) for kind, option in self.plan.goals
        )

    def connect(self, name: str) -> None:
        """A machine comes, and looks unasked after a while."""
        link = Link(self.context, self.plan.port, name)
        file = link.socket.fileno()
        self.links[file], self.files[name] = link, file
        self.poll.register(file, select.EPOLLIN)
        self.later(self.draw.random() * PAUSE, self.look, name)

    def leave(self, name: str) -> None:
        """A machine is switched off, for a while."""
        file = self.files.pop(name)
        self.poll.unregister(file)
        self.links.pop(file).close()
        self.later(self.plan.off_seconds, self.connect, name)

    def look(self, name: str) -> None:
        """A machine looks unasked, if it is on."""
        if name in self.files:
            self.answer(name, b"")

    def later(self, seconds: float, does: Callable[[str], None], name: str) -> None:
        heapq.heappush(self.due, (time.monotonic() + seconds, next(self.serial), does, name))

    def begin(self) -> None:
        """The sender begins: from now on machines are off."""
        for name in self.late:
            self.later(self.plan.off_seconds, self.connect, name)
        for name in self.leaving:
            self.later(self.draw.random() * self.plan.off_seconds / 2, self.leave, name)
        self.counts["off"] = len(self.late) + len(self.leaving)

    def is_lost(self) -> bool:
        is_it = self.draw.random() < self.plan.lost
        self.counts["lost"] += is_it
        return is_it

    def answer(self, name: str, payload: bytes) -> None:
        """A machine answers a message, and perhaps the reply is lost."""
        reply = self.machines[name].answer(payload)
        self.counts["answered"] += 1
        if not self.is_lost():
            self.links[self.files[name]].send(reply)

    def serve(self) -> None:
        """Answers what comes, until a line says that it is the end."""
        self.poll.register(sys.stdin.fileno(), select.EPOLLIN)
        while True:
            now = time.monotonic()
            while self.due and self.due[0][0] <= now:
                _, _, does, name = heapq.heappop(self.due)
                does(name)
            wait = 0.5 if not self.due else min(0.5, max(0.0, self.due[0][0] - now))
            for file, _ in self.poll.poll(wait):
                if file == sys.stdin.fileno():
                    if sys.stdin.readline() != "begin\n":
                        return
                    self.begin()
                elif file in self.links:
                    self.receive(self.links[file])

    def receive(self, link: Link) -> None:
        for payload in link.receive():
            self.counts["came"] += 1
            if not self.is_lost():
                self.answer(link.name, payload)

    def found(self) -> Dict[str, Any]:
        """What became of the machines: those that aren't what they are to be, that have an entry twice, and that have
        applied more requests than it takes, or less."""
        now = {name: machine.model() for name, machine in self.machines.items()}
        applied = {name: it.keeper.next_number for name, it in self.machines.items()}
        used = resource.getrusage(resource.RUSAGE_SELF)
        return {
            **self.counts,
            "differ": [name for name in now if now[name] != self.models[name]],
            "twice": [name for name in now if now[name].has_twice()],
            "other_count": [name for name in now if applied[name] != self.needed[name]],
            "applied": sum(applied.values()),
            "seconds": used.ru_utime + used.ru_stime,
            "memory": used.ru_maxrss,
        }


def main() -> None:
    plan = Plan(**json.loads(sys.stdin.readline()))
    simulator = Simulator(plan)
    late = set(simulator.late)
    for name in simulator.machines:
        if name not in late:
            simulator.connect(name)
    print("ready", flush=True)
    simulator.serve()
    print(json.dumps(simulator.found()), flush=True)


if __name__ == "__main__":
    main()
