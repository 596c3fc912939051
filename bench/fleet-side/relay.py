"""What is between the two brokers of `bench/fleet`: it loses, doubles and delays messages, both ways."""

from __future__ import annotations

import heapq
import random
import threading
import time
from collections import deque
from dataclasses import dataclass
from pathlib import Path
from typing import Any, Callable, Deque, List, NamedTuple, Tuple

import paho.mqtt.client as mqtt

from machines import FAIR

NAME = "relay"

MOST_PAST = 5000
"""Of how many messages one may come again."""


NAMES_ENTRY = (2, 3, 5, 8)
"""The kinds of requests to a machine's own entries: Replace, Remove, Next and First begin with the number of one."""

KIND_AT, PAYLOAD_AT = 3, 12
"""Where the kind is in a frame, and where its payload begins (docs/formats/requests.md)."""


class Lost(NamedTuple):
    """A request that was lost and will come again: when, to which machine, and which entry it is about."""

    when: float
    name: str
    entry: int


class Message(NamedTuple):
    """What was delivered."""

    topic: str
    payload: bytes


def new_client(name: str) -> mqtt.Client:
    """A client with this identity, by paho 1 or 2. The latter first asks how it is to call back."""
    versions = getattr(mqtt, "CallbackAPIVersion", None)
    more = {} if versions is None else {"callback_api_version": versions.VERSION2}
    return mqtt.Client(client_id=name, **more)


def client(
    own: Path, port: int, name: str, came: Callable[[Message], Any], *topics: str
) -> mqtt.Client:
    """A client of a broker, by the certificate in a folder, that subscribes to these topics."""
    made = new_client(name)
    made.tls_set(str(own / "ca.pem"), str(own / "own.pem"), str(own / "own.key"))
    made.reconnect_delay_set(1, 1)
    made.on_connect = lambda it, *_: [it.subscribe(topic, 0) for topic in topics]
    made.on_message = lambda _client, _data, it: came(Message(it.topic, it.payload))
    made.connect_async("localhost", port)
    made.loop_start()
    return made


@dataclass
class Counts:
    """How many messages came, and what became of them."""

    requests: int = 0
    replies: int = 0
    lost: int = 0
    doubled: int = 0
    again: int = 0


class Relay:
    """Takes requests from the sender's broker to the machines', and replies back."""

    def __init__(self, own: Path, ports: Tuple[int, int], seed: int) -> None:
        self.weather, self.counts, self.draw = FAIR, Counts(), random.Random(seed)
        self.late: List[Tuple[float, int, mqtt.Client, str, bytes]] = []
        self.lost: Deque[Lost] = deque(maxlen=MOST_PAST)
        self.past: Deque[Tuple[mqtt.Client, str, bytes]] = deque(maxlen=MOST_PAST)
        self.changed = threading.Condition()
        self.serial = 0
        self.to_sender = client(own, ports[0], NAME, self._request, "bootkeep/+/request")
        self.to_machines = client(own, ports[1], NAME, self._reply, "bootkeep/+/reply")
        self.tapped: List[Message] = []
        threading.Thread(target=self._pass_on, daemon=True).start()

    def _request(self, message: Message) -> None:
        self.counts.requests += 1
        self._take(self.to_machines, *message)

    def _reply(self, message: Message) -> None:
        self.counts.replies += 1
        self.tapped.append(message)
        self._take(self.to_sender, *message)

    def _take(self, to: mqtt.Client, topic: str, payload: bytes) -> None:
        """Lets a message be lost, or be late once or twice, and perhaps one come again."""
        lost, doubled, late, again = self.weather
        copies = 0 if self.draw.random() < lost else 1 + (self.draw.random() < doubled)
        self.counts.lost += copies == 0
        if copies == 0:
            self._note_lost(topic, payload)
        self.counts.doubled += copies == 2
        if late == 0:
            to.publish(topic, payload, 0)
            return
        passed_on = [(to, topic, payload)] * copies
        if again:
            self.past.append((to, topic, payload))
            if self.draw.random() < again:
                self.counts.again += 1
                passed_on.append(self.draw.choice(self.past))
        with self.changed:
            for one in passed_on:
                most = late if self.draw.random() < 0.1 else 0.1
                self.serial += 1
                due = time.monotonic() + self.draw.random() * most
                heapq.heappush(self.late, (due, self.serial, *one))
            self.changed.notify()

    def _note_lost(self, topic: str, payload: bytes) -> None:
        """Notes a request that is about an entry, if it is one."""
        _, name, kind = topic.split("/")
        frames = payload.partition(b"\n")[2]
        if kind == "request" and len(frames) > PAYLOAD_AT and frames[KIND_AT] in NAMES_ENTRY:
            entry = int.from_bytes(frames[PAYLOAD_AT : PAYLOAD_AT + 2], "little")
            self.lost.append(Lost(time.monotonic(), name, entry))

    def _pass_on(self) -> None:
        while True:
            with self.changed:
                while not self.late or self.late[0][0] > time.monotonic():
                    left = self.late[0][0] - time.monotonic() if self.late else None
                    self.changed.wait(left)
                _, _, to, topic, payload = heapq.heappop(self.late)
            to.publish(topic, payload, 0)


def is_refused(made: mqtt.Client, seconds: float) -> bool:
    """Whether a client isn't connected within a time."""
    until = time.monotonic() + seconds
    while time.monotonic() < until:
        if made.is_connected():
            return False
        time.sleep(0.05)
    return True


def end(*clients: Any) -> None:
    for made in clients:
        made.disconnect()
        made.loop_stop()
