"""The connection to the broker: what machines say comes in, and what they are asked goes out."""

from __future__ import annotations

import ssl
import threading
import time
from collections import Counter, deque
from pathlib import Path
from typing import Any, Deque, List, NamedTuple, Optional, Protocol

import paho.mqtt.client as mqtt

from .telling import Teller

PORT = 8883
"""The port of a broker that takes TLS alone."""

MOST_WAITING, MOST_BYTES = 65_536, 1 << 26
"""How many replies, and of how many bytes, may wait to be taken; more are dropped, and come again."""

MOST_OF_ONE = 4
"""How many of them may be one machine's, so that none keeps the others out."""

BATCH_MOST, BATCH_BYTES = 250, 1 << 23
"""How many replies are taken at once, and of how many bytes, if they are more than one."""


class Came(NamedTuple):
    """A reply of a machine, as it came."""

    name: str
    payload: bytes


class Courier(Protocol):
    """What brings messages to machines, perhaps, and their replies back."""

    def send(self, name: str, payload: bytes) -> None:
        """Sends a message to a machine, if it can be sent now."""

    def receive(self, seconds: float) -> List[Came]:
        """What comes within a time, which ends early if much comes."""


def new_client(name: str) -> mqtt.Client:
    """A client with this identity, by paho 1 or 2. The latter first asks how it is to call back."""
    versions = getattr(mqtt, "CallbackAPIVersion", None)
    more = {} if versions is None else {"callback_api_version": versions.VERSION2}
    return mqtt.Client(client_id=name, **more)


class Waiting:
    """Replies that wait to be taken, so many at most. They are put in by one thread, and taken by another."""

    def __init__(self) -> None:
        self.came: Deque[Came] = deque()
        self.of: "Counter[str]" = Counter()
        self.bytes = 0
        self.changed = threading.Condition()

    def put(self, one: Came) -> None:
        """Adds a reply, or drops it if there are too many."""
        with self.changed:
            is_full = len(self.came) >= MOST_WAITING or self.bytes + len(one.payload) > MOST_BYTES
            if is_full or self.of[one.name] >= MOST_OF_ONE:
                return
            self.came.append(one)
            self.of[one.name] += 1
            self.bytes += len(one.payload)
            self.changed.notify()

    def take(self, seconds: float) -> List[Came]:
        """What comes within a time, which ends early if much comes."""
        until, size = time.monotonic() + seconds, 0
        taken: List[Came] = []
        with self.changed:
            while len(taken) < BATCH_MOST:
                left = until - time.monotonic()
                if not self.came and (left <= 0 or not self.changed.wait(left)):
                    break
                if taken and size + len(self.came[0].payload) > BATCH_BYTES:
                    break
                taken.append(self._take_one())
                size += len(taken[-1].payload)
        return taken

    def _take_one(self) -> Came:
        one = self.came.popleft()
        self.bytes -= len(one.payload)
        self.of[one.name] -= 1
        if not self.of[one.name]:
            del self.of[one.name]
        return one


def split_broker(broker: str) -> "tuple[str, int]":
    """The host and the port of a broker."""
    host, _, port = broker.partition(":")
    if not host or not (port or "1").isdigit() or not 0 < int(port or PORT) < 65_536:
        raise ValueError(f"{broker}: a broker is HOST or HOST:PORT")
    return host, int(port or PORT)


class MqttCourier:
    """A courier over a broker, by TLS. It connects again whenever it has to."""

    def __init__(self, broker: str, own: Path, name: str, teller: Optional[Teller] = None) -> None:
        self.waiting = Waiting()
        self.teller = teller or Teller()
        self.client = new_client(name)
        try:
            self.client.tls_set(str(own / "ca.pem"), str(own / "own.pem"), str(own / "own.key"))
        except (OSError, ssl.SSLError) as error:
            raise ValueError(f"{own}: the certificate can't be used: {error}") from error
        self.client.reconnect_delay_set(1, 30)
        self.client.on_connect = self._connected
        self.client.on_disconnect = self._disconnected
        self.client.on_connect_fail = lambda *_: self._say("can't be reached")
        self.client.on_message = self._received
        self.broker, self.said, self.failed = broker, "", ""
        threading.excepthook = self._thread_failed
        self.client.connect_async(*split_broker(broker))
        self.client.loop_start()

    def _say(self, what: str) -> None:
        """Tells how the connection is, once until it is otherwise."""
        if what != self.said:
            self.said = what
            self.teller.say(f"{self.broker}: {what}")

    def _thread_failed(self, failed: threading.ExceptHookArgs) -> None:
        """Keeps why the thread of the connection has ended: paho lets errors of TLS through."""
        self.failed = f"{self.broker}: {failed.exc_value}"

    def _connected(self, client: mqtt.Client, *more: Any) -> None:
        code = more[2]
        self._say("connected" if code == 0 else f"refused: {mqtt.connack_string(code)}")
        client.subscribe("bootkeep/+/reply", 0)

    def _disconnected(self, _client: mqtt.Client, _data: object, *more: Any) -> None:
        # Of paho 1 the code is all; paho 2 has flags before it, and properties behind it, and a code with words.
        code = more[0] if len(more) == 1 else more[1]
        if code != 0:
            words = mqtt.error_string(code) if isinstance(code, int) else code
            self._say(f"the connection was lost: {words}")

    def _received(self, _client: mqtt.Client, _data: object, message: mqtt.MQTTMessage) -> None:
        self.waiting.put(Came(message.topic.split("/")[1], message.payload))

    def send(self, name: str, payload: bytes) -> None:
        self.client.publish(f"bootkeep/{name}/request", payload, 0)

    def receive(self, seconds: float) -> List[Came]:
        if self.failed:
            raise ConnectionError(self.failed)
        return self.waiting.take(seconds)

    def close(self) -> None:
        self.client.disconnect()
        self.client.loop_stop()
