"""What waits to be taken, and the clients of paho 1 and 2."""

from __future__ import annotations

import enum
import threading
import time
from pathlib import Path
from typing import Any, List

import paho.mqtt.client as mqtt
import pytest
from conftest import agent

from sender import courier
from sender.courier import (
    BATCH_BYTES,
    BATCH_MOST,
    MOST_BYTES,
    MOST_OF_ONE,
    Came,
    MqttCourier,
    Waiting,
)


def test_what_comes_is_taken_in_its_turn() -> None:
    waiting = Waiting()
    for number in range(5):
        waiting.put(Came(f"m{number}", b"x"))
    assert [it.name for it in waiting.take(0)] == ["m0", "m1", "m2", "m3", "m4"]
    assert waiting.take(0) == [] and waiting.bytes == 0 and not waiting.of


def test_what_comes_meanwhile_is_waited_for() -> None:
    waiting = Waiting()
    threading.Timer(0.05, waiting.put, [Came("m1", b"x")]).start()
    began = time.monotonic()
    assert [it.name for it in waiting.take(0.5)] == ["m1"]
    assert 0.4 < time.monotonic() - began < 5


def test_one_machine_keeps_no_other_out() -> None:
    waiting = Waiting()
    for _ in range(70_000):
        waiting.put(Came("flood", b"x"))
    waiting.put(Came("m1", b"y"))
    taken = waiting.take(0)
    assert [it.name for it in taken] == ["flood"] * MOST_OF_ONE + ["m1"]
    waiting.put(Came("flood", b"x"))
    assert len(waiting.take(0)) == 1


def test_what_waits_has_so_many_bytes_at_most() -> None:
    waiting, large = Waiting(), bytes(700_000)
    for number in range(1000):
        waiting.put(Came(f"m{number}", large))
    assert len(waiting.came) == MOST_BYTES // len(large) < 100
    waiting.put(Came("m9999", b"x"))
    taken = waiting.take(0)
    assert len(taken) == BATCH_BYTES // len(large)
    while taken:
        taken = waiting.take(0)
    assert waiting.bytes == 0


def test_what_is_larger_than_a_batch_is_taken_alone() -> None:
    waiting, large = Waiting(), bytes(BATCH_BYTES + 1)
    waiting.put(Came("m1", large))
    waiting.put(Came("m2", b"x"))
    assert [[it.name for it in waiting.take(0)] for _ in range(2)] == [["m1"], ["m2"]]


def test_a_batch_has_so_many_at_most() -> None:
    waiting = Waiting()
    for number in range(BATCH_MOST + 1):
        waiting.put(Came(f"m{number}", b"x"))
    assert (len(waiting.take(0)), len(waiting.take(0))) == (BATCH_MOST, 1)


class Code:
    """A code of paho 2: no number, but equal to one."""

    def __init__(self, value: int) -> None:
        self.value = value

    def __eq__(self, other: object) -> bool:
        return self.value == other

    def __str__(self) -> str:
        return {0: "Success", 135: "Not authorized"}[self.value]


class Version(enum.IntEnum):
    VERSION1 = 1
    VERSION2 = 2


class Client:
    """A client as paho 2 has it, of which the first argument is how it is to call back."""

    def __init__(
        self, callback_api_version: Version, client_id: str = "", userdata: object = None
    ) -> None:
        if not isinstance(callback_api_version, Version):
            raise ValueError("Unsupported callback API version")
        self.version, self.name, self.data = callback_api_version, client_id, userdata
        self.on_connect: Any = None
        self.on_disconnect: Any = None
        self.topics: List[str] = []

    def subscribe(self, topic: str, _qos: int = 0) -> None:
        self.topics.append(topic)

    def connect(self, code: int) -> None:
        more: List[Any] = [Code(code), None] if self.version == Version.VERSION2 else [code]
        self.on_connect(self, self.data, {}, *more)

    def disconnect_for(self, code: int) -> None:
        more: List[Any] = [{}, Code(code), None] if self.version == Version.VERSION2 else [code]
        self.on_disconnect(self, self.data, *more)

    def __getattr__(self, _name: str) -> Any:
        return lambda *_: None


@pytest.fixture
def paho_2(monkeypatch: pytest.MonkeyPatch) -> None:
    monkeypatch.setattr(mqtt, "Client", Client)
    monkeypatch.setattr(mqtt, "CallbackAPIVersion", Version, raising=False)
    monkeypatch.setattr(mqtt, "connack_string", str)
    monkeypatch.setattr(threading, "excepthook", threading.excepthook)


@pytest.mark.usefixtures("paho_2")
def test_the_sender_connects_by_paho_2(capsys: pytest.CaptureFixture[str]) -> None:
    made: Any = MqttCourier("localhost:1", Path("/own"), "sender")
    client: Client = made.client
    assert client.name == "sender"
    client.connect(0)
    client.disconnect_for(0)
    assert client.topics == ["bootkeep/+/reply"]
    assert "connected" in capsys.readouterr().err
    client.disconnect_for(135)
    assert "the connection was lost: Not authorized" in capsys.readouterr().err
    client.connect(135)
    assert "refused: Not authorized" in capsys.readouterr().err


@pytest.mark.usefixtures("paho_2")
def test_the_agent_connects_by_paho_2(monkeypatch: pytest.MonkeyPatch) -> None:
    monkeypatch.setenv("BOOTFLEET_PAUSE", "0")
    client: Any = agent.new_client("m1")
    assert (client.name, client.data) == ("m1", "m1")
    client.on_connect = agent.connected
    client.connect(0)
    assert client.topics == ["bootkeep/m1/request"]
    assert agent.pending.get(timeout=5) == b""


def test_they_connect_by_the_paho_that_is_there() -> None:
    assert isinstance(courier.new_client("sender"), mqtt.Client)
    assert isinstance(agent.new_client("m1"), mqtt.Client)
