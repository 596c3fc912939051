"""A fleet that has more to do than it gets done: what is sent again then, and what isn't."""

from __future__ import annotations

import json
import random
import time
from collections import deque
from typing import Any, ContextManager, Deque, Dict, List

import pytest
from conftest import add, goal

from sender.answers import digest
from sender.courier import Came
from sender.ledger import Ledger
from sender.messages import look
from sender.run import LEASE, MOST_QUIET, Held, Sender

COUNT = 200

STEP = 0.05
"""How many seconds a turn of the sender takes."""


class Clock:
    """A clock that goes on by turns."""

    def __init__(self) -> None:
        self.now = 1000.0

    def __call__(self) -> float:
        return self.now


class Slow:
    """Machines behind a broker that passes on so many messages a second, in their order, and loses a part of them."""

    def __init__(self, clock: Clock, rate: float, lost: float) -> None:
        self.clock, self.rate, self.lost = clock, rate, lost
        self.waiting: Deque[Came] = deque()
        self.sent: List[str] = []
        self.done = 0.0
        self.draw = random.Random(1)

    def send(self, name: str, payload: bytes) -> None:
        self.sent.append(name)
        self.waiting.append(Came(name, payload))

    def receive(self, seconds: float) -> List[Came]:
        self.clock.now += STEP
        self.done = min(self.done + self.rate * STEP, len(self.waiting))
        came = []
        while self.done >= 1:
            self.done -= 1
            name, payload = self.waiting.popleft()
            if self.draw.random() >= self.lost:
                came.append(Came(name, reply(payload)))
        return came


def reply(payload: bytes) -> bytes:
    """What a machine with one entry answers."""
    entry = {"entry": "0001", "kind": "undecodable", "data": "00"}
    shown = {"entries": [entry], "order": ["0001"], "next": None}
    held: Dict[str, Any] = {"next": 0, "journal": None, "unmet": None, "replies": [], "show": shown}
    return json.dumps({"to": digest(payload), "status": 0, **held}).encode()


@pytest.fixture
def clock(monkeypatch: pytest.MonkeyPatch) -> Clock:
    made = Clock()
    monkeypatch.setattr(time, "monotonic", made)
    return made


def bring(ledger: Ledger, clock: Clock, rate: float, lost: float) -> Sender:
    """Brings machines to a goal that all have reached already: each is looked at once."""
    names = [f"n{number}" for number in range(COUNT)]
    with ledger.transaction():
        for name in names:
            ledger.add_machine(name)
    add(ledger, goal("remove", "=old"), to=names)
    sender = Sender(ledger, Slow(clock, rate, lost), "sender")
    assert sender.run(True, 600, lambda: False) and ledger.all_reached()
    return sender


@pytest.mark.parametrize("rate", [5000, 100, 20])
def test_what_waits_for_its_turn_is_not_sent_again(
    ledger: Ledger, clock: Clock, rate: float
) -> None:
    """However slow it is: at the last rate a machine answers after ten seconds, which is ten times the first pause."""
    assert bring(ledger, clock, rate, 0).counts.again == 0


@pytest.mark.parametrize("rate", [5000, 100])
def test_what_is_lost_is_sent_again_also_then(ledger: Ledger, clock: Clock, rate: float) -> None:
    """If half of the messages are lost each is sent twice on average, and little more."""
    counts = bring(ledger, clock, rate, 0.5).counts
    assert counts.taken == COUNT
    assert 1.6 * COUNT < counts.out < 2.4 * COUNT


@pytest.mark.parametrize(
    "quiet_turns, answered_of, may_be",
    [
        (0, 9.9, True),
        (MOST_QUIET - 1, 9.9, True),
        (MOST_QUIET, 9.9, False),  # Nobody is at work.
        (0, 10.2, True),  # One that was sent hardly later is answered.
        (0, 10.3, False),  # One that was sent later is answered.
    ],
)
def test_whether_a_message_may_be_answered(
    ledger: Ledger, quiet_turns: int, answered_of: float, may_be: bool
) -> None:
    sender = Sender(ledger, Slow(Clock(), 1, 0), "sender")
    sender.quiet_turns, sender.answered_of = quiet_turns, answered_of
    assert sender._may_be_answered(Held(look(), 11.0, 1, last=10.0)) == may_be


def test_nothing_may_be_answered_at_first(ledger: Ledger) -> None:
    sender = Sender(ledger, Slow(Clock(), 1, 0), "sender")
    assert not sender._may_be_answered(Held(look(), 11.0, 1, last=10.0))


def test_a_turn_without_anything_to_do_leaves_the_ledger_alone(
    ledger: Ledger, clock: Clock, monkeypatch: pytest.MonkeyPatch
) -> None:
    sender = Sender(ledger, Slow(clock, 100, 0), "sender")
    sender.turn([])
    opened: List[float] = []
    transaction = ledger.transaction

    def counted() -> ContextManager[None]:
        opened.append(clock.now)
        return transaction()

    monkeypatch.setattr(ledger, "transaction", counted)
    for _ in range(10):
        clock.now += STEP
        sender.turn([])
    assert opened == []
    sender.turn([Came("m1", b"{}")])
    clock.now += LEASE
    sender.turn([])
    assert opened == [clock.now - LEASE, clock.now]
