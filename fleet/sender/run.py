"""The loop that brings machines to their goals: it sends, takes what comes, and sends again after growing pauses."""

from __future__ import annotations

import heapq
import math
import os
import random
import secrets
import sqlite3
import time
from dataclasses import dataclass, field
from typing import Callable, Dict, List, NamedTuple, Optional, Tuple, Union

from . import machines
from .answers import (
    MOST_WORDS,
    UNASKED,
    Answer,
    BadAnswer,
    Refusal,
    answered,
    plain,
    read_answer,
)
from .courier import Came, Courier
from .ledger import Ledger
from .messages import Message, look
from .report import Report
from .telling import Teller

LEASE = 15.0
"""For how many seconds a sender holds a machine, unless it prolongs that."""

MOST_HELD = 4096
"""How many machines a sender goes after at once."""

BATCH = 0.05
"""For how many seconds replies are gathered before what they lead to is stored."""

MOST_QUIET = 20
"""For how many turns without an answer it may still be that answers keep coming. It isn't so many seconds, as turns take
longer where everything does."""

FIRST_PAUSE, LONGEST_PAUSE, GROWTH = 1.0, 8.0, 1.4
"""After how many seconds a message is sent again for the first time, and at most, and how that grows."""

REORDERED = 0.25
"""By which part of the first pause a message may be answered before one that was sent earlier."""

SILENT_AFTER, SILENT_PAUSE = 20, 300.0
"""After how many messages a machine counts as silent, so that the pauses grow again, and up to how many seconds. One
that comes back says so."""

MOST_SENT = 8
"""After how many messages without an answer a machine is left for a while, if others may wait; and is told to be one that
doesn't answer."""

MOST_REFUSALS = 5
"""After how many refusals in a row that ask to send again somebody has to look at the machine."""


@dataclass
class Held:
    """What a sender has of a machine that it holds: what it is asked, when that is due to be sent, how often it was, and
    when for the first time and the last."""

    message: Message
    due: float
    sent: int = 0
    refusals: int = 0
    first: float = -math.inf
    last: float = -math.inf


class Said(NamedTuple):
    """What a machine said: to which message, and if that is the one it was asked last, what."""

    name: str
    to: Optional[str]
    answer: Union[Answer, BadAnswer, None] = None


@dataclass
class Counts:
    """What a sender did."""

    out: int = 0
    again: int = 0
    taken: int = 0
    passed_over: int = 0


@dataclass
class Sender:
    """A sender over a ledger and a courier."""

    ledger: Ledger
    courier: Courier
    name: str
    first_pause: float = FIRST_PAUSE
    longest_pause: float = LONGEST_PAUSE
    teller: Teller = field(default_factory=Teller)
    held: Dict[str, Held] = field(default_factory=dict)
    queue: List[Tuple[float, str]] = field(default_factory=list)
    counts: Counts = field(default_factory=Counts)
    leased: float = -math.inf
    quiet_turns: int = MOST_QUIET
    """How many turns ago an answer was taken."""
    answered_of: float = -math.inf
    """When the latest message was sent for the first time that is answered."""
    is_stopped: bool = False

    def __post_init__(self) -> None:
        self.holder = f"{self.name}:{os.getpid()}:{secrets.token_hex(4)}"

    def run(self, until_done: bool, limit: Optional[float], is_stopped: Callable[[], bool]) -> bool:
        """Sends until all is done, or for so many seconds, or until it is to stop. Whether all is done."""
        ends = None if limit is None else time.monotonic() + limit
        with self.ledger.transaction():
            is_other = self.ledger.begin()
        if is_other:
            self.teller.say("an older copy of the ledger came back, or a new one was made")
        report = Report(self.ledger, self.teller)
        try:
            while not is_stopped() and (ends is None or time.monotonic() < ends):
                self.turn(self.courier.receive(BATCH))
                report.tell(self._silent, time.monotonic(), time.time())
                if until_done and not self.held:
                    if self.ledger.is_done():
                        return True
                    self._tell_if_stopped()
                    if self.is_stopped:
                        return False
            return self.ledger.is_done()
        finally:
            report.end()
            with self.ledger.transaction():
                self.ledger.leave_all(self.holder)

    def _silent(self) -> List[str]:
        """The machines that don't answer, as far as that is known."""
        return [name for name, held in self.held.items() if held.sent >= MOST_SENT]

    def turn(self, came: List[Came]) -> None:
        """Takes what came, and sends what is due: after what it is of is stored. What is due goes by a clock that
        nobody sets; the ledger, which others read too, has the time of day."""
        said = self._read(came)
        now = time.monotonic()
        self.quiet_turns += 1
        is_renewed = now - self.leased <= LEASE / 3
        if is_renewed and not said and not self._is_due(now):
            return
        out: List[Tuple[str, bytes]] = []
        with self.ledger.transaction():
            if not is_renewed:
                self._renew(now)
            for one in said:
                self._take(one, now)
            while self._is_due(now):
                name = heapq.heappop(self.queue)[1]
                held = self.held.get(name)
                if held is not None and held.due <= now:
                    out.append((name, self._send_again(name, held, now)))
        for name, payload in out:
            if payload:
                self.courier.send(name, payload)
                self.counts.out += 1

    def _is_due(self, now: float) -> bool:
        """Whether something may be due to be sent."""
        return bool(self.queue) and self.queue[0][0] <= now

    def _renew(self, now: float) -> None:
        """Takes the leases of machines that have something to be done, and loses those that others took meanwhile."""
        self.leased = now
        self.ledger.draw_waves()
        self._tell_if_stopped()
        day = time.time()
        names = self.ledger.hold(self.holder, MOST_HELD, day, day + LEASE)
        held = self.held
        self.held = {name: held[name] for name in names if name in held}
        for name in names:
            if name not in self.held:
                self._begin(name, look(), now + random.random() * self.first_pause)

    def _tell_if_stopped(self) -> None:
        """Tells that nothing goes on, once until it does again."""
        is_stopped = self.ledger.is_stopped()
        if is_stopped and not self.is_stopped:
            count = self.ledger.count_wave_troubles()
            self.teller.say(f"{count} machines are in trouble: no other one is gone after")
        self.is_stopped = is_stopped

    def _begin(self, name: str, message: Message, due: float) -> None:
        """A machine is asked something new."""
        self.held[name] = Held(message, due)
        heapq.heappush(self.queue, (due, name))

    def _send_again(self, name: str, held: Held, now: float) -> bytes:
        """What is sent to a machine now, and when it is due again. Nothing if it is given up for a while."""
        if held.sent >= MOST_SENT and len(self.held) >= MOST_HELD:
            self.held.pop(name)
            self.ledger.leave(name, time.time() + random.uniform(1, 2) * self.longest_pause)
            return b""
        if held.sent and self._may_be_answered(held):
            held.due = now + self.first_pause * random.uniform(0.7, 1.3)
            heapq.heappush(self.queue, (held.due, name))
            return b""
        if held.sent and held.message.requests and not held.message.is_question:
            if not self.ledger.is_asked(name):  # Somebody gave it up meanwhile.
                held.message = look()
        self.counts.again += held.sent > 0
        held.due = now + self._pause(held.sent) * random.uniform(0.7, 1.3)
        held.first = held.first if held.sent else now
        held.last = now
        held.sent += 1
        heapq.heappush(self.queue, (held.due, name))
        return held.message.payload

    def _may_be_answered(self, held: Held) -> bool:
        """Whether a message isn't lost as far as that is known: answers keep coming, and all that came are to messages
        that were sent before it, or hardly later. So the broker, the machines or this sender have more to do than they
        get done, and to send again would make it more."""
        is_later = self.answered_of > held.last + REORDERED * self.first_pause
        return self.quiet_turns < MOST_QUIET and not is_later

    def _note_answer(self, held: Held) -> None:
        """A message is answered: those that were sent long before it and aren't are lost."""
        self.quiet_turns = 0
        self.answered_of = max(self.answered_of, held.first)

    def _pause(self, sent: int) -> float:
        """How long to wait for an answer after so many messages before this one."""
        pause = min(self.first_pause * GROWTH ** min(sent, SILENT_AFTER), self.longest_pause)
        later = GROWTH ** min(max(0, sent - SILENT_AFTER), SILENT_AFTER)
        return min(pause * later, SILENT_PAUSE)

    def _read(self, came: List[Came]) -> List[Said]:
        """What came, of which a reply to what a machine was asked is read, one of each machine. That may take a while,
        so no transaction is open meanwhile."""
        said: List[Said] = []
        read = set()
        for name, payload in came:
            to, held = answered(payload), self.held.get(name)
            if held is None or to not in (held.message.asked, None) or name in read:
                said.append(Said(name, to))
            else:
                read.add(name)
                said.append(Said(name, to, _answer_of(to, payload)))
        return said

    def _take(self, said: Said, now: float) -> None:
        """Takes what a machine said. Whatever is wrong with it is the machine's trouble, but for the ledger's own."""
        if not self.ledger.has_machine(said.name):
            self.counts.passed_over += 1
            return
        try:
            with self.ledger.savepoint():
                self._take_known(said, now)
        except sqlite3.Error:
            raise
        except Exception as error:
            why = f"{type(error).__name__}: {error}"
            self._stop(said.name, f"what it said can't be taken: {plain(why[:MOST_WORDS])}", None)

    def _take_known(self, said: Said, now: float) -> None:
        self.ledger.heard(said.name, time.time())
        held, answer = self.held.get(said.name), said.answer
        if isinstance(answer, BadAnswer) and held is not None:
            self._stop(said.name, str(answer), None)
        elif not isinstance(answer, Answer) or held is None or said.to != held.message.asked:
            self._pass_over(said, held, now)
        elif answer.refusal is not None:
            self.counts.taken += 1
            self._refused(said.name, held, answer.refusal)
        else:
            self.counts.taken += 1
            self._note_answer(held)
            taken = machines.take(self.ledger, said.name, answer, held.message)
            if taken.trouble is not None:
                self._stopped(said.name, taken.trouble)
            elif taken.wait is not None:
                self.held.pop(said.name)
                pause = random.uniform(0.5, 1) * taken.wait.seconds
                self.ledger.leave(said.name, time.time() + pause)
            else:
                self._next(said.name, taken.message, now)

    def _pass_over(self, said: Said, held: Optional[Held], now: float) -> None:
        """Takes a reply to something else: one that is late, or doubled, or of a machine that has just come and is
        asked at once."""
        self.counts.passed_over += 1
        if held is not None and said.to == UNASKED:
            held.sent = 0
            held.due = min(held.due, now + random.random() * self.first_pause)
            heapq.heappush(self.queue, (held.due, said.name))

    def _next(self, name: str, message: Optional[Message], now: float) -> None:
        """Goes on with a machine that has answered, or gives its lease back if there is nothing left to be done."""
        if message is not None:
            self._begin(name, message, now)
        else:
            self.held.pop(name)
            self.ledger.leave(name)

    def _refused(self, name: str, held: Held, refusal: Refusal) -> None:
        """A machine didn't make an update: it is asked again, unless somebody has to look at it."""
        held.refusals += refusal.remedy != "wait"
        if refusal.remedy == "mend machine" or held.refusals >= MOST_REFUSALS:
            self._stop(name, f"it refuses: {refusal.words}", None)
        else:
            self.ledger.note(name, refusal.words)

    def _stop(self, name: str, why: str, told: None) -> None:
        self.ledger.stop(name, why, told)
        self._stopped(name, why)

    def _stopped(self, name: str, why: str) -> None:
        self.held.pop(name, None)
        if self.ledger.is_stopped():
            self.leased = -math.inf  # Nothing goes on: all that is held is let go at once.
        self.teller.say(f"{name}: {why}")


def _answer_of(to: Optional[str], payload: bytes) -> Union[Answer, BadAnswer]:
    """The reply that the bytes are, or why they are none."""
    if to is None:
        return BadAnswer("what it said is no reply: it doesn't begin with what it is to")
    try:
        return read_answer(payload)
    except BadAnswer as bad:
        return bad
