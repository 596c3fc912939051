"""What `bench/fleet` judges by the records of administrators: what was touched, and what was done twice; and how it decides
about machines in trouble."""

from __future__ import annotations

import json
import os
import random
import signal
import subprocess
import sys
import time
from collections import deque
from pathlib import Path
from typing import Any, Dict, List, Optional

import bootkeep
import pytest
from bootkeep import Request
from conftest import FLEET, Folder, add, agent, frames_of, goal, option, run

from sender import messages
from sender.goals import Goal
from sender.run import Sender

sys.path[:0] = [str(FLEET.parent / "bench/fleet-side")]

from deciding import KINDS, Decider  # noqa: E402
from machines import Model, read_machine  # noqa: E402
from processes import Processes  # noqa: E402
from records import record_of  # noqa: E402
from relay import Relay  # noqa: E402

SYSTEM, RESCUE, LOADER, SENT = b"system", b"rescue", b"loader", b"sent"

JOBS = {LOADER, SENT}
"""The entries that a sender was asked for."""


def model(entries: Dict[int, bytes], order: List[int], following: Optional[int] = None) -> Model:
    return Model(entries, order, following)


def test_what_jobs_do_to_their_own_entries_touches_nobody_else() -> None:
    record = record_of(model({0: SYSTEM, 1: RESCUE}, [1, 0]), JOBS)
    after = model({0: SYSTEM, 1: RESCUE, 2: LOADER, 3: SENT}, [2, 1, 0, 3], 2)
    assert record.touched(after, JOBS) == []


@pytest.mark.parametrize(
    "entries, order, told",
    [
        ({1: RESCUE}, [1], ["Boot0000 was"]),
        ({0: LOADER, 1: RESCUE}, [0, 1], ["Boot0000 was"]),
        ({0: b"other", 1: RESCUE}, [1, 0], ["Boot0000 was"]),
        ({0: SYSTEM, 1: RESCUE, 2: b"other"}, [1, 0], ["Boot0002 was not there"]),
        ({0: SYSTEM, 1: RESCUE}, [0, 1], ["others' sequence was [1, 0], and is [0, 1]"]),
        ({0: SYSTEM, 1: RESCUE}, [1], ["others' sequence was [1, 0], and is [1]"]),
        ({0: RESCUE, 1: SYSTEM}, [0, 1], ["Boot0000 was", "Boot0001 was"]),
    ],
)
def test_what_is_done_to_entries_of_others_is_told(
    entries: Dict[int, bytes], order: List[int], told: List[str]
) -> None:
    record = record_of(model({0: SYSTEM, 1: RESCUE}, [1, 0]), JOBS)
    found = record.touched(model(entries, order), JOBS)
    assert len(found) == len(told)
    assert all(one.startswith(words) for one, words in zip(found, told))


def test_what_an_administrator_does_is_in_the_record() -> None:
    before = model({0: SYSTEM, 3: SENT}, [3, 0])
    record = record_of(before, JOBS)
    after = model({0: SYSTEM, 3: b"by hand"}, [0, 3])
    record.note(before, after, JOBS)
    assert record.touched(after, JOBS) == []
    assert record.touched(before, JOBS) != []


def test_an_entry_that_was_taken_out_by_hand_counts_as_added() -> None:
    before, after = model({0: SYSTEM, 3: SENT}, [0, 3]), model({0: SYSTEM}, [0])
    record = record_of(before, JOBS)
    assert record.times_added(before, SENT) == 1
    record.note(before, after, JOBS)
    assert record.times_added(after, SENT) == 1
    assert record.times_added(model({0: SYSTEM, 1: SENT}, [0, 1]), SENT) == 2


def test_an_entry_that_is_changed_by_hand_is_somebody_elses() -> None:
    before, after = model({3: SENT}, [3]), model({3: b"inactive"}, [3])
    record = record_of(before, JOBS)
    record.note(before, after, JOBS)
    assert len(record.touched(model({}, []), JOBS)) == 1
    assert record.times_added(after, SENT) == 1


def test_each_start_by_an_entry_counts_and_so_does_the_next_one() -> None:
    there = model({0: SYSTEM, 1: LOADER}, [0], 1)
    record = record_of(there, JOBS)
    assert record.times_next(there, LOADER) == 1
    record.start(there, JOBS)
    started = model({0: SYSTEM, 1: LOADER}, [0])
    record.note(there, started, JOBS)
    assert record.times_next(started, LOADER) == 1 and record.was_next(started, LOADER)
    assert record.times_next(there, LOADER) == 2


def test_a_next_entry_that_somebody_replaced_was_set() -> None:
    there, after = model({0: SYSTEM, 1: LOADER}, [0], 1), model({0: SYSTEM, 1: LOADER}, [0], 0)
    record = record_of(there, JOBS)
    record.look(there, JOBS)
    record.note(there, after, JOBS)
    assert record.times_next(after, LOADER) == 0 and record.was_next(after, LOADER)
    assert not record.was_next(after, SENT)


def test_a_copy_of_a_record_goes_its_own_way() -> None:
    before, after = model({0: SYSTEM, 3: SENT}, [0, 3]), model({0: SYSTEM}, [0])
    record = record_of(before, JOBS)
    copy = record.copy()
    record.note(before, after, JOBS)
    assert copy.times_added(before, SENT) == 1 and record.times_added(before, SENT) == 2


@pytest.mark.parametrize("is_wrong", [False, True])
def test_a_sender_that_expects_nothing_of_entries_is_found(
    sender: Sender, machine: Folder, monkeypatch: pytest.MonkeyPatch, is_wrong: bool
) -> None:
    """A request to take an entry out is late, and meanwhile an installer takes the number of the entry."""
    if is_wrong:
        monkeypatch.setattr(messages, "entries_of", lambda frames: set())
    jobs = {option("a")}
    record = record_of(read_machine(machine.place), jobs)
    lost: List[bytes] = []

    def lose(_number: int, payload: bytes) -> List[bytes]:
        if lost or not frames_of(payload):
            return [payload]
        lost.append(payload)
        before = read_machine(machine.place)
        machine.put("Boot0000", option("debian"))
        record.note(before, read_machine(machine.place), jobs)
        return []

    courier: Any = sender.courier
    courier.requests = lose
    add(sender.ledger, goal("remove", "a"))
    assert run(sender)
    found = record.touched(read_machine(machine.place), jobs)
    assert found == (["Boot0000 was 'debian', and is not there"] if is_wrong else [])


@pytest.mark.parametrize("is_wrong", [False, True])
def test_an_agent_that_expects_nothing_is_found(
    sender: Sender, machine: Folder, monkeypatch: pytest.MonkeyPatch, is_wrong: bool
) -> None:
    """A request was applied, its reply and then the journal were lost, and the request comes again."""
    update = agent.update
    if is_wrong:
        monkeypatch.setattr(
            agent,
            "update",
            lambda message, *more: update(message._replace(expectations=[]), *more),
        )
    record = record_of(read_machine(machine.place), {option("x")})

    def lose(_number: int, payload: bytes) -> List[bytes]:
        if not json.loads(payload)["replies"]:
            return [payload]
        (machine.state / "journal").unlink(missing_ok=True)
        courier.replies = lambda _number, payload: [payload]
        return []

    courier: Any = sender.courier
    courier.replies = lose
    add(sender.ledger, Goal("send", frames=(frame_of("x"),)))
    assert run(sender)
    times = record.times_added(read_machine(machine.place), option("x"))
    assert times == (2 if is_wrong else 1)


def frame_of(label: str) -> bytes:
    """A request to add an entry, however often it is there."""
    return bootkeep.frame_make(0, Request.ADD_FREE, option=option(label))


class Drawn(random.Random):
    """What draws the same each time."""

    def __init__(self, value: float) -> None:
        super().__init__()
        self.value = value

    def random(self) -> float:
        return self.value


class Desk:
    """What is called by who decides."""

    def __init__(self, *refusals: str) -> None:
        self.calls: List[List[str]] = []
        self.refusals = list(refusals)

    def bootfleet(self, *words: str) -> str:
        self.calls.append(list(words))
        if words[0] == "adopt" and self.refusals:
            raise subprocess.CalledProcessError(3, "bootfleet", self.refusals.pop(0), "")
        return ""

    def decider(self, draws: float) -> Decider:
        return Decider(
            self.bootfleet,
            lambda _name, job: job == 4,
            lambda _name: False,
            lambda name: self.calls.append(["enroll anew", name]),
            Drawn(draws),
        )


DOUBTS = """\
m1: another journal: none, next 0
 it may have been done: job 4: next a: 0 of 1 known to be done, 1 sent without an answer
 it may have been done: job 7: send 1 requests: 0 of 1 known to be done, 0 sent without an answer
"""


@pytest.mark.parametrize(
    "why, draws, refusals, calls",
    [
        ("another journal: none", 0.9, [], [["adopt", "--yes", "m1"]]),
        (
            "another journal: none",
            0.9,
            [DOUBTS],
            [["adopt", "--yes", "m1"], ["adopt", "--yes", "--done", "4", "--again", "7", "m1"]],
        ),
        ("another journal: none", 0.1, [], [["enroll anew", "m1"]]),
        (
            "its next number is 3: an older copy of the ledger came back, or another one sends to it",
            0.1,
            [],
            [["adopt", "--yes", "m1"]],
        ),
        ("it refuses: it is the journal of machine A", 0.9, [], [["resend", "m1"]]),
        ("goal 12: entry 0003 was added, and is gone", 0.9, [], [["resend", "m1"]]),
        ("goal 12: entry 0003 was added, and is gone", 0.1, [], [["cancel", "12", "m1"]]),
    ],
)
def test_troubles_are_decided(
    why: str, draws: float, refusals: List[str], calls: List[List[str]]
) -> None:
    desk = Desk(*refusals)
    decider = desk.decider(draws)
    quiet = {"name": "m2", "state": "quiet", "why": None}
    assert decider.decide([{"name": "m1", "state": "trouble", "why": why}, quiet]) == 1
    assert desk.calls == calls and decider.made.unknown == []
    assert sum(decider.made.troubles.values()) == 1


def test_a_trouble_that_nothing_explains_is_noted() -> None:
    decider = Desk().decider(0.9)
    decider.decide([{"name": "m1", "state": "trouble", "why": "what it said is no reply"}])
    assert decider.made.unknown == ["m1: what it said is no reply"]


def test_each_trouble_that_is_known_is_in_the_pages() -> None:
    page = (FLEET.parent / "docs/fleet.md").read_text(encoding="utf-8")
    manual = (FLEET.parent / "docs/machines.md").read_text(encoding="utf-8")
    for words in KINDS:
        assert words in page + manual


@pytest.mark.parametrize(
    "topic, frame, entries",
    [
        ("request", bootkeep.frame_make(7, Request.REMOVE, entry=3), [3]),
        ("request", bootkeep.frame_make(7, Request.FIRST, entry=0x1234), [0x1234]),
        ("request", bootkeep.frame_make(7, Request.ADD_FREE, option=option("a")), []),
        ("request", b"", []),
        ("reply", bootkeep.frame_make(7, Request.REMOVE, entry=3), []),
    ],
)
def test_a_lost_request_about_an_entry_is_known(
    topic: str, frame: bytes, entries: List[int]
) -> None:
    relay = Relay.__new__(Relay)
    relay.lost = deque()
    relay._note_lost(f"bootkeep/m1/{topic}", b"bootfleet 2 journal=none next=7\n" + frame)
    assert [(it.name, it.entry) for it in relay.lost] == [("m1", entry) for entry in entries]


def test_a_process_is_quiet_once_what_it_has_started_has_ended(tmp_path: Path) -> None:
    processes = Processes(tmp_path)
    processes.start("parent", ["sh", "-c", "sleep 0.4; exec sleep 60"])
    try:
        time.sleep(0.1)
        began = time.monotonic()
        assert not processes.await_quiet("parent", 0)
        assert processes.await_quiet("parent", 10)
        assert time.monotonic() - began < 5
        os.kill(processes.running["parent"].pid, signal.SIGSTOP)
        assert processes.await_quiet("parent", 10)
    finally:
        assert processes.end() == 0


def test_what_a_killed_process_left_is_waited_for(tmp_path: Path) -> None:
    processes = Processes(tmp_path)
    processes.start("parent", ["sh", "-c", "sleep 1 & wait"])
    try:
        time.sleep(0.2)
        processes.kill("parent")
        began = time.monotonic()
        assert processes.await_quiet("parent", 10)
        assert 0.3 < time.monotonic() - began < 5
        processes.start("other", ["sleep", "60"])
        assert processes.await_quiet("other", 10)
        assert processes.await_quiet("nobody", 10)
    finally:
        assert processes.end() == 0


def test_a_number_that_another_program_got_is_left_alone(tmp_path: Path) -> None:
    """A group of processes has ended, and the system has given its number to somebody else's, or to another one here."""
    processes = Processes(tmp_path)
    with subprocess.Popen(["sleep", "60"], start_new_session=True) as other:
        try:
            own = processes.start("own", ["sleep", "60"])
            for number in (other.pid, own.pid):
                processes.start("parent", ["true"]).wait()
                (started,) = processes.started["parent"]
                processes.started["parent"] = [started._replace(number=number)]
                assert processes.await_quiet("parent", 0)
                processes.kill_group("parent")
                processes.start("parent", ["sleep", "60"])
                assert processes.await_quiet("parent", 10)
                processes.kill_group("parent")
                del processes.started["parent"]
            assert own.poll() is None
            assert processes.end() == 0 and own.poll() is not None
            assert other.poll() is None
        finally:
            other.kill()


def test_all_that_a_process_has_started_is_ended(tmp_path: Path) -> None:
    """Also what has made a group of its own, and what outlives the process."""
    processes = Processes(tmp_path)
    processes.start("parent", ["sh", "-c", "setsid sleep 60 & sleep 60 & exit 0"]).wait()
    assert processes.left() == 2
    assert processes.end() == 0
