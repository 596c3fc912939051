"""The loop over machines in folders, with a courier that loses, doubles and delays what the tests say."""

from __future__ import annotations

import json
import sqlite3
import time
from pathlib import Path
from typing import Any, Dict, List

import bootkeep
import pytest
from conftest import (
    PATH,
    Deliver,
    Folder,
    Hand,
    add,
    agent,
    frames,
    frames_of,
    goal,
    hostile,
    option,
    run,
    troubled,
    update,
)

from sender import machines
from sender import run as run_module
from sender.answers import Answer, digest, read_answer
from sender.courier import Came
from sender.goals import Goal
from sender.ledger import Ledger
from sender.machines import Taken
from sender.messages import Message
from sender.run import (
    FIRST_PAUSE,
    LONGEST_PAUSE,
    MOST_REFUSALS,
    SILENT_AFTER,
    SILENT_PAUSE,
    Sender,
)


def test_goals_are_reached_one_after_the_other(sender: Sender, machine: Folder) -> None:
    ledger = sender.ledger
    add(
        ledger,
        goal("first", "new"),
        goal("remove", "a"),
        goal("next", "=b"),
        goal("order", "=b", "=new"),
    )
    assert run(sender) and ledger.all_reached()
    assert machine.entries() == {1: option("b"), 2: option("new")}
    assert machine.order() == [1, 2]
    assert machine.get("BootNext") == b"\1\0"
    assert len(frames(sender)) == 4


def test_a_goal_that_is_reached_sends_nothing(sender: Sender) -> None:
    add(sender.ledger, goal("first", "b"), goal("remove", "c"))
    assert run(sender)
    assert frames(sender) == [] and sender.counts.out == 1


@pytest.mark.parametrize("lost", [{0}, {1}, {2}, {3}, {0, 1, 2}, {2, 3, 4, 5}])
@pytest.mark.parametrize("way", ["requests", "replies"])
def test_what_is_lost_is_sent_again(
    sender: Sender, machine: Folder, lost: "set[int]", way: str
) -> None:
    add(sender.ledger, goal("first", "new"), goal("remove", "b"))
    setattr(sender.courier, way, lambda number, payload: [] if number in lost else [payload])
    assert run(sender)
    assert machine.entries() == {0: option("a"), 2: option("new")}
    assert len(frames(sender)) == 2


def test_what_comes_twice_or_late_changes_nothing(sender: Sender, machine: Folder) -> None:
    add(sender.ledger, goal("first", "new"), goal("remove", "b"), goal("next", "new"))

    def doubling() -> Deliver:
        old: List[bytes] = []

        def double(_number: int, payload: bytes) -> List[bytes]:
            old.append(payload)
            return [payload, payload, *old[-3:]]

        return double

    courier: Any = sender.courier
    courier.requests, courier.replies = doubling(), doubling()
    assert run(sender) and sender.ledger.all_reached()
    assert machine.entries() == {0: option("a"), 2: option("new")}
    assert len(frames(sender)) == 3


def test_a_sender_that_was_killed_goes_on(sender: Sender, machine: Folder) -> None:
    """What was stored and perhaps sent is sent by the next sender, as the same frame."""
    ledger = sender.ledger
    add(ledger, goal("first", "new"))
    courier: Any = sender.courier
    courier.replies = lambda number, payload: [payload] if number == 0 else []
    assert not sender.run(True, None, lambda: len(courier.sent) > 3)
    assert machine.order() == [2, 1, 0]
    other = Sender(ledger, Hand({"m1": machine}), "sender", 0.01, 0.05)
    assert run(other) and ledger.all_reached()
    assert frames(other) == frames(sender)
    assert list(machine.entries().values()).count(option("new")) == 1


def test_frames_of_a_script_are_sent_64_at_once(sender: Sender, machine: Folder) -> None:
    script = [
        bootkeep.frame_make(0, bootkeep.Request.FIRST, entry=number % 2) for number in range(70)
    ]
    add(sender.ledger, Goal("send", frames=tuple(script)))
    assert run(sender) and sender.ledger.all_reached()
    assert [len(it) // 14 for it in frames(sender)] == [64, 6]
    assert machine.order() == [1, 0]


def test_another_journal_is_told(sender: Sender, machine: Folder) -> None:
    add(sender.ledger, goal("first", "a"))
    assert run(sender)
    (machine.state / "journal").unlink()
    add(sender.ledger, goal("first", "b"))
    assert troubled(sender).startswith("another journal: ")
    assert machine.order() == [0, 1]


def test_another_ledger_is_told(sender: Sender, machine: Folder) -> None:
    update(machine, bootkeep.frame_make(0, bootkeep.Request.FIRST, entry=0))
    add(sender.ledger, goal("first", "b"))
    assert troubled(sender).startswith("its next number is 1, and the ledger's is 0: ")


def test_another_request_of_the_number_is_told(sender: Sender, machine: Folder) -> None:
    """Somebody else's request takes the number between the look and the request."""
    other = bootkeep.frame_make(0, bootkeep.Request.NEXT, entry=1)

    def come_before(number: int, payload: bytes) -> List[bytes]:
        if frames_of(payload) and not number > 1:
            update(machine, other)
        return [payload]

    courier: Any = sender.courier
    courier.requests = come_before
    add(sender.ledger, goal("first", "a"))
    assert "isn't known to be the one sent" in troubled(sender)
    assert machine.order() == [1, 0]


def test_a_copied_folder_is_told(sender: Sender, machine: Folder, tmp_path: Path) -> None:
    other = Folder(tmp_path / "other", {0: option("a")}, [0])
    agent.answer(b"", str(other.state), str(other.place))
    (machine.state / "journal").write_bytes((other.state / "journal").read_bytes())
    add(sender.ledger, goal("first", "a"))
    assert "it is the journal of machine" in troubled(sender)


def test_an_emptied_machine_is_told(sender: Sender, machine: Folder) -> None:
    add(sender.ledger, goal("first", "a"))
    assert run(sender)
    machine.put("Timeout", b"\5\0")
    for file in machine.place.glob("Boot*"):
        file.unlink()
    add(sender.ledger, goal("first", "a"))
    assert troubled(sender) == "it has no entry any more, and had 2"


def test_a_machine_that_refuses_is_told(sender: Sender, machine: Folder) -> None:
    machine.put("BootOrder", b"\1")
    add(sender.ledger, goal("first", "a"))
    assert troubled(sender).startswith("it refuses: ")


def test_an_error_is_told_after_some_tries(sender: Sender) -> None:
    tries: List[int] = []

    def fail(number: int, payload: bytes) -> List[bytes]:
        tries.append(number)
        said = {"to": json.loads(payload)["to"], "status": 4, "error": "out of memory"}
        return [json.dumps(said).encode()]

    courier: Any = sender.courier
    courier.replies = fail
    add(sender.ledger, goal("first", "a"))
    assert troubled(sender) == "it refuses: status 4: out of memory"
    assert len(tries) == MOST_REFUSALS


def test_what_is_no_reply_is_told(sender: Sender) -> None:
    courier: Any = sender.courier
    courier.replies = lambda _number, _payload: [b"nonsense"]
    add(sender.ledger, goal("first", "a"))
    assert troubled(sender).startswith("what it said is no reply: ")


@pytest.mark.parametrize(
    "members",
    [
        {"entry": "12345"},
        {"entry": "FFFFFFFFFFFFFFFFFFFF"},
        {"entry": "-1"},
        {"request": 1 << 64},
        {"outcome": "\ud800"},
        {"reply": ["applied"]},
    ],
    ids=str,
)
def test_a_hostile_reply_is_the_trouble_of_its_machine_alone(
    pair: Sender, members: Dict[str, Any]
) -> None:
    def make(held: Dict[str, Any]) -> bytes:
        held["replies"] = [{**it, **members} for it in held["replies"]]
        return json.dumps(held).encode()

    hostile(pair, make)
    add(pair.ledger, goal("first", "new"), to=["m1", "m2"])
    assert run(pair)
    assert pair.ledger.trouble("m2") is None
    assert pair.ledger.one("SELECT state FROM goal WHERE machine = 'm2'") == ("reached",)
    if members != {"outcome": "\ud800"}:
        assert (pair.ledger.trouble("m1") or "").startswith(("what it said", "it tells of"))


@pytest.mark.parametrize(
    "shown",
    [
        {"entry": "12345"},
        {"entry": "FFFFFFFFFFFFFFFFFFFF"},
        {"entry": "0" * 2000 + "1\x1b[2J"},
    ],
    ids=str,
)
@pytest.mark.parametrize("kind", ["first", "next", "remove"])
def test_a_hostile_number_ends_no_sender(pair: Sender, kind: str, shown: Dict[str, Any]) -> None:
    def make(held: Dict[str, Any]) -> bytes:
        held["show"]["entries"][0].update(shown)
        return json.dumps(held).encode()

    hostile(pair, make)
    add(pair.ledger, goal(kind, "a"), to=["m1", "m2"])
    assert run(pair)
    assert "isn't a number of an entry" in (pair.ledger.trouble("m1") or "")
    assert pair.ledger.one("SELECT state FROM goal WHERE machine = 'm2'") == ("reached",)


@pytest.mark.parametrize("following", [(1 << 32) - 2, (1 << 32) - 1])
def test_a_hostile_next_number_ends_no_sender(pair: Sender, following: int) -> None:
    """The last number of all, or the one before it, is adopted, and two requests are to be sent."""

    def make(held: Dict[str, Any]) -> bytes:
        return json.dumps({**held, "next": following, "replies": []}).encode()

    hostile(pair, make)
    script = [bootkeep.frame_make(0, bootkeep.Request.FIRST, entry=number) for number in (0, 1)]
    add(pair.ledger, Goal("send", frames=tuple(script)), to=["m1", "m2"])
    assert run(pair)
    told = pair.ledger.told("m1")
    assert told is not None and told["next"] == following
    with pair.ledger.transaction():
        pair.ledger.adopt("m1", told)
    assert run(pair)
    assert "no number left" in (pair.ledger.trouble("m1") or "")
    assert pair.ledger.one("SELECT state FROM goal WHERE machine = 'm2'") == ("reached",)


def test_what_fails_for_one_machine_fails_for_it_alone(
    pair: Sender, monkeypatch: pytest.MonkeyPatch
) -> None:
    """Whatever it is, and with nothing of it kept."""
    take = machines.take

    def fail(ledger: Ledger, name: str, answer: Answer, asked: Message) -> Taken:
        taken = take(ledger, name, answer, asked)
        if name == "m1":
            raise OverflowError("\x1b too large")
        return taken

    monkeypatch.setattr(machines, "take", fail)
    add(pair.ledger, goal("first", "new"), to=["m1", "m2"])
    assert run(pair)
    assert pair.ledger.trouble("m1") == (
        "what it said can't be taken: OverflowError: \\u001b too large"
    )
    assert pair.ledger.one("SELECT COUNT(*) FROM request WHERE machine = 'm1'") == (0,)
    assert pair.ledger.one("SELECT state FROM goal WHERE machine = 'm2'") == ("reached",)


def test_the_trouble_of_the_ledger_is_the_senders(
    pair: Sender, monkeypatch: pytest.MonkeyPatch
) -> None:
    def fail(*_: object) -> None:
        raise sqlite3.OperationalError("database or disk is full")

    monkeypatch.setattr(machines, "take", fail)
    add(pair.ledger, goal("first", "new"))
    with pytest.raises(sqlite3.OperationalError):
        run(pair)


def test_only_what_was_asked_for_is_read(sender: Sender, monkeypatch: pytest.MonkeyPatch) -> None:
    """A flood of large replies, of machines that are asked nothing or something else, costs next to nothing, and those
    that are read are read while no transaction is open."""
    read: List[bytes] = []

    def reading(payload: bytes) -> Answer:
        assert not sender.ledger.db.in_transaction
        read.append(payload)
        return read_answer(payload)

    monkeypatch.setattr(run_module, "read_answer", reading)
    ledger = sender.ledger
    add(ledger, goal("first", "a"))
    sender.turn([])
    large = json.dumps({"to": digest(b"other"), "error": "x" * 700_000}).encode()
    came = [Came("m1", large)] * 500 + [Came("m2", large)] * 500 + [Came("m9", large)] * 500
    asked = sender.held["m1"].message.asked
    good = json.dumps({"to": asked, "status": 0, "refused": {"words": "busy", "do": "wait"}})
    began = time.process_time()
    sender.turn(came + [Came("m1", good.encode())] * 500)
    assert time.process_time() - began < 1
    assert read == [good.encode()]
    assert run(sender) and ledger.all_reached()


def test_a_reply_of_nobody_changes_nothing(sender: Sender) -> None:
    courier: Any = sender.courier
    courier.came += [Came("m9", b"{}"), Came("m2", b"nonsense")]
    assert run(sender) and sender.ledger.all_reached()


def test_a_goal_that_fails_stops_the_machine(sender: Sender, machine: Folder) -> None:
    add(sender.ledger, goal("first", "=missing"), goal("remove", "a"))
    assert troubled(sender) == "goal 1: there is no entry missing"
    assert machine.entries() == {0: option("a"), 1: option("b")}
    with sender.ledger.transaction():
        sender.ledger.cancel(1, None)
    assert run(sender) and sender.ledger.all_reached()
    assert machine.entries() == {1: option("b")}


def test_an_adopted_machine_reaches_its_goal(sender: Sender, machine: Folder) -> None:
    add(sender.ledger, goal("first", "new"))
    assert run(sender)
    (machine.state / "journal").unlink()
    add(sender.ledger, goal("first", "a"))
    assert troubled(sender)
    told = sender.ledger.told("m1")
    assert told is not None and told["next"] == 0
    with sender.ledger.transaction():
        sender.ledger.adopt("m1", told)
    assert run(sender) and sender.ledger.all_reached()
    assert machine.order() == [0, 2, 1]


def test_a_machine_that_has_just_come_is_asked_at_once(sender: Sender) -> None:
    ledger = sender.ledger
    add(ledger, goal("first", "a"))
    with ledger.transaction():
        sender._renew(100)
    held = sender.held["m1"]
    held.due, held.sent = 900.0, 5
    reply = agent.answer(b"", *(str(it) for it in (_folder(sender).state, _folder(sender).place)))
    said = sender._read([Came("m1", reply.encode())])
    with ledger.transaction():
        sender._take(said[0], 101)
    assert held.due <= 101 + sender.first_pause
    assert (held.sent, held.message.asked) == (0, digest(held.message.payload))


def test_a_clock_that_is_set_back_stops_nothing(
    sender: Sender, machine: Folder, monkeypatch: pytest.MonkeyPatch
) -> None:
    add(sender.ledger, goal("first", "a"))
    assert run(sender)
    day = time.time()
    monkeypatch.setattr(time, "time", lambda: day - 3600)
    add(sender.ledger, goal("first", "b"))
    assert sender.run(True, 600, lambda: False)
    assert machine.order() == [1, 0]


def test_large_frames_are_sent_a_few_at_once(sender: Sender) -> None:
    """A broker takes no message without end."""
    large = bootkeep.option_make(bootkeep.ATTRIBUTE_ACTIVE, "large", [PATH], bytes(100_000))
    frame = bootkeep.frame_make(0, bootkeep.Request.REPLACE, entry=0, option=large)
    add(sender.ledger, Goal("send", frames=(frame,) * 9))
    assert run(sender) and sender.ledger.all_reached()
    assert max(len(it) for it in frames(sender)) <= 1 << 19
    assert sum(len(it) for it in frames(sender)) == 9 * len(frame)


def test_pauses_grow_twice(ledger: Ledger) -> None:
    """To some seconds while messages may be lost, and to minutes if the machine seems to be off."""
    sender = Sender(ledger, Hand({}), "sender")
    pauses = [sender._pause(sent) for sent in range(60)]
    assert pauses[0] == FIRST_PAUSE and pauses == sorted(pauses)
    assert pauses[10] == pauses[SILENT_AFTER] == LONGEST_PAUSE
    assert pauses[59] == SILENT_PAUSE


def _folder(sender: Sender) -> Folder:
    courier: Any = sender.courier
    folder: Folder = courier.machines["m1"]
    return folder
