"""Older copies of a ledger that come back: what is done once is done once, whatever was set up anew since then, and whatever
is still on its way."""

from __future__ import annotations

import json
import shutil
import subprocess
import time
from pathlib import Path
from typing import Any, Callable, Dict, List, Sequence

import bootkeep
import pytest
from bootkeep import Request
from conftest import (
    Folder,
    Hand,
    add,
    agent,
    bootfleet,
    frames_of,
    goal,
    option,
    run,
    troubled,
    update,
)

from sender import commands, machines
from sender.goals import Goal
from sender.ledger import Ledger
from sender.run import Sender

SEND = Goal("send", frames=(bootkeep.frame_make(0, Request.ADD_FREE, option=option("x")),))
"""An entry is added, once."""

MAY_HAVE_HAD = (
    "and it may have had another one: an older copy of the ledger came back, or a new one was made"
)

OLDER = "an older copy of the ledger came back, or another one sends to it"

TICK = 0.05
"""After how many seconds a file that is written again has another time."""

Copy = Callable[[Ledger, Path], None]


def by_backup(ledger: Ledger, copy: Path) -> None:
    bootfleet("--ledger", ledger.path, "backup", copy)


def by_file(ledger: Ledger, copy: Path) -> None:
    """Copies the file, with all that is stored. Another program does it: whoever closes a file loses all locks of it."""
    ledger.db.execute("PRAGMA wal_checkpoint(TRUNCATE)")
    subprocess.run(["cp", ledger.path, copy], check=True)


COPIES = pytest.mark.parametrize("make_copy", [by_backup, by_file])


def remove(ledger: Ledger) -> None:
    """Removes a ledger, as docs/fleet.md says it."""
    ledger.db.close()
    for end in ("", "-wal", "-shm"):
        Path(f"{ledger.path}{end}").unlink(missing_ok=True)


def put_back(sender: Sender, copy: Path) -> Sender:
    """Puts a copy in the place of a sender's ledger. A sender over it."""
    remove(sender.ledger)
    shutil.copy(copy, sender.ledger.path)
    return started_again(sender)


def started_again(sender: Sender) -> Sender:
    """Another sender, over the ledger that is there now."""
    machines = courier_of(sender).machines
    return Sender(Ledger(sender.ledger.path), Hand(machines), "sender", 0.01, 0.05)


def courier_of(sender: Sender) -> Hand:
    courier: Any = sender.courier
    assert isinstance(courier, Hand)
    return courier


def set_up_anew(machine: Folder) -> None:
    """The disk is gone, and with it the journal. The variables stay."""
    (machine.state / "journal").unlink()


def deliver(machine: Folder, payload: bytes) -> List[Dict[str, Any]]:
    """What becomes of the frames of a message that the broker brings."""
    held: Dict[str, Any] = json.loads(agent.answer(payload, str(machine.state), str(machine.place)))
    replies: List[Dict[str, Any]] = held["replies"]
    return replies


def adopt(sender: Sender, *words: object, names: Sequence[str] = ("m1",), status: int = 0) -> str:
    ledger = sender.ledger.path
    return bootfleet("--ledger", ledger, "adopt", *names, "--yes", *words, status=status)


def doubted(sender: Sender, job: int) -> str:
    """Runs until nothing is left but trouble, in which `adopt` asks whether a job was done. Why the machine is in it."""
    why = troubled(sender)
    told = adopt(sender, status=3)
    assert f"it may have been done: job {job}: send 1 requests: 0 of 1 known to be done" in told
    return why


def times(machine: Folder) -> int:
    """How often the entry is there that is added once."""
    return list(machine.entries().values()).count(option("x"))


# Machines that were set up anew since then


@COPIES
@pytest.mark.parametrize("word, count", [("--done", 1), ("--again", 2)])
def test_a_machine_that_was_set_up_anew_is_asked_about(
    sender: Sender, machine: Folder, tmp_path: Path, make_copy: Copy, word: str, count: int
) -> None:
    """The copy is from before it was heard of, and its next number is what it was then."""
    add(sender.ledger, SEND)
    make_copy(sender.ledger, tmp_path / "copy")
    assert run(sender) and sender.ledger.all_reached()
    set_up_anew(machine)
    restored = put_back(sender, tmp_path / "copy")
    assert MAY_HAVE_HAD in doubted(restored, 1)
    assert "journal unknown, next 0" in adopt(restored, status=3)
    assert times(machine) == 1
    adopt(restored, word, 1)
    assert run(restored) and restored.ledger.all_reached()
    assert times(machine) == count


@COPIES
def test_it_is_asked_about_as_often_as_a_copy_comes_back(
    sender: Sender, machine: Folder, tmp_path: Path, make_copy: Copy
) -> None:
    """Also if senders were at work before the copy was made."""
    assert run(sender)
    sender = started_again(sender)
    assert run(sender)
    add(sender.ledger, SEND)
    make_copy(sender.ledger, tmp_path / "copy")
    sender = started_again(sender)
    assert run(sender) and sender.ledger.all_reached()
    for _ in range(2):
        set_up_anew(machine)
        sender = put_back(sender, tmp_path / "copy")
        assert MAY_HAVE_HAD in doubted(sender, 1)
        adopt(sender, "--done", 1)
        assert run(sender) and sender.ledger.all_reached()
    assert times(machine) == 1


def test_a_machine_that_is_set_up_anew_before_the_answer_is_asked_about_again(
    sender: Sender, machine: Folder, tmp_path: Path
) -> None:
    add(sender.ledger, SEND)
    by_backup(sender.ledger, tmp_path / "copy")
    restored = put_back(sender, tmp_path / "copy")
    assert MAY_HAVE_HAD in doubted(restored, 1)
    set_up_anew(machine)
    adopt(restored, "--again", 1)
    assert doubted(restored, 1).startswith("another journal: ")
    adopt(restored, "--again", 1)
    assert run(restored) and restored.ledger.all_reached()
    assert times(machine) == 1


def test_goals_that_a_look_tells_are_gone_after(
    sender: Sender, machine: Folder, tmp_path: Path
) -> None:
    add(sender.ledger, goal("first", "x"))
    by_backup(sender.ledger, tmp_path / "copy")
    assert run(sender) and sender.ledger.all_reached()
    set_up_anew(machine)
    restored = put_back(sender, tmp_path / "copy")
    assert run(restored) and restored.ledger.all_reached()
    assert times(machine) == 1
    add(restored.ledger, SEND)
    assert run(restored) and restored.ledger.all_reached()


def test_of_two_machines_each_is_asked_about_by_itself(
    pair: Sender, machine: Folder, tmp_path: Path
) -> None:
    """One was set up anew, and tells nothing of it; the other one was sent something since."""
    add(pair.ledger, SEND, to=["m1", "m2"])
    by_backup(pair.ledger, tmp_path / "copy")
    assert run(pair) and pair.ledger.all_reached()
    set_up_anew(machine)
    restored = put_back(pair, tmp_path / "copy")
    assert MAY_HAVE_HAD in doubted(restored, 1)
    assert OLDER in (restored.ledger.trouble("m2") or "")
    adopt(restored, "--done", 1, names=("m1", "m2"))
    assert run(restored) and restored.ledger.all_reached()
    assert [times(it) for it in courier_of(restored).machines.values()] == [1, 1]


def test_a_new_ledger_asks_too(sender: Sender, machine: Folder) -> None:
    """It is made in the place of one that is lost, and somebody asks again for what was done."""
    add(sender.ledger, SEND)
    assert run(sender) and sender.ledger.all_reached()
    set_up_anew(machine)
    remove(sender.ledger)
    made = Ledger.make(sender.ledger.path, {})
    with made.transaction():
        made.add_machine("m1")
    add(made, SEND)
    assert MAY_HAVE_HAD in doubted(started_again(sender), 1)


def test_a_ledger_that_was_not_brought_back_asks_nothing(sender: Sender, machine: Folder) -> None:
    """However often senders are started before the machine is heard of for the first time."""
    add(sender.ledger, SEND)
    for _ in range(3):
        courier = courier_of(sender)
        courier.requests = lambda _number, _payload: []
        assert not sender.run(True, None, lambda: bool(courier.sent))
        by_backup(sender.ledger, sender.ledger.path.with_name("copy"))
        sender = started_again(sender)
    assert run(sender) and sender.ledger.all_reached()
    assert times(machine) == 1


def begin(ledger: Ledger) -> bool:
    """A sender starts over a ledger. Whether that isn't the one that was marked last."""
    with ledger.transaction():
        return ledger.begin()


def test_what_is_beside_a_ledger_says_whether_it_is_the_one(ledger: Ledger) -> None:
    beside = ledger.path_beside
    assert beside.name == "ledger.latest" and not beside.exists()
    assert [begin(ledger) for _ in range(3)] == [False] * 3
    for text in (b"", b"other", b"\xff\0"):
        beside.write_bytes(text)
        assert begin(ledger) and not begin(ledger)
    time.sleep(TICK)
    beside.write_bytes(beside.read_bytes())
    assert begin(ledger) and not begin(ledger)
    beside.unlink()
    assert begin(ledger) and not begin(ledger)


def test_senders_over_one_ledger_ask_nothing(ledger: Ledger) -> None:
    other = Ledger(ledger.path)
    assert [begin(it) for it in (ledger, other, ledger, other)] == [False] * 4


def test_a_ledger_of_an_earlier_version_is_the_one(ledger: Ledger) -> None:
    """It isn't marked. A copy of it that comes back is known."""
    by_file(ledger, ledger.path.with_name("copy"))
    assert not begin(ledger)
    remove(ledger)
    shutil.copy(ledger.path.with_name("copy"), ledger.path)
    assert begin(Ledger(ledger.path))


def test_a_folder_that_was_brought_back_is_known(ledger: Ledger, tmp_path: Path) -> None:
    """With all that is beside the ledger, as a program for backups copies it."""
    assert not begin(ledger)
    by_file(ledger, tmp_path / "copy")
    shutil.copy2(ledger.path_beside, tmp_path / "copy.latest")
    assert not begin(ledger)
    remove(ledger)
    time.sleep(TICK)
    for end in ("", ".latest"):
        shutil.copy2(tmp_path / f"copy{end}", f"{ledger.path}{end}")
    assert begin(Ledger(ledger.path))


def test_a_copy_says_that_it_is_one(ledger: Ledger, tmp_path: Path) -> None:
    """Wherever it is brought to, and whatever is there."""
    ledger.back_up(tmp_path / "copy")
    assert not begin(ledger)
    copy = Ledger(tmp_path / "copy")
    assert begin(copy) and not begin(copy)


def test_a_ledger_that_is_moved_without_what_is_beside_it_is_another_one(ledger: Ledger) -> None:
    assert not begin(ledger)
    ledger.db.close()
    moved = ledger.path.rename(ledger.path.with_name("moved"))
    assert begin(Ledger(moved))


def test_a_start_that_is_cut_off_changes_nothing(
    ledger: Ledger, monkeypatch: pytest.MonkeyPatch
) -> None:
    def cut_off(*_: object) -> None:
        raise KeyboardInterrupt

    with monkeypatch.context() as patched, pytest.raises(KeyboardInterrupt):
        patched.setattr(Ledger, "_mark", cut_off)
        begin(ledger)
    assert ledger.setting("latest") is None and not begin(ledger)


@pytest.mark.parametrize("is_in_trouble", [False, True])
def test_a_ledger_is_marked_when_a_machine_is_heard_of_for_the_first_time(
    sender: Sender,
    machine: Folder,
    tmp_path: Path,
    monkeypatch: pytest.MonkeyPatch,
    is_in_trouble: bool,
) -> None:
    """The copy is made while the sender is at work, which isn't started anew before the copy comes back."""
    monkeypatch.setattr(machines, "MARK_PAUSE", 0)
    if is_in_trouble:
        update(machine, bootkeep.frame_make(0, Request.FIRST, entry=0))
    add(sender.ledger, SEND)
    courier, copy = courier_of(sender), tmp_path / "copy"

    def copied(_number: int, payload: bytes) -> List[bytes]:
        if not copy.exists():
            by_file(sender.ledger, copy)
        return [payload]

    courier.requests = copied
    if is_in_trouble:
        doubted(sender, 1)
        adopt(sender, "--again", 1)
        go_on(sender)
    else:
        assert run(sender) and sender.ledger.all_reached()
    assert times(machine) == 1
    set_up_anew(machine)
    restored = put_back(sender, copy)
    assert MAY_HAVE_HAD in doubted(restored, 1)


def test_a_ledger_is_marked_now_and_then(ledger: Ledger, monkeypatch: pytest.MonkeyPatch) -> None:
    now, marks = [100.0], []
    monkeypatch.setattr(time, "monotonic", lambda: now[0])
    assert not begin(ledger)
    for seconds in (0, 1, machines.MARK_PAUSE - 1, 1, 1, machines.MARK_PAUSE):
        now[0] += seconds
        with ledger.transaction():
            ledger.mark(machines.MARK_PAUSE)
        marks.append(ledger.setting("latest"))
    assert marks[0] == marks[1] != marks[2] == marks[3] == marks[4] != marks[5]
    with ledger.transaction():
        ledger.mark(machines.MARK_PAUSE)
    now[0] += machines.MARK_PAUSE
    with ledger.transaction():
        ledger.add_machine("m3")
    assert ledger.setting("latest") != marks[5] and not ledger.is_other()


def go_on(sender: Sender) -> None:
    """Lets a sender that is at work go on, until all is reached."""
    until = time.monotonic() + 60
    while not sender.ledger.all_reached():
        assert time.monotonic() < until
        sender.turn(sender.courier.receive(0))


# Messages that are still on their way


def lost_of_forgotten(sender: Sender, copy: Path) -> bytes:
    """Makes a copy of the ledger, and then asks for what is done once. The message by which that was sent, which is on its
    way."""
    add(sender.ledger, goal("first", "a"))
    by_backup(sender.ledger, copy)
    assert run(sender) and sender.ledger.all_reached()
    add(sender.ledger, SEND)
    courier = courier_of(sender)
    courier.requests = lambda _number, payload: [] if frames_of(payload) else [payload]
    assert not sender.run(True, None, lambda: any(frames_of(it) for _, it in courier.sent[2:]))
    return next(it for _, it in reversed(courier.sent) if frames_of(it))


@pytest.mark.parametrize("is_answered", [False, True])
def test_a_message_that_comes_before_the_first_look_is_asked_about(
    sender: Sender, machine: Folder, tmp_path: Path, is_answered: bool
) -> None:
    """Somebody looks at the machine, and says that it wasn't done: it is done before that is said, or right after."""
    message = lost_of_forgotten(sender, tmp_path / "copy")
    restored = put_back(sender, tmp_path / "copy")
    add(restored.ledger, SEND)
    assert OLDER in doubted(restored, 2)
    if not is_answered:
        assert [it["reply"] for it in deliver(machine, message)] == ["applied"]
    adopt(restored, "--again", 2)
    if is_answered:
        assert [it["reply"] for it in deliver(machine, message)] == ["applied"]
    assert OLDER in doubted(restored, 2)
    adopt(restored, "--done", 2)
    assert run(restored) and restored.ledger.all_reached()
    assert times(machine) == 1


@pytest.mark.parametrize("is_first", [False, True])
@pytest.mark.parametrize("is_reply_lost", [False, True])
def test_a_message_that_comes_with_the_next_one_is_known(
    sender: Sender, machine: Folder, tmp_path: Path, is_first: bool, is_reply_lost: bool
) -> None:
    """It has the same number and the same frame, and comes right before the sender's message, or right after."""
    message = lost_of_forgotten(sender, tmp_path / "copy")
    restored = put_back(sender, tmp_path / "copy")
    add(restored.ledger, SEND)
    assert OLDER in doubted(restored, 2)
    adopt(restored, "--again", 2)
    courier, came = courier_of(restored), [message]

    def beside(_number: int, payload: bytes) -> List[bytes]:
        if not came or not frames_of(payload):
            return [payload]
        other = came.pop()
        return [other, payload] if is_first else [payload, other]

    def lose(_number: int, payload: bytes) -> List[bytes]:
        is_applied = any(it["reply"] == "applied" for it in json.loads(payload)["replies"])
        return [] if is_reply_lost and is_applied else [payload]

    courier.requests, courier.replies = beside, lose
    assert run(restored) and restored.ledger.all_reached()
    assert not came and times(machine) == 1


def test_a_message_that_takes_the_number_of_another_goal_is_asked_about(
    sender: Sender, machine: Folder, tmp_path: Path
) -> None:
    """It comes before the request for a goal whose turn is earlier."""
    message = lost_of_forgotten(sender, tmp_path / "copy")
    restored = put_back(sender, tmp_path / "copy")
    add(restored.ledger, goal("first", "b"), SEND)
    assert OLDER in doubted(restored, 3)
    adopt(restored, "--again", 3)
    courier, came = courier_of(restored), [message]

    def before(_number: int, payload: bytes) -> List[bytes]:
        return [came.pop(), payload] if came and frames_of(payload) else [payload]

    courier.requests = before
    assert "isn't known to be the one sent" in doubted(restored, 3)
    adopt(restored, "--done", 3)
    assert run(restored) and restored.ledger.all_reached()
    assert times(machine) == 1 and machine.order()[0] == 1


# Who decides


def test_what_two_people_decide_is_decided_once(
    sender: Sender, machine: Folder, tmp_path: Path, monkeypatch: pytest.MonkeyPatch, capsys: Any
) -> None:
    """One of them is asked while the other one decides, and the sender goes on."""
    add(sender.ledger, SEND)
    by_backup(sender.ledger, tmp_path / "copy")
    restored = put_back(sender, tmp_path / "copy")
    assert MAY_HAVE_HAD in doubted(restored, 1)

    def agree(_question: str) -> bool:
        adopt(restored, "--again", 1)
        assert run(restored) and restored.ledger.all_reached()
        return True

    monkeypatch.setattr(commands, "_agrees", agree)
    words = ["--ledger", str(restored.ledger.path), "adopt", "m1", "--again", "1"]
    assert commands.main(words) == commands.FAILED
    assert "m1: somebody else decided meanwhile" in capsys.readouterr().err
    assert restored.ledger.all_reached() and times(machine) == 1
    assert "it is in no trouble" in adopt(restored, "--again", 1, status=3)


def test_a_decision_that_is_cut_off_is_none(
    sender: Sender, tmp_path: Path, monkeypatch: pytest.MonkeyPatch
) -> None:
    add(sender.ledger, SEND)
    by_backup(sender.ledger, tmp_path / "copy")
    restored = put_back(sender, tmp_path / "copy")
    why = doubted(restored, 1)
    words = ["--ledger", str(restored.ledger.path), "adopt", "m1", "--yes", "--done", "1"]

    def cut_off(*_: object) -> None:
        raise KeyboardInterrupt

    with monkeypatch.context() as patched, pytest.raises(KeyboardInterrupt):
        patched.setattr(Ledger, "adopt", cut_off)
        commands.main(words)
    assert restored.ledger.trouble("m1") == why
    assert not restored.ledger.all_reached()
    assert commands.main(words) == 0
    assert run(restored) and restored.ledger.all_reached()
