"""What goes wrong in a fleet: machines that change meanwhile, journals and ledgers that are lost or restored, messages that
come late, and what is to be done once."""

from __future__ import annotations

import json
import re
import shutil
from pathlib import Path
from typing import Any, Callable, Dict, List, Optional, Tuple

import bootkeep
import pytest
from bootkeep import Request
from conftest import (
    Folder,
    Hand,
    add,
    agent,
    bootfleet,
    frames,
    frames_of,
    goal,
    hostile,
    option,
    run,
    troubled,
    update,
)

from sender.goals import Goal
from sender.ledger import Ledger
from sender.machines import MOST_UNMET
from sender.run import Sender

Wish = Tuple[Request, Dict[str, Any]]


def once(does: Callable[[], object]) -> Callable[[int, bytes], List[bytes]]:
    """Loses the first message with frames, and lets something be done at the machine meanwhile."""
    lost: List[bytes] = []

    def lose(_number: int, payload: bytes) -> List[bytes]:
        if lost or not frames_of(payload):
            return [payload]
        lost.append(payload)
        does()
        return []

    return lose


def deliver(machine: Folder, payload: bytes) -> Dict[str, Any]:
    """What a machine answers to a message that the broker brings."""
    held: Dict[str, Any] = json.loads(agent.answer(payload, str(machine.state), str(machine.place)))
    return held


def courier_of(sender: Sender) -> Hand:
    courier: Any = sender.courier
    assert isinstance(courier, Hand)
    return courier


def send(*requests: Wish) -> Goal:
    """A job of requests that somebody made."""
    made = [bootkeep.frame_make(0, kind, **members) for kind, members in requests]
    return Goal("send", frames=tuple(made))


def adopt(sender: Sender, *words: object, status: int = 0) -> str:
    """Calls `adopt` for the machine."""
    return bootfleet("--ledger", sender.ledger.path, "adopt", "m1", "--yes", *words, status=status)


def states(ledger: Ledger) -> List[Tuple[Any, ...]]:
    """The number of each request, and what became of it."""
    return ledger.db.execute(
        "SELECT number, state FROM request ORDER BY era, number, attempt"
    ).fetchall()


# Entries whose numbers have other owners


@pytest.mark.parametrize("kind", ["remove", "first", "next"])
def test_a_number_with_a_new_owner_is_left_alone(
    sender: Sender, machine: Folder, kind: str
) -> None:
    """The request is on its way for weeks, and meanwhile somebody installs another system, which gets the number."""

    def install() -> None:
        machine.put("Boot0000", option("debian"))
        machine.put("Boot0004", option("a"))

    courier_of(sender).requests = once(install)
    add(sender.ledger, goal(kind, "a"))
    assert run(sender) and sender.ledger.all_reached()
    left = {0: option("debian"), 1: option("b"), 4: option("a")}
    if kind == "remove":
        del left[4]
    assert machine.entries() == left
    assert machine.order() == ([4, 1, 0] if kind == "first" else [1, 0])
    assert machine.get("BootNext") == (b"\4\0" if kind == "next" else None)


def test_a_number_that_is_taken_meanwhile_is_left_alone(sender: Sender, machine: Folder) -> None:
    """A script names an entry by its number, as it was when the script was sent."""
    courier_of(sender).requests = once(lambda: machine.put("Boot0000", option("debian")))
    add(sender.ledger, send((Request.REPLACE, {"entry": 0, "option": option("new")})))
    assert run(sender) and sender.ledger.all_reached()
    sent = [it for _, it in courier_of(sender).sent if frames_of(it)]
    assert len(dict.fromkeys(sent)) == 2 and len(frames(sender)) == 1
    assert machine.entries()[0] == option("new")


def test_an_order_that_changes_meanwhile_is_looked_at_again(
    sender: Sender, machine: Folder
) -> None:
    """An installer adds the very entry in front: it is there once."""

    def install() -> None:
        machine.put("Boot0007", option("new"))
        machine.put("BootOrder", b"\7\0\1\0\0\0")

    courier_of(sender).requests = once(install)
    add(sender.ledger, goal("first", "new"))
    assert run(sender) and sender.ledger.all_reached()
    assert machine.order() == [7, 1, 0]
    assert list(machine.entries().values()).count(option("new")) == 1


def test_a_long_order_that_changes_meanwhile_is_looked_at_again(
    sender: Sender, machine: Folder
) -> None:
    """The word of what is expected has more than 10,000 characters."""
    stale = b"".join(number.to_bytes(2, "little") for number in range(0x100, 0x100 + 2000))
    machine.put("BootOrder", b"\1\0\0\0" + stale)
    courier_of(sender).requests = once(lambda: machine.put("BootOrder", b"\0\0\1\0" + stale))
    add(sender.ledger, send((Request.FIRST, {"entry": 1})))
    assert run(sender) and sender.ledger.all_reached()
    assert machine.order()[:3] == [1, 0, 0x100]


def test_a_machine_that_changes_each_time_is_told(sender: Sender, machine: Folder) -> None:
    """Each time before a message comes something else puts itself in front."""

    def change(number: int, payload: bytes) -> List[bytes]:
        if frames_of(payload):
            machine.put("BootOrder", (100 + number).to_bytes(2, "little"))
        return [payload]

    courier_of(sender).requests = change
    add(sender.ledger, send((Request.FIRST, {"entry": 0})))
    assert troubled(sender).startswith("it changes each time: order=00")
    assert len([it for _, it in courier_of(sender).sent if frames_of(it)]) == MOST_UNMET
    assert states(sender.ledger) == [(0, "sent")]
    courier_of(sender).requests = lambda _number, payload: [payload]
    with sender.ledger.transaction():
        sender.ledger.resend("m1")
    assert run(sender) and sender.ledger.all_reached()
    assert machine.order()[0] == 0


# Messages that come late, and again


def test_an_earlier_attempt_that_comes_late_is_known(sender: Sender, machine: Folder) -> None:
    """The entry moves to another number and back again: of the two requests the first is applied after all."""
    sent: List[bytes] = []

    def delay(_number: int, payload: bytes) -> List[bytes]:
        if not frames_of(payload):
            return [payload]
        sent.append(payload)
        attempts = list(dict.fromkeys(sent))
        if len(sent) == 1:
            machine.put("Boot0000", option("c"))
            machine.put("Boot0005", option("a"))
            return []
        if len(attempts) == 2 and sent.count(payload) == 1 and "moved" not in seen:
            seen.append("moved")
            machine.put("Boot0000", option("a"))
            return [attempts[0], payload]
        return [payload]

    seen: List[str] = []
    courier_of(sender).requests = delay
    add(sender.ledger, goal("remove", "a"))
    assert run(sender) and sender.ledger.all_reached()
    assert machine.entries() == {1: option("b")}
    assert states(sender.ledger) == [(0, "done"), (0, "passed"), (1, "done")]


def test_a_frame_is_not_applied_by_another_journal(sender: Sender, machine: Folder) -> None:
    """The first request is applied, its reply and then the journal are lost, and the request comes again."""

    def lose(_number: int, payload: bytes) -> List[bytes]:
        if not json.loads(payload)["replies"]:
            return [payload]
        (machine.state / "journal").unlink()
        return []

    courier_of(sender).replies = lose
    add(sender.ledger, goal("first", "new"))
    assert troubled(sender).startswith("another journal: ")
    assert list(machine.entries().values()).count(option("new")) == 1


def test_a_broker_that_repeats_everything_changes_nothing(sender: Sender, machine: Folder) -> None:
    """Also after the machine was set up anew, with a journal that has applied nothing."""
    add(sender.ledger, goal("first", "new"), goal("next", "a"), goal("remove", "b"))
    assert run(sender) and sender.ledger.all_reached()
    sent = [it for _, it in courier_of(sender).sent]
    assert len([it for it in sent if frames_of(it)]) == 3
    (machine.place / machine_file("BootNext")).unlink()
    machine.put("Boot0001", option("b"))
    before = machine.entries(), machine.order()
    for is_lost in (False, True):
        if is_lost:
            (machine.state / "journal").unlink()
        for payload in [*sent, *reversed(sent)]:
            answered = deliver(machine, payload)
            assert answered["replies"] == [] and bool(answered["unmet"]) == bool(frames_of(payload))
        assert (machine.entries(), machine.order(), machine.get("BootNext")) == (*before, None)


def test_a_clone_of_a_machine_does_nothing(sender: Sender, machine: Folder, tmp_path: Path) -> None:
    """The machine's variables and its journal's folder, copied before the request came: another machine has them now."""
    clone = Folder(tmp_path / "clone", {}, [])

    def copy() -> None:
        for made, kept in ((clone.place, machine.place), (clone.state, machine.state)):
            shutil.rmtree(made)
            shutil.copytree(kept, made)

    courier_of(sender).requests = once(copy)
    add(sender.ledger, goal("first", "new"))
    assert run(sender) and sender.ledger.all_reached()
    before = clone.entries(), clone.order()
    assert before == ({0: option("a"), 1: option("b")}, [1, 0])
    for payload in [it for _, it in courier_of(sender).sent] * 10:
        assert "it is the journal of machine" in deliver(clone, payload)["refused"]["words"]
    assert (clone.entries(), clone.order()) == before


def machine_file(name: str) -> str:
    return f"{name}-8be4df61-93ca-11d2-aa0d-00e098032b8c"


def test_a_machine_that_contradicts_itself_is_told(pair: Sender) -> None:
    def make(held: Dict[str, Any]) -> bytes:
        unmet = {"expected": "next=0", "found": "next=9"}
        return json.dumps({**held, "replies": [], "unmet": unmet}).encode()

    hostile(pair, make)
    add(pair.ledger, goal("first", "new"), to=["m1", "m2"])
    assert run(pair)
    assert "that it isn't so" in (pair.ledger.trouble("m1") or "")
    assert pair.ledger.one("SELECT state FROM goal WHERE machine = 'm2'") == ("reached",)


def test_a_machine_that_says_unmet_of_what_is_so_is_told(pair: Sender) -> None:
    def make(held: Dict[str, Any]) -> bytes:
        if held["replies"]:
            held = {**held, "next": 0, "replies": []}
            held["unmet"] = {"expected": "next=0", "found": "next=9"}
        return json.dumps(held).encode()

    hostile(pair, make)
    add(pair.ledger, goal("first", "new"), to=["m1", "m2"])
    assert run(pair)
    assert pair.ledger.trouble("m1") == "it says that next=0 isn't so, and shows that it is"


def test_a_machine_whose_number_goes_up_and_down_is_told(pair: Sender) -> None:
    """It would be asked for ever which of the requests it has applied."""

    def make(held: Dict[str, Any]) -> bytes:
        asked = re.search(rb" next=([0-9]+)", courier_of(pair).sent[-1][1])
        if asked is not None:
            expected = int(asked[1])
            told = 2 if expected == 1 else 1
            unmet = {"expected": f"next={expected}", "found": f"next={told}"}
            held = {**held, "next": told, "replies": [], "unmet": unmet}
        return json.dumps(held).encode()

    hostile(pair, make)
    add(pair.ledger, goal("first", "new"), to=["m1", "m2"])
    assert run(pair)
    assert (pair.ledger.trouble("m1") or "").startswith("it changes each time: next=")
    assert len(courier_of(pair).sent) < 3 * MOST_UNMET


def test_an_older_agent_is_told(pair: Sender) -> None:
    """It takes what it is sent for a look, and applies nothing."""

    def make(held: Dict[str, Any]) -> bytes:
        return json.dumps({**held, "next": 0, "replies": []}).encode()

    hostile(pair, make)
    add(pair.ledger, goal("first", "new"), to=["m1", "m2"])
    assert run(pair)
    assert (pair.ledger.trouble("m1") or "").startswith("it has 0 replies to 1 requests: ")


# What is done once


def test_next_is_set_once_though_its_reply_is_lost(sender: Sender, machine: Folder) -> None:
    """The machine boots an installer, which wipes the journal: it isn't to boot it again."""

    def lose(_number: int, payload: bytes) -> List[bytes]:
        if not json.loads(payload)["replies"]:
            return [payload]
        assert machine.get("BootNext") == b"\0\0"
        (machine.place / machine_file("BootNext")).unlink()
        (machine.state / "journal").unlink()
        return []

    courier_of(sender).replies = lose
    add(sender.ledger, goal("next", "a"))
    assert troubled(sender).startswith("another journal: ")
    assert machine.get("BootNext") is None
    told = adopt(sender, status=3)
    assert "job 1: next a: 0 of 1 known to be done, 1 sent without an answer" in told
    assert "--done 1 or --again 1" in told
    adopt(sender, "--done", 1)
    assert run(sender) and sender.ledger.all_reached()
    assert machine.get("BootNext") is None


def test_next_is_set_again_if_somebody_says_so(sender: Sender, machine: Folder) -> None:
    courier_of(sender).requests = once((machine.state / "journal").unlink)
    add(sender.ledger, goal("next", "a"))
    assert troubled(sender).startswith("another journal: ")
    assert machine.get("BootNext") is None
    adopt(sender, "--again", 1)
    assert run(sender) and sender.ledger.all_reached()
    assert machine.get("BootNext") == b"\0\0"


def test_what_was_done_of_a_script_is_not_sent_by_resend(sender: Sender, machine: Folder) -> None:
    script: List[Wish] = [
        (Request.ADD_FREE, {"option": option("x")}),
        (Request.REMOVE, {"entry": 0x77}),
        (Request.ADD_FREE, {"option": option("y")}),
    ]
    add(sender.ledger, send(*script))
    assert troubled(sender) == "goal 1: remove 0077: Missing"
    machine.put("Boot0077", option("z"))
    with sender.ledger.transaction():
        sender.ledger.resend("m1")
    assert run(sender) and sender.ledger.all_reached()
    assert machine.entries() == {
        0: option("a"),
        1: option("b"),
        2: option("x"),
        3: option("y"),
    }


def test_what_was_done_of_a_script_is_not_sent_by_adopt(sender: Sender, machine: Folder) -> None:
    """64 of 70 requests are answered, and then another ledger's request comes between."""
    requests: List[Wish] = [
        (Request.ADD_FREE, {"option": option(f"x{number}")}) for number in range(70)
    ]
    other = bootkeep.frame_make(64, Request.FIRST, entry=0)

    def come_between(_number: int, payload: bytes) -> List[bytes]:
        if len(frames_of(payload)) and b"next=64 " in payload.partition(b"\n")[0]:
            update(machine, other)
        return [payload]

    courier_of(sender).requests = come_between
    add(sender.ledger, send(*requests))
    assert "isn't known to be the one sent" in troubled(sender)
    told = adopt(sender, status=3)
    assert "64 of 70 known to be done" in told
    courier_of(sender).requests = lambda _number, payload: [payload]
    adopt(sender, "--again", 1)
    assert run(sender) and sender.ledger.all_reached()
    entries = list(machine.entries().values())
    assert len(entries) == 72 and len(set(entries)) == 72


@pytest.mark.parametrize("word", ["--done", "--again"])
def test_a_restored_ledger_does_nothing_twice(
    sender: Sender, machine: Folder, tmp_path: Path, word: str
) -> None:
    """The ledger of yesterday knows nothing of what was done today."""
    ledger, copy = sender.ledger, tmp_path / "copy"
    add(ledger, goal("first", "a"), send((Request.ADD_FREE, {"option": option("x")})))
    bootfleet("--ledger", ledger.path, "backup", copy)
    assert copy.stat().st_mode & 0o777 == 0o600
    assert run(sender) and ledger.all_reached()
    assert machine.order() == [0, 1, 2]
    restored = Sender(Ledger(copy), Hand({"m1": machine}), "sender", 0.01, 0.05)
    assert troubled(restored) == (
        "its next number is 2, and the ledger's is 0: an older copy of the ledger came back,"
        " or another one sends to it"
    )
    told = adopt(restored, status=3)
    assert "job 2: send 1 requests: 0 of 1 known to be done, 0 sent" in told
    adopt(restored, word, 2)
    assert run(restored) and restored.ledger.all_reached()
    times = list(machine.entries().values()).count(option("x"))
    assert times == (1 if word == "--done" else 2)


def test_a_restored_folder_of_a_journal_is_told(sender: Sender, machine: Folder) -> None:
    add(sender.ledger, goal("first", "a"))
    saved: Optional[bytes] = None
    assert run(sender)
    saved = (machine.state / "journal").read_bytes()
    add(sender.ledger, goal("first", "b"))
    assert run(sender)
    (machine.state / "journal").write_bytes(saved)
    add(sender.ledger, goal("first", "a"))
    assert troubled(sender) == (
        "its next number is 1, and the ledger's is 2: an older copy of its journal's folder came back"
    )
    assert machine.order() == [1, 0]


def test_a_backup_is_no_ledger_that_is_written_to(sender: Sender) -> None:
    told = bootfleet("--ledger", sender.ledger.path, "backup", sender.ledger.path, status=3)
    assert "it is the ledger itself" in told
    assert sender.ledger.has_machine("m1")


def test_what_is_cancelled_meanwhile_is_not_sent_again(sender: Sender, machine: Folder) -> None:
    """The machine is off for weeks, and somebody gives up what it was sent."""
    ledger = sender.ledger
    courier_of(sender).requests = lambda _n, payload: [] if frames_of(payload) else [payload]
    add(ledger, goal("remove", "a"), goal("first", "b"))
    assert not sender.run(True, None, lambda: len(frames(sender)) > 0)
    with ledger.transaction():
        ledger.cancel(1, None)
    courier_of(sender).requests = lambda _n, payload: [payload]
    assert run(sender) and ledger.all_reached()
    assert machine.entries() == {0: option("a"), 1: option("b")}
