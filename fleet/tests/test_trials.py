"""Goals to try an entry, over machines that are started anew: what comes of each start, and what may go wrong."""

from __future__ import annotations

import fcntl
import io
import json
import math
import shutil
import time
from pathlib import Path
from typing import Any, Callable, Dict, List

import bootkeep
import pytest
from conftest import (
    PATH,
    Folder,
    Hand,
    add,
    answer,
    bootfleet,
    frames,
    frames_of,
    goal,
    option,
    update,
)

from sender import status
from sender.courier import Came
from sender.ledger import Ledger
from sender.messages import entries_of
from sender.page import as_page
from sender.run import Sender
from sender.store import LedgerError
from sender.waves import Waves

NEW, INACTIVE = option("new"), option("new inactive")
OLD = {0: option("a"), 1: option("b")}

WAITS = "waiting: waits for a start by 0002"
KEPT = "quiet: "


def courier_of(sender: Sender) -> Hand:
    courier: Any = sender.courier
    assert isinstance(courier, Hand)
    return courier


def stands(ledger: Ledger, name: str) -> str:
    """How a machine stands."""
    (found,) = [it for it in status.read_status(ledger).machines if it.name == name]
    return f"{found.state}: {found.why or ''}"


def go(sender: Sender) -> str:
    """Goes after the machines until each has nothing to be done before it is started, and gives how m1 stands."""
    ledger = sender.ledger
    sender.leased, before = -math.inf, sender.counts.out
    assert not sender.held
    sender.run(True, 120, lambda: sender.counts.out > before and not sender.held)
    assert not sender.held
    return stands(ledger, "m1")


def resend(sender: Sender) -> str:
    with sender.ledger.transaction():
        sender.ledger.resend("m1")
    return go(sender)


def adopt(sender: Sender, *words: object, code: int = 0) -> str:
    return bootfleet("--ledger", sender.ledger.path, "adopt", "m1", "--yes", *words, status=code)


@pytest.fixture
def tried(sender: Sender, machine: Folder) -> Sender:
    """A sender to a machine that is to be started: it came up by `b`, and tries `new`."""
    machine.came_up_by(1)
    add(sender.ledger, goal("try", "new"))
    assert go(sender) == WAITS
    return sender


def is_untried(machine: Folder) -> bool:
    """Whether the entry is there, and no order tries it."""
    return machine.entries() == {**OLD, 2: INACTIVE} and machine.order() == [1, 0, 2]


def is_kept(machine: Folder) -> bool:
    return machine.entries() == {**OLD, 2: NEW} and machine.order() == [2, 1, 0]


# What comes of a start


def test_an_entry_by_which_a_machine_came_up_is_kept(tried: Sender, machine: Folder) -> None:
    assert is_untried(machine) and machine.get("BootNext") == b"\2\0"
    (first,) = frames(tried)
    asked = list(bootkeep.frames(io.BytesIO(first)))
    assert entries_of(asked) == {2} and len(asked) == 2
    assert go(tried) == WAITS and len(frames(tried)) == 1
    machine.restart()
    assert go(tried) == KEPT
    assert is_kept(machine) and machine.get("BootNext") is None
    assert len(frames(tried)) == 2 and frames(tried)[1].count(b"BQ") == 2
    assert tried.ledger.all_reached()
    assert tried.ledger.one("SELECT entry FROM goal") == (2,)


def test_an_entry_that_does_not_start_changes_nothing(tried: Sender, machine: Folder) -> None:
    machine.restart(2)
    assert go(tried) == "trouble: goal 1: it came up by 0001, not by 0002"
    assert is_untried(machine) and len(frames(tried)) == 1
    for _ in range(3):
        assert resend(tried) == WAITS
        assert is_untried(machine) and machine.get("BootNext") == b"\2\0"
        machine.restart(2)
        assert go(tried).startswith("trouble: goal 1: it came up by 0001")
    assert resend(tried) == WAITS
    machine.restart()
    assert go(tried) == KEPT and is_kept(machine)


def test_the_goals_behind_it_wait_too(sender: Sender, machine: Folder) -> None:
    add(sender.ledger, goal("try", "new"), goal("remove", "b"))
    assert go(sender) == WAITS and machine.order() == [1, 0, 2]
    machine.restart()
    assert go(sender) == KEPT
    assert machine.entries() == {0: option("a"), 2: NEW} and machine.order() == [2, 0]


def test_a_boot_that_is_not_complete_keeps_nothing(tried: Sender, machine: Folder) -> None:
    machine.is_complete = False
    machine.restart()
    assert go(tried) == "waiting: waits for its boot by 0002 to be complete"
    assert is_untried(machine)
    machine.restart()
    assert go(tried) == "trouble: goal 1: it came up by 0001, not by 0002"
    assert resend(tried) == WAITS
    machine.restart()
    assert go(tried) == "waiting: waits for its boot by 0002 to be complete"
    machine.is_complete = True
    assert go(tried) == KEPT and is_kept(machine)


def test_a_current_entry_that_is_not_known_keeps_nothing(tried: Sender, machine: Folder) -> None:
    machine.restart()
    machine.came_up_by(None)
    told = "trouble: goal 1: it was started, and it isn't known whether it came up by 0002"
    assert go(tried) == told
    assert is_untried(machine)
    machine.came_up_by(2)
    assert resend(tried) == WAITS


def test_a_kernel_that_starts_another_is_no_start(tried: Sender, machine: Folder) -> None:
    """By kexec: firmware started nothing, and BootNext is still there."""
    machine.start = "start 7"
    assert go(tried) == WAITS
    machine.restart()
    assert go(tried) == KEPT and is_kept(machine)


@pytest.mark.parametrize(
    "by, why",
    [
        ("remove", "entry 0002 was removed before it was kept"),
        ("change", "entry 0002 was changed before it was kept"),
    ],
)
@pytest.mark.parametrize("is_started", [False, True])
def test_an_entry_that_somebody_changed_is_not_kept(
    tried: Sender, machine: Folder, by: str, why: str, is_started: bool
) -> None:
    if is_started:
        machine.restart()
    if by == "remove":
        machine.take_out("Boot0002")
    else:
        machine.put("Boot0002", option("another"))
    before = machine.entries()
    assert go(tried) == f"trouble: goal 1: {why}"
    assert machine.entries() == before
    told = resend(tried)
    if by == "change" and not is_started:
        # BootNext names what is another's entry now: that is started before.
        assert told == "waiting: waits for BootNext, which is 0002, to be used"
        machine.restart()
        told = go(tried)
    assert told.startswith("waiting: waits for a start by ")
    assert list(machine.entries().values()).count(INACTIVE) == 1
    machine.restart()
    assert go(tried) == KEPT
    assert list(machine.entries().values()).count(NEW) == 1
    assert machine.entries()[machine.order()[0]] == NEW


def test_an_entry_that_somebody_made_active_is_kept(tried: Sender, machine: Folder) -> None:
    machine.restart()
    machine.put("Boot0002", NEW)
    assert go(tried) == KEPT and is_kept(machine)


def test_an_entry_that_is_kept_stays_first(tried: Sender, machine: Folder) -> None:
    """Something else puts itself first each time."""
    machine.restart()
    courier_of(tried).replies = undoing(machine)
    assert go(tried) == "trouble: goal 1: first 0002 was made 3 times, and it is undone"
    courier_of(tried).replies = lambda _number, payload: [payload]
    assert resend(tried) == WAITS
    machine.restart()
    assert go(tried) == KEPT and is_kept(machine)


def undoing(machine: Folder) -> Callable[[int, bytes], List[bytes]]:
    """Puts another entry first after each request, before the machine says what it is like."""

    def undo(_number: int, payload: bytes) -> List[bytes]:
        held = json.loads(payload)
        if held["replies"]:
            machine.put("BootOrder", b"\1\0\2\0\0\0")
            held["show"] = json.loads(answer(machine, b""))["show"]
        return [json.dumps(held).encode()]

    return undo


# What is there already


def test_an_entry_that_is_active_and_ordered_stays_as_it_is(
    sender: Sender, machine: Folder
) -> None:
    machine.came_up_by(1)
    add(sender.ledger, goal("try", "a"))
    assert go(sender) == "waiting: waits for a start by 0000"
    assert machine.entries() == OLD and machine.order() == [1, 0]
    machine.restart(0)
    assert go(sender) == "trouble: goal 1: it came up by 0001, not by 0000"
    assert resend(sender) == "waiting: waits for a start by 0000"
    machine.restart()
    assert go(sender) == KEPT
    assert machine.entries() == OLD and machine.order() == [0, 1]


def test_an_entry_that_is_first_is_tried_all_the_same(sender: Sender, machine: Folder) -> None:
    """It may have been made in this start, in the place of another one."""
    machine.came_up_by(1)
    add(sender.ledger, goal("try", "b"))
    assert go(sender) == "waiting: waits for a start by 0001"
    machine.restart()
    assert go(sender) == KEPT and len(frames(sender)) == 1
    assert machine.entries() == OLD and machine.order() == [1, 0]


@pytest.mark.parametrize("label", ["new", "new inactive"])
def test_an_entry_that_no_order_names_is_stored_anew(
    sender: Sender, machine: Folder, label: str
) -> None:
    machine.put("Boot0002", option(label))
    machine.came_up_by(1)
    add(sender.ledger, goal("try", "new"))
    assert go(sender) == WAITS
    assert is_untried(machine) and machine.get("BootNext") == b"\2\0"
    machine.restart()
    assert go(sender) == KEPT and is_kept(machine)


def test_a_number_that_anything_names_is_not_taken(sender: Sender, machine: Folder) -> None:
    """An order names an entry that isn't there, and the machine came up by another one that isn't there any more."""
    machine.put("BootOrder", b"\2\0\1\0\0\0")
    machine.came_up_by(3)
    add(sender.ledger, goal("try", "new"))
    assert go(sender) == "waiting: waits for a start by 0004"
    assert machine.order() == [2, 1, 0, 4]


# Machines that can't


@pytest.mark.parametrize(
    "lacks, why",
    [
        ("start", "its bootvars is an older one, which doesn't tell of its start"),
        ("complete", "its agent is an older one, or can't tell whether a boot is complete"),
    ],
)
def test_an_older_machine_is_told(pair: Sender, lacks: str, why: str) -> None:
    """Before anything is changed; and it does once it is upgraded."""
    courier = courier_of(pair)

    def older(_number: int, payload: bytes) -> List[bytes]:
        held = json.loads(payload)
        if courier.sent[-1][0] == "m1":
            held.pop(lacks)
        return [json.dumps(held).encode()]

    courier.replies = older
    add(pair.ledger, goal("try", "new"), to=["m1", "m2"])
    assert go(pair) == f"trouble: goal 1: it can't try an entry: {why}"
    assert stands(pair.ledger, "m2") == WAITS
    assert courier.machines["m1"].entries() == OLD
    courier.replies = lambda _number, payload: [payload]
    assert resend(pair) == WAITS


def test_a_start_that_is_not_known_is_told(sender: Sender, machine: Folder) -> None:
    machine.start = None
    add(sender.ledger, goal("try", "new"))
    why = "trouble: goal 1: it can't try an entry: it isn't known which start this is"
    assert go(sender) == why and machine.entries() == OLD


def test_an_agent_that_is_downgraded_keeps_nothing(tried: Sender, machine: Folder) -> None:
    machine.restart()
    machine.is_complete = None
    assert go(tried).startswith("trouble: goal 1: it can't try an entry: its agent is an older one")
    assert is_untried(machine)


# Messages that are lost, come again, or come late


@pytest.mark.parametrize("lost", [{0}, {1}, {2}, {1, 2, 3}])
@pytest.mark.parametrize("way", ["requests", "replies"])
def test_what_is_lost_is_sent_again(
    sender: Sender, machine: Folder, lost: "set[int]", way: str
) -> None:
    def losing() -> Callable[[int, bytes], List[bytes]]:
        seen: List[bytes] = []

        def lose(_number: int, payload: bytes) -> List[bytes]:
            seen.append(payload)
            return [] if len(seen) - 1 in lost else [payload]

        return lose

    machine.came_up_by(1)
    add(sender.ledger, goal("try", "new"))
    setattr(courier_of(sender), way, losing())
    assert go(sender) == WAITS and is_untried(machine)
    machine.restart()
    setattr(courier_of(sender), way, losing())
    assert go(sender) == KEPT and is_kept(machine)
    assert len(frames(sender)) == 2


def test_what_comes_again_changes_nothing(tried: Sender, machine: Folder) -> None:
    """All that was ever sent comes again after each step, also after a machine that came up by another entry."""

    def repeat() -> None:
        before = machine.entries(), machine.order(), machine.get("BootNext")
        for _, payload in list(courier_of(tried).sent):
            answer(machine, payload)
        assert (machine.entries(), machine.order(), machine.get("BootNext")) == before

    repeat()
    machine.restart(2)
    repeat()
    assert go(tried).startswith("trouble: ")
    repeat()
    assert resend(tried) == WAITS
    repeat()
    machine.restart()
    repeat()
    assert go(tried) == KEPT
    repeat()
    assert is_kept(machine)


def test_a_message_that_comes_after_a_start_is_tried_by_the_next(
    sender: Sender, machine: Folder
) -> None:
    """The machine was off when it was sent, and nothing else changed."""
    held: List[bytes] = []

    def delay(_number: int, payload: bytes) -> List[bytes]:
        if not frames_of(payload) or held:
            return [payload]
        held.append(payload)
        machine.restart()
        return [payload]

    machine.came_up_by(1)
    courier_of(sender).requests = delay
    add(sender.ledger, goal("try", "new"))
    assert go(sender) == WAITS
    assert is_untried(machine) and machine.get("BootNext") == b"\2\0"
    machine.restart()
    assert go(sender) == KEPT and is_kept(machine)


def test_the_machine_is_started_before_the_reply_comes(sender: Sender, machine: Folder) -> None:
    """The request was applied, and its reply is lost with the start."""

    def lose(_number: int, payload: bytes) -> List[bytes]:
        if not json.loads(payload)["replies"] or machine.start != "start 1":
            return [payload]
        machine.restart()
        return []

    machine.came_up_by(1)
    courier_of(sender).replies = lose
    add(sender.ledger, goal("try", "new"))
    assert go(sender) == KEPT and is_kept(machine)
    assert len(frames(sender)) == 2


def test_a_start_by_another_entry_before_the_reply_to_what_keeps_it(
    tried: Sender, machine: Folder
) -> None:
    """It was kept, the reply is lost, and the entry doesn't start a second time: it was kept all the same."""

    def lose(_number: int, payload: bytes) -> List[bytes]:
        if not json.loads(payload)["replies"] or machine.start != "start 2":
            return [payload]
        machine.restart(2)
        return []

    machine.restart()
    courier_of(tried).replies = lose
    assert go(tried) == KEPT and is_kept(machine)


def test_a_start_by_another_entry_before_it_is_kept(tried: Sender, machine: Folder) -> None:
    """The machine came up by it, and is started again before the message that keeps it comes."""

    def restart(_number: int, payload: bytes) -> List[bytes]:
        if not frames_of(payload) or machine.start != "start 2":
            return [payload]
        machine.restart()
        assert machine.get("BootCurrent") == b"\1\0"
        return []

    machine.restart()
    courier_of(tried).requests = restart
    assert go(tried) == KEPT and is_kept(machine)
    assert machine.start == "start 3"


def test_a_trial_is_not_taken_for_the_one_before(tried: Sender, machine: Folder) -> None:
    """The machine came up by the entry, which was changed before it was kept; it is tried again, and doesn't start."""

    def change(_number: int, payload: bytes) -> List[bytes]:
        if frames_of(payload):
            machine.put("Boot0002", option("another"))
        return [payload]

    machine.restart()
    courier_of(tried).requests = change
    assert go(tried) == "trouble: goal 1: entry 0002 was changed before it was kept"
    assert len(frames(tried)) == 2
    machine.put("Boot0002", INACTIVE)
    courier_of(tried).requests = lambda _number, payload: [payload]
    assert resend(tried) == WAITS
    machine.restart(2)
    assert go(tried) == "trouble: goal 1: it came up by 0001, not by 0002"
    assert is_untried(machine)


def test_a_look_from_before_the_start_counts_for_nothing(tried: Sender, machine: Folder) -> None:
    """The broker brings what the machine said before, as a message that it kept."""
    before = answer(machine, courier_of(tried).sent[-1][1])
    machine.restart(2)
    machine.restart()
    (first,) = [it for _, it in courier_of(tried).sent if frames_of(it)]
    courier_of(tried).replies = lambda _number, payload: [before, before, payload]
    assert go(tried) == "trouble: goal 1: it came up by 0001, not by 0002"
    assert is_untried(machine)
    assert json.loads(answer(machine, first))["replies"] == []


def test_frames_that_come_after_trouble_was_ended(sender: Sender, machine: Folder) -> None:
    """A first message is lost, somebody adds the very entry by hand, and the trial of that one fails: then the first
    message comes, and after it what was made since."""
    sent: List[bytes] = []

    def delay(_number: int, payload: bytes) -> List[bytes]:
        if not frames_of(payload):
            return [payload]
        sent.append(payload)
        if len(sent) > 1:
            return [sent[0], payload]
        machine.put("Boot0002", INACTIVE)
        machine.put("BootOrder", b"\1\0\0\0\2\0")
        return []

    machine.came_up_by(1)
    courier_of(sender).requests = delay
    add(sender.ledger, goal("try", "new"))
    assert go(sender) == WAITS and is_untried(machine)
    machine.restart(2)
    assert go(sender).startswith("trouble: goal 1: it came up by 0001")
    assert resend(sender) == WAITS and is_untried(machine)
    machine.restart()
    assert go(sender) == KEPT and is_kept(machine)


# What else may happen between


def test_a_machine_that_was_started_twice_keeps_nothing(tried: Sender, machine: Folder) -> None:
    """It came up by the entry, and was started again before it was looked at: nobody knows."""
    machine.restart()
    machine.restart()
    assert go(tried) == "trouble: goal 1: it came up by 0001, not by 0002"
    assert is_untried(machine)


def test_a_machine_that_is_off_is_waited_for(tried: Sender, machine: Folder) -> None:
    courier = courier_of(tried)
    courier.requests = lambda _number, payload: []
    tried.leased = -math.inf
    assert not tried.run(True, None, lambda: len(courier.sent) > 12)
    assert stands(tried.ledger, "m1") == WAITS
    machine.restart()
    courier.requests = lambda _number, payload: [payload]
    tried.held.clear()
    assert go(tried) == KEPT and is_kept(machine)


def test_a_machine_that_comes_back_is_looked_at_at_once(tried: Sender, machine: Folder) -> None:
    """Otherwise it is left for minutes, and takes no sender's time."""
    due = "SELECT due, holder FROM machine WHERE name = 'm1'"
    left, holder = tried.ledger.one(due)
    assert time.time() + 100 < left < time.time() + 301 and holder is None
    machine.restart()
    tried.turn([])
    assert tried.ledger.one(due)[0] == left and not tried.held
    tried.turn([Came("m1", answer(machine, b""))])
    assert tried.ledger.one(due)[0] == 0
    tried.leased = -math.inf
    tried.turn([])
    assert list(tried.held) == ["m1"]
    assert tried.run(True, 60, lambda: False) and is_kept(machine)


def test_a_machine_that_came_back_while_no_sender_ran(tried: Sender, machine: Folder) -> None:
    machine.restart()
    other = Sender(Ledger(tried.ledger.path), tried.courier, "other", 0.01, 0.05)
    assert other.run(True, 60, lambda: False) and is_kept(machine)


def test_a_next_entry_that_somebody_takes_out(tried: Sender, machine: Folder) -> None:
    machine.take_out("BootNext")
    told = "trouble: goal 1: BootNext is nothing and not 0002, and it wasn't started meanwhile"
    assert go(tried) == told and machine.get("BootNext") is None
    assert resend(tried) == WAITS and machine.get("BootNext") == b"\2\0"
    machine.put("BootNext", b"\0\0")
    assert go(tried) == told.replace("nothing", "0000")
    assert machine.get("BootNext") == b"\0\0" and is_untried(machine)


def test_a_next_entry_of_somebody_else_is_used_first(sender: Sender, machine: Folder) -> None:
    machine.came_up_by(1)
    machine.put("BootNext", b"\0\0")
    add(sender.ledger, goal("try", "new"))
    assert go(sender) == "waiting: waits for BootNext, which is 0000, to be used"
    assert machine.entries() == OLD and machine.get("BootNext") == b"\0\0"
    machine.restart()
    assert go(sender) == WAITS and is_untried(machine)
    machine.restart()
    assert go(sender) == KEPT and is_kept(machine)


def test_a_next_entry_that_is_not_there_is_no_reason_to_wait(
    sender: Sender, machine: Folder
) -> None:
    machine.put("BootNext", b"\7\0")
    add(sender.ledger, goal("try", "new"))
    assert go(sender) == WAITS and machine.get("BootNext") == b"\2\0"


def test_a_next_entry_that_is_taken_out_before_the_start(tried: Sender, machine: Folder) -> None:
    machine.take_out("BootNext")
    machine.restart()
    assert go(tried) == "trouble: goal 1: it came up by 0001, not by 0002"
    assert is_untried(machine)


def test_a_number_that_another_tool_takes(sender: Sender, machine: Folder) -> None:
    """Between the look and the message."""
    taken: List[bytes] = []

    def take(_number: int, payload: bytes) -> List[bytes]:
        if frames_of(payload) and not taken:
            taken.append(payload)
            machine.put("Boot0002", option("debian"))
        return [payload]

    machine.came_up_by(1)
    courier_of(sender).requests = take
    add(sender.ledger, goal("try", "new"))
    assert go(sender) == "waiting: waits for a start by 0003"
    assert machine.entries() == {**OLD, 2: option("debian"), 3: INACTIVE}
    machine.restart()
    assert go(sender) == KEPT
    assert machine.entries() == {**OLD, 2: option("debian"), 3: NEW}
    assert machine.order() == [3, 1, 0]


def test_a_number_that_another_tool_takes_after_the_start(tried: Sender, machine: Folder) -> None:
    """Between the look at the machine that came up by the entry and the message that keeps it."""

    def take(_number: int, payload: bytes) -> List[bytes]:
        if frames_of(payload):
            machine.put("Boot0002", option("debian"))
        return [payload]

    machine.restart()
    courier_of(tried).requests = take
    assert go(tried) == "trouble: goal 1: entry 0002 was changed before it was kept"
    assert machine.entries() == {**OLD, 2: option("debian")} and machine.order() == [1, 0, 2]


def test_an_order_that_changes_before_the_message_comes(tried: Sender, machine: Folder) -> None:
    """An entry that no order names any more isn't made the next one alone."""

    def change(_number: int, payload: bytes) -> List[bytes]:
        if frames_of(payload) and machine.order() == [1, 0, 2] and not changed:
            changed.append(payload)
            machine.put("BootOrder", b"\1\0\0\0")
        return [payload]

    changed: List[bytes] = []
    machine.restart(2)
    assert go(tried).startswith("trouble: goal 1: it came up by 0001")
    courier_of(tried).requests = change
    assert resend(tried) == WAITS
    assert changed and is_untried(machine) and machine.get("BootNext") == b"\2\0"


def test_two_senders_try_it_once(tried: Sender, machine: Folder) -> None:
    other = Sender(Ledger(tried.ledger.path), tried.courier, "other", 0.01, 0.05)
    assert go(other) == WAITS and len(frames(tried)) == 1
    machine.restart()
    assert go(other) == KEPT and is_kept(machine)
    add(tried.ledger, goal("first", "new"))
    assert go(tried) == KEPT and len(frames(tried)) == 2


def test_what_is_cancelled_is_not_waited_for(tried: Sender, machine: Folder) -> None:
    with tried.ledger.transaction():
        assert tried.ledger.cancel(1, None) == 1
    assert stands(tried.ledger, "m1") == KEPT and tried.ledger.is_done()
    machine.restart()
    assert tried.run(True, 20, lambda: False) and is_untried(machine)


# Journals, ledgers and machines that come back, or are others


def test_a_machine_that_was_installed_anew(tried: Sender, machine: Folder) -> None:
    for entry in machine.entries():
        machine.take_out(f"Boot{entry:04X}")
    machine.put("Boot0000", option("debian"))
    machine.put("BootOrder", b"\0\0")
    machine.take_out("BootNext")
    (machine.state / "journal").unlink()
    machine.restart()
    assert go(tried).startswith("trouble: another journal: ")
    adopt(tried)
    assert go(tried) == "trouble: goal 1: entry 0002 was removed before it was kept"
    assert machine.entries() == {0: option("debian")}
    assert resend(tried) == "waiting: waits for a start by 0001"
    machine.restart()
    assert go(tried) == KEPT
    assert machine.entries() == {0: option("debian"), 1: NEW} and machine.order() == [1, 0]


@pytest.mark.parametrize("is_started", [False, True])
def test_a_trial_outlives_an_adoption(tried: Sender, machine: Folder, is_started: bool) -> None:
    """A journal is lost, and the machine is still to be started, or was: BootNext isn't set again."""
    if is_started:
        machine.restart()
    (machine.state / "journal").unlink()
    assert go(tried).startswith("trouble: another journal: ")
    assert "it may have been done" not in adopt(tried)
    if not is_started:
        assert go(tried) == WAITS and len(frames(tried)) == 1
        machine.restart()
    assert go(tried) == KEPT and is_kept(machine)


def test_a_trial_that_is_not_known_to_have_begun(sender: Sender, machine: Folder) -> None:
    """The request was applied, and its reply and the journal are lost."""

    def lose(_number: int, payload: bytes) -> List[bytes]:
        if not json.loads(payload)["replies"]:
            return [payload]
        (machine.state / "journal").unlink()
        return []

    machine.came_up_by(1)
    courier_of(sender).replies = lose
    add(sender.ledger, goal("try", "new"))
    assert go(sender).startswith("trouble: another journal: ")
    told = adopt(sender, code=3)
    assert "job 1: try new: 0 of 1 known to be done, 1 sent without an answer" in told
    courier_of(sender).replies = lambda _number, payload: [payload]
    adopt(sender, "--again", 1)
    assert go(sender) == WAITS and is_untried(machine)
    machine.restart()
    assert go(sender) == KEPT and is_kept(machine)


@pytest.mark.parametrize("word", ["--done", "--again"])
def test_a_ledger_from_before_the_trial(
    sender: Sender, machine: Folder, tmp_path: Path, word: str
) -> None:
    """The entry was added and kept, of which the ledger knows nothing."""
    machine.came_up_by(1)
    add(sender.ledger, goal("try", "new"))
    sender.ledger.back_up(tmp_path / "copy")
    assert go(sender) == WAITS
    machine.restart()
    assert go(sender) == KEPT
    restored = Sender(Ledger(tmp_path / "copy"), Hand({"m1": machine}), "sender", 0.01, 0.05)
    assert "an older copy of the ledger came back" in go(restored)
    assert "job 1: try new: 0 of 1 known to be done, 0 sent" in adopt(restored, code=3)
    adopt(restored, word, 1)
    if word == "--done":
        assert go_if_any(restored) == KEPT and frames(restored) == []
    else:
        assert go(restored) == WAITS
        machine.restart()
        assert go(restored) == KEPT
    assert is_kept(machine)


def go_if_any(sender: Sender) -> str:
    """How the machine stands after all that is left to be done, which may be nothing."""
    assert sender.run(True, 60, lambda: False)
    return stands(sender.ledger, "m1")


@pytest.mark.parametrize("broken", [[], [2]])
def test_a_ledger_from_amid_the_trial(
    tried: Sender, machine: Folder, tmp_path: Path, broken: List[int]
) -> None:
    """The machine was started since, and the entry kept or not, of which the ledger knows nothing."""
    copy = tmp_path / "copy"
    tried.ledger.back_up(copy)
    machine.restart(*broken)
    go(tried)
    restored = Sender(Ledger(copy), Hand({"m1": machine}), "sender", 0.01, 0.05)
    if broken:
        assert go(restored) == "trouble: goal 1: it came up by 0001, not by 0002"
        assert is_untried(machine)
        return
    assert "an older copy of the ledger came back" in go(restored)
    assert "it may have been done" not in adopt(restored)
    assert go(restored) == KEPT and is_kept(machine) and frames(restored) == []


def test_an_older_copy_of_the_machine(tried: Sender, machine: Folder, tmp_path: Path) -> None:
    """Its variables and its journal's folder, as of before the trial: a clone, or a snapshot of a virtual machine."""
    copy = tmp_path / "clone"
    clone = Folder(copy, dict(OLD), [1, 0])
    clone.came_up_by(1)
    sent = [it for _, it in courier_of(tried).sent]
    for payload in sent * 2:
        answer(clone, payload)
    assert clone.entries() == OLD and clone.get("BootNext") is None
    shutil.rmtree(clone.state)
    shutil.copytree(machine.state, clone.state)
    for payload in sent * 2:
        told = json.loads(answer(clone, payload))
        assert "it is the journal of machine" in told["refused"]["words"]
    assert clone.entries() == OLD and clone.get("BootNext") is None


def test_a_snapshot_from_before_the_trial(sender: Sender, machine: Folder) -> None:
    machine.came_up_by(1)
    add(sender.ledger, goal("first", "b"), goal("try", "new"))
    assert json.loads(answer(machine, b""))["next"] == 0
    saved = (machine.state / "journal").read_bytes()
    assert go(sender) == WAITS
    for name in ("Boot0002", "BootNext"):
        machine.take_out(name)
    machine.put("BootOrder", b"\1\0\0\0")
    (machine.state / "journal").write_bytes(saved)
    machine.start = "start 9"
    assert "an older copy of its journal's folder came back" in go(sender)
    adopt(sender)
    assert go(sender) == "trouble: goal 2: entry 0002 was removed before it was kept"
    assert resend(sender) == WAITS
    machine.restart()
    assert go(sender) == KEPT and is_kept(machine)


def test_a_ledger_of_before_there_were_trials(
    tried: Sender, machine: Folder, tmp_path: Path
) -> None:
    """It is made one of this version, unless a sender is at work that would take a trial for another goal."""
    path = tmp_path / "older"
    tried.ledger.back_up(path)
    older = Ledger(path)
    for column in ("data", "start"):
        older.db.execute(f"ALTER TABLE request DROP COLUMN {column}")
    older.db.execute("UPDATE setting SET value = '2' WHERE name = 'version'")
    older.db.close()
    (tmp_path / "older.sender.lock").touch()
    with open(tmp_path / "older.sender.lock", encoding="utf-8") as lock:
        fcntl.flock(lock, fcntl.LOCK_EX)
        with pytest.raises(LedgerError, match="a sender of an earlier version is at work"):
            Ledger(path)
    upgraded = Ledger(path)
    assert upgraded.setting("version") == "3"
    assert upgraded.one("SELECT COUNT(*) FROM request WHERE start IS NULL") == (2,)
    assert Ledger(path).has_machine("m1")


# Waves, and how it stands


def fleet_of(ledger: Ledger, tmp_path: Path, count: int) -> Sender:
    folders = {
        f"m{number}": Folder(tmp_path / f"m{number}", dict(OLD), [1, 0])
        for number in range(1, count + 1)
    }
    with ledger.transaction():
        for name, folder in folders.items():
            ledger.add_machine(name)
            folder.came_up_by(1)
    return Sender(ledger, Hand(folders), "sender", 0.01, 0.05)


def test_a_wave_ends_when_its_machines_came_up(ledger: Ledger, tmp_path: Path) -> None:
    sender = fleet_of(ledger, tmp_path, 4)
    folders = courier_of(sender).machines
    add(ledger, goal("try", "new"), to=list(folders))
    with ledger.transaction():
        ledger.set_waves(Waves(("1", "100%"), 2))
    go(sender)
    wave = dict(ledger.db.execute("SELECT name, wave FROM machine"))
    (first,) = [name for name in folders if wave[name] == 0]
    for name, folder in folders.items():
        assert (2 in folder.entries()) == (name == first)
    assert [it[1:] for it in status.read_status(ledger).waves] == [
        ("begun", 0, 1, 0),
        ("waiting", 0, 3, 0),
    ]
    go(sender)
    folders[first].restart()
    go(sender)
    go(sender)
    assert [it[1:] for it in status.read_status(ledger).waves] == [
        ("done", 1, 0, 0),
        ("begun", 0, 3, 0),
    ]
    others = [name for name in folders if name != first]
    assert all(2 in folders[name].entries() for name in others)
    for name in others[:2]:
        folders[name].restart(2)
    go(sender)
    assert ledger.is_stopped()
    folders[others[2]].restart()
    assert not sender.run(True, 60, lambda: False)
    assert folders[others[2]].order() == [1, 0, 2]
    assert status.read_status(ledger).waves[1][1:] == ("stopped", 0, 1, 2)


def test_how_it_is_shown(tried: Sender, tmp_path: Path) -> None:
    ledger = tried.ledger
    found = status.read_status(ledger)
    table = "\n".join(status.as_table(found, 120))
    assert "2 machines, 0 in trouble, 1 waiting for a start; goals: 1 open" in table
    assert "0/1  try new" in table
    assert "m1       waiting    0/1     1" in table and "waits for a start by 0002" in table
    held = json.loads(status.as_json(found))["machines"][0]
    assert (held["name"], held["state"], held["job"]) == ("m1", "waiting", 1)
    assert held["why"] == "waits for a start by 0002"
    page = as_page(found)
    assert '<td class="waiting">waiting</td>' in page and "<b>1</b> waiting for a start" in page
    assert 'bootfleet_machines{state="waiting"} 1\n' in status.as_metrics(found)


def test_words_of_a_trial(tmp_path: Path) -> None:
    path = tmp_path / "ledger"
    bootfleet("init", path, "--broker", "localhost:1", "--certs", tmp_path / "certs")
    bootfleet("--ledger", path, "enroll", "m1")
    (tmp_path / "option").write_bytes(INACTIVE)

    def call(*words: object, code: int = 0) -> str:
        return bootfleet("--ledger", path, "try", *words, "--all", status=code)

    assert call("--option", tmp_path / "option") == "job 1: try new, of 1 machines\n"
    assert call("--description", "new", "--path", PATH) == "job 2: try new, of 1 machines\n"
    goals = Ledger(path).db.execute("SELECT DISTINCT goal FROM job").fetchall()
    assert len(goals) == 1
    for words in (["--description", "new"], ["--path", PATH]):
        assert "--option, or --description and --path, say all of it" in call(*words, code=3)
    assert "which entry?" in call(code=3)


# What it takes for a step


def test_no_number_is_free(sender: Sender, machine: Folder) -> None:
    courier = courier_of(sender)

    def full(_number: int, payload: bytes) -> List[bytes]:
        held: Dict[str, Any] = json.loads(payload)
        held["show"]["order"] = [f"{number:04X}" for number in range(1 << 16)]
        return [json.dumps(held).encode()]

    courier.replies = full
    add(sender.ledger, goal("try", "new"))
    assert go(sender) == "trouble: goal 1: no number of an entry is free"


def test_a_request_of_another_sender_between(tried: Sender, machine: Folder) -> None:
    """It is told, and the trial goes on after somebody has looked at it."""
    machine.restart()
    update(machine, bootkeep.frame_make(2, bootkeep.Request.FIRST, entry=0))
    assert "or another one sends to it" in go(tried)
    adopt(tried)
    assert go(tried) == KEPT
    assert machine.entries() == {**OLD, 2: NEW} and machine.order() == [2, 0, 1]
