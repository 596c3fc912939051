"""What the ledger keeps: numbers, leases, and what somebody decides."""

from __future__ import annotations

import sqlite3
from pathlib import Path
from typing import List, Optional

import pytest
from bootkeep import Request
from conftest import goal

from sender.ledger import Ledger
from sender.requests import Machine
from sender.steps import Asked
from sender.store import LedgerError

TOLD = {"journal": "other", "next": 7, "entries": [["0000", "a"]], "order": [], "bootnext": None}


def machine(ledger: Ledger) -> Machine:
    return ledger.machine("m1")


def add_job(ledger: Ledger, *names: str) -> int:
    with ledger.transaction():
        return ledger.add_job(goal("first", "a"), names)


def send(ledger: Ledger, job: int, frame: bytes = b"frame") -> int:
    with ledger.transaction():
        held = machine(ledger)
        ledger.add_requests(held, job, [(Asked(Request.FIRST, 1), frame)])
    return held.next


def answer(ledger: Ledger, outcome: str = "Done") -> None:
    """The machine says that it has applied what it was sent."""
    with ledger.transaction():
        held = machine(ledger)
        for request in ledger.unanswered(held, held.next):
            ledger.answer_request(held, request, outcome, None)
        ledger.move_on(held, held.next + 1)


def sent(ledger: Ledger) -> List[bytes]:
    """The frames that the machine is asked now."""
    return [it for (it,) in ledger.db.execute("SELECT frame FROM request WHERE state = 'sent'")]


def state(ledger: Ledger, job: int) -> str:
    return str(ledger.one("SELECT state FROM goal WHERE machine = 'm1' AND job = ?", job)[0])


def trouble(ledger: Ledger, why: str, told: Optional[dict] = None) -> None:  # type: ignore[type-arg]
    with ledger.transaction():
        ledger.stop("m1", why, told)


def test_a_ledger_is_made_once(tmp_path: Path) -> None:
    Ledger.make(tmp_path / "ledger", {})
    with pytest.raises(LedgerError, match="it is there already"):
        Ledger.make(tmp_path / "ledger", {})
    with pytest.raises(LedgerError, match="there is no ledger"):
        Ledger(tmp_path / "other")
    (tmp_path / "text").write_text("no ledger at all, but a text of some length\n" * 100)
    with pytest.raises(LedgerError, match="it is no ledger"):
        Ledger(tmp_path / "text")


def test_a_ledger_of_another_version_is_refused(tmp_path: Path) -> None:
    made = Ledger.make(tmp_path / "ledger", {})
    made.db.execute("UPDATE setting SET value = '9' WHERE name = 'version'")
    with pytest.raises(LedgerError, match="its version is 9"):
        Ledger(tmp_path / "ledger")


def test_what_is_committed_is_on_the_disk(ledger: Ledger) -> None:
    assert ledger.one("PRAGMA journal_mode") == ("wal",)
    assert ledger.one("PRAGMA synchronous") == (2,)


def test_what_fails_is_undone(ledger: Ledger) -> None:
    job = add_job(ledger, "m1")
    with pytest.raises(KeyError), ledger.transaction():
        ledger.add_requests(machine(ledger), job, [(Asked(Request.FIRST, 1), b"")])
        raise KeyError
    assert machine(ledger).next == 0
    assert sent(ledger) == []


def test_of_the_attempts_at_a_number_one_is_asked(ledger: Ledger) -> None:
    """The others may still be under way, and which one was applied isn't known before the machine says it."""
    job = add_job(ledger, "m1")
    for frame in (b"one", b"two", b"three", b"two"):
        assert send(ledger, job, frame) == 0
    assert sent(ledger) == [b"two"]
    assert ledger.count_unanswered("m1") == 3
    with ledger.transaction():
        held = machine(ledger)
        (three,) = ledger.unanswered(held, 0)
        assert three.frame == b"three"
        ledger.pass_request(held, three)
        (two,) = ledger.unanswered(held, 0)
        ledger.answer_request(held, two, "Done", None)
        assert ledger.is_known(held, 0)
        ledger.move_on(held, 1)
    states = ledger.db.execute("SELECT frame, state FROM request ORDER BY attempt").fetchall()
    assert states == [(b"one", "passed"), (b"two", "done"), (b"three", "passed")]
    assert machine(ledger).next == 1


def test_an_attempt_is_stored_once(ledger: Ledger) -> None:
    job = add_job(ledger, "m1")
    send(ledger, job)
    with pytest.raises(sqlite3.IntegrityError), ledger.transaction():
        ledger._insert_requests(machine(ledger), job, 0, [(Asked(Request.FIRST, 1), b"")])
    assert machine(ledger).next == 0


def test_a_lease_keeps_senders_apart(ledger: Ledger) -> None:
    other = Ledger(ledger.path)
    add_job(ledger, "m1", "m2")
    with ledger.transaction():
        assert ledger.hold("one", 1, 100, 110) == ["m1"]
    with other.transaction():
        assert other.hold("two", 9, 101, 111) == ["m2"]
    with ledger.transaction():
        assert ledger.hold("one", 9, 105, 115) == ["m1"]
    with other.transaction():
        assert other.hold("two", 9, 116, 126) == ["m2", "m1"]
    with ledger.transaction():
        assert ledger.hold("one", 9, 117, 127) == []
        ledger.leave_all("two")
        assert ledger.hold("one", 9, 117, 127) == ["m1", "m2"]


def test_only_machines_with_something_to_be_done_are_held(ledger: Ledger) -> None:
    job = add_job(ledger, "m1")
    with ledger.transaction():
        assert ledger.hold("one", 9, 0, 10) == ["m1"]
        ledger.end_goal("m1", job, "reached", 1, None)
        assert ledger.hold("one", 9, 1, 11) == []
        assert ledger.is_done() and ledger.all_reached()


def test_a_request_under_way_is_something_to_be_done(ledger: Ledger) -> None:
    job = add_job(ledger, "m1")
    send(ledger, job)
    with ledger.transaction():
        ledger.end_goal("m1", job, "reached", None, None)
        assert not ledger.is_done()
        ledger.withdraw(machine(ledger))
        assert ledger.is_done()


def test_what_is_cancelled_is_not_sent_any_more(ledger: Ledger) -> None:
    job = add_job(ledger, "m1")
    send(ledger, job)
    with ledger.transaction():
        assert ledger.cancel(job, None) == 1
        assert ledger.is_done() and not ledger.is_asked("m1")
        assert ledger.count_unanswered("m1") == 1


def test_a_silent_machine_is_left_for_a_while(ledger: Ledger) -> None:
    add_job(ledger, "m1")
    with ledger.transaction():
        ledger.hold("one", 9, 0, 10)
        ledger.leave("m1", 50)
        assert ledger.hold("one", 9, 1, 11) == []
        ledger.heard("m1", 2)
        assert ledger.hold("one", 9, 3, 13) == ["m1"]


def test_a_clock_that_is_set_back_prolongs_no_lease(ledger: Ledger) -> None:
    """A lease that was written an hour later by the clock ends within the time of one."""
    add_job(ledger, "m1")
    with ledger.transaction():
        assert ledger.hold("one", 9, 3600, 3615) == ["m1"]
        assert ledger.hold("two", 9, 0, 15) == []
        assert ledger.hold("two", 9, 14, 29) == []
        assert ledger.hold("two", 9, 16, 31) == ["m1"]


def test_a_clock_that_is_set_back_leaves_no_machine(ledger: Ledger) -> None:
    add_job(ledger, "m1")
    with ledger.transaction():
        ledger.leave("m1", 3616)
        assert ledger.hold("one", 9, 3600, 3615) == []
        assert ledger.hold("one", 9, 0, 15) == ["m1"]


def test_a_part_of_a_transaction_is_undone_alone(ledger: Ledger) -> None:
    job = add_job(ledger, "m1")
    with ledger.transaction():
        ledger.note("m1", "stays")
        with pytest.raises(KeyError), ledger.savepoint():
            ledger.add_requests(machine(ledger), job, [(Asked(Request.FIRST, 1), b"")])
            raise KeyError
        with ledger.savepoint():
            ledger.note("m2", "stays")
    assert machine(ledger).next == 0
    assert ledger.db.execute("SELECT note FROM machine").fetchall() == [("stays",), ("stays",)]


def test_trouble_ends_by_a_decision_alone(ledger: Ledger) -> None:
    job = add_job(ledger, "m1")
    send(ledger, job)
    trouble(ledger, "why", TOLD)
    with ledger.transaction():
        assert ledger.hold("one", 9, 0, 10) == []
        assert ledger.is_done() and not ledger.all_reached()
        ledger.resend("m1")
        assert ledger.hold("one", 9, 0, 10) == ["m1"]
    assert sent(ledger) == [b"frame"]


def test_an_adopted_machine_gets_none_of_the_old_frames(ledger: Ledger) -> None:
    job = add_job(ledger, "m1")
    send(ledger, job)
    trouble(ledger, "why", TOLD)
    with ledger.transaction():
        ledger.adopt("m1", TOLD)
    assert machine(ledger) == ("m1", 1, 7, "other", 1)
    assert sent(ledger) == []
    assert ledger.one("SELECT state FROM request") == ("dropped",)
    held = ledger.open_goal(machine(ledger))
    assert held is not None and held.past.asked == ()
    assert send(ledger, job, b"new") == 7
    assert sent(ledger) == [b"new"]


def test_the_same_number_may_come_again_after_an_adoption(ledger: Ledger) -> None:
    job = add_job(ledger, "m1")
    send(ledger, job)
    with ledger.transaction():
        ledger.stop("m1", "why", None)
        ledger.adopt("m1", {**TOLD, "next": 0})
    assert send(ledger, job, b"new") == 0
    assert sent(ledger) == [b"new"]


def test_a_failed_goal_is_tried_again_from_the_beginning(ledger: Ledger) -> None:
    job = add_job(ledger, "m1")
    send(ledger, job)
    answer(ledger)
    with ledger.transaction():
        ledger.end_goal("m1", job, "failed", None, "why")
        ledger.stop("m1", f"goal {job}: why", None)
        ledger.resend("m1")
    held = ledger.open_goal(machine(ledger))
    assert held is not None and held.past.asked == ()


def test_to_cancel_a_failed_goal_ends_its_trouble_and_no_other(ledger: Ledger) -> None:
    first, second = add_job(ledger, "m1"), add_job(ledger, "m1")
    with ledger.transaction():
        ledger.end_goal("m1", first, "failed", None, "why")
        ledger.stop("m1", f"goal {first}: why", None)
        assert ledger.cancel(second, None) == 1
        assert ledger.trouble("m1") is not None
        assert ledger.cancel(first, ["m2"]) == 0
        assert ledger.cancel(first, ["m1"]) == 1
        assert ledger.trouble("m1") is None
    assert state(ledger, first) == "cancelled"


def test_goals_are_gone_after_in_the_order_of_their_jobs(ledger: Ledger) -> None:
    first, second = add_job(ledger, "m1"), add_job(ledger, "m1")
    held = ledger.open_goal(machine(ledger))
    assert held is not None and held.job == first
    with ledger.transaction():
        ledger.end_goal("m1", first, "reached", 1, None)
    held = ledger.open_goal(machine(ledger))
    assert held is not None and held.job == second


def test_a_forgotten_machine_leaves_nothing(ledger: Ledger) -> None:
    job = add_job(ledger, "m1", "m2")
    send(ledger, job)
    with ledger.transaction():
        ledger.forget("m1")
    assert ledger.machine_names() == ["m2"]
    assert ledger.one("SELECT COUNT(*) FROM request") == (0,)
    assert ledger.one("SELECT COUNT(*) FROM goal") == (1,)
