"""What the agent does with a message: over a program that stands for bootvars, and over bootvars."""

from __future__ import annotations

import fcntl
import json
import logging
import os
import subprocess
import threading
from pathlib import Path
from typing import Any, Dict, List, Optional

import bootkeep
import pytest
from conftest import FLEET, Folder, agent, option, update

from sender.answers import digest, read_answer

STANDING_IN = """#!/bin/sh
echo "$@" >>"{0}/words"
cat >"{0}/stdin"
[ "$(wc -l <"{0}/words")" -gt {1} ] || exit 7
{2}
"""


def stand_in(folder: Path, monkeypatch: pytest.MonkeyPatch, busy: int, ending: str) -> None:
    """Lets the agent call a program that is busy so many times."""
    program = folder / "bootvars"
    program.write_text(STANDING_IN.format(folder, busy, ending))
    program.chmod(0o755)
    monkeypatch.setenv("BOOTVARS", str(program))


def updated(payload: bytes, state: object = "S", place: object = "P") -> Dict[str, Any]:
    held: Dict[str, Any] = json.loads(agent.answer(payload, str(state), str(place)))
    return held


JOURNAL = "0123456789abcdef0123456789abcdef"
GUARD = f"bootfleet 2 journal={JOURNAL} next=7"


def test_frames_are_handed_on_with_what_is_expected(
    tmp_path: Path, monkeypatch: pytest.MonkeyPatch
) -> None:
    stand_in(tmp_path, monkeypatch, 0, 'echo "{\\"next\\":1}"; exit 6')
    more = f"0003={'0a' * 32} 00FF=none order=0003,0001"
    payload = f"{GUARD} {more}\n".encode() + b"BQ\n\xff"
    assert updated(payload) == {"to": digest(payload), "status": 6, "complete": True, "next": 1}
    words = f"{GUARD[12:]} {more}".replace(" ", " --expect ")
    assert (tmp_path / "words").read_text() == (
        f"update --stream --look --expect {words} --state S P -\n"
    )
    assert (tmp_path / "stdin").read_bytes() == b"BQ\n\xff"


@pytest.mark.parametrize("payload", [b"", b"bootfleet 2\n", b"bootfleet 2 look=0123456789abcdef\n"])
def test_what_has_no_frame_asks_for_a_look(
    tmp_path: Path, monkeypatch: pytest.MonkeyPatch, payload: bytes
) -> None:
    stand_in(tmp_path, monkeypatch, 0, 'echo "{}"')
    assert updated(payload) == {"to": digest(payload), "status": 0, "complete": True}
    assert (tmp_path / "words").read_text() == "update --stream --look --state S P -\n"
    assert (tmp_path / "stdin").read_bytes() == b""


@pytest.mark.parametrize(
    "payload",
    [
        b"BQ\1\3\0\0\0\0\2\0\0\0\3\0",
        b"\n",
        b"3f",
        b"bootfleet 1\nBQ",
        b"bootfleet 2",
        b"bootfleet 2\nBQ",
        b"bootfleet 2 look=0123456789abcdef\nBQ",
        b"bootfleet 2 next=7\nBQ",
        f"bootfleet 2 journal={JOURNAL}\nBQ".encode(),
        f"{GUARD} \nBQ".encode(),
        f"{GUARD}  next=7\nBQ".encode(),
        f"{GUARD} --settle\nBQ".encode(),
        f"{GUARD} next=-7\nBQ".encode(),
        f"{GUARD} 0003={'0A' * 32}\nBQ".encode(),
        f"{GUARD} 003=none\nBQ".encode(),
        f"{GUARD} 00ff=none\nBQ".encode(),
        f"{GUARD} order=\nBQ".encode(),
        f"{GUARD} order=0001,\nBQ".encode(),
        f"{GUARD}\0\nBQ".encode(),
        f"{GUARD} {'0001=none ' * 14_000}0001=none\nBQ".encode(),
    ],
    ids=lambda it: str(it[:60], "latin-1"),
)
def test_no_frame_is_applied_unguarded(
    tmp_path: Path, monkeypatch: pytest.MonkeyPatch, payload: bytes
) -> None:
    stand_in(tmp_path, monkeypatch, 0, 'echo "{}"')
    held = updated(payload)
    assert (held["to"], held["status"]) == (digest(payload), 2)
    assert "a message begins with a line" in held["error"] or "are expected" in held["error"]
    assert not (tmp_path / "words").exists()
    refusal = read_answer(json.dumps(held).encode()).refusal
    assert refusal is not None and refusal.words.startswith("status 2: ")


def test_it_waits_while_another_update_is_at_work(
    tmp_path: Path, monkeypatch: pytest.MonkeyPatch
) -> None:
    stand_in(tmp_path, monkeypatch, 3, 'echo "{}"')
    assert updated(b"") == {"to": digest(b""), "status": 0, "complete": True}
    assert len((tmp_path / "words").read_text().splitlines()) == 4


def test_a_lock_that_is_held_is_told(machine: Folder, monkeypatch: pytest.MonkeyPatch) -> None:
    """Somebody holds it for long: the sender is told to wait, and nothing is done."""
    monkeypatch.setattr(agent, "MOST_BUSY", 0.3)
    journal = updated(b"", machine.state, machine.place)["journal"]
    frame = bootkeep.frame_make(0, bootkeep.Request.FIRST, entry=0)
    payload = f"bootfleet 2 journal={journal} next=0\n".encode() + frame
    folder = os.open(machine.state, os.O_RDONLY)
    try:
        fcntl.flock(folder, fcntl.LOCK_EX)
        held = updated(payload, machine.state, machine.place)
    finally:
        os.close(folder)
    assert (held["status"], held["refused"]["do"]) == (7, "wait")
    assert machine.order() == [1, 0]
    assert updated(payload, machine.state, machine.place)["status"] == 0
    assert machine.order() == [0, 1]


def test_what_says_nothing_is_an_error(tmp_path: Path, monkeypatch: pytest.MonkeyPatch) -> None:
    stand_in(tmp_path, monkeypatch, 0, "echo why >&2; exit 4")
    held = {"to": digest(b""), "status": 4, "complete": True, "error": "why\n"}
    assert updated(b"") == held


def test_a_program_that_is_not_there_is_an_error(
    tmp_path: Path, monkeypatch: pytest.MonkeyPatch
) -> None:
    """The agent goes on, as while a package is upgraded, and the sender is told."""
    monkeypatch.setenv("BOOTVARS", str(tmp_path / "bootvars"))
    held = updated(b"")
    assert (held["to"], held["status"]) == (digest(b""), 127)
    refusal = read_answer(json.dumps(held).encode()).refusal
    assert refusal is not None and refusal.remedy == "send again"
    assert refusal.words.startswith("status 127: bootvars can't be run: ")
    stand_in(tmp_path, monkeypatch, 0, 'echo "{}"')
    assert updated(b"") == {"to": digest(b""), "status": 0, "complete": True}


@pytest.mark.parametrize(
    "said",
    [
        '{"show":"\\u12 is no escape"}',
        "{",
        "[]",
        "7",
        "null",
        '{"a":' * 100_000,
    ],
    ids=lambda said: str(said)[:20],
)
def test_what_is_no_object_is_an_error(
    tmp_path: Path, monkeypatch: pytest.MonkeyPatch, said: str
) -> None:
    """One entry of the machine may lead to it: then somebody has to be told, and the agent goes on."""
    (tmp_path / "said").write_text(said)
    stand_in(tmp_path, monkeypatch, 0, f'cat "{tmp_path}/said"; echo why >&2; exit 6')
    held = updated(b"")
    assert (held["to"], held["status"]) == (digest(b""), 6)
    assert held["error"].startswith("bootvars says what is no object of JSON: ")
    assert held["error"].endswith("\nwhy\n")
    refusal = read_answer(json.dumps(held).encode()).refusal
    assert refusal is not None and refusal.words.startswith("status 6: bootvars says what is no")


def test_a_reply_that_no_broker_takes_is_an_error(
    tmp_path: Path, monkeypatch: pytest.MonkeyPatch
) -> None:
    (tmp_path / "said").write_text(json.dumps({"show": "x" * (1 << 20)}))
    stand_in(tmp_path, monkeypatch, 0, f'cat "{tmp_path}/said"')
    held = updated(b"")
    assert (held["status"], "show" in held) == (0, False)
    assert held["error"].startswith("the reply has 1048") and held["error"].endswith(" too many")


def test_whether_a_boot_is_complete_is_asked_until_it_is(
    tmp_path: Path, monkeypatch: pytest.MonkeyPatch
) -> None:
    stand_in(tmp_path, monkeypatch, 0, 'echo "{}"')
    monkeypatch.setattr(agent, "completed", threading.Event())
    monkeypatch.setenv("BOOTFLEET_COMPLETE", f"test -e '{tmp_path}/the system is up'")
    assert updated(b"")["complete"] is False
    (tmp_path / "the system is up").touch()
    assert updated(b"")["complete"] is True
    monkeypatch.setenv("BOOTFLEET_COMPLETE", "false")
    assert updated(b"")["complete"] is True


@pytest.mark.parametrize(
    "command, told", [("/nonexistent/systemctl is-active", None), ("sleep 60", False)]
)
def test_who_does_not_say_whether_a_boot_is_complete(
    monkeypatch: pytest.MonkeyPatch, command: str, told: Optional[bool]
) -> None:
    monkeypatch.setattr(agent, "completed", threading.Event())
    monkeypatch.setattr(agent, "MOST_ASKED", 0.2)
    monkeypatch.setenv("BOOTFLEET_COMPLETE", command)
    assert agent.is_complete() is told


class Broker:
    """What stands for a client of paho."""

    def __init__(self) -> None:
        self.subscribed: List[str] = []

    def subscribe(self, topic: str) -> None:
        self.subscribed.append(topic)


def test_what_is_told_of_a_connection(
    monkeypatch: pytest.MonkeyPatch, caplog: pytest.LogCaptureFixture
) -> None:
    monkeypatch.setenv("BOOTFLEET_PAUSE", "0")
    caplog.set_level(logging.INFO)
    broker = Broker()
    agent.connected(broker, "m1", {}, 5)
    assert broker.subscribed == []
    agent.connected(broker, "m1", {}, 0)
    assert broker.subscribed == ["bootkeep/m1/request"]
    assert agent.waiting() == [agent.LOOK]
    agent.unreachable(broker, "m1")
    agent.disconnected(broker, "m1", 7)
    assert [(it.levelname, it.getMessage()[:34]) for it in caplog.records] == [
        ("WARNING", "the broker refuses this machine: C"),
        ("INFO", "connected to the broker"),
        ("WARNING", "the broker can't be reached"),
        ("WARNING", "the connection to the broker has e"),
    ]


def test_a_certificate_that_is_not_there(tmp_path: Path) -> None:
    words = [str(FLEET / "bootfleet-agent"), "m1", "localhost:1", str(tmp_path)]
    run = subprocess.run(words, capture_output=True, text=True, check=False)
    assert (run.returncode, run.stdout) == (1, "")
    assert run.stderr.startswith(f"ERROR: no connection to localhost:1 by {tmp_path}: ")
    assert len(run.stderr.splitlines()) == 1


def test_what_is_told_of_frames(
    tmp_path: Path, monkeypatch: pytest.MonkeyPatch, caplog: pytest.LogCaptureFixture
) -> None:
    stand_in(tmp_path, monkeypatch, 0, 'echo "{}"; exit 6')
    caplog.set_level(logging.INFO)
    updated(b"")
    updated(f"{GUARD}\nBQ".encode())
    updated(b"BQ")
    assert [(it.levelname, it.getMessage()[:26]) for it in caplog.records] == [
        ("INFO", "2 bytes of frames: status "),
        ("WARNING", "a message isn't handed on:"),
    ]


def test_equal_messages_that_wait_are_one() -> None:
    for payload in (b"1", b"2", b"1"):
        agent.keep(payload)
    assert agent.waiting() == [b"1", b"2"]
    for number in range(100):
        agent.keep(str(number).encode())
    assert len(agent.waiting()) == 64


def test_an_update_is_made_once(machine: Folder) -> None:
    frame = bootkeep.frame_make(0, bootkeep.Request.ADD_FIRST, option=option("new"))
    journal = updated(b"", machine.state, machine.place)["journal"]
    payload = f"bootfleet 2 journal={journal} next=0\n".encode() + frame
    first = updated(payload, machine.state, machine.place)
    again = updated(payload, machine.state, machine.place)
    assert (first["next"], again["next"]) == (1, 1)
    assert (first["replies"][0]["reply"], again["replies"]) == ("applied", [])
    assert (again["status"], again["unmet"]) == (9, {"expected": "next=0", "found": "next=1"})
    asked = update(machine, frame)
    assert (asked["replies"][0]["reply"], asked["replies"][0]["same"]) == ("repeat", True)
    assert machine.order() == [2, 1, 0]
    assert list(machine.entries().values()).count(option("new")) == 1
