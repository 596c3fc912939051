"""Waves: which machine is gone after when, when nothing goes on, and what is told of that."""

from __future__ import annotations

import json
import shutil
import subprocess
from pathlib import Path
from typing import Dict, List, Optional

import pytest
from conftest import Folder, Hand, bootfleet, frames_of, goal, option

from sender import status
from sender.ledger import Ledger
from sender.page import as_page
from sender.run import Sender
from sender.waves import Waves, draw, read_waves

NAMES = [f"m{number}" for number in range(1, 9)]


@pytest.fixture
def fleet(ledger: Ledger, tmp_path: Path) -> Sender:
    """A sender over eight machines, each with the entries `a` and `b`."""
    folders = {
        name: Folder(tmp_path / name, {0: option("a"), 1: option("b")}, [1, 0]) for name in NAMES
    }
    with ledger.transaction():
        for name in NAMES:
            ledger.add_machine(name)
    return Sender(ledger, Hand(folders), "sender", 0.01, 0.05)


def begin(sender: Sender, sizes: str, stop_at: Optional[int], label: str = "a") -> Dict[str, int]:
    """Makes a job of all machines, and draws the waves that it goes by."""
    ledger = sender.ledger
    with ledger.transaction():
        ledger.add_job(goal("first", label), NAMES)
        ledger.set_waves(read_waves(sizes, stop_at))
    rows = ledger.db.execute("SELECT name, wave FROM machine")
    return {name: int(wave) for name, wave in rows}


def sent(sender: Sender) -> List[str]:
    """The machines that were sent requests, in the order of the first ones."""
    courier = sender.courier
    assert isinstance(courier, Hand)
    return list(dict.fromkeys(name for name, payload in courier.sent if frames_of(payload)))


@pytest.mark.parametrize(
    "count, sizes, of",
    [
        (8, "1,50%,100%", [1, 3, 4]),
        (8, "100%", [8]),
        (3, "5,100%", [3, 0]),
        (100, "1,5%,100%", [1, 4, 95]),
        (100, "10,5%,100%", [10, 0, 90]),
        (1, "5%,100%", [1, 0]),
        (0, "1,100%", [0, 0]),
    ],
)
def test_how_many_are_in_a_wave(count: int, sizes: str, of: List[int]) -> None:
    waves = read_waves(sizes, None)
    drawn = draw((f"m{number}" for number in range(count)), waves, "seed")
    assert [list(drawn.values()).count(wave) for wave in range(len(of))] == of
    assert len(drawn) == count


def test_the_seed_decides() -> None:
    waves = read_waves("10%,100%", None)
    names = [f"m{number}" for number in range(100)]
    first = draw(names, waves, "one")
    assert first == draw(reversed(names), waves, "one")
    assert first != draw(names, waves, "two")


@pytest.mark.parametrize(
    "text, stop_at",
    [("", None), ("1", None), ("0,100%", None), ("101%,100%", None), ("1,,100%", None),
     ("-1,100%", None), ("x,100%", None), ("1, 100%", None), ("100%", 0), ("100%", -2)],
)  # fmt: skip
def test_waves_that_are_none(text: str, stop_at: Optional[int]) -> None:
    with pytest.raises(ValueError, match="wave|nothing"):
        read_waves(text, stop_at)


def test_a_wave_begins_when_the_one_before_is_done(fleet: Sender) -> None:
    drawn = begin(fleet, "1,50%,100%", None)
    assert fleet.run(True, 120, lambda: False) and fleet.ledger.all_reached()
    waves = [drawn[name] for name in sent(fleet)]
    assert waves == sorted(waves) and waves.count(0) == 1 and waves.count(1) == 3


def test_too_many_troubles_stop_the_rest(fleet: Sender, capsys: pytest.CaptureFixture[str]) -> None:
    drawn = begin(fleet, "2,100%", 2, "=missing")
    assert not fleet.run(True, 120, lambda: False)
    ledger = fleet.ledger
    troubled = ledger.db.execute("SELECT name FROM machine WHERE trouble IS NOT NULL").fetchall()
    assert {name for (name,) in troubled} == {name for name in NAMES if drawn[name] == 0}
    assert ledger.one("SELECT COUNT(*) FROM goal WHERE state = 'open'") == (6,)
    assert "2 machines are in trouble: no other one is gone after" in capsys.readouterr().err
    assert ledger.one("SELECT COUNT(*) FROM machine WHERE holder IS NOT NULL") == (0,)
    told = status.read_status(ledger)
    assert told.waves == [(1, "done", 0, 0, 2), (2, "stopped", 0, 6, 0)]
    with ledger.transaction():
        ledger.cancel(1, None)
        assert not ledger.is_stopped() and ledger.is_done()


def test_fewer_troubles_stop_nothing(fleet: Sender) -> None:
    drawn = begin(fleet, "1,100%", 2)
    (first,) = [name for name in NAMES if drawn[name] == 0]
    courier = fleet.courier
    assert isinstance(courier, Hand)
    for file in courier.machines[first].place.glob("BootOrder-*"):
        file.write_bytes(b"\7\0\0\0\1")
    assert fleet.run(True, 120, lambda: False)
    assert fleet.ledger.one("SELECT COUNT(*) FROM goal WHERE state = 'reached'") == (7,)
    assert [it[1:] for it in status.read_status(fleet.ledger).waves] == [
        ("done", 0, 0, 1),
        ("done", 7, 0, 0),
    ]


def test_the_draw_outlives_the_sender(fleet: Sender) -> None:
    drawn = begin(fleet, "3,100%", None)
    other = Ledger(fleet.ledger.path)
    with other.transaction():
        other.set_waves(Waves(("3", "100%")))
    assert dict(other.db.execute("SELECT name, wave FROM machine")) == drawn
    with other.transaction():
        other.set_waves(None)
    assert other.one("SELECT COUNT(*) FROM machine WHERE wave IS NOT NULL") == (0,)


def test_how_waves_stand(fleet: Sender) -> None:
    begin(fleet, "1,50%,100%", 3)
    ledger = fleet.ledger
    found = status.read_status(ledger)
    assert [(it.wave, it.state, it.open) for it in found.waves] == [
        (1, "begun", 1),
        (2, "waiting", 3),
        (3, "waiting", 4),
    ]
    assert "wave  [....................] 0/3  2: waiting" in status.as_table(found, 80)
    assert "<td>waiting</td>" in as_page(found)
    assert json.loads(status.as_json(found))["waves"][0]["state"] == "begun"


def test_words_of_waves(tmp_path: Path) -> None:
    path = tmp_path / "ledger"
    bootfleet("init", path, "--broker", "localhost:1", "--certs", tmp_path / "certs")
    words = ["--ledger", path, "run", "--until-done", "--limit", "0.2"]
    bootfleet(*words, "--waves", "1,5%,100%", "--stop-at", "2")
    assert Ledger(path).waves() == (("1", "5%", "100%"), 2)
    bootfleet(*words)
    assert Ledger(path).waves() is not None
    bootfleet(*words, "--waves", "100%")
    assert Ledger(path).waves() is None
    assert "--stop-at goes with --waves" in bootfleet(*words, "--stop-at", "2", status=3)
    assert "the last wave is 100%" in bootfleet(*words, "--waves", "5%", status=3)


def metrics(fleet: Sender, tmp_path: Path) -> str:
    begin(fleet, "1,100%", None)
    with fleet.ledger.transaction():
        fleet.ledger.stop("m2", 'why "not"', None)
    made = tmp_path / "bootfleet.prom"
    bootfleet("--ledger", fleet.ledger.path, "status", "--metrics", made)
    assert made.stat().st_mode & 0o777 == 0o644
    return made.read_text()


def test_what_is_measured(fleet: Sender, tmp_path: Path) -> None:
    text = metrics(fleet, tmp_path)
    assert 'bootfleet_machines{state="trouble"} 1\n' in text
    assert 'bootfleet_machines{state="open"} 7\n' in text
    assert 'bootfleet_goals{job="1",state="open"} 8\n' in text
    assert 'bootfleet_wave_machines{wave="1",state="open"} ' in text
    assert text.count("# TYPE") == text.count("# HELP") == 4


@pytest.mark.skipif(shutil.which("promtool") is None, reason="promtool isn't there")
def test_prometheus_takes_what_is_measured(fleet: Sender, tmp_path: Path) -> None:
    run = subprocess.run(
        ["promtool", "check", "metrics"],
        input=metrics(fleet, tmp_path),
        capture_output=True,
        text=True,
        check=False,
    )
    assert (run.returncode, run.stdout, run.stderr) == (0, "", "")
