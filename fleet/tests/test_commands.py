"""The words of `bootfleet`: certificates, goals, how it stands, and what is refused."""

from __future__ import annotations

import json
import shutil
import subprocess
from pathlib import Path

import bootkeep
import pytest
from conftest import FLEET, PATH, bootfleet, load_agent, option

from sender import status
from sender.page import as_page
from sender.certificates import CertificateError, check_name
from sender.courier import split_broker
from sender.ledger import Ledger


@pytest.fixture
def fleet(tmp_path: Path) -> Path:
    """A ledger of two machines, made by commands."""
    bootfleet("init", tmp_path / "ledger", "--broker", "localhost:1", "--certs", tmp_path / "certs")
    bootfleet("--ledger", tmp_path / "ledger", "enroll", "m1", "m2")
    return tmp_path


def verify(fleet: Path, name: str, purpose: str) -> bool:
    certs = fleet / "certs"
    words = [
        "openssl",
        "verify",
        "-purpose",
        purpose,
        "-CAfile",
        str(certs / "ca.pem"),
        str(certs / name / "own.pem"),
    ]
    return subprocess.run(words, capture_output=True, check=False).returncode == 0


def test_certificates_are_for_what_they_are_made(fleet: Path) -> None:
    assert verify(fleet, "m1", "sslclient") and not verify(fleet, "m1", "sslserver")
    assert verify(fleet, "sender", "sslclient")
    assert verify(fleet, "broker", "sslserver") and not verify(fleet, "broker", "sslclient")
    assert (fleet / "certs/m1/agent.env").read_text() == "MACHINE=m1\nBROKER=localhost:1\n"
    for key in ("ca.key", "m1/own.key", "sender/own.key"):
        assert (fleet / "certs" / key).stat().st_mode & 0o077 == 0


def test_what_is_there_is_not_made_anew(fleet: Path) -> None:
    before = (fleet / "certs/ca.pem").read_bytes(), (fleet / "certs/m1/own.pem").read_bytes()
    assert "it is there already" in bootfleet(
        "init", fleet / "ledger", "--broker", "h", "--certs", fleet / "certs", status=3
    )
    bootfleet("init", fleet / "second", "--broker", "localhost:1", "--certs", fleet / "certs")
    bootfleet("--ledger", fleet / "second", "enroll", "m1")
    assert before == (
        (fleet / "certs/ca.pem").read_bytes(),
        (fleet / "certs/m1/own.pem").read_bytes(),
    )


@pytest.mark.parametrize("name", ["", "a/b", "+", "#", "a b", ".a", "-a", "ä", "a" * 64, "../x"])
def test_names_that_no_machine_can_have(name: str) -> None:
    with pytest.raises(CertificateError):
        check_name(name)


@pytest.mark.parametrize("name", ["a", "m1", "host.example.org", "A_b-c", "9" * 63])
def test_names_that_a_machine_can_have(name: str) -> None:
    check_name(name)


def test_a_machine_is_no_sender_and_no_broker(fleet: Path) -> None:
    for name in ("sender", "broker"):
        told = bootfleet("--ledger", fleet / "ledger", "enroll", name, status=3)
        assert "this name isn't a machine's" in told
    assert "isn't a sender's" in bootfleet(
        "--ledger", fleet / "ledger", "enroll-sender", "m1", status=3
    )
    bootfleet("--ledger", fleet / "ledger", "enroll-sender", "other", "other")
    assert (fleet / "certs/acl").read_text().count("user other\n") == 1


def test_a_forgotten_machine_becomes_no_sender(fleet: Path) -> None:
    """Whoever has its key could send to all."""
    bootfleet("--ledger", fleet / "ledger", "forget", "--yes", "m1")
    bootfleet("init", fleet / "second", "--broker", "localhost:1", "--certs", fleet / "certs")
    for ledger in (fleet / "ledger", fleet / "second"):
        told = bootfleet("--ledger", ledger, "enroll-sender", "m1", status=3)
        assert f"{fleet}/certs/m1: it is no sender's" in told
    assert "m1" not in (fleet / "certs/acl").read_text()


def test_a_broker_takes_no_large_messages_and_keeps_none(fleet: Path) -> None:
    held = dict(
        line.split(" ", 1)
        for line in (fleet / "certs/mosquitto.conf").read_text().splitlines()
        if line and not line.startswith("#")
    )
    assert held["retain_available"] == "false"
    assert int(held["max_packet_size"]) <= 1 << 20
    assert int(held["max_queued_bytes"]) <= 1 << 26
    agent_most = load_agent().MOST_REPLY
    topic = len("bootkeep//reply") + 63
    assert agent_most + topic + 16 < int(held["max_packet_size"])


@pytest.mark.parametrize("broker", ["", ":1", "h:", "h:x", "h:0", "h:65536"])
def test_brokers_that_are_none(broker: str) -> None:
    if broker == "h:":
        assert split_broker(broker) == ("h", 8883)
        return
    with pytest.raises(ValueError, match="HOST"):
        split_broker(broker)


def call(fleet: Path, *words: object, code: int = 0) -> str:
    return bootfleet("--ledger", fleet / "ledger", *words, status=code)


def test_goals_are_made_of_words(fleet: Path) -> None:
    (fleet / "option").write_bytes(option("a"))
    (fleet / "machines").write_text("m2 # the second\n# m1\nm2\n")
    told = call(fleet, "first", "--description", "new", "--path", PATH, "--all", "--next")
    assert told == "job 1: first new, of 2 machines\njob 2: next new, of 2 machines\n"
    told = call(fleet, "order", fleet / "option", "Windows", "--machines", fleet / "machines")
    assert told == "job 3: order a, Windows, of 1 machines\n"
    held = Ledger(fleet / "ledger").open_goal(Ledger(fleet / "ledger").machine("m1"))
    assert held is not None and held.goal.wanted[0].option == option("new")


@pytest.mark.parametrize(
    "words, why",
    [
        (["first", "--all"], "which entry?"),
        (["first", "--option", "bad", "--all"], "it is no load option"),
        (["first", "--option", "none", "--all"], "No such file"),
        (["first", "--option", "bad", "--path", PATH, "--all"], "says all of an entry"),
        (
            ["first", "--description", "a", "--path", "Nonsense(", "--all"],
            "Nonsense(: it is no path: TEXT_BAD_SEGMENT",
        ),
        (["remove", "--path", "Nonsense(", "--all"], "Nonsense(: it is no path: TEXT_BAD_SEGMENT"),
        (["remove", "--description", "a", "--machines", "unknown"], "not enrolled: m9"),
        (["remove", "--description", "a", "--machines", "empty"], "there is no machine"),
        (["send", "bad", "--all"], "line 1: only `deliver` and a frame"),
        (["send", "cut", "--all"], "offset 14: there is no whole frame: STREAM_REST at 13"),
        (["send", "malformed", "--all"], "request 2 of it is no frame: FRAME_BAD_KIND"),
        (["send", "empty", "--all"], "it has no request"),
        (["adopt", "m1"], "it is in no trouble"),
        (["resend", "m9"], "there is no such machine"),
        (["forget", "m9"], "there is no such machine"),
        (["forget", "m1"], "nobody is there to ask"),
    ],
    ids=lambda it: " ".join(it) if isinstance(it, list) else it,
)
def test_what_is_refused_is_told(
    fleet: Path, monkeypatch: pytest.MonkeyPatch, words: "list[str]", why: str
) -> None:
    frame = bootkeep.frame_make(0, bootkeep.Request.REMOVE, entry=1)
    (fleet / "bad").write_bytes(b"nonsense")
    (fleet / "cut").write_bytes(frame + frame[:-1])
    bad = frame[:3] + b"\x09" + frame[4:]
    (fleet / "malformed").write_text(f"deliver {frame.hex()}\ndeliver {bad.hex()}\n")
    (fleet / "unknown").write_text("m1 m9")
    (fleet / "empty").write_text("\n")
    monkeypatch.chdir(fleet)
    assert why in call(fleet, *words, code=3)
    assert Ledger(fleet / "ledger").one("SELECT COUNT(*) FROM job") == (0,)


def test_a_stream_and_a_script_are_the_same_requests(fleet: Path) -> None:
    frames = [bootkeep.frame_make(9, bootkeep.Request.REMOVE, entry=number) for number in range(3)]
    (fleet / "stream").write_bytes(b"".join(frames))
    (fleet / "script").write_text("".join(f"deliver {frame.hex()}\n" for frame in frames))
    for name in ("stream", "script"):
        assert "send 3 requests" in call(fleet, "send", fleet / name, "--all")
    goals = Ledger(fleet / "ledger").db.execute("SELECT DISTINCT goal FROM job").fetchall()
    assert len(goals) == 1


def test_one_sender_of_a_name_runs(fleet: Path) -> None:
    words = [str(FLEET / "bootfleet"), "--ledger", str(fleet / "ledger"), "run"]
    with subprocess.Popen(words, stderr=subprocess.PIPE, text=True) as running:
        assert running.stderr is not None
        running.stderr.readline()
        try:
            assert "it is running already" in call(fleet, "run", code=3)
            assert (fleet / "ledger.sender.lock").stat().st_mode & 0o777 == 0o600
        finally:
            running.terminate()
        assert running.wait(20) == 0


def test_a_run_ends_at_its_limit_with_what_is_left(fleet: Path) -> None:
    call(fleet, "remove", "--description", "a", "--all")
    call(fleet, "run", "--until-done", "--limit", "1", code=1)
    left = Ledger(fleet / "ledger").one("SELECT COUNT(*) FROM machine WHERE holder IS NOT NULL")
    assert left == (0,)


def test_how_it_stands(fleet: Path) -> None:
    call(fleet, "remove", "--description", "<b>&", "--all")
    ledger = Ledger(fleet / "ledger")
    with ledger.transaction():
        ledger.end_goal("m1", 1, "reached", 3, None)
        ledger.stop("m2", "goal 1: <script>", None)
    held = json.loads(call(fleet, "status", "--json"))
    assert [it["name"] for it in held["machines"]] == ["m2", "m1"]
    assert held["jobs"][0]["counts"] == {"reached": 1, "open": 1, "failed": 0, "cancelled": 0}
    assert (held["machines"][1]["state"], held["machines"][1]["entry"]) == ("quiet", "0003")
    found = status.read_status(ledger)
    table = status.as_table(found, 60)
    assert max(map(len, table)) <= 60
    assert table[0] == "2 machines, 1 in trouble; goals: 1 reached, 1 open"
    assert table[2] == "   1  [##########..........] 1/2  remove <b>&"
    assert status.as_table(found, 60, 7)[-1] == "and 1 more"


def test_the_page_says_the_same(fleet: Path) -> None:
    call(fleet, "remove", "--description", "<b>&", "--all")
    ledger = Ledger(fleet / "ledger")
    with ledger.transaction():
        ledger.stop("m2", "goal 1: <script>", None)
    call(fleet, "status", "--page", fleet / "page.html")
    page = (fleet / "page.html").read_text()
    assert "remove &lt;b&gt;&amp;" in page and "goal 1: &lt;script&gt;" in page
    assert page.count("<script") == 1 and 'http-equiv="refresh"' not in page and "://" not in page
    assert "<p>2 machines; goals: 2 open. As of " in page and "<b>1</b> in trouble" in page
    assert [it.name for it in fleet.glob(".bootfleet-*")] == []
    again = as_page(status.read_status(ledger), 3)
    assert 'content="3"' in again and '<body data-again="3">' in again


@pytest.mark.parametrize(
    "seconds, text",
    [(None, "never"), (0, "0s"), (119, "119s"), (120, "2m"), (7200, "2h"), (172800, "2d")],
)
def test_ages(seconds: int, text: str) -> None:
    assert status.age(seconds) == text


@pytest.mark.skipif(shutil.which("systemd-analyze") is None, reason="systemd-analyze isn't there")
def test_the_unit_is_one(tmp_path: Path) -> None:
    unit = (FLEET / "bootfleet-agent.service").read_text()
    made = tmp_path / "bootfleet-agent.service"
    made.write_text(
        unit.replace("/usr/bin/bootfleet-agent", "/bin/true").replace("Documentation=", "# ")
    )
    run = subprocess.run(
        ["systemd-analyze", "verify", made], capture_output=True, text=True, check=False
    )
    assert (run.returncode, run.stderr) == (0, "")
