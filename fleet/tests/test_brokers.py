"""What RabbitMQ reads of a fleet: who may do what, and who is let in. Those nodes themselves are in `bench/fleet-rabbitmq`.
What mosquitto reads is in test_keys.py."""

from __future__ import annotations

import json
import re
import subprocess
from pathlib import Path
from typing import Any, Dict, List

import pytest
from conftest import bootfleet


@pytest.fixture
def fleet(tmp_path: Path) -> Path:
    """A ledger of two machines over RabbitMQ."""
    words = ["--broker", "localhost:1", "--certs", tmp_path / "certs", "--broker-kind", "rabbitmq"]
    bootfleet("init", tmp_path / "ledger", *words)
    bootfleet("--ledger", tmp_path / "ledger", "enroll", "m1", "m-2")
    return tmp_path


def call(fleet: Path, *words: object, status: int = 0) -> str:
    return bootfleet("--ledger", fleet / "ledger", *words, status=status)


def openssl(*words: object) -> str:
    run = subprocess.run(["openssl", *map(str, words)], capture_output=True, text=True, check=True)
    return run.stdout


def definitions(fleet: Path) -> Dict[str, List[Dict[str, Any]]]:
    held: Dict[str, List[Dict[str, Any]]] = json.loads(
        (fleet / "certs/definitions.json").read_text()
    )
    return held


def users(fleet: Path) -> List[str]:
    return [it["name"] for it in definitions(fleet)["users"]]


def may(fleet: Path, name: str, does: str, what: str, part: str = "topic_permissions") -> bool:
    """Whether somebody may, as RabbitMQ goes by it: it seeks the expression in the name."""
    (right,) = [it for it in definitions(fleet)[part] if it["user"] == name]
    return re.search(right[does], what) is not None


TOPICS = ("m1.request", "m1.reply", "m-2.request", "m-2.reply", "*.request", "*.reply", "x")


@pytest.mark.parametrize(
    "name, reads, writes",
    [
        ("m1", ["m1.request"], ["m1.reply"]),
        ("m-2", ["m-2.request"], ["m-2.reply"]),
        ("sender", ["*.reply"], ["m1.request", "m-2.request", "*.request"]),
    ],
)
def test_topics_that_somebody_may_use(
    fleet: Path, name: str, reads: List[str], writes: List[str]
) -> None:
    assert [it for it in TOPICS if may(fleet, name, "read", f"bootkeep.{it}")] == reads
    assert [it for it in TOPICS if may(fleet, name, "write", f"bootkeep.{it}")] == writes
    for does in ("read", "write"):
        for topic in ("#", "*.*.*", "bootkeep.#", "other.m1.request", "bootkeep.m1.request.more"):
            assert not may(fleet, name, does, topic)


def test_queues_that_somebody_may_use(fleet: Path) -> None:
    own, other = "mqtt-subscription-m1qos0", "mqtt-subscription-m1xqos0"
    for does in ("configure", "read", "write"):
        assert may(fleet, "m1", does, own, "permissions")
        assert not may(fleet, "m-2", does, own, "permissions")
        assert not may(fleet, "m1", does, other, "permissions")
        assert may(fleet, "m1", does, "amq.topic", "permissions") == (does != "configure")
        assert not may(fleet, "m1", does, "amq.topicx", "permissions")


def test_nobody_has_a_password(fleet: Path) -> None:
    assert users(fleet) == ["sender", "m1", "m-2"]
    assert {(it["password_hash"], tuple(it["tags"])) for it in definitions(fleet)["users"]} == {
        ("", ())
    }


def test_what_is_told(fleet: Path) -> None:
    told = call(fleet, "enroll", "m3")
    assert f"rabbitmqctl import_definitions {fleet}/certs/definitions.json" in told
    assert "rabbitmqctl import_definitions" in call(fleet, "enroll-sender", "other")
    assert "rabbitmqctl delete_user m3" in call(fleet, "revoke", "m3")


def test_a_name_that_is_enrolled_again_is_there_once(fleet: Path) -> None:
    before = definitions(fleet)
    call(fleet, "enroll", "m-2")
    assert definitions(fleet) == before


def test_a_dot_is_refused(fleet: Path) -> None:
    for command in ("enroll", "enroll-sender"):
        assert "takes a dot for the end" in call(fleet, command, "m3", "a.b", status=3)
    assert users(fleet) == ["sender", "m1", "m-2"]
    assert not (fleet / "certs/m3").exists()


def test_senders_and_machines_are_told_apart(fleet: Path) -> None:
    call(fleet, "enroll-sender", "other")
    assert "this name isn't a machine's" in call(fleet, "enroll", "other", status=3)
    assert "isn't a sender's" in call(fleet, "enroll-sender", "m1", status=3)


def test_who_is_revoked_has_no_rights_and_no_certificate(fleet: Path) -> None:
    own = (fleet / "certs/m1/own.pem").read_bytes()
    call(fleet, "revoke", "m1")
    held = definitions(fleet)
    assert "m1" not in json.dumps(held)
    assert users(fleet) == ["sender", "m-2"]
    (fleet / "own.pem").write_bytes(own)
    hashed, serial = openssl(
        "x509", "-noout", "-issuer_hash", "-serial", "-in", fleet / "own.pem"
    ).split()
    listed = openssl("crl", "-noout", "-text", "-in", fleet / f"certs/crl/{hashed}.r0")
    assert re.search(rf"Serial Number: 0*{serial.partition('=')[2]}\b", listed)


def test_a_configuration_that_somebody_has_changed_stays(fleet: Path) -> None:
    configuration = fleet / "certs/advanced.config"
    assert f'{{dir, "{fleet}/certs/crl"}}' in configuration.read_text()
    configuration.write_text("[].\n")
    words = ["--broker", "localhost:1", "--certs", fleet / "certs", "--broker-kind", "rabbitmq"]
    bootfleet("init", fleet / "second", *words)
    assert configuration.read_text() == "[].\n"
    assert users(fleet) == ["sender", "m1", "m-2"]


def test_a_kind_that_is_not_known(tmp_path: Path) -> None:
    words = ["--broker", "localhost:1", "--certs", tmp_path / "certs", "--broker-kind", "other"]
    assert "invalid choice: 'other'" in bootfleet("init", tmp_path / "ledger", *words, status=2)
