"""Who has a key, and for what: names and roles, keys that are revoked, and certificates that end."""

from __future__ import annotations

import calendar
import json
import re
import subprocess
import time
from pathlib import Path

import pytest
from conftest import bootfleet

from sender import certificates, status
from sender.certificates import CertificateError
from sender.endings import days_left, ending_soon, read_certificate
from sender.ledger import Ledger
from sender.page import as_page

KEY = ["-newkey", "ec", "-pkeyopt", "ec_paramgen_curve:P-256", "-nodes", "-subj", "/CN=other"]


@pytest.fixture
def fleet(tmp_path: Path) -> Path:
    """A ledger of two machines, made by commands."""
    bootfleet("init", tmp_path / "ledger", "--broker", "localhost:1", "--certs", tmp_path / "certs")
    call(tmp_path, "enroll", "m1", "m2")
    return tmp_path


def call(fleet: Path, *words: object, code: int = 0) -> str:
    return bootfleet("--ledger", fleet / "ledger", *words, status=code)


def openssl(*words: object) -> str:
    run = subprocess.run(["openssl", *map(str, words)], capture_output=True, text=True, check=True)
    return run.stdout


def is_revoked(fleet: Path, certificate: Path) -> bool:
    """Whether whoever reads the list of revoked certificates refuses one."""
    certs = fleet / "certs"
    words = ["openssl", "verify", "-crl_check", "-CAfile", str(certs / "ca.pem")]
    words += ["-CRLfile", str(certs / "crl.pem"), str(certificate)]
    run = subprocess.run(words, capture_output=True, text=True, check=False)
    assert (run.returncode != 0) == ("certificate revoked" in run.stderr), run.stderr
    return run.returncode != 0


def saved(fleet: Path, name: str) -> Path:
    """A copy of a certificate, as somebody may have one."""
    copy = fleet / f"{name}.pem"
    copy.write_bytes((fleet / "certs" / name / "own.pem").read_bytes())
    return copy


def public_key(certificate: Path) -> str:
    return openssl("x509", "-in", certificate, "-noout", "-pubkey")


def put_in(fleet: Path, name: str, days: int) -> None:
    """Replaces somebody's certificate by one that is good for so many days."""
    certs = fleet / "certs"
    openssl("req", "-new", *KEY, "-keyout", certs / name / "own.key", "-out", fleet / "csr")
    words = ["-CA", certs / "ca.pem", "-CAkey", certs / "ca.key", "-days", days]
    words += ["-out", certs / name / "own.pem", "-set_serial", 0x77]
    openssl("x509", "-req", "-in", fleet / "csr", "-subj", f"/CN={name}", *words)


def test_the_broker_reads_what_is_revoked(fleet: Path) -> None:
    lines = (fleet / "certs/mosquitto.conf").read_text().splitlines()
    assert f"crlfile {fleet}/certs/crl.pem" in lines
    assert not is_revoked(fleet, fleet / "certs/m1/own.pem")


def test_a_revoked_machine_has_no_rights(fleet: Path) -> None:
    first, second = saved(fleet, "m1"), saved(fleet, "m2")
    assert "SIGHUP" in call(fleet, "revoke", "m1")
    assert is_revoked(fleet, first) and not is_revoked(fleet, second)
    assert not (fleet / "certs/m1").exists()
    call(fleet, "revoke", "m2")
    assert is_revoked(fleet, first) and is_revoked(fleet, second)
    call(fleet, "enroll", "m1")
    made = fleet / "certs/m1/own.pem"
    assert not is_revoked(fleet, made) and public_key(made) != public_key(first)


def test_a_revoked_sender_may_send_no_more(fleet: Path) -> None:
    acl = fleet / "certs/acl"
    before = acl.read_text()
    call(fleet, "enroll-sender", "other", "third")
    certificate = saved(fleet, "other")
    call(fleet, "revoke", "other", "third")
    assert acl.read_text().strip() == before.strip()
    assert is_revoked(fleet, certificate)
    call(fleet, "enroll", "other")
    assert public_key(fleet / "certs/other/own.pem") != public_key(certificate)


def test_what_one_user_may_do_is_taken_out_alone(fleet: Path) -> None:
    acl = fleet / "certs/acl"
    call(fleet, "enroll-sender", "a", "b")
    acl.write_text(
        acl.read_text().replace("user b\n", "user a.b\ntopic read x\n\nuser b\ntopic y\n")
    )
    call(fleet, "revoke", "a")
    users = re.findall("^user (.*)$", acl.read_text(), re.MULTILINE)
    assert users == ["sender", "a.b", "b"]
    assert acl.read_text().count("topic write bootkeep/+/request") == 2


def test_what_an_earlier_version_made_is_revoked_too(fleet: Path) -> None:
    certs = fleet / "certs"
    configuration = (certs / "mosquitto.conf").read_text()
    (certs / "mosquitto.conf").write_text(re.sub("crlfile.*\n", "", configuration))
    (certs / "crl.pem").unlink()
    (certs / ".old/revoked").unlink()
    (certs / ".old").rmdir()
    certificate = saved(fleet, "m1")
    assert f"name {certs}/crl.pem in the broker's configuration" in call(fleet, "revoke", "m1")
    assert is_revoked(fleet, certificate)


@pytest.mark.parametrize("name", ["m9", "broker", "ca.pem", "../certs/m1", ".old"])
def test_who_has_no_rights_is_not_revoked(fleet: Path, name: str) -> None:
    told = call(fleet, "revoke", name, code=3)
    assert "has a certificate by this name" in told or "is no name of a machine" in told


def test_a_forgotten_machine_that_comes_again_gets_a_new_key(fleet: Path) -> None:
    first = saved(fleet, "m1")
    call(fleet, "forget", "--yes", "m1")
    assert not is_revoked(fleet, first)
    assert "it is no sender's" in call(fleet, "enroll-sender", "m1", code=3)
    call(fleet, "enroll", "m1")
    assert public_key(fleet / "certs/m1/own.pem") != public_key(first)
    assert is_revoked(fleet, first)


def test_a_name_whose_key_is_there_gets_no_other_role(fleet: Path) -> None:
    call(fleet, "enroll-sender", "other")
    assert "isn't a machine's" in call(fleet, "enroll", "other", code=3)
    bootfleet("init", fleet / "second", "--broker", "localhost:1", "--certs", fleet / "certs")
    for name, word, told in (
        ("other", "enroll", "isn't a machine's"),
        ("m1", "enroll-sender", "it is no sender's"),
    ):
        assert told in bootfleet("--ledger", fleet / "second", word, name, status=3)


@pytest.mark.parametrize("name", ["acl", "ca.pem", "ca.key", "crl.pem", "mosquitto.conf"])
def test_a_file_of_the_fleet_is_no_machine(fleet: Path, name: str) -> None:
    for word in ("enroll", "enroll-sender"):
        told = call(fleet, word, name, code=3)
        assert "a file of the fleet has this name" in told or "it is no sender's" in told


def test_a_key_that_the_machine_made_stays_there(fleet: Path) -> None:
    request = fleet / "m3.csr"
    openssl("req", "-new", *KEY, "-keyout", fleet / "m3.key", "-out", request)
    call(fleet, "enroll", "m3", "--request", request)
    made = fleet / "certs/m3"
    assert sorted(it.name for it in made.iterdir()) == ["agent.env", "ca.pem", "own.pem"]
    assert public_key(made / "own.pem") == openssl("pkey", "-in", fleet / "m3.key", "-pubout")
    said = openssl(
        "x509", "-in", made / "own.pem", "-noout", "-subject", "-ext", "extendedKeyUsage"
    )
    assert "CN = m3" in said and "TLS Web Client Authentication" in said
    assert Ledger(fleet / "ledger").has_machine("m3")
    assert "it has a certificate" in call(fleet, "enroll", "m3", "--request", request, code=3)
    certificate = saved(fleet, "m3")
    call(fleet, "revoke", "m3")
    assert is_revoked(fleet, certificate)


def test_a_request_that_is_none_is_refused(fleet: Path) -> None:
    (fleet / "csr").write_text("nonsense")
    assert "openssl ca" in call(fleet, "enroll", "m3", "--request", fleet / "csr", code=3)
    told = call(fleet, "enroll", "m3", "m4", "--request", fleet / "csr", code=3)
    assert "a request is of one machine" in told
    assert not (fleet / "certs/m3").exists()
    assert not Ledger(fleet / "ledger").has_machine("m3")


def test_certificates_that_end_soon_are_told(fleet: Path) -> None:
    assert json.loads(call(fleet, "status", "--json"))["certificates"] == []
    assert "certificates" not in call(fleet, "status")
    put_in(fleet, "m2", 30)
    put_in(fleet, "sender", 10)
    told = json.loads(call(fleet, "status", "--json"))["certificates"]
    assert [it["name"] for it in told] == ["sender", "m2"]
    assert told[0]["days"] in (9, 10) and told[1]["days"] == 29
    assert "certificates end: sender in 9 days, m2 in 29 days" in call(fleet, "status")
    found = status.read_status(Ledger(fleet / "ledger"))
    assert "certificates end: sender in 9 days" in as_page(found)
    later = ending_soon(fleet / "certs", time.time() + 86_400 * 20)
    assert [(it.name, it.days < 0) for it in later] == [("sender", True), ("m2", False)]


def test_who_comes_again_before_the_end_gets_a_new_certificate(fleet: Path) -> None:
    put_in(fleet, "m1", 20)
    old = saved(fleet, "m1")
    call(fleet, "enroll", "m1", "m2")
    made = fleet / "certs/m1/own.pem"
    assert days_left(made, time.time()) > 3000
    assert public_key(made) != public_key(old) and not is_revoked(fleet, old)


def test_certificates_are_read_as_openssl_reads_them(fleet: Path) -> None:
    for path in [*fleet.glob("certs/*/own.pem"), fleet / "certs/ca.pem"]:
        read = read_certificate(path)
        said = openssl("x509", "-in", path, "-noout", "-serial", "-enddate")
        assert int(re.findall("serial=(.*)", said)[0], 16) == read.serial
        ends = time.strptime(re.findall("notAfter=(.*) GMT", said)[0], "%b %d %H:%M:%S %Y")
        assert ends[:6] == read.ends.timetuple()[:6]
    for text in ("", "nonsense", "-----BEGIN CERTIFICATE-----\nMAAw\n-----END CERTIFICATE-----\n"):
        (fleet / "bad").write_text(text)
        with pytest.raises(ValueError, match="it is no certificate"):
            read_certificate(fleet / "bad")


def test_only_who_is_there_is_revoked(fleet: Path) -> None:
    with pytest.raises(CertificateError):
        certificates.revoke(fleet / "certs", certificates.BROKER)


def test_a_clock_that_is_behind_takes_what_was_just_made(fleet: Path) -> None:
    call(fleet, "enroll-sender", "other")
    call(fleet, "revoke", "m2")
    certs = fleet / "certs"
    begins = [
        openssl("x509", "-in", certs / name, "-noout", "-startdate")
        for name in ("ca.pem", "broker/own.pem", "other/own.pem", "m1/own.pem")
    ]
    begins.append(openssl("crl", "-in", certs / "crl.pem", "-noout", "-lastupdate"))
    for said in begins:
        begun = time.strptime(said.split("=")[1].strip(), "%b %d %H:%M:%S %Y %Z")
        assert time.time() - calendar.timegm(begun) >= 23 * 3600, said
