"""What TLS needs: an authority of the fleet's own, and certificates of the broker, of senders and of machines.

Each has a folder of its own below the folder of certificates, to be copied to where it is used: `ca.pem`, `own.pem` and
`own.key`, unless the key was made elsewhere. The authority's key, `ca.key`, stays where `bootfleet enroll` is called.
The name in a certificate is what the broker takes for the user and for the identity of the client, so it decides which
topics its owner can use. So a name has one key at a time: another role, or a machine that was forgotten and comes again,
doesn't get the key that is there.

What was taken out of use is kept in `.old`, with the list of the certificates that are revoked, of which the broker's
`crl.pem` is made.
"""

from __future__ import annotations

import ipaddress
import os
import re
import secrets
import shutil
import subprocess
import tempfile
import time
from pathlib import Path
from typing import List, Optional

from .brokers import CRL, KINDS, Broker, Mosquitto, broker_of, replace
from .endings import SOON, days_left, read_certificate

BROKER = "broker"
SENDER = "sender"

NAME = re.compile(r"[A-Za-z0-9][A-Za-z0-9._-]{0,62}")
"""A name of a machine: one level of a topic, and a name of a folder."""

DAYS = 3650
"""For how many days a certificate is good."""

BACKDATED = 24 * 3600
"""How many seconds before now a certificate, or a list of revoked ones, begins to be good: whoever reads it may have a clock
that is behind that of this host."""

CURVE = ["-newkey", "ec", "-pkeyopt", "ec_paramgen_curve:P-256", "-nodes"]

OLD = ".old"
"""The folder of what was taken out of use: no name begins with a dot."""

FORGOTTEN = "forgotten"
"""The file in a machine's folder that says that it was forgotten."""

FOR_AUTHORITY = ["basicConstraints=critical,CA:TRUE", "keyUsage=critical,keyCertSign,cRLSign"]

FOR_CLIENT = ["basicConstraints=critical,CA:FALSE", "extendedKeyUsage=clientAuth"]

FOR_SERVER = ["basicConstraints=critical,CA:FALSE", "extendedKeyUsage=serverAuth"]

IDENTIFIERS = ["subjectKeyIdentifier=hash", "authorityKeyIdentifier=keyid"]

ISSUING = """\
[ca]
default_ca = fleet
[fleet]
database = {folder}/issued
new_certs_dir = {folder}
default_md = sha256
rand_serial = yes
unique_subject = no
policy = named
[named]
commonName = supplied
"""
"""What openssl reads to make a certificate."""

REVOKING = """\
[ca]
default_ca = fleet
[fleet]
database = {folder}/.old/revoked
default_md = sha256
default_crl_days = {days}
certificate = {folder}/ca.pem
private_key = {folder}/ca.key
"""
"""What openssl reads to make the list of revoked certificates."""


class CertificateError(Exception):
    """Why there is no certificate."""


def check_name(name: str) -> None:
    """Raises CertificateError if a machine can't have this name."""
    if not NAME.fullmatch(name):
        raise CertificateError(
            f"{name!r} is no name of a machine: 1 to 63 of letters, digits, '.', '_' and '-', first a letter or a digit"
        )


def make_authority(folder: Path) -> None:
    """Makes the authority and its list of revoked certificates, unless the folder has them."""
    if not (folder / "ca.key").exists():
        _make_ca(folder)
    (folder / OLD).mkdir(mode=0o700, exist_ok=True)
    (folder / OLD / "revoked").touch()
    if not (folder / CRL).exists():
        _write_revoked(folder)


def _make_ca(folder: Path) -> None:
    with tempfile.TemporaryDirectory(dir=folder) as new:
        made = Path(new)
        asked = _request(made, made / "ca.key", "bootfleet")
        _sign(made, asked, "bootfleet", FOR_AUTHORITY, 2 * DAYS)
        os.replace(made / "own.pem", folder / "ca.pem")
        os.replace(made / "ca.key", folder / "ca.key")


def make_certificate(folder: Path, name: str, addresses: str = "") -> Path:
    """Makes the folder of somebody with this name, unless there is a good one, and gives its path. A broker has its
    addresses in its certificate."""
    if not _is_good(folder / name):
        own = [*FOR_SERVER, f"subjectAltName={addresses}"] if addresses else FOR_CLIENT
        _make_folder(folder, name, own, None)
    return folder / name


def _make_folder(folder: Path, name: str, extensions: List[str], asked: Optional[Path]) -> None:
    """Makes the folder of somebody with this name: with a certificate for the key of a request, or for a new key, which is
    in the folder then."""
    with tempfile.TemporaryDirectory(dir=folder) as work, tempfile.TemporaryDirectory(
        dir=folder
    ) as new:
        own, made = Path(new), Path(work)
        asked = asked or _request(made, own / "own.key", name)
        _sign(made, asked, name, extensions, DAYS, folder)
        os.replace(made / "own.pem", own / "own.pem")
        shutil.copy(folder / "ca.pem", own / "ca.pem")
        os.chmod(own, 0o755)
        os.rename(own, folder / name)
        own.mkdir()  # For the end of the block, which removes it.


def _request(work: Path, key: Path, name: str) -> Path:
    """Makes a key, and a request for a certificate for it, and gives the path of that."""
    asked = work / "request"
    _openssl(
        ["req", "-new", *CURVE, "-subj", f"/CN={name}", "-keyout", str(key), "-out", str(asked)]
    )
    return asked


def _sign(
    work: Path,
    asked: Path,
    name: str,
    extensions: List[str],
    days: int,
    authority: Optional[Path] = None,
) -> None:
    """Makes `own.pem` in a folder for work, of which nothing is used later: a certificate with this name for the key of a
    request, by the authority in this folder, or by the key itself, `ca.key` in the folder for work. All that is taken of the
    request is the key."""
    Path(work, "configuration").write_text(ISSUING.format(folder=work.resolve()), encoding="utf-8")
    Path(work, "extensions").write_text("\n".join([*extensions, *IDENTIFIERS]), encoding="ascii")
    Path(work, "issued").touch()
    words = ["ca", "-batch", "-notext", "-config", f"{work}/configuration", "-in", str(asked)]
    words += ["-subj", f"/CN={name}", "-startdate", _backdated(), "-days", str(days)]
    words += ["-extfile", f"{work}/extensions", "-out", f"{work}/own.pem"]
    if authority:
        words += ["-cert", str(authority / "ca.pem"), "-keyfile", str(authority / "ca.key")]
    else:
        words += ["-selfsign", "-keyfile", f"{work}/ca.key"]
    _openssl(words)


def _backdated() -> str:
    return time.strftime("%Y%m%d%H%M%SZ", time.gmtime(time.time() - BACKDATED))


def make_broker(folder: Path, host: str, port: int, kind: str = Mosquitto.kind) -> Broker:
    """Makes the certificate and the configuration of a broker of this kind, and of what may be sent by whom."""
    broker = KINDS[kind](folder)
    own = make_certificate(folder, BROKER, _addresses(host))
    try:
        shutil.chown(own / "own.key", broker.user)
    except (LookupError, PermissionError):
        pass  # A broker that isn't started by root reads it as it is.
    broker.write(host, port)
    broker.revoked_changed()
    return broker


def make_sender(folder: Path, name: str) -> None:
    """Lets a sender send, and makes its certificate. One that is there before is somebody else's, as that of a machine
    that was forgotten: whoever has its key could send to all."""
    made, broker = folder / name, broker_of(folder)
    if not broker.is_sender(name):
        if made.exists():
            raise CertificateError(
                f"{made}: it is no sender's, and a machine may have its key: take another name, or `revoke {name}`"
            )
        broker.let_sender(name)
    make_certificate(folder, name)


def make_machine(folder: Path, name: str, broker: str) -> Path:
    """Makes the folder for a machine, which is to be its /etc/bootfleet."""
    made = make_certificate(folder, name)
    _write_agent(made, name, broker)
    return made


def sign_machine(folder: Path, name: str, broker: str, asked: Path) -> Path:
    """Makes the folder for a machine that has made its key itself, by its request for a certificate. All that is taken of
    the request is the key."""
    made = folder / name
    if _is_good(made):
        raise CertificateError(f"{made}: it has a certificate: `revoke {name}` takes that away")
    _make_folder(folder, name, FOR_CLIENT, asked)
    _write_agent(made, name, broker)
    return made


def _write_agent(made: Path, name: str, broker: str) -> None:
    (made / "agent.env").write_text(f"MACHINE={name}\nBROKER={broker}\n", encoding="utf-8")


# What is taken out of use


def _is_good(made: Path) -> bool:
    """Whether there is a certificate in a folder that may be used on. One that ends soon, or whose machine was forgotten,
    is put away, the latter as a revoked one."""
    if not made.exists():
        return False
    if not made.is_dir():
        raise CertificateError(f"{made}: a file of the fleet has this name")
    if (made / FORGOTTEN).exists():
        _revoke(made.parent, made.name)
    elif days_left(made / "own.pem", time.time()) < SOON:
        _put_away(made.parent, made.name)
    return made.exists()


def forget_machine(folder: Path, name: str) -> None:
    """Notes that the machine with this name is no machine any more, so that the next one gets another key."""
    if (folder / name).is_dir():
        (folder / name / FORGOTTEN).touch()


def revoke(folder: Path, name: str) -> None:
    """Takes the rights of a machine or a sender away: no broker that reads `crl.pem` and `acl` anew lets it in."""
    if name == BROKER or not (folder / name / "own.pem").is_file():
        raise CertificateError(f"{name}: no machine and no sender has a certificate by this name")
    make_authority(folder)  # Of an earlier version it has no list of what is revoked.
    broker_of(folder).take_rights(name)
    _revoke(folder, name)


def _revoke(folder: Path, name: str) -> None:
    read = read_certificate(folder / name / "own.pem")
    digits = f"{read.serial:X}"
    fields = [
        "R",
        f"{read.ends:%y%m%d%H%M%SZ}",
        time.strftime("%y%m%d%H%M%SZ", time.gmtime()),
        "0" * (len(digits) % 2) + digits,
        "unknown",
        f"/CN={name}",
    ]
    revoked = folder / OLD / "revoked"
    replace(revoked, revoked.read_text(encoding="ascii") + "\t".join(fields) + "\n")
    _write_revoked(folder)
    _put_away(folder, name)


def _put_away(folder: Path, name: str) -> None:
    """Moves what somebody has out of use."""
    os.rename(folder / name, folder / OLD / f"{name}-{secrets.token_hex(4)}")


def _write_revoked(folder: Path) -> None:
    """Makes the list of revoked certificates that a broker reads."""
    with tempfile.TemporaryDirectory(dir=folder) as new:
        configuration = REVOKING.format(folder=folder.resolve(), days=2 * DAYS)
        Path(new, "configuration").write_text(configuration, encoding="utf-8")
        words = ["ca", "-gencrl", "-config", f"{new}/configuration", "-out", f"{new}/{CRL}"]
        _openssl([*words, "-crl_lastupdate", _backdated()])
        os.replace(f"{new}/{CRL}", folder / CRL)
    broker_of(folder).revoked_changed()


def _addresses(host: str) -> str:
    try:
        ipaddress.ip_address(host)
        return f"IP:{host}"
    except ValueError:
        return f"DNS:{host}"


def _openssl(words: List[str]) -> None:
    """Calls openssl. Raises CertificateError if it can't do what it is to do."""
    try:
        run = subprocess.run(["openssl", *words], capture_output=True, check=False)
    except OSError as error:
        raise CertificateError(f"openssl can't be called: {error}") from error
    if run.returncode:
        said = run.stderr.decode(errors="replace").strip().splitlines()
        raise CertificateError(f"openssl {words[0]}: {said[-1] if said else run.returncode}")
