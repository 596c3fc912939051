"""What a certificate says of itself: its serial number, and when it ends (RFC 5280, 4.1). Read here, since to call
openssl for each of some thousand certificates takes a while."""

from __future__ import annotations

import ssl
from datetime import datetime, timezone
from pathlib import Path
from typing import List, NamedTuple, Optional

SOON = 30
"""How many days before its end a certificate is told of."""

SEQUENCE, INTEGER, UTC_TIME, GENERALIZED_TIME, VERSION = 0x30, 0x02, 0x17, 0x18, 0xA0
"""The tags of what is read."""


class Certificate(NamedTuple):
    """What a certificate says."""

    serial: int
    ends: datetime


class Ending(NamedTuple):
    """A certificate that ends soon, or has ended, and in how many days."""

    name: str
    days: int


class _Element(NamedTuple):
    """An element of DER: its tag, where its content begins, and where it ends."""

    tag: int
    begin: int
    end: int


def read_certificate(path: Path) -> Certificate:
    """What the certificate in a file says. Raises ValueError for what is none."""
    try:
        der = ssl.PEM_cert_to_DER_cert(path.read_text(encoding="ascii"))
        return _certificate(der)
    except (ValueError, IndexError) as error:
        raise ValueError(f"{path}: it is no certificate: {error}") from error


def _certificate(der: bytes) -> Certificate:
    at = _element(der, _element(der, 0, SEQUENCE).begin, SEQUENCE).begin
    if der[at] == VERSION:
        at = _element(der, at, VERSION).end
    serial = _element(der, at, INTEGER)
    algorithm = _element(der, serial.end, SEQUENCE)
    issuer = _element(der, algorithm.end, SEQUENCE)
    validity = _element(der, issuer.end, SEQUENCE)
    begins = _element(der, validity.begin)
    return Certificate(
        int.from_bytes(der[serial.begin : serial.end], "big"),
        _time(der, _element(der, begins.end)),
    )


def _element(der: bytes, at: int, tag: Optional[int] = None) -> _Element:
    """The element at an offset, which has to have this tag."""
    length, begin = der[at + 1], at + 2
    if length & 0x80:
        count = length & 0x7F
        length, begin = int.from_bytes(der[begin : begin + count], "big"), begin + count
    if tag not in (None, der[at]) or begin + length > len(der):
        raise ValueError(f"at byte {at} is something else")
    return _Element(der[at], begin, begin + length)


def _time(der: bytes, element: _Element) -> datetime:
    text = der[element.begin : element.end].decode("ascii")
    if element.tag == UTC_TIME:
        text = ("19" if text[0] >= "5" else "20") + text
    elif element.tag != GENERALIZED_TIME:
        raise ValueError(f"at byte {element.begin} is no time")
    return datetime.strptime(text, "%Y%m%d%H%M%SZ").replace(tzinfo=timezone.utc)


def days_left(path: Path, now: float) -> int:
    """How many whole days a certificate is still good for; less than 0 if it has ended."""
    left = read_certificate(path).ends - datetime.fromtimestamp(now, timezone.utc)
    return left.days


def ending_soon(folder: Path, now: float) -> List[Ending]:
    """The certificates in a folder of the fleet's, that of the authority among them, that end soon, the next ones first."""
    paths = [("ca", folder / "ca.pem")]
    paths += [(path.parent.name, path) for path in folder.glob("[!.]*/own.pem")]
    found = []
    for name, path in paths:
        try:
            days = days_left(path, now)
        except (OSError, ValueError):
            continue
        if days < SOON:
            found.append(Ending(name, days))
    return sorted(found, key=lambda it: (it.days, it.name))
