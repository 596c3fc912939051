"""The small application that is changed in all kinds of ways, keys, signed images, and signature lists."""

from __future__ import annotations

import hashlib
import shutil
import struct
import subprocess
import uuid
from dataclasses import dataclass
from pathlib import Path
from typing import List, Tuple, Union

SOURCE = Path(__file__).resolve().parent / "application.c"

NAME = "NAME@NAME@NAME@NAME@NAME@NAME"
"""The text of the application in whose place it gets its own."""

OWNER = uuid.UUID("11111111-2222-3333-4444-123456789abc")
"""Whose signatures those in the lists are."""

X509 = uuid.UUID("a5c059a1-94e4-4aa7-87b5-ab155c2bf072")
X509_SHA256 = uuid.UUID("3bd2a492-96c0-4079-b420-fcf98ef103ed")
DIGESTS = {
    "sha256": uuid.UUID("c1c41626-504c-4092-aca9-41f936934328"),
    "sha384": uuid.UUID("ff3e5307-9fd0-48c9-85f1-8ad56c701e01"),
}
"""The types of signature lists (UEFI 2.10, 32.4.1)."""

CA = ("-addext", "basicConstraints=critical,CA:TRUE")
END = ("-addext", "basicConstraints=CA:FALSE")
BARE = ("-addext", "subjectKeyIdentifier=none", "-addext", "authorityKeyIdentifier=none")


@dataclass(frozen=True)
class Own:
    """A certificate that signed itself."""

    name: str
    subject: str
    more: Tuple[str, ...] = END


@dataclass(frozen=True)
class Made:
    """A certificate that another one signed."""

    name: str
    maker: str
    days: int = 9000
    is_maker: bool = False


OWN = (
    Own("unknown", "Unknown"),
    Own("maker", "Maker", CA + BARE),
    # One of the same name, with another key.
    Own("forger", "Maker", CA + BARE),
    Own("nomaker", "No maker", END + BARE),
    Own("blocked", "Blocked"),
    Own("hashed", "Hashed"),
    Own("other", "Other"),
)

MADE = (
    Made("leaf", "maker"),
    Made("old", "maker", days=1),
    Made("middle", "maker", is_maker=True),
    Made("forged", "forger"),
    Made("odd", "nomaker"),
    Made("low", "middle"),
)

Word = Union[str, Path]


class Failed(Exception):
    """What a program says that failed."""


def run(*words: Word) -> bytes:
    """What a program prints.

    Raises Failed if its status isn't 0."""
    ran = subprocess.run(
        [str(it) for it in words], stdout=subprocess.PIPE, stderr=subprocess.PIPE, check=False
    )
    if ran.returncode != 0:
        said = (ran.stdout + ran.stderr).decode(errors="replace").strip()
        raise Failed(f"{Path(str(words[0])).name} has the status {ran.returncode}: {said}")
    return ran.stdout


def list_of(kind: uuid.UUID, data: bytes) -> bytes:
    """A signature list of one signature."""
    size = 16 + len(data)
    return kind.bytes_le + struct.pack("<III", 28 + size, 0, size) + OWNER.bytes_le + data


def digest_list(digest: bytes, kind: str = "sha256") -> bytes:
    """A signature list of a digest."""
    return list_of(DIGESTS[kind], digest)


class Signing:
    """Makes the application, and signs it with keys that are made for this run; one, `trusted`, is that of the firmware's
    own variable file for tests."""

    def __init__(self, work: Path, keys: Path) -> None:
        self.work = work / "keys"
        self.work.mkdir()
        self.application = self._compile()
        self._make_keys(keys)

    def _compile(self) -> bytes:
        made, linked = self.work / "application.o", self.work / "application.efi"
        words = "-target x86_64-unknown-windows -ffreestanding -fno-stack-protector -mno-red-zone"
        run("clang", *words.split(), "-fshort-wchar", "-O2", "-c", SOURCE, "-o", made)
        words = "/subsystem:efi_application /entry:efi_main /nodefaultlib /timestamp:1"
        run("lld-link", *words.split(), f"/out:{linked}", made)
        return linked.read_bytes()

    def _make_keys(self, keys: Path) -> None:
        sealed = keys / "PkKek-1-snakeoil.key"
        run(
            "openssl", "rsa", "-in", sealed, "-passin", "pass:snakeoil", "-out", self.key("trusted")
        )
        shutil.copyfile(keys / "PkKek-1-snakeoil.pem", self.certificate("trusted"))
        for own in OWN:
            words = "req -x509 -newkey rsa:2048 -nodes -sha256 -days 9000".split()
            files: List[Word] = ["-keyout", self.key(own.name), "-out", self.certificate(own.name)]
            run("openssl", *words, *files, "-subj", f"/CN={own.subject}", *own.more)
        for made in MADE:
            self._make(made)

    def _make(self, made: Made) -> None:
        request, extension = self.work / "request", self.work / "extension"
        words = "req -new -newkey rsa:2048 -nodes".split()
        files: List[Word] = ["-keyout", self.key(made.name), "-out", request]
        run("openssl", *words, *files, "-subj", f"/CN={made.name.title()}")
        constraint = "critical,CA:TRUE" if made.is_maker else "CA:FALSE"
        extension.write_text(f"basicConstraints={constraint}\n", encoding="utf-8")
        words = f"x509 -req -CAcreateserial -days {made.days} -sha256".split()
        maker: List[Word] = ["-CA", self.certificate(made.maker), "-CAkey", self.key(made.maker)]
        files = ["-in", request, "-extfile", extension, "-out", self.certificate(made.name)]
        run("openssl", *words, *maker, *files)

    def key(self, name: str) -> Path:
        """The file of a private key."""
        return self.work / f"{name}.key"

    def certificate(self, name: str) -> Path:
        """The file of a certificate."""
        return self.work / f"{name}.pem"

    def named(self, name: str) -> bytes:
        """The application, which tells this name when it is started."""
        text = NAME.encode("utf-16-le")
        assert self.application.count(text) == 1
        return self.application.replace(text, name.ljust(len(NAME), "\0").encode("utf-16-le"))

    def sign(self, image: bytes, name: str, *more: Word) -> bytes:
        """The image with one more signature, by SHA-256 and this key."""
        given, signed = self._files(image)
        pair: List[Word] = ["--key", self.key(name), "--cert", self.certificate(name)]
        run("sbsign", *pair, *more, "--output", signed, given)
        return signed.read_bytes()

    def sign_by(self, kind: str, image: bytes, name: str) -> bytes:
        """The image with a signature by another hash."""
        given, signed = self._files(image)
        pair: List[Word] = ["-certs", self.certificate(name), "-key", self.key(name)]
        run("osslsigncode", "sign", "-h", kind, *pair, "-in", given, "-out", signed)
        return signed.read_bytes()

    def _files(self, image: bytes) -> Tuple[Path, Path]:
        """The files of an image and of what is made of it."""
        given, signed = self.work / "given.efi", self.work / "signed.efi"
        given.write_bytes(image)
        signed.unlink(missing_ok=True)
        return given, signed

    def hash_list(self, image: bytes) -> bytes:
        """The signature list of an image's digest, as efitools make it, which have a digest of their own."""
        given, _ = self._files(image)
        made = self.work / "hash.esl"
        run("hash-to-efi-sig-list", given, made)
        return made.read_bytes()

    def certificate_list(self, name: str) -> bytes:
        """The signature list of a certificate, as efitools make it."""
        made = self.work / "certificate.esl"
        run("cert-to-efi-sig-list", "-g", str(OWNER), self.certificate(name), made)
        return made.read_bytes()

    def certificate_hash_list(self, name: str) -> bytes:
        """The signature list of the digest of a certificate's signed part, that is revoked at any time."""
        part = self.work / "signed-part"
        words: List[Word] = ["-inform", "pem", "-strparse", "4", "-noout", "-out", part]
        run("openssl", "asn1parse", "-in", self.certificate(name), *words)
        return list_of(X509_SHA256, hashlib.sha256(part.read_bytes()).digest() + bytes(16))
