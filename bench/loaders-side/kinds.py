"""The kinds of files: good ones, signed in all ways, cut, changed afterwards, and each with a fault of its own."""

from __future__ import annotations

import hashlib
from dataclasses import dataclass, replace
from typing import Iterator, List, Optional, Tuple

from images import CERTIFICATES, Headers, digest, flip, number, put
from samples import Sample
from signing import Signing, digest_list

RSA = {
    "24": "the value of the signature is wrong, which only a check of it tells",
    "28": "the signature of the signer's certificate is wrong, which only a check of it tells",
}
"""The kinds of which only an RSA value tells that Secure Boot denies them, and why."""

GARBAGE = b"garbage " * 2


@dataclass(frozen=True)
class Change:
    """A number of a header that is another one."""

    place: int
    form: str
    value: int


@dataclass(frozen=True)
class Fault:
    """A fault that is in the headers alone."""

    number: str
    what: str
    changes: Tuple[Change, ...]
    with_digest: bool = True
    """Whether it is tried with its digest in db too."""


class Kinds:
    """Makes the files of all kinds."""

    def __init__(self, signing: Signing) -> None:
        self.signing = signing
        self.headers = Headers(signing.application)
        self.first = self.headers.section(signing.application, 0)

    def all(self) -> List[Sample]:
        """All kinds, in the order of their numbers."""
        return [
            *self.plain(),
            *self.cut(),
            *self.faults(),
            *self.changed(),
            *self.twice(),
            *self.chains(),
            *self.listed(),
            *self.tables(),
            *self.fixed(),
            *self.hashes(),
        ]

    def fresh(self, kind: str) -> bytes:
        """The application, not signed."""
        return self.signing.named(kind)

    def signed(self, kind: str, key: str = "trusted") -> bytes:
        """The application, signed."""
        return self.signing.sign(self.fresh(kind), key)

    def in_db(self, name: str, data: bytes) -> Sample:
        """A file whose digest is in db, as efitools find it."""
        return Sample(name, data, db=self.signing.hash_list(data))

    def plain(self) -> Iterator[Sample]:
        """Whole files, with and without a signature."""
        yield Sample("1 good, not signed", self.fresh("1"))
        yield Sample("2 signed by a key of db", self.signed("2"))
        yield Sample("3 signed by a key that is not in db", self.signed("3", "unknown"))
        signed = self.signed("4")
        place = signed.index("4".ljust(29, "\0").encode("utf-16-le")) + 50
        what = "4 signed by a key of db, a byte of a section changed afterwards"
        yield Sample(what, flip(signed, place))
        denied = self.signed("5")
        what = "5 signed by a key of db, its digest in dbx"
        yield Sample(what, denied, dbx=self.signing.hash_list(denied))
        yield self.in_db("6 not signed, its digest in db", self.fresh("6"))

    def cut(self) -> Iterator[Sample]:
        """Files that lack bytes, and what is no file."""
        yield Sample("7 0 bytes", b"")
        whole = self.fresh("8")
        yield Sample("8 cut off at half", whole[: len(whole) // 2])
        yield Sample("8b signed, the last byte cut off", self.signed("8b")[:-1])
        yield Sample("9 the first 512 bytes are 0", bytes(512) + self.fresh("9")[512:])
        yield Sample("19 a folder of this name", None, is_folder=True)
        yield Sample("23 there is no file of this name", None)

    def faults(self) -> Iterator[Sample]:
        """Files with a fault of their headers, once not signed and once with their digest in db."""
        for fault in self.of_headers():
            data = self.fresh(fault.number)
            yield Sample(f"{fault.number} {fault.what}, not signed", changed(data, fault.changes))
            if fault.with_digest:
                data = changed(self.fresh(f"{fault.number}h"), fault.changes)
                found = digest(data)
                lists = digest_list(found) if found else b""
                yield Sample(f"{fault.number}h {fault.what}, its digest in db", data, db=lists)

    def of_headers(self) -> List[Fault]:
        """The faults of headers."""
        pe, size = self.headers.pe, self.headers.image_size
        beyond = Change(self.headers.table + 80 + 16, "I", 0x100000)
        whole = len(self.signing.application)
        table = (Change(pe + 168, "I", whole), Change(pe + 172, "I", 0x1000))
        far = "SizeOfImage is the last section's VirtualAddress + VirtualSize"

        def one(kind: str, what: str, place: int, form: str, value: int) -> Fault:
            return Fault(kind, what, (Change(place, form, value),))

        return [
            one("10", "Machine is ARM64 (AA64)", pe + 4, "H", 0xAA64),
            one("11", "Machine is IA32 (14C)", pe + 4, "H", 0x14C),
            one("12", "Subsystem is 3 (console)", pe + 92, "H", 3),
            one("13a", "Subsystem is 11 (boot service driver)", pe + 92, "H", 11),
            one("13b", "Subsystem is 12 (runtime driver)", pe + 92, "H", 12),
            one("14", "Magic is 10B (PE32)", pe + 24, "H", 0x10B),
            one("15", "SizeOfImage is below the last section's end", pe + 80, "I", size - 4096),
            one("15b", far, pe + 80, "I", size - 4096 + 12),
            Fault("16", "a section ends beyond the file", (beyond,)),
            Fault("17", "e_lfanew is beyond the file", (Change(0x3C, "I", 0x100000),), False),
            Fault("20", "the certificate table ends beyond the file", table, False),
        ]

    def changed(self) -> Iterator[Sample]:
        """Files that were changed after they were signed."""
        pe = self.headers.pe
        yield Sample(
            "18 signed by a key of db, 16 bytes after the signature", self.signed("18") + GARBAGE
        )
        yield Sample(
            "18b signed by a key of db, 7 bytes after the signature",
            self.signed("18b") + b"garbage",
        )
        longer = self.signed("20b")
        what = "signed by a key of db, the size of the certificate table raised by 8"
        longer = put(longer, pe + 172, "I", number(longer, pe + 172) + 8)
        yield Sample(f"20b {what}", longer)
        longer = self.signed("20c")
        longer = put(longer, pe + 172, "I", number(longer, pe + 172) + 8) + bytes(8)
        yield Sample(f"20c {what}, and 8 bytes of 0 after it", longer)
        yield Sample(
            "21 CheckSum is wrong, not signed", put(self.fresh("21"), pe + 88, "I", 0xDEADBEEF)
        )
        what = "21b signed by a key of db, CheckSum changed afterwards"
        yield Sample(what, put(self.signed("21b"), pe + 88, "I", 0xDEADBEEF))

    def twice(self) -> Iterator[Sample]:
        """Files with two signatures."""
        sign, blocked = self.signing.sign, self.blocked()
        yield Sample(
            "22a two signatures: by an unknown key, then by a key of db",
            sign(self.signed("22a", "unknown"), "trusted"),
        )
        yield Sample(
            "22b two signatures: by a key of db, then by an unknown key",
            sign(self.signed("22b"), "unknown"),
        )
        what = "22c two signatures: by a key of db, then by one whose certificate is in dbx"
        yield replace(blocked, name=what, data=sign(self.signed("22c"), "blocked"))
        yield Sample(
            "22d two signatures: by unknown keys", sign(self.signed("22d", "unknown"), "other")
        )

    def blocked(self) -> Sample:
        """What has a certificate in db and in dbx."""
        lists = self.signing.certificate_list("blocked")
        what = "30 signed by a key whose certificate is in db and in dbx"
        return Sample(what, self.signed("30", "blocked"), db=lists, dbx=lists)

    def chains(self) -> Iterator[Sample]:
        """Files whose signers' certificates were made by others."""
        maker = self.signing.certificate_list("maker")
        wrong = self.signed("24")
        yield Sample(
            "24 signed by a key of db, a byte of the RSA value changed",
            flip(wrong, rsa_value(wrong)),
        )

        def of_maker(name: str, data: bytes) -> Sample:
            return Sample(name, data, db=maker)

        yield of_maker(
            "25 signed by a key whose maker's certificate is in db", self.signed("25", "leaf")
        )
        more = ("--addcert", self.signing.certificate("middle"))
        what = "26 the same with a certificate between, which is in the file"
        yield of_maker(what, self.signing.sign(self.fresh("26"), "low", *more))
        yield of_maker(
            "26b the same with a certificate between, which is missing", self.signed("26b", "low")
        )
        what = "27 signed by a key whose certificate has run out; its maker is in db"
        yield of_maker(what, self.signed("27", "old"))
        what = "28 signed by a key whose maker has the name of one of db, but another key"
        yield of_maker(what, self.signed("28", "forged"))
        what = "29 signed by a key whose maker is in db, but is no CA"
        yield Sample(what, self.signed("29", "odd"), db=self.signing.certificate_list("nomaker"))

    def listed(self) -> Iterator[Sample]:
        """Files of which db and dbx tell in other ways."""
        yield self.blocked()
        signing = self.signing
        yield Sample(
            "31 signed by a key in db, the hash of its certificate in dbx",
            self.signed("31", "hashed"),
            db=signing.certificate_list("hashed"),
            dbx=signing.certificate_hash_list("hashed"),
        )
        whole = self.fresh("33")
        lists = digest_list(hashlib.sha256(whole).digest())
        yield Sample("33 not signed, the SHA-256 of the whole file in db", whole, db=lists)
        short = self.in_db("34 not signed, digest in db, then 16 bytes added", self.fresh("34"))
        yield replace(short, data=(short.data or b"") + GARBAGE)
        both = self.in_db("38 not signed, its digest in db and in dbx", self.fresh("38"))
        yield replace(both, dbx=both.db)
        yield self.in_db(
            "39 signed by an unknown key, its digest in db", self.signed("39", "unknown")
        )

    def tables(self) -> Iterator[Sample]:
        """Files whose certificate table is changed."""
        pe = self.headers.pe
        what = "35 signed by a key of db, then Size of the certificate table set to 0"
        yield Sample(what, put(self.signed("35"), pe + 172, "I", 0))
        signed = self.signed("36")
        what = "36 signed by a key of db, then wCertificateType set to 1"
        yield Sample(what, put(signed, table_of(signed) + 6, "H", 1))
        signed = self.signed("40")
        place = table_of(signed)
        moved = put(signed, pe + 168, "I", place + 8)[place:]
        what = "40 signed by a key of db, padded before the table: 8 bytes put in"
        yield Sample(what, put(signed[:place], pe + 168, "I", place + 8) + bytes(8) + moved)

    def fixed(self) -> Iterator[Sample]:
        """Files without relocations, and one whose entry point is elsewhere."""
        pe, free = self.headers.pe, 0x10000000

        def stripped(kind: str) -> bytes:
            return put(self.fresh(kind), pe + 22, "H", 0x23)

        yield Sample("42 relocations stripped (Characteristics bit 0), not signed", stripped("42"))
        moved = put(stripped("42c"), pe + 48, "Q", free)
        place = self.headers.section(moved, 2).raw_start
        pointer = free + number(moved, place, "Q") - self.headers.base
        what = "42c relocations stripped, linked for a free address, not signed"
        yield Sample(what, put(moved, place, "Q", pointer))
        what = "42b relocations stripped, ImageBase 0, not signed"
        yield Sample(what, put(stripped("42b"), pe + 48, "Q", 0))
        what = "43 AddressOfEntryPoint beyond the image, not signed"
        yield Sample(what, put(self.fresh("43"), pe + 40, "I", 0x100000))

    def hashes(self) -> Iterator[Sample]:
        """Files that are signed by other hashes."""
        for kind, hashed in (("44a", "sha1"), ("44b", "sha384"), ("44c", "sha512")):
            name = f"{kind} signed by a key of db with {hashed.upper()}"
            yield Sample(name, self.by(hashed, kind))
        by = self.by("sha384", "44d")
        yield Sample(
            "44d signed by a key of db with SHA384, its SHA-256 in dbx", by, dbx=lists_for(by)
        )
        by = self.by("sha384", "44e")
        lists = lists_for(by, "sha384")
        yield Sample("44e signed by a key of db with SHA384, its SHA-384 in dbx", by, dbx=lists)
        by = self.by("sha384", "44f", "unknown")
        yield Sample(
            "44f signed by an unknown key with SHA384, its SHA-256 in db", by, db=lists_for(by)
        )
        both = self.signing.sign(self.by("sha384", "44g"), "trusted")
        what = "44g signed by a key of db with SHA384 and again with SHA256, its SHA-256 in dbx"
        yield Sample(what, both, dbx=lists_for(both))

    def by(self, hashed: str, kind: str, key: str = "trusted") -> bytes:
        """The application, signed by another hash."""
        return self.signing.sign_by(hashed, self.fresh(kind), key)


def changed(data: bytes, changes: Tuple[Change, ...]) -> bytes:
    """The bytes with these changes."""
    for change in changes:
        data = put(data, change.place, change.form, change.value)
    return data


def lists_for(data: bytes, kind: str = "sha256") -> bytes:
    """The signature list of the digest of an image."""
    found: Optional[bytes] = digest(data, kind)
    assert found is not None
    return digest_list(found, kind)


def table_of(data: bytes) -> int:
    """Where the certificate table of an image is."""
    return Headers(data).directory(data, CERTIFICATES).start


def rsa_value(data: bytes) -> int:
    """A byte of the RSA value of an image's one signature: the last of it, as no attributes follow."""
    place = table_of(data) + 8
    return place + 4 + int.from_bytes(data[place + 2 : place + 4], "big") - 156
