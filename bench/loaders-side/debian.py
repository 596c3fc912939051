"""Loaders of Debian's packages: their digests as other programs make them, what `bootvars check` says of them, and whether
firmware starts them."""

from __future__ import annotations

import subprocess
import tempfile
import time
from dataclasses import dataclass
from pathlib import Path
from typing import Dict, Iterator, Optional

from images import CERTIFICATES, Headers, digest, number
from ovmf_starts import Patience
from samples import Sample
from signing import Failed, Signing, run
from trials import Trials, Way

PACKAGES = (
    "grub-efi-amd64-signed",
    "grub-efi-amd64-bin",
    "systemd-boot-efi",
    "shim-signed",
    "shim-unsigned",
    "fwupd-amd64-signed",
    "fwupd-unsigned",
    "refind",
)

SIGNED_DIGEST = bytes.fromhex("3031300d060960864801650304020105000420")
"""How the digest of SHA-256 begins that a signature has of its image, in DER."""

APPLICATION = 10
"""The subsystem of EFI applications."""

ALONE = Way("Debian's files, Secure Boot off", False, Patience(quiet=5), at_once=40)
"""How they are tried. Some of them don't end, and the next is tried at another start."""


@dataclass(frozen=True)
class Stated:
    """The digest of an image as another program states it."""

    name: str
    image: bytes
    by: str
    digest: bytes


def download(work: Path) -> Dict[str, bytes]:
    """The loaders of the packages, by their paths, each file once. A package that can't be had is told."""
    files: Dict[str, bytes] = {}
    for package in PACKAGES:
        with tempfile.TemporaryDirectory(dir=work) as folder:
            try:
                fetch(package, Path(folder))
            except (Failed, OSError) as fault:
                print(f"left out: {package}: {str(fault).splitlines()[-1]}")
                continue
            for path in sorted(Path(folder, "all").rglob("*")):
                is_loader = path.name.endswith((".efi", ".efi.signed", ".efi.stub"))
                data = path.read_bytes() if is_loader and path.is_file() else b""
                if data and data not in files.values():
                    files[f"{package}/{path.name}"] = data
    return files


def fetch(package: str, folder: Path) -> None:
    """Unpacks a package into the folder `all` of a folder.

    Raises Failed if it can't be had, and OSError if there is no apt-get."""
    got = subprocess.run(
        ["apt-get", "download", package],
        cwd=folder,
        stdout=subprocess.PIPE,
        stderr=subprocess.STDOUT,
        check=False,
    )
    if got.returncode != 0:
        raise Failed(got.stdout.decode(errors="replace").strip() or "apt-get fails")
    run("dpkg-deb", "-x", *folder.glob("*.deb"), folder / "all")


def stated(files: Dict[str, bytes], signing: Signing) -> Iterator[Stated]:
    """What other programs state of the digests: pesign of each file; the signatures that it has; and sbsign, of the file
    with a signature more, which may fill it up before."""
    file = signing.work / "debian.efi"
    for name, data in files.items():
        file.write_bytes(data)
        said = run("pesign", "-h", "-i", file).decode().split()
        yield Stated(name, data, "pesign", bytes.fromhex(said[said.index("hash:") + 1]))
        held = in_signature(data)
        if held is not None:
            yield Stated(name, data, "its signature", held)
        signed = signing.sign(data, "trusted")
        held = in_signature(signed)
        if held is not None:
            yield Stated(f"{name}, signed by sbsign", signed, "sbsign", held)
        held = digest(data)
        if held is not None:
            yield Stated(name, data, "bench/loaders-side/images.py", held)


def applications(files: Dict[str, bytes]) -> Dict[str, bytes]:
    """The images that are applications by their subsystem, and no drivers."""
    return {
        name: data
        for name, data in files.items()
        if number(data, Headers(data).pe + 92, "H") == APPLICATION
    }


def in_signature(data: bytes) -> Optional[bytes]:
    """The digest by SHA-256 that the last of an image's signatures has, if it has one. In a signature the image's comes
    before that of a time stamp."""
    table = Headers(data).directory(data, CERTIFICATES)
    place, end, last = table.start, table.start + table.size, b""
    while place < end:
        length = number(data, place)
        last = data[place : place + length]
        place += -(-length // 8) * 8
    found = last.find(SIGNED_DIGEST) + len(SIGNED_DIGEST)
    return last[found : found + 32] if SIGNED_DIGEST in last else None


def library_digest(image: bytes) -> str:
    """The digest that the library makes of an image, in digits, or why it makes none. The module is imported once the
    library is built, which it loads."""
    import bootkeep

    try:
        return bootkeep.image_digest(image).hex()
    except bootkeep.Refused as fault:
        return str(fault)


def compare_digests(files: Dict[str, bytes], signing: Signing) -> int:
    """Has the library make each digest, and compares it. Gives how many differ. Of what is no application, as a driver,
    the library makes none."""
    compared = differ = size = 0
    spent = 0.0
    for it in stated(files, signing):
        began = time.perf_counter()
        made = library_digest(it.image)
        spent += time.perf_counter() - began
        compared, size = compared + 1, size + len(it.image)
        if made != it.digest.hex():
            differ += 1
            print(f"  differs: {it.name}: {it.by} {it.digest.hex()}, the library {made}")
    speed = size / 1e6 / max(spent, 1e-6)
    print(
        f"digests of Debian's files: {compared} compared, {differ} differ, {speed:.0f} MB a second"
    )
    return differ


def compare_all(trials: Trials, files: Dict[str, bytes]) -> int:
    """Tries all of Debian's files. Gives how many digests differ."""
    differ = compare_digests(applications(files), trials.signing)
    trials.run([Sample(name, data) for name, data in files.items()], ALONE)
    return differ
