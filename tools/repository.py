"""What the repository is made of: its crates, what each stands on, and sums of their sources."""

from __future__ import annotations

import hashlib
import os
import shutil
import subprocess
from dataclasses import dataclass
from pathlib import Path
from typing import Dict, Iterator, List, Optional

ROOT = Path(__file__).resolve().parent.parent
"""The top of the clone that this file is in."""

LOGIC, TOOLCHAINS = "dac8208d650f15bf", ("rattle-kit-13b", "rattle-kit-13f")
"""The logic that the repository is proved with, and the toolchains that have it."""

PARTS = ("src", "specs", "proofs")
"""The folders of a crate that a proof reads."""


@dataclass(frozen=True)
class Crate:
    """A line of crates.txt."""

    name: str
    is_static: bool
    """Whether it is a static library, for C."""
    libraries: List[str]
    """The libraries that it stands on, those of the toolchain too."""


def read_crates(root: Path = ROOT) -> Dict[str, Crate]:
    """The crates by their names, in the order of crates.txt, in which each comes after those that it stands on."""
    crates = {}
    for line in (root / "crates.txt").read_text(encoding="utf-8").splitlines():
        head, colon, libraries = line.partition("#")[0].partition(":")
        if colon:
            name, *kind = head.split()
            crates[name] = Crate(name, "staticlib" in kind, libraries.split())
    return crates


def crates_below(name: str, crates: Dict[str, Crate]) -> List[str]:
    """The repository's crates that a crate stands on, in the order of crates.txt."""
    found = set()
    left = [name]
    while left:
        for library in crates[left.pop()].libraries:
            if library in crates and library not in found:
                found.add(library)
                left.append(library)
    return [it for it in crates if it in found]


def source_files(crate: str, root: Path = ROOT) -> Iterator[str]:
    """The paths of the files of a crate that a proof reads, always in the same order."""
    for part in PARTS:
        for folder, folders, names in os.walk(f"{root}/crates/{crate}/{part}"):
            folders.sort()
            for file in sorted(names):
                yield f"{folder}/{file}"


def sources_sum(name: str, root: Path = ROOT) -> str:
    """A sum of what a crate is made from: its files and those of the crates below it, and what is said of them."""
    crates = read_crates(root)
    total = hashlib.sha256((root / "HANDLES").read_bytes())
    for crate in [*crates_below(name, crates), name]:
        total.update(repr(crates[crate]).encode())
        top = f"{root}/crates/{crate}/"
        for path in source_files(crate, root):
            with open(path, "rb") as it:
                content = it.read()
            total.update(f"{path[len(top):]} {len(content)}\n".encode())
            total.update(content)
    return total.hexdigest()


def toolchain_sum() -> Optional[str]:
    """A sum of the toolchain on PATH, by its files' names, sizes and times, if there is one.

    To ask it for its version takes longer than most runs of a program."""
    found = shutil.which("rt")
    if found is None:
        return None
    rt = Path(found).resolve()
    files = [rt, *sorted(rt.parent.glob("rattle*"))]
    stats = [(str(file), file.stat().st_size, file.stat().st_mtime_ns) for file in files]
    return hashlib.sha256(repr(stats).encode()).hexdigest()


def toolchain_note() -> Optional[str]:
    """What is to be said of the toolchain on PATH, if it has another logic than the repository is proved with."""
    told = subprocess.run(
        ["rt", "version"], capture_output=True, text=True, check=False
    ).stdout.strip()
    if LOGIC in told.split():
        return None
    return f"this toolchain is {told}, and all is proved with the logic {LOGIC} of {' and '.join(TOOLCHAINS)}"


def identity_of(file: Path) -> str:
    """What tells whether a file that was built is the one that was built: its size and its time."""
    status = file.stat()
    return f"{status.st_size}-{status.st_mtime_ns}"


class Product:
    """What was built of a crate and is kept in out/, with a stamp that says of what it was built."""

    def __init__(self, kind: str, file: str, root: Path = ROOT) -> None:
        self.path = root / "out" / kind / file
        self.stamp = self.path.with_name(f"{file}.stamp")

    def is_of(self, sources: str) -> bool:
        """Whether it was built of sources of this sum, with the toolchain that is found, if one is."""
        try:
            made_of, toolchain, product = self.stamp.read_text(encoding="utf-8").split()
            return (
                made_of == sources
                and toolchain == (toolchain_sum() or toolchain)
                and product == identity_of(self.path)
            )
        except (OSError, ValueError):
            return False

    def keep(self, made: Path, sources: str) -> None:
        """Keeps what was made of sources of this sum, in the place of an earlier one.

        Raises OSError if there is no place for it."""
        self.path.parent.mkdir(parents=True, exist_ok=True)
        beside = self.path.with_name(f"{self.path.name}.{os.getpid()}")
        try:
            shutil.copy2(made, beside)
            stamp = f"{sources}\n{toolchain_sum()}\n{identity_of(beside)}\n"
            self.stamp.unlink(missing_ok=True)
            os.replace(beside, self.path)
            beside.write_text(stamp, encoding="utf-8")
            os.replace(beside, self.stamp)
        finally:
            beside.unlink(missing_ok=True)


class Verdict:
    """How the gate ended the last time that it was run to its end, which is kept in out/, and over which sources."""

    def __init__(self, root: Path = ROOT) -> None:
        self.path = root / "out" / "gate"

    def keep(self, line: str, sources: Dict[str, str]) -> None:
        """Keeps the last line of the gate over sources of these sums.

        Raises OSError if there is no place for it."""
        self.path.parent.mkdir(exist_ok=True)
        beside = self.path.with_name(f"gate.{os.getpid()}")
        sums = "".join(f"{name} {it}\n" for name, it in sorted(sources.items()))
        beside.write_text(f"{line}\n{toolchain_sum()}\n{sums}", encoding="utf-8")
        os.replace(beside, self.path)

    def over(self, name: str, root: Path = ROOT) -> Optional[str]:
        """The last line of the gate, if what it was run over is what a crate is made from now."""
        try:
            line, toolchain, *sums = self.path.read_text(encoding="utf-8").splitlines()
        except (OSError, ValueError):
            return None
        is_now = toolchain == toolchain_sum() and f"{name} {sources_sum(name, root)}" in sums
        return line if is_now else None
