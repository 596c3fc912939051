"""A folder that stands for the machine of a start: its partition, its entries as Linux shows them, and what `bootvars check`
says of each."""

from __future__ import annotations

import json
import os
import shutil
import struct
import subprocess
from dataclasses import dataclass
from enum import Enum
from pathlib import Path
from typing import Any, Dict, List, Sequence

from ovmf_starts import KEPT, SIGNED, Entry, boot_values
from samples import Lists

ROOT = Path(__file__).resolve().parents[2]

GLOBAL = "8be4df61-93ca-11d2-aa0d-00e098032b8c"
SECURITY = "d719b2cb-3d3a-4596-a3bc-dad00e67656f"
"""The vendors of boot variables, and of db and dbx."""

VOLATILE = 6
"""The attributes of SecureBoot."""

UNSAFE = "image_unsafe"
"""The finding that firmware goes wrong with a file."""


class Verdict(Enum):
    """What comes of what `check` says of an entry."""

    STARTS = "nothing against it"
    REFUSED = "it can't be started"
    UNSAFE = "firmware goes wrong with it"
    UNDECIDED = "it isn't decided"


@dataclass(frozen=True)
class Finding:
    """One thing that is found of an entry."""

    kind: str
    weight: str
    words: str
    detail: str

    def __str__(self) -> str:
        return f"{self.kind}: {self.words}: {self.detail}"


@dataclass(frozen=True)
class Told:
    """What is said of an entry."""

    findings: Sequence[Finding]

    @property
    def verdict(self) -> Verdict:
        """What comes of it, by the weights of the findings, so that kinds that aren't known here count as others do."""
        faults = [it.kind for it in self.findings if it.weight == "fault"]
        if faults:
            return Verdict.UNSAFE if set(faults) == {UNSAFE} else Verdict.REFUSED
        if any(it.weight == "unseen" for it in self.findings):
            return Verdict.UNDECIDED
        return Verdict.STARTS

    def __str__(self) -> str:
        return "; ".join(str(it) for it in self.findings if it.weight != "remark") or "nothing"


class Machine:
    """The folder."""

    def __init__(self, folder: Path, bootvars: str) -> None:
        self.bootvars, self.system, self.place = bootvars, folder / "system", folder / "efivars"
        subprocess.run([ROOT / "docs/examples/make-system", self.system], check=True)
        self.partition = self.system / "boot/efi"
        self.empty()

    def empty(self) -> None:
        """Takes all files from the partition."""
        shutil.rmtree(self.partition)
        self.partition.mkdir()

    def set_variables(
        self, entries: Sequence[Entry], blocks: int, is_secure: bool, lists: Lists
    ) -> None:
        """Makes the entries the machine's."""
        shutil.rmtree(self.place, ignore_errors=True)
        self.place.mkdir()
        for name, data in boot_values(entries, blocks).items():
            self._write(name, GLOBAL, KEPT, data)
        self._write("SecureBoot", GLOBAL, VOLATILE, bytes([is_secure]))
        self._write("SetupMode", GLOBAL, VOLATILE, b"\0")
        for name, data in (("db", lists.db), ("dbx", lists.dbx)):
            if data:
                self._write(name, SECURITY, SIGNED, data)

    def _write(self, name: str, vendor: str, attributes: int, data: bytes) -> None:
        (self.place / f"{name}-{vendor}").write_bytes(struct.pack("<I", attributes) + data)

    def words(self, command: str) -> List[str]:
        """How a command is asked about the machine."""
        root = ["--root", os.fspath(self.system)] if command == "check" else []
        return [self.bootvars, command, "--json", os.fspath(self.place), *root]

    def check(self) -> Dict[str, Told]:
        """What is said of each entry, by the names of their variables.

        Raises RuntimeError if that isn't told."""
        ran = subprocess.run(
            self.words("check"), stdout=subprocess.PIPE, stderr=subprocess.PIPE, check=False
        )
        if ran.returncode > 1:
            said = ran.stderr.decode(errors="replace").strip()
            raise RuntimeError(f"bootvars check has the status {ran.returncode}: {said}")
        entries = json.loads(ran.stdout)["entries"]
        return {it["name"]: Told([finding(each) for each in it["findings"]]) for it in entries}


def finding(told: Dict[str, Any]) -> Finding:
    """A finding of the JSON."""
    return Finding(told["kind"], told["weight"], told["words"], told["detail"] or "")
