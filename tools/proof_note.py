"""What a package says of the proofs of what is in it: the file PROVED, and the list of sources beside it."""

from __future__ import annotations

import hashlib
import subprocess
from dataclasses import dataclass
from pathlib import Path
from typing import Dict, List, Tuple

from repository import ROOT, Verdict, crates_below, read_crates, source_files

LIST = "sources.sha256"
"""The name of the list of sources."""


def list_of_sources(crates: Tuple[str, ...], root: Path = ROOT) -> str:
    """What crates are made from, each file with its sum, as `sha256sum` prints it in the top of a clone."""
    known = read_crates(root)
    needed = {it for crate in crates for it in [*crates_below(crate, known), crate]}
    paths = [root / "HANDLES", root / "crates.txt"]
    paths += [Path(path) for it in needed for path in source_files(it, root)]
    return "".join(
        f"{hashlib.sha256(path.read_bytes()).hexdigest()}  {path.relative_to(root)}\n"
        for path in sorted(paths, key=str)
    )


def told(words: List[str], root: Path = ROOT) -> str:
    """What a command prints in the top of the clone; nothing if it fails or isn't there."""
    try:
        asked = subprocess.run(words, cwd=root, capture_output=True, text=True, check=False)
    except OSError:
        return ""
    return asked.stdout.strip() if asked.returncode == 0 else ""


def commit(root: Path = ROOT) -> str:
    """The commit that the files are of."""
    name = told(["git", "rev-parse", "HEAD"], root)
    if not name:
        return "not known: the files aren't in a clone"
    changed = told(["git", "status", "--porcelain", "--untracked-files=no"], root)
    return f"{name}, and changes that aren't committed" if changed else name


@dataclass(frozen=True)
class Proofs:
    """What is to be said of what was made of some crates."""

    crates: Tuple[str, ...]
    sources: str
    commit: str
    toolchain: str
    verdict: str
    """The last line of the gate over these sources; empty if it wasn't run."""

    @classmethod
    def of(cls, *crates: str) -> "Proofs":
        """What is so now."""
        verdicts = {Verdict().over(it) or "" for it in crates}
        verdict = verdicts.pop() if len(verdicts) == 1 else ""
        return cls(crates, list_of_sources(crates), commit(), told(["rt", "version"]), verdict)

    def note(self, title: str, about: str, files: Dict[str, bytes]) -> str:
        """The file PROVED, over these files of the package."""
        sums = "".join(
            f"    {hashlib.sha256(data).hexdigest()}  {path}\n" for path, data in files.items()
        )
        gate = (
            f"./check over these sources ended with: {self.verdict}"
            if self.verdict
            else "./check wasn't run to its end over these sources where this was built"
        )
        return (
            f"{title}\n\n{about}\n\n{sums}\n"
            f"sources    {len(self.sources.splitlines())} files: {' and '.join(self.crates)}, and the crates below\n"
            f"           {LIST} beside this file lists them, and `sha256sum -c` compares it with a clone;\n"
            f"           the SHA-256 of the list is {hashlib.sha256(self.sources.encode()).hexdigest()}\n"
            f"commit     {self.commit}\n"
            f"toolchain  {self.toolchain}\n"
            f"gate       {gate}\n"
        )
