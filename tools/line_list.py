"""How many lines the crates have, and what tests them. All lines are counted, also empty ones and comments."""

from __future__ import annotations

import sys
from dataclasses import dataclass, fields
from pathlib import Path
from typing import Iterable, List

from repository import ROOT, read_crates

OF_TESTS = ("tests/program/**/*.rattle", "tests/cases/*.json", "tests/*.py")
"""The files that test crates together: what runs the cases, the cases, and the tests of the scripts."""


@dataclass(frozen=True)
class Lines:
    """How many lines a crate has."""

    code: int
    definitions: int
    """What contracts are in terms of, in specs/."""
    proofs: int
    edits: int
    """The wrong bodies that the prover has to refuse, in the gate or on demand."""


KINDS = [it.name for it in fields(Lines)]


def lines_in(files: Iterable[Path]) -> int:
    """How many lines these files have."""
    return sum(len(it.read_text(encoding="utf-8").splitlines()) for it in files)


def lines_of(crate: str, root: Path = ROOT) -> Lines:
    """How many lines a crate has."""
    top = root / "crates" / crate
    edits = [*top.glob("must-fail/*.edit"), *(root / "bench/edits" / crate).glob("*.edit")]
    return Lines(
        code=lines_in(top.glob("src/**/*.rt")),
        definitions=lines_in(top.glob("specs/**/*.antt")),
        proofs=lines_in(top.glob("proofs/**/*.antt")),
        edits=lines_in(edits),
    )


def row(name: str, columns: Iterable[object]) -> str:
    """A line of the table."""
    return f"{name:18}" + "".join(f"{column:>12}" for column in columns)


def count_row(name: str, lines: Iterable[Lines]) -> str:
    """A line of the table with the lines of some crates together."""
    counted = list(lines)
    return row(name, [f"{sum(getattr(it, kind) for it in counted):,}" for kind in KINDS])


def main(names: List[str], root: Path = ROOT) -> int:
    """Counts the lines of the crates that are named, or of all and of what tests them. The answer is a status."""
    crates = read_crates(root)
    unknown = [it for it in names if it not in crates]
    if unknown:
        print(f"lines: there is no crate {unknown[0]}", file=sys.stderr)
        return 2
    counted = {name: lines_of(name, root) for name in names or crates}
    print(row("crate", KINDS))
    for name, lines in counted.items():
        print(count_row(name, [lines]))
    print(count_row("all of these", counted.values()))
    for pattern in () if names else OF_TESTS:
        print(f"{pattern}: {lines_in(root.glob(pattern)):,}")
    return 0
