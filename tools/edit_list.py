"""The edits that make the code wrong, each of which the prover has to refuse: what is wrong in each, and where it is tried.

An edit in crates/CRATE/must-fail/ is tried by the gate, and one in bench/edits/CRATE/ by `bench/try-edits`, on demand.
What is wrong in it stands in its line `# wrong: `, and which clause refuses it in its line `# refused at: `, if it has
one. The toolchain reads neither. It reads the lines `file: `, `old: ` and `new: `, and an edit whose old text isn't in
its file once is none: the gate says so of the edits that it tries, and this list of all."""

from __future__ import annotations

import sys
from dataclasses import dataclass
from pathlib import Path
from typing import Dict, List, Optional

from repository import ROOT, read_crates

WRONG, REFUSED_AT = "# wrong: ", "# refused at: "


@dataclass(frozen=True)
class Edit:
    """An edit of a crate."""

    crate: str
    name: str
    in_gate: bool
    """Whether the gate tries it."""
    wrong: Optional[str]
    """What is wrong in the code that it makes, if its file says so."""
    refused_at: Optional[str]
    """Which clause refuses it, if its file says so."""
    unfit: Optional[str]
    """Why it can't be made in the sources of the crate, if that is so."""

    def lines(self) -> List[str]:
        """What is told of it: its crate, its name, who tries it and what is wrong; and below that which clause refuses it."""
        tried = "in the gate" if self.in_gate else "on demand"
        told = [f"{self.crate} {self.name}, {tried}: {self.wrong or 'ITS FILE DOES NOT SAY'}"]
        if self.refused_at:
            told.append(f"    refused at {self.refused_at}")
        if self.unfit:
            told.append(f"    IT DOES NOT FIT: {self.unfit}")
        return told


def said_in(text: str, key: str) -> Optional[str]:
    """What the one line of an edit's text says that begins with the key, if there is such a line and it says something."""
    said = [line[len(key) :].strip() for line in text.splitlines() if line.startswith(key)]
    return said[0] or None if len(said) == 1 else None


def why_unfit(text: str, sources: Path) -> Optional[str]:
    """Why the edit of this text can't be made in a crate's folder, if that is so. Its pairs are made one after the other."""
    texts: Dict[str, str] = {}
    file = old = ""
    made = 0
    for line in text.split("\n"):
        key, _, said = line.partition(":")
        said = said[1:] if said.startswith(" ") else said
        if key == "file":
            file = said.strip()
            if not (sources / file).is_file():
                return f"there is no file {file}"
            texts.setdefault(file, (sources / file).read_text(encoding="utf-8"))
        elif key == "old":
            old = said
        elif key == "new":
            if not file or not old:
                return "a new text has no file and no old text before it"
            count = texts[file].count(old)
            if count != 1:
                return f"{old.strip()} is in {file} {count} times"
            texts[file] = texts[file].replace(old, said)
            old = ""
            made += 1
    if not texts:
        return "it names no file"
    return None if made else "it has no old and new text"


def edits_in(folder: Path, crate: str, in_gate: bool, sources: Path) -> List[Edit]:
    """The edits in a folder, by their names, of a crate whose sources are there; none if there is no such folder."""
    texts = {file.stem: file.read_text(encoding="utf-8") for file in folder.glob("*.edit")}
    return [
        Edit(
            crate,
            name,
            in_gate,
            said_in(text, WRONG),
            said_in(text, REFUSED_AT),
            why_unfit(text, sources),
        )
        for name, text in sorted(texts.items())
    ]


def edits_of(crate: str, root: Path = ROOT) -> List[Edit]:
    """The edits of a crate: those that the gate tries, and then those on demand."""
    sources = root / "crates" / crate
    return [
        *edits_in(sources / "must-fail", crate, True, sources),
        *edits_in(root / "bench/edits" / crate, crate, False, sources),
    ]


def main(names: List[str], root: Path = ROOT) -> int:
    """Lists the edits of the crates that are named, or of all, and counts them. The answer is a status."""
    crates = read_crates(root)
    unknown = [it for it in names if it not in crates]
    if unknown:
        print(f"edits: there is no crate {unknown[0]}", file=sys.stderr)
        return 2
    edits = [edit for name in names or crates for edit in edits_of(name, root)]
    for edit in edits:
        print(*edit.lines(), sep="\n")
    in_gate = sum(it.in_gate for it in edits)
    print(f"{len(edits)} edits: {in_gate} in the gate, {len(edits) - in_gate} on demand")
    return 0 if all(it.wrong and not it.unfit for it in edits) else 1
