"""Source files, and what each says in the comment that it begins with."""

from __future__ import annotations

import sys
from pathlib import Path
from typing import List, Optional

from repository import PARTS, ROOT, read_crates

MARKS = {".rt": "//!", ".rattle": "//!", ".rs": "//!", ".antt": "--"}
"""What begins each line of a file's first comment, by the file's suffix."""

CASES = "tests/program"
"""The folder of the program that runs the cases."""


def about(file: Path) -> Optional[str]:
    """The first sentence of the comment that a file begins with, on one line, if it begins with one."""
    mark = MARKS[file.suffix]
    said: List[str] = []
    for line in file.read_text(encoding="utf-8").splitlines():
        words = line[len(mark) :].strip() if line.startswith(mark) else ""
        if not words:
            break
        said.append(words)
    sentence, stop, _ = " ".join(said).partition(". ")
    return sentence + stop.strip() or None


def is_listed(file: Path, folder: Path) -> bool:
    """Whether a file below a folder is listed: any but Lib.antt, which names others, and answers for single functions
    in proofs/, whose folders are named as the modules of the code are and so begin with a small letter.
    """
    if file.suffix not in MARKS or file.name == "Lib.antt":
        return False
    folders = file.relative_to(folder).parts[:-1]
    return folder.name != "proofs" or all(it[0].isupper() for it in folders)


def files_in(folder: Path) -> List[Path]:
    """The files below a folder that are listed, by their paths, and each before the folder of its name."""
    listed = [file for file in folder.rglob("*") if is_listed(file, folder)]
    return sorted(listed, key=lambda file: file.with_suffix("").parts)


def main(words: List[str], root: Path = ROOT) -> int:
    """Lists the files of the crates and folders that are named, or of all crates and of what runs the cases. The answer
    is a status."""
    crates = read_crates(root)
    unknown = [it for it in words if it not in crates and not (root / it).is_dir()]
    if unknown:
        print(f"files: there is no crate and no folder {unknown[0]}", file=sys.stderr)
        return 2
    silent = 0
    for word in words or [*crates, CASES]:
        folders = [f"crates/{word}/{part}" for part in PARTS] if word in crates else [word]
        for file in [file for folder in folders for file in files_in(root / folder)]:
            said = about(file)
            silent += said is None
            print(f"{file.relative_to(root)}: {said or 'ITS FIRST LINE DOES NOT SAY'}")
    return 1 if silent else 0
