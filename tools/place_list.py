"""Places in the sources that have a case of a thing, and which of them have none of another one."""

from __future__ import annotations

import os
import re
import sys
from pathlib import Path
from typing import Dict, List, Set, Tuple

from repository import ROOT

SUFFIXES = {".antt", ".c", ".h", ".json", ".py", ".rattle", ".rs", ".rt"}
"""The files in which cases are. Pages tell of a thing in their own ways, and each has edits of its own."""

MADE = {"__pycache__", "out", "target"}
"""Folders of what is made from the sources."""

PASSED_OVER = ("--", "//", "#[")
"""What begins a line that speaks of what is declared after it."""

NAME = re.compile(r"[A-Za-z][A-Za-z0-9]*(?:[_-][A-Za-z0-9]+)*")
WORD = re.compile(r"[A-Z]+(?![a-z])|[A-Z]?[a-z]+|[0-9]+")

DECLARED = re.compile(
    r'\[?\{"call": "([^"]+)"'
    r"|\s{0,4}(?:pub(?:\([a-z]+\))? )?(?:const |static |unsafe )*"
    r"(?:fn|struct|enum|trait|macro_rules!|class|def) ([A-Za-z_]\w*)"
    r"|(?!module |use )(?:pub |abbrev |unfoldable )*(?:record |data )?([A-Za-z][\w'-]*)(?: [^:=]*)? : "
)
"""A line that begins a place: the cases of a call, a declaration of code, or a definition or a lemma."""

Place = Tuple[str, str]
"""A file, and what is declared in it, with a star for the thing where a name has it."""


def words_of(name: str) -> List[str]:
    """The words of a name, in small letters."""
    return [it.lower() for part in re.split("[_-]", name) for it in WORD.findall(part)]


def starred(name: str, thing: List[str]) -> str:
    """The words of a name, with a star where they are the thing's, and without the number that tells it apart."""
    words = words_of(re.sub(r"[_-][0-9]+$", "", name))
    for at in range(len(words) - len(thing) + 1):
        if words[at : at + len(thing)] == thing:
            return "_".join([*words[:at], "*", *words[at + len(thing) :]])
    return "_".join(words)


def places_of(file: str, text: str, thing: List[str]) -> Dict[Place, str]:
    """The places of a file that have a case of the thing, and how each is called there."""
    found: Dict[Place, str] = {}
    place = ""
    for line in text.splitlines():
        if line.lstrip().startswith(PASSED_OVER):
            continue
        declared = None if file.endswith((".c", ".h")) else DECLARED.match(line)
        if declared:
            place = next(it for it in declared.groups() if it)
        if thing[0] not in line.lower():
            continue
        if any("*" in starred(it, thing) for it in NAME.findall(line)):
            found.setdefault((file, starred(place, thing)), place)
    return found


def sources(folders: List[str], root: Path) -> List[str]:
    """The files that may have cases, by their paths."""
    found: Set[Path] = set()
    for folder in folders or ["."]:
        for path, inner, files in os.walk(root / folder):
            inner[:] = [it for it in inner if it not in MADE and not it.startswith(".")]
            found.update(Path(path, it).relative_to(root) for it in files)
    return [str(it) for it in sorted(found) if it.suffix in SUFFIXES]


def main(words: List[str], root: Path = ROOT) -> int:
    """Lists the places that are left. The answer is a status."""
    if len(words) < 2:
        print("places: words are PATTERN NAME [FOLDER]..", file=sys.stderr)
        return 2
    pattern, name, *folders = words
    unknown = [it for it in folders if not (root / it).is_dir()]
    if unknown:
        print(f"places: there is no folder {unknown[0]}", file=sys.stderr)
        return 2
    wanted: Dict[Place, str] = {}
    there: Set[Place] = set()
    for file in sources(folders, root):
        text = (root / file).read_text(encoding="utf-8")
        wanted.update(places_of(file, text, words_of(pattern)))
        there.update(places_of(file, text, words_of(name)))
    if not wanted:
        print(f"places: nothing has a case of {pattern}", file=sys.stderr)
        return 2
    left = [place for place in wanted if place not in there]
    for place in left:
        print(f"{place[0]}: {wanted[place]}" if wanted[place] else place[0])
    return 1 if left else 0
