"""The definitions in the specs of a crate, which its contracts are in terms of, in an order in which they can be read.

A file of specs/ is its first comment, its imports, and definitions with a comment above them, with an empty line between
any two. Headings, lines that begin with `-- ----`, part them into sections."""

from __future__ import annotations

import re
import sys
from dataclasses import dataclass
from pathlib import Path
from typing import Dict, List

from repository import ROOT, crates_below, read_crates

MODULE = re.compile(r"^(?:pub )?mod (\w+)$", re.MULTILINE)
"""A line of Lib.antt that names a file beside it."""

DEFINES = re.compile(
    r"^(?:abbrev|unfoldable|record|data|pub record|pub data) +(?:pub +)?(\S+)", re.M
)
"""The first line of a definition, with its name. The places of an operator's operands are written ◌ there."""


@dataclass(frozen=True)
class Module:
    """A file of a crate's specs."""

    crate: str
    name: str
    about: str
    """Its first comment."""
    parts: List[str]
    """Its definitions, each with its comment, and the headings between them."""
    imports: List[str]
    """The other files of the crate that it imports from, and `declared` if it imports a type of the code, or `contracts` if
    it imports what contracts see of one."""


def name_of(part: str) -> str:
    """The name that a part of a file defines, or none of a heading."""
    found = DEFINES.search(part)
    return found[1].replace("◌", "") if found else ""


def read_module(crate: str, file: Path) -> Module:
    """A file of a crate's specs."""
    about: List[str] = []
    parts: List[str] = []
    text = file.read_text(encoding="utf-8")
    for part in re.split(r"\n\n+", text.strip("\n")):
        lines = [line for line in part.splitlines() if not line.startswith("use ")]
        if len(lines) < len(part.splitlines()) and not parts and not about:
            about = lines
        elif lines:
            parts.append("\n".join(lines))
    imports = re.findall(rf"^use Rattle\.{crate}\.specs\.(\w+)\.", text, re.MULTILINE)
    return Module(crate, file.stem, "\n".join(about), parts, imports)


def modules_of(crate: str, root: Path = ROOT) -> List[Module]:
    """The files of a crate's specs in the order of Lib.antt, but each after those that it imports from."""
    specs = root / "crates" / crate / "specs"
    listed = specs / "Lib.antt"
    if not listed.is_file():
        return []
    names = MODULE.findall(listed.read_text(encoding="utf-8"))
    modules = {it: read_module(crate, specs / f"{it}.antt") for it in names}
    ordered: Dict[str, Module] = {}

    def add(module: Module) -> None:
        for name in names:
            if name in module.imports and name not in ordered:
                add(modules[name])
        ordered[module.name] = module

    for module in modules.values():
        if module.name not in ordered:
            add(module)
    return list(ordered.values())


def found_in(modules: List[Module], words: List[str]) -> List[Module]:
    """The modules with the definitions alone that have one of the words as their name, or, if no definition has, those
    that have one in their name, letter case aside."""
    lower = [it.lower() for it in words]
    all_names = {name_of(part) for module in modules for part in module.parts} - {""}
    wanted = all_names & set(words)
    if not wanted:
        wanted = {name for name in all_names if any(it in name.lower() for it in lower)}
    found = []
    for module in modules:
        parts = [part for part in module.parts if name_of(part) in wanted]
        if parts:
            found.append(Module(module.crate, module.name, module.about, parts, module.imports))
    return found


def main(words: List[str], root: Path = ROOT) -> int:
    """Shows the definitions of a crate, or those of it and the crates below that are named. The answer is a status."""
    crates = read_crates(root)
    if not words or words[0] not in crates:
        print("definitions: takes the name of a crate, and words to look for", file=sys.stderr)
        return 2
    crate, *wanted = words
    if wanted:
        among = [*crates_below(crate, crates), crate]
        modules = found_in([module for it in among for module in modules_of(it, root)], wanted)
    else:
        modules = modules_of(crate, root)
    for module in modules:
        head = f"==== {module.crate}: {module.name}.antt"
        print("\n\n".join(filter(None, [head, module.about, *module.parts])), end="\n\n")
    return 0 if modules else 1
