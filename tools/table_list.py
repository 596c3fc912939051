"""Parts of the manuals and of the pages that are made of tables in the sources, each between two lines that say so."""

from __future__ import annotations

import re
import sys
from pathlib import Path
from typing import Dict, List

import manual_parts
import page_parts
import synopses
from command_facts import read_facts
from command_rows import (
    bootkeep_usages,
    bootvars_commands,
    efibootmgr_options,
    efibootmgr_values,
)
from repository import ROOT

PART = re.compile(
    r"((?:\.\\\"|<!--) tools/tables makes what follows: ([\w-]+)(?: -->)?\n)"
    r".*?"
    r"((?:\.\\\"|<!--) What tools/tables makes ends here(?: -->)?\n)",
    re.DOTALL,
)
"""A part, with its name between the lines that stay."""

Parts = Dict[str, List[str]]
"""The lines of the parts of a file, by their names."""


class WrongParts(Exception):
    """A file doesn't have the parts that are made."""


def parts_of_files(root: Path = ROOT) -> Dict[str, Parts]:
    """The parts of each file, by its path."""
    facts, commands = read_facts(root), bootvars_commands(root)
    names, statuses = [it.name for it in commands], facts.statuses
    options, values = efibootmgr_options(root), efibootmgr_values(root)
    return {
        "packaging/man/bootvars.1": {
            "synopsis": synopses.synopsis(commands),
            "commands": manual_parts.command_table(facts, commands),
            "options": manual_parts.option_list(facts, commands),
            "statuses": manual_parts.status_list(statuses["bootvars"], names),
        },
        "packaging/man/bootkeep.1": {
            "synopsis": synopses.bootkeep_synopsis(bootkeep_usages(root)),
            "statuses": manual_parts.status_list(statuses["bootkeep"], names),
        },
        "packaging/man/bootvars-efibootmgr.1": {
            "synopsis": synopses.efibootmgr_synopsis(options, values),
            "statuses": manual_parts.status_list(statuses["efibootmgr"], []),
        },
        "docs/commands.md": {
            "commands": page_parts.command_table(facts, commands),
            "bootkeep": page_parts.bootkeep_table(facts),
            "statuses": page_parts.status_table(facts),
            "faults": page_parts.fault_tables(root),
        },
        "docs/architecture.md": {"crates": page_parts.crate_list(root)},
    }


def filled(text: str, parts: Parts) -> str:
    """The text of a file with its parts as they are made.

    Raises WrongParts if it doesn't have each of them once."""
    names = [found[2] for found in PART.finditer(text)]
    if sorted(names) != sorted(parts):
        raise WrongParts(f"it has the parts {names}, and {sorted(parts)} are made")
    return PART.sub(
        lambda it: "".join([it[1], *(f"{line}\n" for line in parts[it[2]]), it[3]]), text
    )


def differences(root: Path = ROOT) -> List[str]:
    """Which files don't have their parts as they are made: nothing if all have."""
    unlike = []
    for name, parts in parts_of_files(root).items():
        text = (root / name).read_text(encoding="utf-8")
        try:
            if filled(text, parts) != text:
                unlike.append(f"{name} isn't as tools/tables makes it")
        except WrongParts as why:
            unlike.append(f"{name}: {why}")
    return unlike


def main(words: List[str], root: Path = ROOT) -> int:
    """Writes the parts, or compares them. The answer is a status."""
    if words not in ([], ["--check"]):
        print("tables: takes --check, or no word", file=sys.stderr)
        return 2
    if words:
        unlike = differences(root)
        print("".join(f"tables: {it}\n" for it in unlike), end="", file=sys.stderr)
        return 1 if unlike else 0
    for name, parts in parts_of_files(root).items():
        file = root / name
        text = file.read_text(encoding="utf-8")
        try:
            made = filled(text, parts)
        except WrongParts as why:
            print(f"tables: {name}: {why}", file=sys.stderr)
            return 1
        if made != text:
            file.write_text(made, encoding="utf-8")
            print(name)
    return 0
