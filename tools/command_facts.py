"""What is so of the commands and has no table in the sources, as tools/command_facts.json says it.

tests/test_command_facts.py compares it with the tables that there are, and with the cases."""

from __future__ import annotations

import json
from dataclasses import dataclass
from pathlib import Path
from typing import Any, Dict, List

from repository import ROOT

FILE = "tools/command_facts.json"


@dataclass(frozen=True)
class Written:
    """Something that a command may change."""

    what: str
    how: str
    """`journal`, if a change that is interrupted is finished or rolled back later, or `whole`, if a file is replaced."""
    undo: str
    """`yes`, `no`, or `FOLDER` if it is undone where the state folder is there."""

    def needs_root(self) -> bool:
        """Whether root has to call the command: the system lets root alone write the variables of the firmware."""
        return self.what == "a folder"


@dataclass(frozen=True)
class CommandFact:
    """What a command reads and writes."""

    name: str
    reads: str
    writes: List[Written]


@dataclass(frozen=True)
class OptionFact:
    """What an option does."""

    name: str
    of: List[str]
    """The commands of which that is so; all that take it, if there is none."""
    means: str


@dataclass(frozen=True)
class StatusFact:
    """What a status says."""

    status: int
    of: List[str]
    """The commands of which that is so; all, if there is none."""
    called: str
    """What these are called together, if they are."""
    means: str


@dataclass(frozen=True)
class Facts:
    """All that the file says."""

    bootvars: List[CommandFact]
    bootkeep: List[CommandFact]
    options: List[OptionFact]
    statuses: Dict[str, List[StatusFact]]
    """Those of each program, by rising number."""

    def own_statuses(self, command: str) -> List[int]:
        """The statuses of `bootvars` that a command has, and not every one."""
        named = [it.status for it in self.statuses["bootvars"] if command in it.of and it.status]
        return sorted(set(named))


def read_facts(root: Path = ROOT) -> Facts:
    """What the file says."""
    said: Dict[str, Any] = json.loads((root / FILE).read_text(encoding="utf-8"))
    writes = {name: [Written(**it) for it in some] for name, some in said["writes"].items()}
    commands = {
        program: [
            CommandFact(it["name"], it["reads"], writes[it["writes"]]) for it in said[program]
        ]
        for program in ("bootvars", "bootkeep")
    }
    return Facts(
        commands["bootvars"],
        commands["bootkeep"],
        [OptionFact(it["name"], it.get("of", []), it["means"]) for it in said["options"]],
        {
            program: [
                StatusFact(it["status"], it.get("of", []), it.get("called", ""), it["means"])
                for it in statuses
            ]
            for program, statuses in said["statuses"].items()
        },
    )
