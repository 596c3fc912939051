"""The commands of the programs with their arguments, as the tables in their sources have them, and the statuses that they
end with."""

from __future__ import annotations

import re
from dataclasses import dataclass
from pathlib import Path
from typing import Dict, Iterator, List, NamedTuple

from rattle_values import Constants, Value
from repository import ROOT

DRY_RUN = "dry-run"
"""The option of commands that change something, by which they only show it."""

ADDED = re.compile(r"add_commands\(alloc, &mut commands, &(\w+)\)|add_(frame)\(alloc")
"""Where a table of commands is taken, or the one command that has commands of its own."""

OPTION_ROW = re.compile(r"row!\('(.)', \"([\w-]+)\", (\w+), (\w+)\)")

STATUS_FUNCTION = re.compile(
    r"^    (?:pub(?:\(crate\))? )?fn status\(.*?^        match self \{$(.*?)^        \}$",
    re.MULTILINE | re.DOTALL,
)
STATUS_ARM = re.compile(r"=> (\d+),")
"""The function that gives the statuses of something, and one of them."""


@dataclass(frozen=True)
class Argument:
    """An argument of a command."""

    name: str
    """What stands behind the two hyphens of an option, and otherwise what the value is called."""
    value: str
    """What its value is called; nothing if it has none."""
    is_option: bool
    is_required: bool
    is_repeated: bool
    instead: List[str]
    """Those of which one has to be given if this isn't, and those that may be given in its place."""
    excludes: List[str]
    """Those that can't be given beside it."""
    needs: List[str]
    """Those that have to be given with it."""

    def agrees(self, other: "Argument") -> bool:
        """Whether both may be given."""
        return other.name not in self.excludes and self.name not in other.excludes


class Group(NamedTuple):
    """Arguments of which at most one is given."""

    names: List[str]
    is_required: bool


@dataclass(frozen=True)
class Command:
    """A command."""

    name: str
    arguments: List[Argument]
    groups: List[Group]
    commands: List["Command"]
    """Its own commands."""

    def options(self) -> List[str]:
        """The names of its options, in the order of the help."""
        return [it.name for it in self.arguments if it.is_option]

    def argument(self, name: str) -> Argument:
        """The argument of this name."""
        return next(it for it in self.arguments if it.name == name)

    def has(self, name: str) -> bool:
        """Whether it has an argument of this name."""
        return any(it.name == name for it in self.arguments)


def sources(crate: str, root: Path = ROOT) -> List[Path]:
    """The files of a crate's code."""
    return sorted((root / "crates" / crate / "src").rglob("*.rt"))


def bootvars_commands(root: Path = ROOT) -> List[Command]:
    """The commands of `bootvars`, in the order of its help."""
    constants = Constants(sources("bootvars_words", root))
    program = (root / "crates/bootvars_words/src/commands.rt").read_text(encoding="utf-8")
    found = []
    for table, frame in ADDED.findall(program):
        if frame:
            requests = [command_of(it, []) for it in constants.value("REQUESTS")]
            found.append(command_of(constants.value("FRAME"), requests))
        else:
            found += [command_of(it, []) for it in constants.value(table)]
    return found


def command_of(row: Value, commands: List[Command]) -> Command:
    """The command of a row, with these of its own."""
    arguments = [argument_of(it) for it in row["args"]]
    groups = [Group(it["args"], it["is_required"]) for it in row["groups"]]
    return Command(row["name"], arguments, groups, commands)


def argument_of(row: Value) -> Argument:
    """The argument of a row."""
    is_option = not row["kind"].name.endswith("Value")
    named = row["kind"].parts
    return Argument(
        name=row["name"],
        value=named[0] if named else "" if is_option else row["name"],
        is_option=is_option,
        is_required=row["is_required"],
        is_repeated=row["action"].name.endswith("Append"),
        instead=row["required_without"],
        excludes=row["excludes"],
        needs=row["needs"],
    )


def bootkeep_usages(root: Path = ROOT) -> List[str]:
    """How each command of `bootkeep` is called, after the program's name."""
    usage = str(Constants(sources("bootkeep", root)).value("USAGE"))
    return [*usage.replace("usage: bootkeep ", "", 1).split(" | "), "--help"]


class Letter(NamedTuple):
    """An option of `efibootmgr`."""

    letter: str
    """Its letter; nothing if it has none."""
    name: str
    takes: str
    """`Nothing`, `Value`, or `Perhaps` if it may have a value."""
    choice: str
    """What it is; another name of the same option has the same."""


def efibootmgr_options(root: Path = ROOT) -> List[Letter]:
    """The options that `efibootmgr` knows, also those that aren't done here."""
    source = (root / "crates/efibootmgr_words/src/option_table.rt").read_text(encoding="utf-8")
    return [Letter(it[0].strip(), *it[1:]) for it in OPTION_ROW.findall(source)]


def efibootmgr_values(root: Path = ROOT) -> Dict[str, str]:
    """What the values of the options that are done are called, by the options' names; nothing if an option has none."""
    text = str(Constants(sources("efibootmgr_words", root)).value("HELP"))
    takes = {it.name: it.takes for it in efibootmgr_options(root)}
    return {
        name: value_named(after) if takes[name] == "Value" else ""
        for line in text.splitlines()
        for name, after in re.findall(r"--([\w-]+)([^|]*(?:\| \d)?)", line)
    }


def value_named(after: str) -> str:
    """What a value is called that these words of the help begin with."""
    alternatives = re.match(r" (\S+ \| \S+)", after)
    return alternatives[1] if alternatives else after.split()[0]


STATUS_FILES = {
    "bootvars": ["messages/src/failure.rt", "var_commands/src/program.rt"],
    "bootkeep": ["bootkeep/src/failure.rt"],
    "efibootmgr": ["efibootmgr_words/src/fault.rt", "efibootmgr_runs/src/stopped.rt"],
}
"""Where the statuses of each program are."""


def statuses(program: str, root: Path = ROOT) -> List[int]:
    """The statuses that the sources of a program end it with, by rising number."""
    found = {0} if program != "efibootmgr" else {0, *closed(root)}
    for file in STATUS_FILES[program]:
        source = (root / "crates" / file).read_text(encoding="utf-8")
        found.update(status for arms in STATUS_FUNCTION.findall(source) for status in arms_of(arms))
    return sorted(found)


def arms_of(arms: str) -> Iterator[int]:
    """The statuses in the arms of a match."""
    yield from (int(it) for it in STATUS_ARM.findall(arms))


def closed(root: Path) -> List[int]:
    """The status if nobody reads standard output any more, which `efibootmgr` has of `bootvars`."""
    source = (root / "crates/messages/src/failure.rt").read_text(encoding="utf-8")
    return [int(it) for it in re.findall(r"Failure::Closed => (\d+),", source)]
