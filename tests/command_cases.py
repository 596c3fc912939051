"""The cases of command lines, by what they call, and what becomes of places in them."""

from __future__ import annotations

import functools
from pathlib import Path
from typing import Dict, Iterator, List, NamedTuple, Optional

from case_files import Case, Stated, bytes_of, read_cases
from command_rows import Command

CASES = Path(__file__).resolve().parent / "cases"

SET_FILE, VARIABLE_FILE, FOLDER = "a set file", "a variable file", "a folder"

OWN_FOLDER = "/sys/firmware/efi/efivars"
"""The place of `efibootmgr`, unless its environment names another one."""


class Run(NamedTuple):
    """A case of a command line of `bootvars`, or the one that is called first there."""

    case: Case
    words: List[str]

    @property
    def status(self) -> int:
        """The status that it wants."""
        return int(self.case.members.get("status", 0))

    def after(self) -> Dict[str, Stated]:
        """What is there after it that wasn't before, by paths: `null` if it is gone."""
        after: Dict[str, Stated] = self.case.members.get("after", {})
        return after

    def paths_after(self) -> List[str]:
        """The paths of files that it changes, or that nobody compares after it."""
        unchecked: List[str] = self.case.members.get("unchecked", [])
        return [*self.after(), *unchecked]

    def has(self, *options: str) -> bool:
        """Whether one of these options is given."""
        return any(it in self.words for it in options)


@functools.lru_cache(maxsize=None)
def runs(program: str) -> List[Run]:
    """The cases of a program whose words begin with a command, but those that state something wrong."""
    found = []
    for file in sorted(CASES.glob("*.json")):
        if not file.name.startswith("wrong_"):
            found += [
                Run(it, words_of(it, "words")) for it in read_cases(file) if it.call == program
            ]
    return [it for it in found if it.words]


def words_of(case: Case, member: str) -> List[str]:
    """Words of a case that are texts."""
    return [it for it in case.members.get(member, []) if isinstance(it, str)]


def values_of(command: Command, words: List[str]) -> Dict[str, str]:
    """The values that words of a command have by their places, the first of each name."""
    names = [it.name for it in command.arguments if not it.is_option]
    takes = {f"--{it.name}" for it in command.arguments if it.is_option and it.value}
    given = iter(words[1:])
    values: List[str] = []
    for word in given:
        if word in takes:
            next(given, None)
        elif not word.startswith("--"):
            values.append(word)
    return dict(zip(names, values))


def place_of(run: Run, command: Command) -> Optional[str]:
    """The path of the place that a run changes."""
    if command.name == "efibootmgr":
        around: Dict[str, str] = run.case.members.get("environment", {})
        return around.get("EFIVARFS_PATH", OWN_FOLDER).rstrip("/")
    return values_of(command, run.words).get("PLACE")


def kind_of(run: Run, place: str) -> str:
    """What a place is."""
    stated = run.case.members.get("files", {})
    if place not in stated:
        return FOLDER
    return SET_FILE if bytes_of(stated[place]).startswith(b"BVS1") else VARIABLE_FILE


def changes_below(run: Run, place: str) -> Iterator[str]:
    """The paths of what a run changes of a place."""
    yield from (it for it in run.paths_after() if it == place or it.startswith(f"{place}/"))
