"""Tests that what tools/command_facts.json says is so, by the tables of the sources and by the cases."""

from __future__ import annotations

import re
import sys
import unittest
from pathlib import Path
from typing import Dict, Iterator, List, Set, Tuple

ROOT = Path(__file__).resolve().parents[1]
sys.path.insert(0, str(ROOT / "tools"))

import command_rows  # noqa: E402
import manual_parts  # noqa: E402
from command_cases import (  # noqa: E402
    FOLDER,
    SET_FILE,
    VARIABLE_FILE,
    Run,
    changes_below,
    kind_of,
    place_of,
    runs,
    words_of,
)
from command_facts import CommandFact, read_facts  # noqa: E402

BESIDES = ("after_names", "after_rename", "before_lock", "first")
"""The members of a case in which something else than its words changes files."""

MEMORY = 4
"""The status of `bootvars` that no case has: bench/refused refuses memory to its commands."""

PLACES = {FOLDER, SET_FILE, VARIABLE_FILE}

FILES = {"PLACE", "FROM", "TO", "SET", "SCRIPT", "FILE"}
"""The values of commands that name something which is read."""


class Commands(unittest.TestCase):
    """What commands read and write."""

    def setUp(self) -> None:
        self.facts = read_facts()
        self.commands = {it.name: it for it in command_rows.bootvars_commands()}
        self.all = [it for it in runs("bootvars") if it.words[0] in self.commands]
        self.runs = [
            it for it in self.all if not any(member in it.case.members for member in BESIDES)
        ]

    def of(self, name: str) -> List[Run]:
        """The cases of a command in which nothing else changes files."""
        return [it for it in self.runs if it.words[0] == name]

    def changed(self, name: str) -> Iterator[Tuple[Run, str]]:
        """The cases in which a command changes a place, each with what the place is."""
        for run in self.of(name):
            place = place_of(run, self.commands[name])
            if place and run.status in (0, 6, 12) and any(changes_below(run, place)):
                yield run, kind_of(run, place)

    def test_each_command_is_there(self) -> None:
        self.assertEqual([it.name for it in self.facts.bootvars], list(self.commands))
        usages = [it.split()[0] for it in command_rows.bootkeep_usages()]
        self.assertEqual([it.name for it in self.facts.bootkeep], usages[:-1])

    def test_each_file_that_is_named_is_read_or_written(self) -> None:
        for fact in self.facts.bootvars:
            for argument in self.commands[fact.name].arguments:
                if not argument.is_option and argument.name in FILES:
                    self.assertIn(f"`{argument.name}`", fact.reads, fact.name)

    def test_those_that_write_nothing_change_nothing(self) -> None:
        for fact in self.facts.bootvars:
            if not fact.writes:
                for run in self.of(fact.name):
                    self.assertEqual(run.after(), {}, f"{fact.name}: {run.case.name}")

    def test_those_that_write_a_file_write_it(self) -> None:
        for fact in self.facts.bootvars:
            if "--out" in "".join(it.what for it in fact.writes):
                made = [
                    run
                    for run in self.of(fact.name)
                    if "--out" in run.words
                    and run.words[run.words.index("--out") + 1] in run.after()
                ]
                self.assertTrue(made, fact.name)

    def test_places_that_are_written_are_changed_in_a_case(self) -> None:
        """Of each kind by one of the commands that are said to write the same, and by each command of one kind."""
        found: Dict[str, Set[str]] = {}
        for fact in self.facts.bootvars:
            kinds = {it.what for it in fact.writes} & PLACES
            if kinds:
                seen = {kind for _, kind in self.changed(fact.name)}
                self.assertTrue(seen, fact.name)
                self.assertLessEqual(seen, kinds, fact.name)
                found.setdefault(str(sorted(kinds)), set()).update(seen)
        for kinds_of_some, seen in found.items():
            self.assertEqual(kinds_of_some, str(sorted(seen)))

    def test_those_that_go_by_the_journal_write_it(self) -> None:
        for fact in self.facts.bootvars:
            if any(it.how == "journal" for it in fact.writes):
                kept = [
                    run
                    for run in self.of(fact.name)
                    if any(it.endswith("/journal") for it in run.paths_after())
                ]
                self.assertTrue(kept, fact.name)

    def undone(self, name: str) -> List[Run]:
        """The cases in which `undo` follows a command, and undoes what it did."""
        return [
            run
            for run in self.all
            if run.words[0] == "undo"
            and run.status == 0
            and words_of(run.case, "first")[:1] == [name]
            and not run.has("--list", "--dry-run")
        ]

    def test_those_that_are_undone_are_undone_in_a_case(self) -> None:
        for fact in self.facts.bootvars:
            if any(it.undo == "yes" for it in fact.writes):
                self.assertTrue(self.undone(fact.name), fact.name)

    def test_what_needs_the_state_folder_is_undone_with_it(self) -> None:
        kinds = [
            kind_of(run, run.words[1])
            for fact in self.facts.bootvars
            for run in self.undone(fact.name)
            if any(it.undo == "`FOLDER`" for it in fact.writes)
        ]
        self.assertIn(VARIABLE_FILE, kinds)

    def test_a_set_file_is_not_undone(self) -> None:
        said = {
            it.undo for fact in self.facts.bootvars for it in fact.writes if it.what == SET_FILE
        }
        self.assertEqual(said, {"no"})
        refused = [it for it in self.of("undo") if kind_of(it, it.words[1]) == SET_FILE]
        self.assertTrue(refused)
        self.assertEqual({it.status for it in refused}, {5})

    def test_a_dry_run_changes_nothing(self) -> None:
        for run in self.runs:
            if run.has("--dry-run"):
                self.assertTrue(self.commands[run.words[0]].has("dry-run"), run.case.name)
                place = place_of(run, self.commands[run.words[0]])
                self.assertEqual(list(changes_below(run, place or "")), [], run.case.name)

    def test_each_that_has_json_prints_it_in_a_case(self) -> None:
        for name, command in self.commands.items():
            if command.has("json"):
                self.assertTrue(any(run.has("--json") for run in self.of(name)), name)


class Options(unittest.TestCase):
    """What options do."""

    def test_each_option_of_each_command_is_said_once(self) -> None:
        taken = list(manual_parts.options_of(command_rows.bootvars_commands()))
        wanted = sorted((option.name, command) for command, option in taken)
        said = []
        for fact in read_facts().options:
            all_of_them = [command for command, option in taken if option.name == fact.name]
            said += [(fact.name, command) for command in fact.of or all_of_them]
        self.assertEqual(sorted(said), wanted)

    def test_options_that_are_named_are_there(self) -> None:
        facts = read_facts()
        known = {it.name for _, it in manual_parts.options_of(command_rows.bootvars_commands())}
        texts = [it.means for it in facts.options]
        texts += [it.means for it in facts.statuses["bootvars"]]
        texts += [it.reads for it in facts.bootvars]
        named = {name for text in texts for name in re.findall(r"`[^`]*?--([\w-]+)", text)}
        self.assertIn("force", named)
        self.assertLessEqual(named, known)


class Statuses(unittest.TestCase):
    """What statuses say."""

    def test_they_are_those_of_the_sources(self) -> None:
        for program, facts in read_facts().statuses.items():
            with self.subTest(program):
                numbers = [it.status for it in facts]
                self.assertEqual(sorted(set(numbers)), command_rows.statuses(program))
                self.assertEqual(numbers, sorted(numbers))

    def test_each_has_a_case(self) -> None:
        for program, facts in read_facts().statuses.items():
            ended = ends_of(program)
            for fact in facts:
                if (program, fact.status) != ("bootvars", MEMORY):
                    some = [it for it, status in ended if status == fact.status]
                    named = [it for it in some if not fact.of or it in fact.of]
                    self.assertTrue(named, f"{program}: {fact.status}, {fact.of}")

    def test_each_case_has_one_that_is_said_of_its_command(self) -> None:
        for program, facts in read_facts().statuses.items():
            for command, status in ends_of(program):
                said = [
                    it for it in facts if it.status == status and command in (it.of or [command])
                ]
                self.assertTrue(said, f"{program} {command}: {status}")

    def test_those_of_refused_memory_are_tried_elsewhere(self) -> None:
        bench = (ROOT / "bench/refused").read_text(encoding="utf-8")
        self.assertIn("--commands", bench)


def ends_of(program: str) -> List[Tuple[str, int]]:
    """The first word and the status of each case of a program; `efibootmgr` is a command of `bootvars`."""
    if program == "efibootmgr":
        return [("", it.status) for it in runs("bootvars") if it.words[0] == program]
    commands = [it.name for it in fact_commands(program)]
    return [
        (it.words[0] if it.words[0] in commands else "", it.status)
        for it in runs(program)
        if it.words[0] != "efibootmgr"
    ]


def fact_commands(program: str) -> List[CommandFact]:
    """The commands of a program."""
    facts = read_facts()
    return facts.bootvars if program == "bootvars" else facts.bootkeep


if __name__ == "__main__":
    unittest.main()
