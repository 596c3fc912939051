"""Tests of what reads the tables of commands: over a small source, and over this repository beside what the programs'
helps print, as completions and cases have it."""

from __future__ import annotations

import re
import sys
import tempfile
import unittest
from pathlib import Path
from typing import Dict, Iterator, List, Tuple

ROOT = Path(__file__).resolve().parents[1]
sys.path.insert(0, str(ROOT / "tools"))

import command_rows  # noqa: E402
import completion_list  # noqa: E402
import rattle_values  # noqa: E402
import synopses  # noqa: E402
from case_files import text_of  # noqa: E402
from command_cases import runs  # noqa: E402
from command_rows import Argument, Command, Group  # noqa: E402

SOURCE = """//! A table.

/// What a row has.
impl Row {
    pub(crate) const PLAIN: Row = Row {
        name: "",
        help: "",
        kind: Kind::Flag,
        is_needed: false,
        others: &[],
    };
}

/// Says "what"; in two lines.
const ABOUT: &str = "\\
Says \\"what\\", and \\
goes on.\\n";

const NONE: [&str; 2] = ["a", "b"];

pub(crate) static ROWS: [Row; 2] = [
    Row {
        name: "out",
        help: ABOUT,
        kind: Kind::Option("FILE"), // A comment.
        is_needed: true,
        others: &NONE,
    },
    Row {
        name: "all",
        long: Some("All"),
        count: 3,
        ..Row::PLAIN
    },
];
"""


class Values(unittest.TestCase):
    """Constants of a small source."""

    def setUp(self) -> None:
        with tempfile.TemporaryDirectory() as folder:
            file = Path(folder, "rows.rt")
            file.write_text(SOURCE, encoding="utf-8")
            self.constants = rattle_values.Constants([file])

    def test_rows(self) -> None:
        named = rattle_values.Named
        first, second = self.constants.value("ROWS")
        self.assertEqual(
            first,
            {
                "name": "out",
                "help": 'Says "what", and goes on.\n',
                "kind": named("Kind::Option", ("FILE",)),
                "is_needed": True,
                "others": ["a", "b"],
            },
        )
        self.assertEqual((second["name"], second["help"], second["others"]), ("all", "", []))
        self.assertEqual((second["kind"], second["long"]), (named("Kind::Flag", ()), "All"))
        self.assertEqual((second["count"], second["is_needed"]), (3, False))

    def test_what_is_not_there(self) -> None:
        for name in ("PLAIN", "ROW"):
            with self.assertRaises(rattle_values.NoValue):
                self.constants.value(name)
        self.assertEqual(self.constants.value("Row::PLAIN")["name"], "")


def flag(name: str, *excludes: str, instead: Tuple[str, ...] = ()) -> Argument:
    """An option without a value."""
    return Argument(name, "", True, False, False, list(instead), list(excludes), [])


def value(name: str, instead: Tuple[str, ...] = (), excludes: Tuple[str, ...] = ()) -> Argument:
    """A value, which has to be given if nothing is given instead."""
    return Argument(name, name, False, not instead, False, list(instead), list(excludes), [])


class Synopses(unittest.TestCase):
    """How small commands are called."""

    def called(self, *arguments: Argument, groups: Tuple[Group, ...] = ()) -> List[List[str]]:
        """The ways to call a command with these arguments."""
        return synopses.called(Command("do", list(arguments), list(groups), []))

    def test_options_and_values(self) -> None:
        out = Argument("out", "FILE", True, True, False, [], [], [])
        many = Argument("expect", "WHAT", True, False, True, [], [], [])
        self.assertEqual(
            self.called(value("PLACE"), flag("json"), out, many),
            [[".Fl -out Ar FILE", ".Op Fl -json", ".Oo Fl -expect Ar WHAT Oc ...", ".Ar PLACE"]],
        )

    def test_a_flag_in_the_place_of_a_value(self) -> None:
        entry = value("ENTRY", ("none",), ("none",))
        self.assertEqual(
            self.called(value("PLACE"), entry, flag("none"), flag("json")),
            [[".Op Fl -json", ".Ar PLACE", ".Brq Ar ENTRY | Fl -none"]],
        )

    def test_a_flag_that_excludes_others_has_a_line_of_its_own(self) -> None:
        self.assertEqual(
            self.called(value("PLACE"), flag("list", "dry-run"), flag("dry-run"), flag("json")),
            [
                [".Op Fl -dry-run", ".Op Fl -json", ".Ar PLACE"],
                [".Fl -list", ".Op Fl -json", ".Ar PLACE"],
            ],
        )

    def test_a_value_that_may_be_left_out_beside_a_flag(self) -> None:
        script = value("SCRIPT", ("next", "settle", "look"), ("next", "settle"))
        stream = Argument("stream", "", True, False, False, [], ["next", "settle"], ["SCRIPT"])
        flags = (flag("next", "settle"), flag("settle"), flag("look", "next", "settle"))
        self.assertEqual(
            self.called(value("PLACE"), script, stream, *flags),
            [
                [".Op Fl -stream", ".Ar PLACE", ".Ar SCRIPT"],
                [".Brq Fl -next | Fl -settle", ".Ar PLACE"],
                [".Fl -look", ".Op Fl -stream", ".Ar PLACE", ".Op Ar SCRIPT"],
            ],
        )

    def test_groups(self) -> None:
        groups = (Group(["first", "last"], False), Group(["hex", "text"], True))
        arguments = [flag(it) for it in ("first", "last", "hex", "text")]
        self.assertEqual(
            self.called(*arguments, groups=groups),
            [[".Brq Fl -hex | Fl -text", ".Op Fl -first | Fl -last"]],
        )

    def test_commands_that_are_called_alike(self) -> None:
        same = [Command(name, [value("PLACE")], [], []) for name in ("on", "off")]
        self.assertEqual(
            synopses.synopsis([*same, Command("ask", [flag("json")], [], [])]),
            [".Nm", ".Cm on | off", ".Ar PLACE", ".Nm", ".Cm ask", ".Op Fl -json"],
        )

    def test_a_usage(self) -> None:
        self.assertEqual(
            synopses.bootkeep_lines("run [--stream] SET SCRIPT --out FILE".split()),
            [".Cm run", ".Op Fl -stream", ".Ar SET SCRIPT", ".Fl -out Ar FILE"],
        )


def all_commands(
    commands: List[Command], words: str = "bootvars", inherited: Tuple[str, ...] = ()
) -> Iterator[Tuple[str, List[str]]]:
    """The words of each command, with the names of its options, and of those of the command that it is of."""
    for command in commands:
        options = (*inherited, *command.options())
        yield f"{words} {command.name}", sorted(options)
        yield from all_commands(command.commands, f"{words} {command.name}", options)


class ThisRepository(unittest.TestCase):
    """The commands of the programs, beside what their helps print."""

    def setUp(self) -> None:
        self.commands = command_rows.bootvars_commands()

    def test_options_are_those_of_the_completions(self) -> None:
        """The gate compares these with what the program prints."""
        fish = (completion_list.FOLDER / "bootvars.fish").read_text(encoding="utf-8")
        found: Dict[str, List[str]] = {}
        for words, name in re.findall(r"_at (bootvars [\w -]+)' -l ([\w-]+)", fish):
            if name not in ("help", "version"):
                found.setdefault(words, []).append(name)
        wanted = {words: options for words, options in all_commands(self.commands) if options}
        self.assertEqual({words: sorted(it) for words, it in found.items()}, wanted)

    def test_commands_are_those_of_the_completions(self) -> None:
        fish = (completion_list.FOLDER / "bootvars.fish").read_text(encoding="utf-8")
        for words, commands in (
            ("bootvars", self.commands),
            ("bootvars frame", next(it for it in self.commands if it.name == "frame").commands),
        ):
            found = re.findall(rf"_at {words}' -a ([\w-]+) ", fish)
            self.assertEqual(found, [it.name for it in commands])

    def test_helps_of_cases_have_the_options_and_their_values(self) -> None:
        compared = 0
        for run in runs("bootvars"):
            printed = text_of(run.case.members.get("stdout", ""))
            usage = re.search(r"^Usage: bootvars ([\w-]+) (.*)$", printed, re.MULTILINE)
            named = [
                it for it in self.commands if usage and it.name == usage[1] and not it.commands
            ]
            if usage and named and run.status == 0:
                self.compare(named[0], usage[2], completion_list.read_help("", printed))
                compared += 1
        self.assertGreater(compared, 10)

    def compare(self, command: Command, usage: str, printed: completion_list.Command) -> None:
        """Compares a command with its help."""
        options = {
            it.name: it.value for it in printed.options if it.name not in ("help", "version")
        }
        mine = {it.name: it.value for it in command.arguments if it.is_option}
        self.assertEqual(options, mine, command.name)
        needed = re.findall(r"(?:^| )(?:--[\w-]+ )?<(\w+)>", re.sub(r"<--.*?>>|<<.*?>", "", usage))
        for argument in command.arguments:
            if argument.is_required:
                self.assertIn(argument.value, needed, f"{command.name}: {usage}")

    def test_the_usage_of_bootkeep_is_that_of_a_case(self) -> None:
        help_run = next(it for it in runs("bootkeep") if it.words == ["--help"] and it.status == 0)
        printed = text_of(help_run.case.members["stdout"])
        *usages, asking = command_rows.bootkeep_usages()
        self.assertEqual(printed, f"usage: bootkeep {' | '.join(usages)}\n")
        self.assertEqual(asking, "--help")

    def test_the_options_of_efibootmgr_are_those_of_a_case(self) -> None:
        wanted = ["efibootmgr", "-h", "--zzz"]
        run = next(it for it in runs("bootvars") if it.words == wanted)
        named = re.findall(r"--([\w-]+)", text_of(run.case.members["stdout"]))
        self.assertEqual(named, list(command_rows.efibootmgr_values()))

    def test_the_values_of_efibootmgr(self) -> None:
        values = command_rows.efibootmgr_values()
        self.assertEqual((values["edd30"], values["part"], values["quiet"]), ("-1 | 0", "part", ""))


if __name__ == "__main__":
    unittest.main()
