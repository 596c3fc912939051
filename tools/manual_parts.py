"""What the manuals say of commands, options and statuses."""

from __future__ import annotations

import re
from typing import Dict, Iterator, List, Tuple

import mdoc
from command_facts import Facts, OptionFact, StatusFact, Written
from command_rows import DRY_RUN, Argument, Command

SECTION = r'"[A-Z][\w ]+"'

PATTERN = mdoc.pattern_of(mdoc.BACKQUOTED, mdoc.MANUAL, SECTION)

FEW = 4
"""How many commands at most are named where an option does the same in all of them."""

YES, NO = "yes", "-"


def text_lines(text: str, names: List[str]) -> List[str]:
    """The lines of a text, in which these are the names of commands."""

    def macro(marked: str) -> str:
        if marked.startswith("`"):
            return macro_of(marked[1:-1], names)
        return f"Sx {marked[1:-1]}" if marked.startswith('"') else mdoc.manual_macro(marked)

    return mdoc.lines_of(text, macro, PATTERN)


def macro_of(words: str, names: List[str]) -> str:
    """The macro for words of a command line, the path of a file, or something else that is typed."""
    first, _, value = words.partition(" ")
    if first in names:
        return f"Cm {first}{f' Fl {value[1:]}' if value else ''}"
    if re.fullmatch(r"--?[\w@-]+", first):
        return f"Fl {first[1:]}{f' Ar {value}' if value else ''}"
    if re.fullmatch(r"[A-Z]+", words):
        return f"Ar {words}"
    return f"Pa {words}" if words.startswith("/") else f"Ql {words}".replace("\\", "\\e")


# ---- Options


def options_of(commands: List[Command]) -> Iterator[Tuple[str, Argument]]:
    """Each option with the words of the command that takes it."""
    for command in commands:
        yield from ((command.name, it) for it in command.arguments if it.is_option)
        for name, option in options_of(command.commands):
            yield f"{command.name} {name}", option


def option_list(facts: Facts, commands: List[Command]) -> List[str]:
    """The options by their names, each with what it does."""
    taken: Dict[str, Dict[str, str]] = {}
    for command, option in options_of(commands):
        taken.setdefault(option.name, {})[command] = option.value
    lines = [".Bl -tag -width Ds"]
    for name, values in sorted(taken.items()):
        value = " | ".join(dict.fromkeys(it for it in values.values() if it))
        lines.append(f".It Fl -{name}{f' Ar {value}' if value else ''}")
        same = [it for it in facts.options if it.name == name]
        lines += option_lines(same, list(values), [it.name for it in commands])
    return [*lines, ".El"]


def option_lines(same: List[OptionFact], takers: List[str], names: List[str]) -> List[str]:
    """What an option does: where that isn't the same in all commands, first in those that are few."""
    lines: List[str] = []
    for fact in sorted(same, key=lambda it: len(it.of)):
        of = fact.of or takers
        lines += [".Pp"] if lines else []
        if len(of) <= FEW:
            lines.append(f".Cm {' , '.join(of)} :")
        elif len(same) > 1:
            lines.append("Other commands:")
        lines += text_lines(fact.means, names)
    return lines


# ---- Statuses


def status_list(statuses: List[StatusFact], names: List[str]) -> List[str]:
    """The statuses, each with what it says, of which commands."""
    by_number: Dict[int, List[StatusFact]] = {}
    for fact in statuses:
        by_number.setdefault(fact.status, []).append(fact)
    lines = [".Bl -tag -width Ds"]
    for number, same in by_number.items():
        lines.append(f".It {number}")
        first, *others = [status_lines(it, names) for it in same]
        inner = [line for it in others for line in (".It", *it)]
        lines += [*first, *([".Bl -item -compact", *inner, ".El"] if inner else [])]
    return [*lines, ".El"]


def status_lines(fact: StatusFact, names: List[str]) -> List[str]:
    """What a status says of some commands, or of all."""
    means = text_lines(f"{fact.means}.", names)
    if not fact.of:
        return [means[0][:1].upper() + means[0][1:], *means[1:]]
    if fact.called:
        return [f"{fact.called[:1].upper()}{fact.called[1:]}:", *means]
    return [f".Cm {' , '.join(fact.of)} :", *means]


# ---- Commands

HEADS = ["Command", "Changes", "How", "Undo", "Root", "Dry run", "JSON"]

PER_ROW = 2
"""How many names of commands a row has at most."""


def command_table(facts: Facts, commands: List[Command]) -> List[str]:
    """What commands change, those of which the same is so together."""
    together: Dict[str, List[str]] = {}
    cells: Dict[str, List[List[str]]] = {}
    by_name = {it.name: it for it in commands}
    for fact in facts.bootvars:
        command = by_name[fact.name]
        flags = [yes_or_no(command.has(it)) for it in (DRY_RUN, "json")]
        rows = [written_cells(it) for it in fact.writes] or [["nothing", NO, NO, NO]]
        rows = [[*it, *(flags if it is rows[0] else ["", ""])] for it in rows]
        together.setdefault(str(rows), []).append(fact.name)
        cells[str(rows)] = rows
    return mdoc.table(
        HEADS, [row for key, names in together.items() for row in with_names(names, cells[key])]
    )


def yes_or_no(is_so: bool) -> str:
    """How the table has it."""
    return YES if is_so else NO


def written_cells(it: Written) -> List[str]:
    """What is said of something that is changed."""
    return [cell(it.what), it.how, cell(it.undo), yes_or_no(it.needs_root())]


def with_names(names: List[str], cells: List[List[str]]) -> List[List[str]]:
    """Rows with the names of commands on the left."""
    parts = [names[at : at + PER_ROW] for at in range(0, len(names), PER_ROW)]
    left = [f"Cm {' , '.join(it)}{' ,' if it is not parts[-1] else ''}" for it in parts]
    return [
        [left[at] if at < len(left) else "", *(cells[at] if at < len(cells) else [])]
        for at in range(max(len(left), len(cells)))
    ]


def cell(text: str) -> str:
    """A text of a table, in which what stands in backquotes is a macro."""
    return re.sub(r"`--(\w+)`", r"Fl -\1", re.sub(r"`([A-Z]+)`", r"Ar \1", text))
