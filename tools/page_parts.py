"""What the pages say of commands, statuses, faults and crates, in tables."""

from __future__ import annotations

from pathlib import Path
from typing import Dict, List

from command_facts import CommandFact, Facts
from command_rows import DRY_RUN, Command
from fault_list import INPUTS, read_faults
from file_list import about
from manual_parts import NO, yes_or_no
from repository import ROOT, Crate, crates_below, read_crates

OWN = "its own"
"""What is said of the statuses of a command that is a program with its own."""


def table(heads: List[str], rows: List[List[str]]) -> List[str]:
    """A table of Markdown."""
    return [row_of(heads), f"|{'---|' * len(heads)}", *(row_of(it) for it in rows)]


def row_of(cells: List[str]) -> str:
    """A line of a table."""
    inside = " | ".join(it.replace("|", "\\|") for it in cells)
    return f"| {inside} |"


# ---- Commands

HEADS = ["Command", "Reads", "Changes", "Root", "Undone of", "Dry run", "JSON", "Statuses"]


def command_table(facts: Facts, commands: List[Command]) -> List[str]:
    """The commands of `bootvars`: what each reads and changes, and what it has."""
    by_name = {it.name: it for it in commands}
    return table(HEADS, [command_row(it, by_name[it.name], facts) for it in facts.bootvars])


def command_row(fact: CommandFact, command: Command, facts: Facts) -> List[str]:
    """The row of a command."""
    own = ", ".join(str(it) for it in facts.own_statuses(fact.name))
    return [
        f"`{fact.name}`",
        fact.reads,
        changed(fact) or "nothing",
        yes_or_no(any(it.needs_root() for it in fact.writes)),
        ", ".join(it.what for it in fact.writes if it.undo != "no") or NO,
        yes_or_no(command.has(DRY_RUN)),
        yes_or_no(command.has("json")),
        OWN if fact.name in facts.statuses else own or NO,
    ]


def changed(fact: CommandFact) -> str:
    """What a command may change."""
    return ", ".join(it.what for it in fact.writes)


def bootkeep_table(facts: Facts) -> List[str]:
    """The commands of `bootkeep`."""
    rows = [[f"`{it.name}`", it.reads, changed(it) or "nothing"] for it in facts.bootkeep]
    return table(HEADS[:3], rows)


# ---- Statuses


def status_table(facts: Facts) -> List[str]:
    """The statuses of all programs, side by side."""
    programs = list(facts.statuses)
    numbers = sorted({it.status for some in facts.statuses.values() for it in some})
    heads = ["Status", *(f"`{it}`" for it in programs)]
    rows = [[str(it), *(status_cell(facts, program, it) for program in programs)] for it in numbers]
    return table(heads, rows)


def status_cell(facts: Facts, program: str, number: int) -> str:
    """What a status says of a program."""
    said = []
    for fact in facts.statuses[program]:
        if fact.status == number:
            of = fact.called or ", ".join(f"`{it}`" for it in fact.of)
            said.append(f"{of}: {fact.means}" if of else fact.means)
    return "; ".join(said) or NO


# ---- Faults


def fault_tables(root: Path = ROOT) -> List[str]:
    """The faults of inputs, with the words by which they are told."""
    lines: List[str] = []
    for one in INPUTS:
        faults = read_faults(one, root)
        rows = [[f"`{it.words}`", it.means, it.reason or NO] for it in faults]
        heads = ["Printed", "What it means", "How `bootvars` says it"]
        lines += [f"### {one.what}", "", *table(heads, rows), ""]
    return lines[:-1]


# ---- Crates


def crate_list(root: Path = ROOT) -> List[str]:
    """The crates, from the programs down: what each is, and what it is built on that nothing else of that is built on."""
    crates = read_crates(root)
    rows = []
    for name in reversed(list(crates)):
        below = ", ".join(f"`{it}`" for it in built_on(name, crates))
        rows.append([f"`{name}`", about_crate(name, root), below or NO])
    return table(["Crate", "What it is", "Built on"], rows)


def about_crate(name: str, root: Path) -> str:
    """The first sentence of what a crate says of itself, without the chapters that it names."""
    source = root / "crates" / name / "src"
    file = next(it for it in (source / "lib.rt", source / "main.rt") if it.exists())
    return without_chapters(about(file) or "")


def without_chapters(text: str) -> str:
    """A text without what names the standard in parentheses."""
    kept: Dict[int, str] = {}
    for at, part in enumerate(text.split(" (")):
        inside, closed, after = part.partition(")")
        is_named = at > 0 and closed and ("UEFI" in inside or "chapter" in inside)
        kept[at] = after if is_named else f" ({part}" if at else part
    return "".join(kept.values()).rstrip(".")


def built_on(name: str, crates: Dict[str, Crate]) -> List[str]:
    """The crates that a crate is built on, but for those that others of them are built on."""
    direct = [it for it in crates[name].libraries if it in crates]
    below = {deep for it in direct for deep in crates_below(it, crates)}
    return [it for it in direct if it not in below]
