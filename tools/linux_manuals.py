"""A manual of each call over a Linux machine, made of what its header says of it."""

from __future__ import annotations

import re
from typing import Dict, List

from call_header import (
    HEADER,
    LINUX_HEADER,
    STATUSES,
    Call,
    Comment,
    Constant,
    Header,
    Row,
    read_header,
)
from call_manuals import Manual, NoManual, manual_files, sentence
from repository import ROOT

OVERVIEW = ROOT / "packaging/man/bootkeep-linux.3"
"""The manual of all of these calls, which has a line on each."""

SUMMARY = re.compile(r"^\.It Fn (bootkeep_\w+(?: , Fn bootkeep_\w+)*)\n(.+)$", re.MULTILINE)

CHANGE, HANDLE = "struct bootkeep_machine_change *change", "machine"

HANDED = re.compile(r"(const )?struct bootkeep_machine \*machine")
"""How a call is declared to be handed a handle."""

FAULT = "bootkeep_machine_fault"
"""The call that tells why another one failed."""

UNSETTLED = "BOOTKEEP_MACHINE_UNSETTLED"
"""The status that no comment lists but the one of all changes."""

COMMON = [
    Row([HANDLE], "the handle, of bootkeep_machine_open"),
    Row(["change"], "what came of it, of which the caller has written `size`; or NULL"),
]
"""What parameters are of which each call that has them says no more."""

GENERAL = {"BOOTKEEP_REFUSED": "What is there, or was handed in, doesn't allow it."}
"""What is said of a status of which bootkeep.h says what isn't so of these calls."""

DESCRIBED = {"bootkeep_machine_change": "bootkeep_machine_add"}
"""The call in whose manual a struct of several calls is described."""


def manuals() -> Dict[str, bytes]:
    """The manuals by the names of their files.

    Raises NoManual if one can't be made."""
    calls = read_header(HEADER.read_text(encoding="utf-8"))
    header = read_header(LINUX_HEADER.read_text(encoding="utf-8"))
    overview = OVERVIEW.read_text(encoding="utf-8")
    return manual_files(LinuxManual(header, it, overview, calls) for it in header.calls)


def summaries(overview: str) -> Dict[str, str]:
    """What the overview says of each call."""
    found = SUMMARY.findall(overview)
    return {name: says for names, says in found for name in names.split(" , Fn ")}


class LinuxManual(Manual):
    """The manual of a call over a Linux machine."""

    def __init__(self, header: Header, call: Call, overview: str, calls: Header) -> None:
        super().__init__(header, call, overview)
        self.calls = calls
        """What the header of the other calls declares, whose names and statuses are these too."""

    def summary(self) -> str:
        """What it is for, up to a colon."""
        says = summaries(self.overview).get(self.call.name)
        if says is None:
            raise NoManual(f"bootkeep-linux.3 has no line on {self.call.name}")
        return says.partition(": ")[0]

    def library(self) -> List[str]:
        library = [".Sh LIBRARY", ".Nm libbootkeep-linux", ".Pq Fl lbootkeep-linux Fl lbootkeep"]
        return [*library, ".Sh SYNOPSIS", ".In bootkeep-linux.h"]

    def overview_name(self) -> str:
        return "bootkeep-linux"

    def known_calls(self) -> List[Call]:
        return [*self.header.calls, *self.calls.calls]

    def comments(self) -> List[Comment]:
        """What is said of it and others, if it is of calls and not of all changes, and what is said of it."""
        shared = self.call.shared
        is_here = bool(shared.rows) and not lists(shared, UNSETTLED)
        return [*([shared] if is_here else []), *self.call.about[:1]]

    def paragraphs(self) -> List[str]:
        return [it for comment in self.comments() for it in comment.paragraphs]

    def structs(self) -> List[str]:
        handed = re.findall(r"struct (\w+)", " ".join(self.call.handed))
        here = [it for it in handed if DESCRIBED.get(it, self.call.name) == self.call.name]
        return [it for it in here if it in self.header.structs]

    def own_rows(self) -> List[Row]:
        rows = [it for comment in reversed(self.comments()) for it in comment.rows]
        return [*(it for it in rows if not it.is_of_statuses()), *COMMON]

    def statuses(self) -> List[str]:
        """What it answers, and when: of a change what all changes answer too."""
        if self.call.gives == "void":
            return ["None."]
        said = self.said_of_statuses()
        if not said:
            return ["The number, and no status."]
        lines = [".Bl -tag -width Ds"]
        for name, own in said.items():
            lines += [
                f".It Dv {name}",
                *self.text(sentence(own) if own else self.status_text(name)),
            ]
        lines.append(".El")
        if self.call.name == FAULT or not any(map(HANDED.fullmatch, self.call.handed)):
            return lines
        return [*lines, ".Pp", "Why it failed", f".Xr {FAULT} 3", "tells."]

    def said_of_statuses(self) -> Dict[str, str]:
        """The statuses, with what is said of each."""
        comments = [it for it in self.header.comments if lists(it, UNSETTLED)]
        said: Dict[str, str] = {}
        for comment in [*(comments if self.is_change() else []), *self.comments()]:
            rows = [it for it in comment.statuses() if self.status_text(it.names[0])]
            said.update({name: row.says for row in rows for name in row.names})
        return said

    def is_change(self) -> bool:
        """Whether it changes a machine."""
        return CHANGE in self.call.handed

    def status_text(self, name: str) -> str:
        """What a status says of any call; nothing if it is none."""
        if name in GENERAL:
            return GENERAL[name]
        known = [*self.calls.constants[STATUSES], *self.header.constants[STATUSES]]
        return "".join(it.says for it in known if it.name == name)

    def caveats(self) -> List[str]:
        return []

    def refusals(self) -> List[Constant]:
        """None: the fault that the handle has tells them."""
        return []


def lists(comment: Comment, status: str) -> bool:
    """Whether a comment lists a status."""
    return any(status in row.names for row in comment.rows)
