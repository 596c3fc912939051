"""What the header for C says of its calls, statuses and refusals, by its comments."""

from __future__ import annotations

import re
from dataclasses import dataclass, field
from typing import Dict, List, NamedTuple, Optional

from repository import ROOT

HEADER = ROOT / "libraries/c/include/bootkeep.h"
LINUX_HEADER = ROOT / "libraries/c/include/bootkeep-linux.h"

PIECE = re.compile(
    r"^/\* -{4} (?P<title>[\w ,]+?) -+ \*/$"
    r"|^(?P<comment>/\*.*?\*/)$"
    r"|^#define (?P<constant>BOOTKEEP_[A-Z0-9_]+) \S+$"
    r"|^struct (?P<struct>\w+) \{.*?^\};$"
    r"|^(?P<gives>uint32_t|void(?= bootkeep_machine)) (?P<call>bootkeep_\w+)\((?P<handed>[^;]*?)\)[^;()]*(?:\(\([^;]*\)\))?;$"
    r"|^(?P<other>\S.*?)$",
    re.DOTALL | re.MULTILINE,
)
"""A part of the header: a title, a comment, a declaration, or a line that is none of these. What a program in firmware
defines for the library is no call."""

ROW = re.compile(r"^ {4}(?P<names>\w+(?:, \w+)*)(?: {2,}(?P<says>\S.*))?$")
"""The first line of a row of what a comment lists."""

STATUSES, REFUSALS = "Statuses", "Refusals"
"""The titles of the parts with these numbers."""


class Row(NamedTuple):
    """A row of what a comment lists: names of parameters or of statuses, and what it says of them."""

    names: List[str]
    says: str

    def is_of_statuses(self) -> bool:
        """Whether the names are statuses."""
        return self.names[0].startswith("BOOTKEEP_")


@dataclass(frozen=True)
class Comment:
    """A comment: its paragraphs, and the rows that it lists."""

    paragraphs: List[str]
    rows: List[Row]

    def statuses(self) -> List[Row]:
        """The rows of statuses."""
        return [it for it in self.rows if it.is_of_statuses()]

    def text(self) -> str:
        """Its paragraphs as one."""
        return " ".join(self.paragraphs)


class Constant(NamedTuple):
    """A number that the header defines, and what it says of it."""

    name: str
    says: str
    group: str
    """What it says of this and others together."""


class Struct(NamedTuple):
    """A struct, as the header declares it, and what it says before that."""

    about: Comment
    text: str


@dataclass(frozen=True)
class Call:
    """A call."""

    name: str
    title: str
    """That of the part of the header in which it is."""
    handed: List[str]
    """What it is handed, each with its type."""
    about: List[Comment]
    """What is said of it, and then what is said of it and others, if its statuses are there."""
    shared: Comment
    """What is said of it and others, wherever its statuses are."""
    gives: str
    """The type of what it answers."""

    def parameters(self) -> List[str]:
        """The names of what it is handed."""
        return [re.split(r"[ *]", it)[-1] for it in self.handed]

    def rows(self) -> List[Row]:
        """What is listed of it."""
        return [row for comment in self.about for row in comment.rows]

    def statuses(self) -> Dict[str, str]:
        """Its statuses, and what is said of each."""
        return {name: row.says for row in self.rows() if row.is_of_statuses() for name in row.names}


@dataclass
class Header:
    """What the header declares, in its order."""

    parameters: List[Row] = field(default_factory=list)
    """What the parameters mean that several calls have."""
    calls: List[Call] = field(default_factory=list)
    structs: Dict[str, Struct] = field(default_factory=dict)
    constants: Dict[str, List[Constant]] = field(default_factory=dict)
    """By the title of their part."""
    comments: List[Comment] = field(default_factory=list)
    """All of them."""


def lines_of(comment: str) -> List[str]:
    """The lines of a comment, without its marks."""
    return [re.sub(r"^ ?\*? ?", "", it.rstrip()) for it in comment[2:-2].strip("\n").splitlines()]


def read_comment(comment: str) -> Comment:
    """What a comment says."""
    paragraphs: List[str] = []
    rows: List[Row] = []
    is_open = False
    for line in lines_of(comment):
        row = ROW.match(line)
        if row:
            rows.append(Row(row["names"].split(", "), row["says"] or ""))
        elif line.startswith("     ") and rows:
            rows[-1] = Row(rows[-1].names, f"{rows[-1].says} {line.strip()}".strip())
        elif line and is_open:
            paragraphs[-1] += f" {line.strip()}"
        elif line.strip():
            paragraphs.append(line.strip())
        is_open = bool(line.strip()) and not line.startswith("    ")
    return Comment(paragraphs, rows)


def read_header(text: str) -> Header:
    """What the text of the header declares."""
    reader = Reader()
    for piece in PIECE.finditer(text):
        reader.take(piece)
    return reader.header


NOTHING = Comment([], [])


class Reader:
    """What goes over the parts of the header, and knows which comment is of which of them."""

    def __init__(self) -> None:
        self.header = Header()
        self.title = ""
        self.pending: Optional[Comment] = None
        """A comment of which it isn't known yet what it is of."""
        self.own = NOTHING
        """That of the last declaration, and of those that follow it without one."""
        self.shared = NOTHING
        """That which several declarations follow, each with its own."""

    def take(self, piece: "re.Match[str]") -> None:
        """Takes the next part."""
        if piece["title"]:
            self.title, self.pending = piece["title"], None
            self.own = self.shared = NOTHING
        elif piece["comment"]:
            self.shared = self.pending or self.shared
            self.pending = read_comment(piece["comment"])
            self.header.comments.append(self.pending)
        elif piece["other"]:
            self.end_introduction()
        else:
            self.own, self.pending = self.pending or self.own, None
            self.declare(piece)

    def end_introduction(self) -> None:
        """Takes a line that declares nothing. The comment before the first one is the introduction, which has the
        parameters."""
        if not self.header.parameters and self.pending:
            rows = [it for it in self.pending.rows if not it.is_of_statuses()]
            self.header.parameters = [it for it in rows if it.says]
        self.pending = None

    def declare(self, piece: "re.Match[str]") -> None:
        """Takes a declaration."""
        if piece["constant"]:
            says = self.own.paragraphs[:1]
            constant = Constant(piece["constant"], "".join(says), self.shared.text())
            self.header.constants.setdefault(self.title, []).append(constant)
        elif piece["struct"]:
            self.header.structs[piece["struct"]] = Struct(self.own, piece[0])
        else:
            about = [self.own]
            if self.shared.statuses() and not self.own.statuses():
                about.append(self.shared)
            handed = [" ".join(it.split()) for it in piece["handed"].split(",")]
            handed = [] if handed == ["void"] else handed
            named = piece["call"], self.title, handed
            self.header.calls.append(Call(*named, about, self.shared, piece["gives"]))
