"""A manual of each call for C, made of what the header says of it."""

from __future__ import annotations

import re
from typing import Dict, Iterable, Iterator, List, Tuple

import mdoc
from call_header import HEADER, REFUSALS, STATUSES, Call, Constant, Header, Row, read_header
from repository import ROOT

OVERVIEW = ROOT / "packaging/man/bootkeep.3"
"""The manual of all calls, which has a line on each."""

SUMMARY = re.compile(r"^\.It Xr (bootkeep_\w+) 3\n(.+)$", re.MULTILINE)

KINDS = {
    "paths": "PATH_",
    "texts": "TEXT_",
    "load options": "OPTION_",
    "sets": "SET_",
    "variables": "VARS_",
    "what is put": "PUT_",
    "streams": "STREAM_",
    "frames": "FRAME_",
    "images": "IMAGE_",
    "signature lists": "LISTS_",
    "journals": "JOURNAL_",
    "notes": "NOTES_",
    "records": "RECORD_",
    "variable files": "STORE_",
    "machines": "MACHINE_",
    "edits": "UNEDITED_",
}
"""What the header calls the numbers of refusals whose names begin so, after `BOOTKEEP_FAULT_`."""

ALONE = re.compile(r"^Of ([\w ]+?) alone[:,] ")
"""How it says of which calls alone a number is."""

NAMES = r"BOOTKEEP_[A-Z0-9_]+(?:\.\.\.)?"
PATTERN = mdoc.pattern_of(
    mdoc.BACKQUOTED, NAMES, r"\bbootkeep_\w+\b", mdoc.MANUAL, r"docs/[\w./]+\.md", r"\*?\w+->\w+"
)

GENERAL = {"bootkeep_refusal", "bootkeep_keeper", "bootkeep_moves"}
"""The structs that are described elsewhere than in the manual of each call that is handed one."""

OPENS = {
    "bootkeep_keeper": "bootkeep_keeper_open",
    "bootkeep_moves": "bootkeep_moves_requests",
}
"""The call in whose manual such a struct is described."""


class NoManual(Exception):
    """The header or the overview doesn't say what a manual has to."""


def manuals() -> Dict[str, bytes]:
    """The manuals by the names of their files.

    Raises NoManual if one can't be made."""
    header = read_header(HEADER.read_text(encoding="utf-8"))
    overview = OVERVIEW.read_text(encoding="utf-8")
    return manual_files(Manual(header, it, overview) for it in header.calls)


def manual_files(made: Iterable[Manual]) -> Dict[str, bytes]:
    """Manuals by the names of their files."""
    return {f"{it.call.name}.3": it.data() for it in made}


class Manual:
    """The manual of a call."""

    def __init__(self, header: Header, call: Call, overview: str) -> None:
        self.header, self.call, self.overview = header, call, overview

    def data(self) -> bytes:
        """The file."""
        return "".join(f"{it}\n" for it in self.lines()).encode()

    def lines(self) -> List[str]:
        """All of it."""
        return [
            *self.head(),
            *self.synopsis(),
            ".Sh DESCRIPTION",
            *self.description(),
            *self.parameters(),
            ".Sh RETURN VALUES",
            *self.statuses(),
            *self.errors(),
            *self.end(),
        ]

    def head(self) -> List[str]:
        """The title, and what the call is for."""
        dated, name = self.overview.partition("\n")[0], self.call.name
        about = self.summary().rstrip(".")
        about = about[:1].lower() + about[1:]
        title = [dated, f".Dt {name.upper()} 3", ".Os"]
        return [*title, ".Sh NAME", f".Nm {name}", f".Nd {about}"]

    def summary(self) -> str:
        """What it is for, as the overview has it.

        Raises NoManual if that says nothing of it."""
        said = dict(SUMMARY.findall(self.overview))
        if self.call.name not in said:
            raise NoManual(f"bootkeep.3 has no line on {self.call.name}")
        return str(said[self.call.name])

    def synopsis(self) -> List[str]:
        """How it is called."""
        handed = [f'.Fa "{it}"' for it in self.call.handed or ["void"]]
        called = [f".Ft {self.call.gives}", f".Fo {self.call.name}", *handed, ".Fc"]
        return [*self.library(), *called]

    def library(self) -> List[str]:
        """Where it is, and where it is declared."""
        library = [".Sh LIBRARY", ".Nm libbootkeep", ".Pq Fl lbootkeep"]
        return [*library, ".Sh SYNOPSIS", ".In bootkeep.h"]

    # ---- Texts

    def text(self, text: str) -> List[str]:
        """The lines of a text of the header."""
        return mdoc.lines_of(text, self.macro, PATTERN)

    def macro(self, marked: str) -> str:
        """The macro of something that the header names."""
        words = marked.strip("`")
        if words.startswith("BOOTKEEP_"):
            return f"Dv {words}"
        if words.startswith("docs/"):
            return f"Pa {words} No of the source"
        if re.fullmatch(mdoc.MANUAL, words):
            return mdoc.manual_macro(words)
        if re.fullmatch(r"bootkeep_\w+", words):
            return self.call_macro(words)
        name = re.fullmatch(r"\*?(\w+)(->\w+)?", words)
        if name and (name[1] in self.call.parameters() or name[1] in self.fields()):
            return f"Fa {words}"
        return f"Ql {words}"

    def call_macro(self, name: str) -> str:
        """The macro of something whose name is like that of a call."""
        if name == self.call.name:
            return f"Fn {name}"
        is_call = any(it.name == name for it in self.known_calls())
        return f"Xr {name} 3" if is_call else f"Li {name}"

    def known_calls(self) -> List[Call]:
        """The calls that have a manual."""
        return self.header.calls

    def fields(self) -> List[str]:
        """The names of the fields of structs."""
        structs = self.header.structs.values()
        return [it for struct in structs for it in re.findall(r"(\w+);", struct.text)]

    def description(self) -> List[str]:
        """What it does, and the structs and numbers that belong to it."""
        lines = joined([self.text(it) for it in self.paragraphs()])
        for name in self.structs():
            struct = self.header.structs[name]
            said = joined([self.text(it) for it in struct.about.paragraphs])
            lines += [f".Ss struct {name}", *said, ".Bd -literal", *struct.text.splitlines(), ".Ed"]
        constants = self.constants()
        if constants:
            lines += [".Ss Numbers", *self.constant_list(constants)]
        return lines

    def paragraphs(self) -> List[str]:
        """What the header says of it."""
        return [it for comment in self.call.about for it in comment.paragraphs]

    def structs(self) -> List[str]:
        """The structs that are described here."""
        handed = re.findall(r"struct (\w+)", " ".join(self.call.handed))
        return [it for it in handed if it not in GENERAL or OPENS.get(it) == self.call.name]

    def parameters(self) -> List[str]:
        """What it is handed."""
        if not self.call.handed:
            return []
        lines = [".Sh PARAMETERS", ".Bl -tag -width Ds"]
        for row in self.rows_of_parameters():
            names = [it for it in row.names if it in self.call.parameters()]
            lines += [f".It Fa {' , '.join(names)}", *self.text(sentence(row.says))]
        common = f".Xr {self.overview_name()} 3 ."
        return [*lines, ".El", ".Pp", "What all calls have in common is in", common]

    def overview_name(self) -> str:
        """The name of the manual of all calls."""
        return "bootkeep"

    def rows_of_parameters(self) -> Iterator[Row]:
        """What is said of each parameter, in the order in which the call is handed them.

        Raises NoManual if nothing is said of one."""
        own, left = self.own_rows(), self.call.parameters()
        while left:
            rows = [it for it in (*own, *self.header.parameters) if left[0] in it.names]
            said = [it for it in rows if set(it.names) <= set(self.call.parameters())]
            if not said:
                raise NoManual(f"the header doesn't say what {left[0]} of {self.call.name} is")
            yield said[0]
            left = [it for it in left if it not in said[0].names]

    def own_rows(self) -> List[Row]:
        """What its comments say of parameters."""
        return [it for it in self.call.rows() if not it.is_of_statuses()]

    # ---- Statuses and refusals

    def statuses(self) -> List[str]:
        """What it answers, and when."""
        said = self.call.statuses()
        if not said:
            return ["The number, and no status."]
        general = {it.name: it.says for it in self.header.constants[STATUSES]}
        lines = [".Bl -tag -width Ds"]
        for name, own in said.items():
            lines += [f".It Dv {name}", *self.text(general[name])]
            lines += self.text(f"Here: {sentence(own, False)}") if own else []
        return [*lines, ".El"]

    def errors(self) -> List[str]:
        """The numbers of refusals that it answers, those of one kind together."""
        groups: Dict[str, List[Constant]] = {}
        for refusal in self.refusals():
            says = sentence(ALONE.sub("", refusal.says))
            groups.setdefault(refusal.group, []).append(refusal._replace(says=says))
        if not groups:
            return []
        lines = [
            ".Sh ERRORS",
            "At",
            ".Dv BOOTKEEP_REFUSED ,",
            ".Fa refusal->kind",
            "is one of these.",
        ]
        for group, some in groups.items():
            lines += [".Pp", *self.text(group), *self.constant_list(some)]
        return lines

    def refusals(self) -> List[Constant]:
        """The refusals that it answers, in the order of the header."""
        said = self.call.statuses().get("BOOTKEEP_REFUSED", "")
        named = set(re.findall(NAMES, said))
        last = re.search(rf"up to ({NAMES})", said)
        found = []
        for kind in re.findall(rf"(?:a number of|one of) ({'|'.join(KINDS)})", said):
            some = [it for it in self.header.constants[REFUSALS] if in_kind(it, kind)]
            found += [it for it in some if self.may_be(it)]
            if last:
                names = [it.name for it in found]
                after = names.index(last[1]) + 1
                found = found[:after] + [it for it in found[after:] if ALONE.match(it.says)]
        found += [
            it for it in self.header.constants[REFUSALS] if it.name in named and it not in found
        ]
        return found

    def may_be(self, refusal: Constant) -> bool:
        """Whether this call may answer it, as far as is said."""
        alone = ALONE.match(refusal.says)
        return alone is None or self.call.name in alone[1].split()

    def constants(self) -> List[Constant]:
        """The numbers that are named in what is said of parameters and structs, but for statuses and refusals."""
        texts = [it.says for it in self.rows_of_parameters()] if self.call.handed else []
        texts += [self.header.structs[it].text for it in self.structs()]
        names = re.findall(NAMES, " ".join(texts))
        known = [
            it
            for title, some in self.header.constants.items()
            if title not in (STATUSES, "Sizes")
            for it in some
        ]
        mine = {it.name for it in self.refusals()}
        return [
            it for it in known if it.name not in mine and any(is_named(it, name) for name in names)
        ]

    def constant_list(self, constants: List[Constant]) -> List[str]:
        """Numbers, each with what is said of it."""
        lines = [".Bl -tag -width Ds"]
        for says, names in together(constants):
            lines += [f".It Dv {' , '.join(names)}", *self.text(says)]
        return [*lines, ".El"]

    def end(self) -> List[str]:
        """Where else to look."""
        beside = [it.name for it in self.header.calls if it.title == self.call.title]
        names = [it for it in beside if it != self.call.name]
        listed = [f".Xr {self.overview_name()} 3", *(f".Xr {it} 3" for it in sorted(names))]
        return [
            ".Sh SEE ALSO",
            *(f"{it} ," for it in listed[:-1]),
            listed[-1],
            *self.caveats(),
        ]

    def caveats(self) -> List[str]:
        """For whom it holds."""
        return [
            ".Sh CAVEATS",
            "What is said here holds for callers that keep to WHAT STAYS ON THE CALLER'S SIDE in",
            ".In bootkeep.h .",
        ]


def joined(paragraphs: List[List[str]]) -> List[str]:
    """Paragraphs, one after the other."""
    return [line for at, it in enumerate(paragraphs) for line in ([".Pp"] if at else []) + it]


def sentence(text: str, is_capital: bool = True) -> str:
    """A text as a sentence, whose first letter is a capital one or stays."""
    begun = text[:1].upper() + text[1:] if is_capital else text
    return begun if begun.endswith(".") else f"{begun}."


def in_kind(refusal: Constant, kind: str) -> bool:
    """Whether a refusal is one of these."""
    return refusal.name.startswith(f"BOOTKEEP_FAULT_{KINDS[kind]}")


def is_named(constant: Constant, name: str) -> bool:
    """Whether a name, or one of a family, means this number."""
    if name.endswith("..."):
        return constant.name.startswith(name[:-3])
    return constant.name == name


def together(constants: List[Constant]) -> List[Tuple[str, List[str]]]:
    """The numbers, those that one comment is of together."""
    found: List[Tuple[str, List[str]]] = []
    for constant in constants:
        if found and found[-1][0] == constant.says:
            found[-1][1].append(constant.name)
        else:
            found.append((constant.says, [constant.name]))
    return found
