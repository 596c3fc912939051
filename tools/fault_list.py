"""The faults that an input may have: the words by which the programs name each, and what they mean, as the sources have
both."""

from __future__ import annotations

import re
from pathlib import Path
from typing import Dict, List, NamedTuple

from command_rows import sources
from repository import ROOT


class Input(NamedTuple):
    """Something that may be at fault."""

    what: str
    crate: str
    enum: str
    """Its faults, in the crate."""
    front: str = ""
    """What is printed before the words of each."""
    said_as: str = ""
    """The enum by whose faults `bootvars` says them, if it isn't the same."""


INPUTS = [
    Input("The bytes of a device path", "uefi_path", "PathFault"),
    Input("The text of a device path", "uefi_text", "TextFault"),
    Input("The text of a device path with names of nodes", "uefi_names", "NamedFault"),
    Input("A load option", "uefi_option", "OptionFault"),
    Input("A set file", "uefi_vars", "SetFault"),
    Input("BootOrder and BootNext of a set file that is shown", "uefi_vars", "VarFault"),
    Input("A script or a stream", "boot_requests", "ScriptFault"),
    Input(
        "The header of a frame in a stream", "boot_requests", "FeedFault", "Stream ", "FrameFault"
    ),
    Input("A frame", "boot_requests", "FrameFault"),
    Input("The variables over which requests are run", "boot_requests", "OpenFault", "Open "),
]
"""What people hand in, or send."""

MEMORY = "OutOfMemory"
"""The fault that each may have, and that no input is at fault for."""

VARIANT = re.compile(
    r'(?P<about>(?:^    /// .*\n)+)    #\[error\("(?P<words>.*)"\)\]\n    (?P<name>\w+)'
    r"(?:\((?P<types>.*)\))?",
    re.MULTILINE,
)
"""A fault in its enum, with what it holds."""

LINK = re.compile(r"\[`(?:\w+::)?([^`]*)`\](?:\([^)]*\))?")
LIMIT = re.compile(r"^pub const ([A-Z_]+): usize = ([\d_]+);$", re.MULTILINE)

REASONS = ("value_texts/src/reason.rt", "request_texts/src/frame_reason.rt")
"""Where `bootvars` says what faults are, in texts of its own."""

SAID = re.compile(r'^        (\w+::\w+)[^=\n]*=> (?:"(.*)"|([A-Z_]+)),$', re.MULTILINE)
SET_REASONS, MESSAGES = "var_places/src/reasons.rt", "messages/src/reason.rt"
"""Where it says what is wrong with a set: by a name, which has a message."""


class Fault(NamedTuple):
    """A fault of an input."""

    words: str
    """What is printed: N is a number, and two dots are the words of another fault."""
    means: str
    reason: str
    """How `bootvars` says it; nothing if it says more than one text."""


def read_faults(one: Input, root: Path = ROOT) -> List[Fault]:
    """The faults of an input, in the order of their source."""
    texts = {file: file.read_text(encoding="utf-8") for file in sources(one.crate, root)}
    body = re.compile(rf"^pub enum {one.enum} \{{\n(.*?)^\}}", re.DOTALL | re.MULTILINE)
    found = next(it[1] for it in map(body.search, texts.values()) if it)
    limits = {name: int(it) for text in texts.values() for name, it in LIMIT.findall(text)}
    reasons = read_reasons(root)
    return [
        Fault(
            one.front + printed(it["words"], it["types"] or ""),
            about(it["about"], limits),
            reasons.get(f"{one.said_as or one.enum}::{it['name']}", ""),
        )
        for it in VARIANT.finditer(found)
        if it["name"] != MEMORY and it["words"] != "{0}"
    ]


def read_reasons(root: Path = ROOT) -> Dict[str, str]:
    """How `bootvars` says faults, by their enums and names: those that it says by one text."""
    crates = root / "crates"
    source = "".join((crates / it).read_text(encoding="utf-8") for it in REASONS)
    constants = dict(re.findall(r'const (\w+): &str =\s+"(.*?)";', source))
    said = {name: text or constants.get(it, "") for name, text, it in SAID.findall(source)}
    of_sets = (crates / SET_REASONS).read_text(encoding="utf-8")
    messages = (crates / MESSAGES).read_text(encoding="utf-8")
    for name, reason in re.findall(r"(SetFault::\w+)\(\w+\) => Some\(Reason::(\w+)", of_sets):
        text = re.search(rf'#\[error\("(.*)"\)\]\n    {reason}\b', messages)
        said[name] = re.sub(r"\{\w+\}", "N", text[1]) if text and " " in text[1] else ""
    return said


def printed(words: str, types: str) -> str:
    """The words of a fault that holds values of these types."""
    held = types.split(", ")

    def value(found: "re.Match[str]") -> str:
        is_fault = found[1].isdigit() and held[int(found[1])].endswith("Fault")
        return ".." if is_fault else "N"

    return re.sub(r"\{(\w+)\}", value, words)


def about(comment: str, limits: Dict[str, int]) -> str:
    """What a comment says, on one line, with the numbers of limits in the place of their names."""
    text = " ".join(line.strip().lstrip("/ ") for line in comment.splitlines())
    return LINK.sub(lambda it: f"{limits[it[1]]:,}" if it[1] in limits else f"`{it[1]}`", text)
