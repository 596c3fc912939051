"""The messages that the crates tell a person: the texts in their code, as they stand in it.

A message is a text with two words in small letters at least, so the names of faults (`BadLength 0`) and of members are none.
What is put into it counts as `{}`. A message has one place: one that stands in two is told."""

from __future__ import annotations

import re
import sys
from dataclasses import dataclass
from pathlib import Path
from typing import Dict, Iterable, List, Sequence

from repository import ROOT, read_crates

TOKEN = re.compile(
    r'(?P<comment>//[^\n]*)|"(?P<text>(?:[^"\\]|\\.)*)"|(?P<char>\'(?:[^\'\\\n]|\\[^\n]+?)\')',
    re.DOTALL,
)
"""What the texts of a source have to be told from: comments, and characters that are quotes."""

HOLE = re.compile(r"\{[^{}]*\}")
"""What is put into a message."""

WORDS = re.compile(r"(?<![A-Za-z])[a-z]+'?[a-z]*")

ERROR = re.compile(r"#\[error\(\s*$")
"""What stands before the text that a fault's `Display` has."""

EVERYWHERE = {
    "out of memory": "each fault that comes if memory is refused says so, and a text of #[error(..)] is no constant",
}
"""What may stand in several places, and why."""


@dataclass(frozen=True)
class Message:
    """A text, and where it is."""

    text: str
    """The text, with `{}` for whatever is put into it."""
    file: str
    line: int
    is_display: bool
    """Whether it is what a fault's `Display` has, which the call `words` of the same fault gives too."""

    def __str__(self) -> str:
        return f"{self.file}:{self.line}: {self.text}"


def is_message(text: str) -> bool:
    """Whether a text is told a person."""
    words = [word for word in WORDS.findall(HOLE.sub(" ", text)) if len(word) > 1]
    return len(words) > 1 and " " in text.strip()


def messages_of(source: str, file: str) -> List[Message]:
    """The messages of a source, in their order."""
    found = []
    for token in TOKEN.finditer(source):
        text = token["text"]
        if text is None:
            continue
        text = HOLE.sub("{}", re.sub(r"\\\n\s*", "", text))
        if is_message(text):
            line = source.count("\n", 0, token.start()) + 1
            is_display = ERROR.search(source, 0, token.start()) is not None
            found.append(Message(text, file, line, is_display))
    return found


def read_messages(root: Path = ROOT) -> List[Message]:
    """The messages of all crates, in the order of crates.txt and of the files' names."""
    found = []
    for crate in read_crates(root):
        for path in sorted((root / "crates" / crate / "src").rglob("*.rt")):
            found += messages_of(path.read_text(encoding="utf-8"), str(path.relative_to(root)))
    return found


def places(messages: Sequence[Message]) -> List[Message]:
    """Those of one text that are places of their own: what `words` gives of a fault is no other one than its `Display`."""
    shown = {it.file for it in messages if it.is_display}
    return [it for it in messages if it.is_display or it.file not in shown]


def told_twice(messages: Iterable[Message]) -> List[Message]:
    """The messages that stand in several places, those of one text one after the other."""
    by_text: Dict[str, List[Message]] = {}
    for message in messages:
        by_text.setdefault(message.text.strip(), []).append(message)
    found = []
    for text, same in by_text.items():
        if text not in EVERYWHERE and len(places(same)) > 1:
            found += places(same)
    return found


def main(words: Sequence[str], root: Path = ROOT) -> int:
    """Lists the messages, or those that stand in several places."""
    if words not in ([], ["--twice"]):
        print("tools/messages: it takes no word but --twice", file=sys.stderr)
        return 2
    messages = read_messages(root)
    twice = told_twice(messages)
    for message in twice if words else messages:
        print(message)
    print(f"{len(messages)} messages, {len(twice)} of them in several places")
    return 1 if twice else 0
