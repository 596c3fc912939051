"""Constants of sources of Rattle, as values: of a struct its fields, of a slice a list, of a text what it says."""

from __future__ import annotations

import re
from pathlib import Path
from typing import Any, Dict, List, NamedTuple, Optional, Tuple

Value = Any
"""What a constant is: a text, a number, a truth, a list, a dictionary of fields, or what is Named."""

TOKEN = re.compile(
    r"""\s+|//[^\n]*                              # left out
    |"(?P<text>(?:[^"\\]|\\.)*)"
    |(?P<word>[A-Za-z_]\w*(?:::[A-Za-z_]\w*)*)
    |(?P<number>\d+)
    |(?P<mark>\.\.|[^\s])""",
    re.VERBOSE | re.DOTALL,
)

CONSTANT = re.compile(
    r"^(?P<within> *)(?:pub(?:\(crate\))? )?(?:const|static) (?P<name>\w+): [^=]*?=\s+",
    re.MULTILINE,
)

IMPL = re.compile(r"^impl (\w+) \{$", re.MULTILINE)

ESCAPE = re.compile(r"\\(\n\s*|.)", re.DOTALL)
ESCAPES = {"n": "\n", "t": "\t", "r": "\r", "0": "\0"}


class Named(NamedTuple):
    """A name that is no constant of these sources, as a variant of an enum, with what it is made of."""

    name: str
    parts: Tuple[Value, ...]


class NoValue(Exception):
    """What stands in a source is no value that is read here."""


def text_of(literal: str) -> str:
    """The text that a literal says."""

    def replaced(found: "re.Match[str]") -> str:
        escaped = found[1]
        return "" if escaped.isspace() else ESCAPES.get(escaped, escaped)

    return ESCAPE.sub(replaced, literal)


class Constants:
    """The constants of some sources, those of an `impl` by the name of its type and theirs. Each is read when it is
    asked for."""

    def __init__(self, files: List[Path]) -> None:
        self._sources: Dict[str, str] = {}
        for file in files:
            source = file.read_text(encoding="utf-8")
            impls = [(it.start(), it[1]) for it in IMPL.finditer(source)]
            for found in CONSTANT.finditer(source):
                around = [name for start, name in impls if start < found.start()]
                scope = f"{around[-1]}::" if found["within"] and around else ""
                self._sources[scope + found["name"]] = source[found.end() :]

    def value(self, name: str) -> Value:
        """The value of this constant.

        Raises NoValue if there is none of this name, or it is none that is read here."""
        if name not in self._sources:
            raise NoValue(f"there is no constant {name}")
        return Reader(self, self._sources[name]).value()

    def known(self, name: str) -> Optional[str]:
        """The constant that a path means, if it means one."""
        last = name.rpartition("::")[2]
        return next((it for it in (name, last) if it in self._sources), None)


class Reader:
    """What reads the value at the start of a text."""

    def __init__(self, constants: Constants, source: str) -> None:
        self.constants = constants
        self.tokens = (it for it in TOKEN.finditer(source) if it.lastgroup)
        self.token = next(self.tokens)

    def step(self) -> "re.Match[str]":
        """The token, after which comes the next one."""
        token = self.token
        self.token = next(self.tokens, token)
        return token

    def take(self, mark: str) -> bool:
        """Whether this mark is next, which is then left behind."""
        if self.token["mark"] != mark:
            return False
        self.step()
        return True

    def value(self) -> Value:
        """The value that is next.

        Raises NoValue if there is none."""
        while self.take("&"):
            pass
        token = self.step()
        if token["text"] is not None:
            return text_of(token["text"])
        if token["number"]:
            return int(token["number"])
        if token["mark"] == "[":
            return self.values("]")
        if not token["word"]:
            raise NoValue(f"no value: {token[0]}")
        return self.named(token["word"])

    def values(self, end: str) -> List[Value]:
        """The values up to a mark."""
        found = []
        while not self.take(end):
            found.append(self.value())
            self.take(",")
        return found

    def named(self, name: str) -> Value:
        """The value of what begins with a name."""
        if name in ("true", "false"):
            return name == "true"
        if self.take("{"):
            return self.fields()
        if self.take("("):
            parts = self.values(")")
            return parts[0] if name == "Some" else Named(name, tuple(parts))
        known = self.constants.known(name)
        if known is not None:
            return self.constants.value(known)
        return None if name == "None" else Named(name, ())

    def fields(self) -> Dict[str, Value]:
        """The fields of a struct, also those that another one is taken for."""
        own: Dict[str, Value] = {}
        others: Dict[str, Value] = {}
        while not self.take("}"):
            if self.take(".."):
                others = self.value()
            else:
                field = self.step()["word"]
                if field is None or not self.take(":"):
                    raise NoValue(f"no field: {self.token[0]}")
                own[field] = self.value()
            self.take(",")
        return {**others, **own}
