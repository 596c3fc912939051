"""Texts with a few marks, as mdoc has them."""

from __future__ import annotations

import re
import textwrap
from itertools import zip_longest
from typing import Callable, List, Pattern

Macro = Callable[[str], str]
"""What gives the macro, with its arguments, of what was found in a text."""

WIDTH = 120
"""How many characters a line of text has at most, but for what escapes take."""

BACKQUOTED, MANUAL = r"`[^`]+`", r"[\w.-]+\(\d\)"


def pattern_of(*marked: str) -> Pattern[str]:
    """What is found of a text that becomes macros, with the marks right before and right behind it, which are arguments
    of a macro."""
    return re.compile(rf"(?P<before>[(\[]?)(?P<marked>{'|'.join(marked)})(?P<after>[.,;:)\]]*)")


def lines_of(text: str, macro: Macro, pattern: Pattern[str]) -> List[str]:
    """The lines of a paragraph: each macro has one, and each sentence begins one."""
    lines: List[str] = []
    end = 0
    for found in pattern.finditer(text):
        lines += sentences(text[end : found.start()])
        before = f"{found['before']} " if found["before"] else ""
        after = "".join(f" {it}" for it in found["after"])
        name, _, arguments = macro(found["marked"]).partition(" ")
        lines.append(f".{name} {before}{arguments}{after}")
        end = found.end()
        if text[end : end + 1] not in ("", " "):
            lines[-1] += " Ns"
    return lines + sentences(text[end:])


def manual_macro(name: str) -> str:
    """The macro that leads to a manual, as sha256sum(1)."""
    title, _, section = name[:-1].partition("(")
    return f"Xr {title} {section}"


def sentences(text: str) -> List[str]:
    """The lines of a text in which nothing is a macro."""
    parts = re.split(r"(?<=\.) ", text.strip())
    return [escaped(line) for part in parts for line in broken(part)]


def broken(text: str) -> List[str]:
    """A text in lines that aren't too long."""
    return textwrap.wrap(text, WIDTH, break_long_words=False, break_on_hyphens=False)


def escaped(line: str) -> str:
    """A line in which nothing is a macro or an escape."""
    line = line.replace("\\", "\\e")
    return f"\\&{line}" if line[:1] in (".", "'") else line


def table(heads: List[str], rows: List[List[str]]) -> List[str]:
    """A table, whose columns are as wide as the widest of their cells. A row may end with less cells."""
    columns = zip_longest(heads, *rows, fillvalue="")
    widths = [max(len(plain(it)) for it in column) for column in columns]
    words = " ".join(f'"{"x" * width}"' for width in widths)
    full = [[*row, *([""] * (len(heads) - len(row)))] for row in rows]
    lines = [f".It {' Ta '.join(row)}" for row in [[f"Sy {it}" for it in heads], *full]]
    return [f".Bl -column {words}", *(" ".join(it.split()) for it in lines), ".El"]


def plain(cell: str) -> str:
    """What a cell prints, about."""
    return re.sub(r"\b(Cm|Ar) ", "", cell).replace("Fl ", "-").replace(" ,", ",")
