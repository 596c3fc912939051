"""The picture of a terminal: the first commands of the README, with what they print, which `bench/pages` compares."""

from __future__ import annotations

from typing import List, NamedTuple

from picture_drawing import MONO_EM, Drawing
from picture_sources import console_of
from repository import ROOT

PAGE = ROOT / "README.md"

TITLE = "A terminal, with the first commands of the README"

WIDTH, EDGE, BAR, STEP, LETTER = 800, 10, 26, 16, 12
COLUMNS = int((WIDTH - 4 * EDGE) / (MONO_EM * LETTER))
"""How many letters a line of the terminal has."""

PROMPT = "$ "


class Line(NamedTuple):
    """A line of the terminal: its words, and whether they are of a command, and begin it."""

    words: str
    is_command: bool
    is_first: bool


def lines_of(block: List[str], columns: int = COLUMNS) -> List[Line]:
    """The lines of a terminal with so many columns: longer ones go on in the next line, as terminals have it."""
    lines = []
    for text in block:
        is_command = text.startswith(PROMPT)
        for at in range(0, max(len(text), 1), columns):
            lines.append(Line(text[at : at + columns], is_command, at == 0))
    return lines


def picture() -> str:
    """The picture."""
    block = console_of(PAGE)
    lines = lines_of(block)
    drawing = Drawing(WIDTH, TITLE, _described(block))
    high = BAR + 14 + len(lines) * STEP + 12
    drawing.rect("window", EDGE, EDGE, WIDTH - 2 * EDGE, high, 8)
    for at in range(3):
        drawing.circle("button", EDGE + 16 + at * 18, EDGE + BAR / 2 + 2, 5)
    for at, line in enumerate(lines):
        _draw_line(drawing, EDGE + BAR + 24 + at * STEP, line)
    return drawing.written(high + 2 * EDGE)


def _draw_line(drawing: Drawing, y: float, line: Line) -> None:
    """Draws a line of the terminal: spaces at its beginning move it, so that none of them is lost."""
    begin = len(line.words) - len(line.words.lstrip(" "))
    words = line.words.strip(" ")
    if line.is_command and line.is_first:
        drawing.text("prompt", 2 * EDGE, y, PROMPT.strip())
        begin, words = len(PROMPT), words[len(PROMPT) :]
    look = "strong" if line.is_command else "code"
    drawing.text(look, 2 * EDGE + begin * MONO_EM * LETTER, y, words)


def _described(block: List[str]) -> str:
    """What the terminal shows, in words."""
    parts = []
    for text in block:
        is_command = text.startswith(PROMPT)
        parts.append(f"The command {text[len(PROMPT) :]} prints:" if is_command else f"{text};")
    return " ".join(parts)
