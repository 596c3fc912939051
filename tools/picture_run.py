"""The picture of what calls take beside plain Rust and beside libefivar, made of what `docs/performance.md` says."""

from __future__ import annotations

import math
import re
from pathlib import Path
from typing import List, NamedTuple, Sequence

from picture_drawing import Drawing, width_of
from picture_sources import NotThere, section_of
from repository import ROOT

PAGE = ROOT / "docs/performance.md"

TITLE = "What calls take beside plain Rust, and the text of a path beside libefivar"

WIDTH, EDGE, LEFT, RIGHT, VALUES = 800, 8, 186, 590, 612
"""The edges, where the scale begins and ends, and where the ratios are written."""

ROW, TOP, TEXT_ROW = 17, 62, 20
LEAST, GREATEST, MARKS = 0.08, 2.0, (0.1, 0.2, 0.5, 1.0, 2.0)
"""Which ratios the scale goes over, and those that are marked."""

TIMES = (
    (100, "100 ns"),
    (1000, "1 µs"),
    (10_000, "10 µs"),
    (100_000, "100 µs"),
    (1_000_000, "1 ms"),
)
"""The times that are marked."""


class Call(NamedTuple):
    """A call, over what it was timed, and the product's time by plain Rust's for each of that."""

    name: str
    over: str
    ratios: List[float]


class Text(NamedTuple):
    """The text of a path of so many bytes: what it takes here, and by libefivar, in nanoseconds."""

    size: int
    here: int
    there: int


def calls_of(page: Path = PAGE) -> List[Call]:
    """The rows of the table beside plain Rust."""
    calls: List[Call] = []
    for line in section_of(page, "Beside plain Rust").splitlines():
        cells = [it.strip() for it in line.strip("| ").split(" | ")]
        ratios = re.findall(r"\d+\.\d+", cells[-1])
        if line.startswith("| ") and ratios:
            over = cells[1] if cells[1] != "the same" else calls[-1].over
            calls.append(Call(cells[0].replace("`", ""), over, [float(it) for it in ratios]))
    if not calls:
        raise NotThere(f"{page.name} has no ratios beside plain Rust")
    return calls


def texts_of(page: Path = PAGE) -> List[Text]:
    """The times of texts beside libefivar."""
    section = " ".join(section_of(page, "Beside libefivar").split())
    number = r"(\d[\d,]*)"
    form = rf"{number}(?: nanoseconds)? beside {number} for {number}"
    found = [[int(it.replace(",", "")) for it in row] for row in re.findall(form, section)]
    if not found:
        raise NotThere(f"{page.name} has no times beside libefivar")
    return [Text(size, here, there) for here, there, size in found]


def picture() -> str:
    """The picture."""
    calls, texts = calls_of(), texts_of()
    drawing = Drawing(WIDTH, TITLE, _described(calls, texts))
    floor = TOP + len(calls) * ROW + 4
    _draw_scale(drawing, floor)
    for at, call in enumerate(calls):
        _draw_call(drawing, TOP + at * ROW + ROW / 2 + 2, call)
    return drawing.written(_draw_texts(drawing, floor + 20, texts))


def place(value: float, least: float, greatest: float) -> float:
    """Where a value is on the scale, which is logarithmic."""
    part = math.log(value / least) / math.log(greatest / least)
    return LEFT + part * (RIGHT - LEFT)


def _draw_scale(drawing: Drawing, floor: float) -> None:
    """Draws the scale of the ratios."""
    one = place(1.0, LEAST, GREATEST)
    drawing.text("name", EDGE, 20, "Time of a call, by that of plain Rust")
    drawing.text("note", one - 12, 40, "\N{LEFTWARDS ARROW} faster than plain Rust", "end")
    drawing.text("note", one + 12, 40, "slower \N{RIGHTWARDS ARROW}")
    drawing.text("note", VALUES, 40, "for what the table has, in its")
    drawing.text("note", VALUES, TOP - 5, "order; the last dot is filled")
    for mark in MARKS:
        x = place(mark, LEAST, GREATEST)
        drawing.path("way" if mark == 1.0 else "thin", f"M{x:.1f} {TOP}V{floor:.1f}")
        drawing.text("number", x, TOP - 5, f"{mark:g}", "middle")


def _draw_call(drawing: Drawing, y: float, call: Call) -> None:
    """Draws the ratios of a call: from the least to the greatest a line, and a dot for each."""
    drawing.text("code", EDGE, y + 4, call.name)
    places = [place(it, LEAST, GREATEST) for it in call.ratios]
    drawing.path("range", f"M{min(places):.1f} {y:.1f}H{max(places):.1f}")
    for at, x in enumerate(places):
        drawing.circle("ring" if at + 1 < len(places) else "bar", x, y, 4)
    drawing.text("number", VALUES, y + 4, " ".join(f"{it:.2f}" for it in call.ratios))


def _draw_texts(drawing: Drawing, y: float, texts: Sequence[Text]) -> float:
    """Draws the times beside libefivar. The answer is where that ends."""
    drawing.text("name", EDGE, y + 14, "Time of a path's text, beside libefivar")
    least, greatest = TIMES[0][0], TIMES[-1][0]
    top = y + 44
    floor = top + len(texts) * TEXT_ROW + 4
    drawing.text("note", VALUES, top - 5, "nanoseconds")
    for time, words in TIMES:
        x = place(time, least, greatest)
        drawing.path("thin", f"M{x:.1f} {top}V{floor}")
        drawing.text("number", x, top - 5, words, "middle")
    for at, text in enumerate(texts):
        middle = top + at * TEXT_ROW + TEXT_ROW / 2 + 2
        here, there = (place(it, least, greatest) for it in (text.here, text.there))
        drawing.text("value", EDGE, middle + 4, f"a path of {text.size:,} bytes")
        drawing.path("range", f"M{here:.1f} {middle}H{there:.1f}")
        drawing.circle("bar", here, middle, 4)
        drawing.circle("grey", there, middle, 4)
        drawing.text("number", VALUES, middle + 4, f"{text.here:,} and {text.there:,}")
        if not at:
            _draw_label(drawing, here - 8 - width_of("here", "note"), middle, "here")
            _draw_label(drawing, there + 8, middle, "libefivar")
    return floor + 8


def _draw_label(drawing: Drawing, x: float, middle: float, words: str) -> None:
    """Draws what a dot is, over the lines of the scale."""
    drawing.rect("back", x - 1, middle - 7, width_of(words, "note") + 2, 14)
    drawing.text("note", x, middle + 4, words)


def _described(calls: Sequence[Call], texts: Sequence[Text]) -> str:
    """What the picture shows, in words."""
    parts = [
        f"{it.name}, over {it.over}: {', '.join(f'{ratio:.2f}' for ratio in it.ratios)}."
        for it in calls
    ]
    times = [f"{it.size:,} bytes: {it.here:,} beside {it.there:,}." for it in texts]
    return (
        f"The time of each call by that of plain Rust, so that below 1 it is sooner. {' '.join(parts)}"
        f" The text of a path in nanoseconds, here and by libefivar. {' '.join(times)}"
    )
