"""Drawings in SVG for the pages: shapes and texts with the colours of a light and a dark page, and how wide a text is.

A drawing stands alone in its file, as a page shows it: it asks for no other file, and for no font but those that every
system has. What is seen is also said, in a title and a description, for those who hear it."""

from __future__ import annotations

import re
from typing import Iterable, List, NamedTuple, Sequence, Union
from xml.sax.saxutils import escape

Number = Union[int, float]

SIZE = 12
"""How large letters are, if a look says nothing else."""

MONO_EM = 0.6
"""How wide a letter is in a font in which all are equally wide, in parts of its size."""

_EMS = (
    ("'ijlI", 0.3),
    (" .,:;!|/`", 0.34),
    ("()[]-frt", 0.42),
    ('"?*Jcsxz', 0.56),
    ("w%", 0.82),
    ("mMW@+=<>", 1.0),
    ("ABCDEFGHKLNOPQRSTUVXYZ", 0.79),
)
EMS = {letter: em for letters, em in _EMS for letter in letters}
"""How wide letters are in other fonts, at most, of those that systems have for their own words; DejaVu Sans is wide."""

OTHER_EM = 0.64
BOLD = 1.12
"""How much wider bold letters are."""

COLOURS = {
    "back": ("#fcfcfb", "#1a1a19"),
    "band": ("#f1f0ed", "#262624"),
    "ink": ("#0b0b0b", "#ffffff"),
    "soft": ("#52514e", "#c3c2b7"),
    "line": ("#8a8983", "#8a8983"),
    "blue": ("#2a78d6", "#3987e5"),
    "deep": ("#1d5fae", "#2b6cbf"),
    "pale": ("#b5d3f5", "#234b7a"),
    "faint": ("#e8f0fa", "#202a36"),
    "screen": ("#ffffff", "#0f0f0e"),
    "white": ("#ffffff", "#ffffff"),
    "green": ("#1c7c4c", "#5cc58f"),
    "amber": ("#f6dfb3", "#5a4312"),
    "gold": ("#d9962b", "#c98a1f"),
    "red": ("#b3261e", "#ff8a80"),
}
"""Each colour on a light page, and on a dark one."""


class Look(NamedTuple):
    """How a shape or a text looks: its properties, in which a name of `COLOURS` in braces stands for that colour."""

    properties: str
    size: int = SIZE
    is_mono: bool = False
    is_bold: bool = False

    def font(self) -> str:
        """What is said of its letters."""
        said = "font-family: monospace; " if self.is_mono else ""
        said += f"font-size: {self.size}px; " if self.size != SIZE else ""
        return said + ("font-weight: 600; " if self.is_bold else "")

    def rule(self) -> str:
        """All that is said of it on a light page."""
        return f"{self.font()}{self.coloured(self.properties, 0)};"

    def dark_rule(self) -> str:
        """What is said of it on a dark page, as far as that is something else."""
        parts = [it for it in self.properties.split("; ") if _differs(it)]
        return f"{self.coloured('; '.join(parts), 1)};" if parts else ""

    @staticmethod
    def coloured(properties: str, at: int) -> str:
        """The properties with the colours of one of the two pages."""
        return re.sub(r"\{(\w+)\}", lambda name: COLOURS[name[1]][at], properties)


def _differs(declaration: str) -> bool:
    """Whether it has a colour that isn't the same on both pages."""
    return any(len(set(COLOURS[it])) > 1 for it in re.findall(r"\{(\w+)\}", declaration))


LOOKS = {
    # texts
    "name": Look("fill: {ink}", is_bold=True),
    "text": Look("fill: {soft}"),
    "value": Look("fill: {ink}"),
    "note": Look("fill: {soft}", size=11),
    "code": Look("fill: {ink}", is_mono=True),
    "strong": Look("fill: {ink}", is_mono=True, is_bold=True),
    "number": Look("fill: {soft}", size=11, is_mono=True),
    "prompt": Look("fill: {green}", is_mono=True, is_bold=True),
    "on-deep": Look("fill: {white}", is_mono=True),
    "mark": Look("fill: {white}", size=11, is_bold=True),
    # shapes
    "back": Look("fill: {back}"),
    "band": Look("fill: {band}"),
    "box": Look("fill: {back}; stroke: {line}"),
    "open": Look("fill: none; stroke: {line}; stroke-dasharray: 4 3"),
    "deep": Look("fill: {deep}"),
    "pale": Look("fill: {pale}"),
    "faint": Look("fill: {faint}; stroke: {blue}"),
    "amber": Look("fill: {amber}"),
    "window": Look("fill: {screen}; stroke: {line}"),
    "button": Look("fill: {line}"),
    "bar": Look("fill: {blue}"),
    "ring": Look("fill: {back}; stroke: {blue}; stroke-width: 1.5"),
    "grey": Look("fill: {line}"),
    "base": Look("fill: none; stroke: {line}"),
    "thin": Look("fill: none; stroke: {line}; stroke-opacity: 0.35"),
    "range": Look("fill: none; stroke: {blue}; stroke-opacity: 0.5; stroke-width: 2"),
    "most": Look("fill: none; stroke: {red}; stroke-dasharray: 4 3; stroke-width: 1.5"),
    "way": Look("fill: none; stroke: {soft}; stroke-width: 1.5"),
    "tip": Look("fill: {soft}"),
    "bolt": Look("fill: {red}"),
    "before": Look("fill: none; stroke: {line}; stroke-width: 4"),
    "due": Look("fill: none; stroke: {gold}; stroke-width: 4"),
    "done": Look("fill: none; stroke: {blue}; stroke-width: 4"),
}


def style(looks: Iterable[str]) -> str:
    """What a drawing says of these looks, for light pages and for dark ones."""
    asked = set(looks)
    used = [it for it in LOOKS if it in asked]
    light = [f".{it} {{ {LOOKS[it].rule()} }}" for it in used]
    dark = [f".{it} {{ {LOOKS[it].dark_rule()} }}" for it in used if LOOKS[it].dark_rule()]
    return "\n".join(
        [
            "",
            f"svg {{ font: {SIZE}px system-ui, sans-serif; }}",
            *light,
            "@media (prefers-color-scheme: dark) {",
            *dark,
            "}",
            "",
        ]
    )


def width_of(words: str, look: str) -> float:
    """How wide a text is, at most; rounded, so that each version of Python makes the same of it."""
    found = LOOKS[look]
    if found.is_mono:
        return round(MONO_EM * found.size * len(words), 2)
    ems = sum(EMS.get(letter, OTHER_EM) for letter in words)
    return round(ems * found.size * (BOLD if found.is_bold else 1), 2)


def wrapped(words: str, look: str, room: Number) -> List[str]:
    """A text in lines that are no wider than this, unless a word alone is. It is broken at plain spaces."""
    lines: List[str] = []
    for word in words.split(" "):
        longer = f"{lines[-1]} {word}" if lines else word
        if lines and width_of(longer, look) <= room:
            lines[-1] = longer
        else:
            lines.append(word)
    return lines


def told(number: Number) -> str:
    """A number as it is written: with one decimal at most."""
    return f"{number:.1f}".rstrip("0").rstrip(".")


class Drawing:
    """A drawing in the making."""

    def __init__(self, width: int, title: str, description: str) -> None:
        self.width = width
        self.title, self.description = title, " ".join(description.split())
        self._looks = {"back"}
        self._parts: List[str] = []

    def rect(
        self, look: str, x: Number, y: Number, width: Number, height: Number, radius: int = 0
    ) -> None:
        """A box, perhaps with round corners."""
        corner = f' rx="{radius}"' if radius else ""
        size = f'x="{told(x)}" y="{told(y)}" width="{told(width)}" height="{told(height)}"'
        self._add(f"<rect {self._look(look)} {size}{corner}/>")

    def circle(self, look: str, x: Number, y: Number, radius: Number) -> None:
        """A circle around this place."""
        self._add(f'<circle {self._look(look)} cx="{told(x)}" cy="{told(y)}" r="{told(radius)}"/>')

    def path(self, look: str, way: str) -> None:
        """A line, as SVG writes its way."""
        self._add(f'<path {self._look(look)} d="{way}"/>')

    def arrow(self, x: Number, to_x: Number, y: Number) -> None:
        """An arrow to the right."""
        self.path("way", f"M{told(x)} {told(y)}H{told(to_x)}")
        self.path("tip", f"M{told(to_x)} {told(y)}l-7 -4v8z")

    def text(self, look: str, x: Number, y: Number, words: str, anchor: str = "start") -> None:
        """A line of text, whose base begins, has its middle or ends at this place."""
        at = "" if anchor == "start" else f' text-anchor="{anchor}"'
        place = f'x="{told(x)}" y="{told(y)}"{at}'
        self._add(f"<text {self._look(look)} {place}>{escape(words)}</text>")

    def lines(
        self, look: str, x: Number, y: Number, words: Sequence[str], anchor: str = "start"
    ) -> float:
        """Lines of text, one below the other. The answer is where the next one would be."""
        step = LOOKS[look].size * 1.3
        for at, line in enumerate(words):
            self.text(look, x, y + at * step, line, anchor)
        return y + len(words) * step

    def written(self, height: Number) -> str:
        """The drawing as a file, so high."""
        wide, high = self.width, told(height)
        head = (
            f'<svg xmlns="http://www.w3.org/2000/svg" width="{wide}" height="{high}"'
            f' viewBox="0 0 {wide} {high}" role="img" aria-labelledby="title told">'
        )
        return "\n".join(
            [
                head,
                f'<title id="title">{escape(self.title)}</title>',
                f'<desc id="told">{escape(self.description)}</desc>',
                f"<style>{style(self._looks)}</style>",
                f'<rect class="back" width="{wide}" height="{high}"/>',
                *self._parts,
                "</svg>\n",
            ]
        )

    def _look(self, look: str) -> str:
        """Says which look it has, and keeps that it is used."""
        self._looks.add(look)
        return f'class="{look}"'

    def _add(self, part: str) -> None:
        self._parts.append(part)
