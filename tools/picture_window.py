"""The picture of a keeper's window: what becomes of a request by its number, as `docs/requests.md` has it."""

from __future__ import annotations

from typing import NamedTuple

from picture_drawing import Drawing, wrapped

KEPT = 64
"""How many outcomes are kept, and how many numbers the window has."""


class Part(NamedTuple):
    """Numbers of which the same becomes: the first and the last one as they are called, the reply, what happened, how wide
    they are drawn, how many there are if that is a fixed number, and how they look."""

    first: str
    last: str
    reply: str
    words: str
    wide: int
    boxes: int
    look: str

    def numbers(self) -> str:
        """The numbers."""
        if self.first == self.last:
            return self.first
        return f"{self.first} to {self.last}" if self.last else f"from {self.first} on"


PARTS = (
    Part("0", f"N-{KEPT + 1}", "old", "applied, too old to be told", 138, 0, "grey"),
    Part(f"N-{KEPT}", "N-1", "repeat", "applied: its outcome is told", 190, KEPT, "pale"),
    Part("N", "N", "applied", "the next number: applied now", 114, 1, "bar"),
    Part(
        "N+1", f"N+{KEPT - 1}", "waiting", "kept, waits for those before it", 190, KEPT - 1, "amber"
    ),
    Part(f"N+{KEPT}", "", "ahead", "not kept: send it later", 138, 0, "open"),
)

MOVES = (
    "Each request that is applied moves all of this by one to the right: the one at N, and then those that wait right"
    " after it."
)

TITLE = "What becomes of a request, by its number, if N is the next number"

WIDTH, EDGE, GAP, TOP, HIGH = 800, 9, 3, 74, 30


def picture() -> str:
    """The picture."""
    drawing = Drawing(WIDTH, TITLE, _described())
    x = EDGE
    for part in PARTS:
        _draw_part(drawing, x, part)
        x += part.wide + GAP
    ends = [EDGE + sum(it.wide + GAP for it in PARTS[:at]) for at in range(len(PARTS) + 1)]
    _draw_span(drawing, ends[1], ends[2] - GAP, f"{KEPT} outcomes are kept")
    _draw_span(drawing, ends[2], ends[4] - GAP, f"the window: {KEPT} numbers")
    drawing.text("note", EDGE, TOP + HIGH + 92, MOVES)
    return drawing.written(TOP + HIGH + 104)


def _draw_span(drawing: Drawing, left: int, right: int, words: str) -> None:
    """Draws what some parts are together."""
    drawing.path("way", f"M{left + 1} 34v-8H{right - 1}v8")
    drawing.text("name", (left + right) / 2, 18, words, "middle")


def _draw_part(drawing: Drawing, x: int, part: Part) -> None:
    """Draws numbers of which the same becomes."""
    middle = x + part.wide / 2
    numbers = part.numbers().replace("-", "\N{MINUS SIGN}")
    drawing.text("code", middle, TOP - 14, numbers, "middle")
    drawing.rect(part.look, x, TOP, part.wide, HIGH)
    if part.boxes > 1:
        step = part.wide / part.boxes
        ticks = "".join(f"M{x + at * step:.1f} {TOP}v{HIGH}" for at in range(1, part.boxes))
        drawing.path("thin", ticks)
    drawing.text("strong", middle, TOP + HIGH + 22, part.reply, "middle")
    drawing.lines(
        "note", middle, TOP + HIGH + 42, wrapped(part.words, "note", part.wide - 4), "middle"
    )


def _described() -> str:
    """What the picture shows, in words."""
    parts = [f"{it.numbers()}: {it.reply}, {it.words}." for it in PARTS]
    return f"{' '.join(parts)} The numbers from N to N+{KEPT - 1} are the window. {MOVES}"
