"""The picture of a change: its steps as time goes on, and what a loss of power right after each of them leaves.

It is that of a folder of variables, as `docs/architecture.md` has it in "The walk of a change"; what is left is that of
`settle`, `update` and `command` of `boot_journal`."""

from __future__ import annotations

from typing import NamedTuple

from picture_drawing import Drawing, wrapped

IDLE, DUE = "nothing to do", "changes 1 to n"
SQUARES = 4
"""How many squares stand for the variables 1 to n."""


class Step(NamedTuple):
    """A step: its name, what it does, and what the journal says and how many variables are changed after it."""

    name: str
    words: str
    journal: str
    changed: int


STEPS = (
    Step("Lock", "the state folder and the variables; both are read", "as it was", 0),
    Step("Settle", "what an earlier change left to do is done first", IDLE, 0),
    Step("Plan", "what the change leads to, and what will be printed", IDLE, 0),
    Step("Keep a record", "of what is there before and after, for undo", IDLE, 0),
    Step("Write the journal", "each change, with what was there before it", DUE, 0),
    Step("Change variable 1", "entries that are new or have other data come first", DUE, 1),
    Step("Change variable 2", "then BootOrder, BootNext and Timeout", DUE, 2),
    Step("Change variable n", "entries that are taken out come last", DUE, SQUARES),
    Step("Clear the journal", "the next request's number and outcomes stay in it", IDLE, SQUARES),
    Step("Print", "what was planned is told; the locks end", IDLE, SQUARES),
)


class Zone(NamedTuple):
    """Steps after which a loss of power comes to the same: how many these are, how that looks, what is so in the end, and
    how."""

    steps: int
    look: str
    name: str
    words: str


ZONES = (
    Zone(
        4,
        "before",
        "As before",
        "The change hasn't happened, and nothing of it is to be done. A record of it that was kept is passed over by"
        " undo. Until step 2 is done, what an earlier change left is still in the journal, as after steps 5 to 8.",
    ),
    Zone(
        4,
        "due",
        "As after, once it is finished",
        "The next start, by the unit bootkeep-settle, or else the next change makes all n changes, whatever is there"
        " by then, and clears the journal. If the firmware refuses one of them, all are taken back: as before.",
    ),
    Zone(
        2,
        "done",
        "As after",
        "Nothing is to be done. A request that comes again is answered repeat, and isn't applied again.",
    ),
)

REFUSED = (
    "If the firmware or the disk refuses a write in steps 6 to 9, the change is taken back at once:"
)
BACK = (
    "the journal says: take back",
    "what was changed is put back, the last first",
    "the journal is cleared: as before",
)
BACK_CUT = (
    "If the power fails after the first of these, the next start or else the next change goes on with taking back; before"
    " it, it makes the change."
)

NOTES = (
    "A start in the midst finds the first changes made and the others not. BootOrder or BootNext names an entry that"
    " isn't there then only if it does so before the change or after it.",
    "If the machine was started since the journal was written, BootNext isn't set any more: where it was to be changed, it"
    " is taken out, since that start may have used it.",
    "All this is of variables in a folder, as Linux shows the firmware's. Of an emulator's variable file the changes are"
    " written at once.",
)

TITLE = "The steps of a change, and what a loss of power right after each of them leaves"

WIDTH, EDGE, TOP, ROW = 800, 8, 34, 40
WORDS, JOURNAL, VARIABLES, OUTCOME = 44, 368, 484, 568
"""Where the columns begin."""

BACK_WIDTHS = (186, 284, 210)


def picture() -> str:
    """The picture."""
    drawing = Drawing(WIDTH, TITLE, _described())
    _draw_heads(drawing)
    for at, step in enumerate(STEPS):
        _draw_step(drawing, at, step)
    first = 0
    for zone in ZONES:
        _draw_zone(drawing, first, zone)
        first += zone.steps
    y = _draw_refusal(drawing, TOP + len(STEPS) * ROW + 12)
    for note in NOTES:
        y = drawing.lines("note", EDGE, y, wrapped(note, "note", WIDTH - 2 * EDGE)) + 4
    return drawing.written(y)


def _draw_heads(drawing: Drawing) -> None:
    """Draws what is in the columns."""
    drawing.text("note", WORDS, 22, "step")
    drawing.text("note", JOURNAL, 22, "the journal then")
    drawing.text("note", VARIABLES, 22, "variables")
    drawing.path("bolt", f"M{OUTCOME + 9} 9l-7 9h4l-2 8l8 -10h-4l3 -7z")
    drawing.text("name", OUTCOME + 20, 22, "if the power fails right then")


def _draw_step(drawing: Drawing, at: int, step: Step) -> None:
    """Draws a step, as a station of the line of time."""
    y = TOP + at * ROW
    middle = y + ROW // 2
    if at + 1 < len(STEPS):
        drawing.path("way", f"M22 {middle}v{ROW}")
    drawing.circle("bar", 22, middle, 11)
    drawing.text("mark", 22, middle + 4, str(at + 1), "middle")
    drawing.text("name", WORDS, middle - 3, step.name)
    drawing.text("note", WORDS, middle + 12, step.words)
    look = "amber" if step.journal == DUE else "box"
    drawing.rect(look, JOURNAL, middle - 10, VARIABLES - JOURNAL - 18, 20, 3)
    drawing.text("note", JOURNAL + 8, middle + 4, step.journal)
    for square in range(SQUARES):
        look = "bar" if square < step.changed else "box"
        drawing.rect(look, VARIABLES + square * 18, middle - 7, 14, 14, 2)


def _draw_zone(drawing: Drawing, first: int, zone: Zone) -> None:
    """Draws what a loss of power after some steps comes to."""
    y, high = TOP + first * ROW + 2, zone.steps * ROW - 4
    drawing.rect("band", OUTCOME, y, WIDTH - EDGE - OUTCOME, high, 6)
    drawing.path(zone.look, f"M{OUTCOME + 2} {y + 6}v{high - 12}")
    drawing.text("name", OUTCOME + 14, y + 20, zone.name)
    lines = wrapped(zone.words, "note", WIDTH - EDGE - OUTCOME - 24)
    drawing.lines("note", OUTCOME + 14, y + 37, lines)


def _draw_refusal(drawing: Drawing, y: int) -> float:
    """Draws how a change is taken back. The answer is where the next line of text is."""
    drawing.rect("band", EDGE, y, WIDTH - 2 * EDGE, 94, 6)
    drawing.text("name", EDGE + 10, y + 19, REFUSED)
    x = EDGE + 10
    for at, (words, wide) in enumerate(zip(BACK, BACK_WIDTHS)):
        drawing.rect("box", x, y + 29, wide, 22, 3)
        drawing.text("note", x + 8, y + 44, words)
        if at + 1 < len(BACK):
            drawing.arrow(x + wide + 3, x + wide + 25, y + 40)
        x += wide + 28
    lines = wrapped(BACK_CUT, "note", WIDTH - 2 * EDGE - 20)
    drawing.lines("note", EDGE + 10, y + 70, lines)
    return y + 114


def _described() -> str:
    """What the picture shows, in words."""
    parts = []
    first = 1
    for zone in ZONES:
        for at in range(first, first + zone.steps):
            step = STEPS[at - 1]
            parts.append(f"Step {at}: {step.name}: {step.words}. The journal then: {step.journal}.")
        parts.append(f"If the power fails after one of these: {zone.name}. {zone.words}")
        first += zone.steps
    return " ".join([*parts, REFUSED, f"{'; then '.join(BACK)}.", BACK_CUT, *NOTES])
