"""The picture of a plan: what firmware tries next, and what of it is left out, of the set in docs/examples."""

from __future__ import annotations

from typing import Dict, List, NamedTuple, Optional

from picture_drawing import Drawing
from repository import ROOT

SET = ROOT / "docs/examples/set"

MAGIC = b"BVS1"
VARIABLES = ("BootNext", "BootOrder")
"""The variables that name entries, in the order in which firmware goes by them."""

ACTIVE, CATEGORY = 0x00000001, 0x00001F00
"""Bits of the attributes of an entry (UEFI 2.10, 3.1.3)."""

TITLE = "What firmware tries next of the sample set, and what it leaves out"

WIDTH, EDGE, ROW = 800, 8, 36
NUMBERS, ENTRIES, END, OUTCOMES, WORDS = 100, 194, 510, 540, 568
"""Where the columns begin, where an entry ends, and where the words for what becomes of it begin."""

ONCE = "once, whatever its attributes are"

PLACES = ("1st", "2nd", "3rd", "4th", "5th", "6th")


class Entry(NamedTuple):
    """An entry: its description, and its attributes."""

    description: str
    attributes: int

    @property
    def state(self) -> str:
        """The attributes that a plan asks for, in words."""
        active = "active" if self.attributes & ACTIVE else "inactive"
        kind = {0: "boot", 0x100: "app"}.get(self.attributes & CATEGORY, "other")
        return f"{active}, category {kind}"

    @property
    def why_not(self) -> Optional[str]:
        """Why BootOrder alone doesn't have it tried, if it doesn't."""
        if not self.attributes & ACTIVE:
            return "it isn't active"
        return "its category isn't boot" if self.attributes & CATEGORY else None


class Row(NamedTuple):
    """A number that a variable names: the variable, whether its data is there, the entry, and what becomes of it."""

    variable: str
    number: int
    is_there: bool
    entry: Optional[Entry]
    place: int
    """Which one it is of those that are tried, from 1 on; 0 if it is left out."""
    words: str


def read_set(data: bytes) -> Dict[str, bytes]:
    """The variables of a set file."""
    if data[:4] != MAGIC:
        raise ValueError("it is no set file")
    found = {}
    at = len(MAGIC)
    while at < len(data):
        value = at + 1 + data[at]
        end = value + 4 + int.from_bytes(data[value : value + 4], "little")
        found[data[at + 1 : value].decode("ascii")] = data[value + 4 : end]
        at = end
    return found


def read_entry(data: bytes) -> Optional[Entry]:
    """An entry, if its data is a load option, as far as a plan looks at it."""
    units = [data[at : at + 2] for at in range(6, len(data) - 1, 2)]
    if b"\0\0" not in units:
        return None
    description = b"".join(units[: units.index(b"\0\0")]).decode("utf-16-le")
    return Entry(description, int.from_bytes(data[:4], "little"))


def numbers_of(data: bytes) -> List[int]:
    """The numbers in the data of BootOrder or BootNext."""
    return [int.from_bytes(data[at : at + 2], "little") for at in range(0, len(data), 2)]


def rows_of(variables: Dict[str, bytes]) -> List[Row]:
    """What becomes of each number, first that of BootNext and then those of BootOrder."""
    rows: List[Row] = []
    place = 0
    for variable in VARIABLES:
        for number in numbers_of(variables.get(variable, b"")):
            data = variables.get(f"Boot{number:04X}")
            entry = None if data is None else read_entry(data)
            why_not = _why_not(variable, data, entry)
            place += why_not is None
            words = f"left out: {why_not}" if why_not else f"tried {PLACES[place - 1]}"
            at = 0 if why_not else place
            rows.append(Row(variable, number, data is not None, entry, at, words))
    return rows


def _why_not(variable: str, data: Optional[bytes], entry: Optional[Entry]) -> Optional[str]:
    """Why an entry that the variable names isn't tried, if it isn't."""
    if data is None:
        return "there is no such entry"
    if entry is None:
        return "its data is no load option"
    return entry.why_not if variable == "BootOrder" else None


def plan_line(rows: List[Row]) -> str:
    """The plan as the programs print it."""
    tried = [it for it in rows if it.place]
    following = [f"{it.number:04X}" for it in tried if it.variable == "BootNext"]
    normal = [f"{it.number:04X}" for it in tried if it.variable == "BootOrder"]
    return f"plan next {following[0] if following else '-'} normal {' '.join(normal) or '-'}"


def picture() -> str:
    """The picture."""
    rows = rows_of(read_set(SET.read_bytes()))
    drawing = Drawing(WIDTH, TITLE, _described(rows))
    drawing.text("note", ENTRIES, 20, "the entry that the number names")
    drawing.text("note", OUTCOMES, 20, "what the next start makes of it")
    y = 38
    for variable in VARIABLES:
        named = [it for it in rows if it.variable == variable]
        drawing.rect("band", EDGE, y, WIDTH - 2 * EDGE, len(named) * ROW + 4, 6)
        drawing.text("name", EDGE + 10, y + 24, variable)
        for at, row in enumerate(named):
            _draw_row(drawing, y + 2 + at * ROW, row)
        y += len(named) * ROW + 12
    drawing.text("note", EDGE, y + 18, "The line for it that the programs print:")
    drawing.text("code", EDGE + 250, y + 18, plan_line(rows))
    return drawing.written(y + 30)


def _draw_row(drawing: Drawing, y: int, row: Row) -> None:
    """Draws a number, its entry, and what becomes of it."""
    middle = y + ROW // 2
    drawing.rect("box", NUMBERS, middle - 13, 56, 26, 3)
    drawing.text("strong", NUMBERS + 28, middle + 4, f"{row.number:04X}", "middle")
    drawing.arrow(NUMBERS + 60, ENTRIES - 4, middle)
    drawing.rect("box" if row.is_there else "open", ENTRIES, middle - 14, END - ENTRIES, 28, 3)
    if row.entry is not None:
        drawing.text("value", ENTRIES + 10, middle + 4, row.entry.description)
        drawing.text("note", END - 10, middle + 4, row.entry.state, "end")
    else:
        words = "undecodable" if row.is_there else "no such entry"
        drawing.text("text", ENTRIES + 10, middle + 4, words)
    if row.place:
        drawing.arrow(END + 4, OUTCOMES - 4, middle)
        drawing.circle("bar", OUTCOMES + 11, middle, 11)
        drawing.text("mark", OUTCOMES + 11, middle + 4, str(row.place), "middle")
    else:
        drawing.path("way", f"M{OUTCOMES + 6} {middle - 5}l10 10m0 -10l-10 10")
    is_once = row.variable == "BootNext" and bool(row.place)
    base = middle - 3 if is_once else middle + 4
    drawing.text("name" if row.place else "text", WORDS, base, row.words)
    if is_once:
        drawing.text("note", WORDS, base + 14, ONCE)


def _described(rows: List[Row]) -> str:
    """What the picture shows, in words."""
    parts = []
    for row in rows:
        what = "" if row.entry is None else f" {row.entry.description}, {row.entry.state},"
        once = f", {ONCE}" if row.place and row.variable == "BootNext" else ""
        parts.append(f"{row.variable} names {row.number:04X}:{what} {row.words}{once}.")
    return f"{' '.join(parts)} The programs print this as: {plan_line(rows)}"
