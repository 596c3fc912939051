"""The pictures of layouts: of a frame, a set file, a load option and the journal's file, field by field.

What a format has is said here once, as strips of fields, each with its name, how many bytes it has and what is in it.
Where a field begins follows from the fields before it, and the bytes of an example are cut by them."""

from __future__ import annotations

import re
from math import ceil
from typing import Dict, Iterator, List, NamedTuple, Sequence, Tuple

from picture_drawing import Drawing, width_of, wrapped
from picture_plan import SET, read_set

REST, VALUE = "the rest", "a value"
"""How many bytes a field has that goes on to the end, and one that begins with how many it has in four bytes."""


class Field(NamedTuple):
    """A field: its name; how many bytes it has, or if that isn't fixed the letters that stand for it; what is in it; and the
    letter that stands for its number, if that is a count of what comes later."""

    name: str
    size: int = 0
    letters: str = ""
    value: str = ""
    counts: str = ""

    @property
    def size_words(self) -> str:
        """How many bytes it has, in words."""
        if self.letters in (REST, VALUE):
            return self.letters
        return "1 byte" if self.size == 1 else f"{self.letters or self.size} bytes"

    def length(self, rest: bytes, counts: Dict[str, int]) -> int:
        """How many bytes it has, if these are left, and what was counted before is known."""
        if not self.letters:
            return self.size
        if self.letters == REST:
            return len(rest)
        if self.letters == VALUE:
            return 4 + int.from_bytes(rest[:4], "little")
        found = re.fullmatch(r"(\d*)([a-z])(?: \+ (\d+))?", self.letters)
        assert found is not None
        times, more = int(found[1] or 1), int(found[3] or 0)
        if found[2] not in counts:
            units = [rest[at : at + times] for at in range(0, len(rest), times)]
            return times * units.index(bytes(times)) + more
        return times * counts[found[2]] + more


class Strip(NamedTuple):
    """Fields one right after the other: what they are, and what is to be said of that; the fields; whether it is told where
    each begins; and bytes that are an example."""

    name: str
    words: str
    fields: Tuple[Field, ...]
    has_offsets: bool = True
    example: bytes = b""

    def offsets(self) -> List[str]:
        """Where each field begins: a number, and letters for what isn't fixed."""
        found = []
        fixed, letters = 0, ""
        for field in self.fields:
            found.append(f"{fixed}{letters}")
            factor, _, more = field.letters.partition(" + ")
            fixed += field.size + int(more or 0)
            letters += f" + {factor}" if factor else ""
        return found

    def cut(self, data: bytes) -> Tuple[List[bytes], bytes]:
        """The bytes of each field, and those that are left."""
        found = []
        counts: Dict[str, int] = {}
        for field in self.fields:
            length = field.length(data, counts)
            found.append(data[:length])
            data = data[length:]
            if field.counts:
                counts[field.counts] = int.from_bytes(found[-1], "little")
        return found, data


class Layout(NamedTuple):
    """A format: its title, its strips, and what is to be said of it below them."""

    title: str
    strips: Tuple[Strip, ...]
    notes: Tuple[str, ...]


NUMBER = Field("entry's number", 2)

FRAME = Layout(
    "The bytes of a frame, which is a request with its number",
    (
        Strip(
            "A frame",
            "below it request 0, to remove entry 9",
            (
                Field("magic", 2, value="42 51"),
                Field("version", 1, value="1 to 3"),
                Field("kind", 1, value="1 to 8"),
                Field("request's number", 4),
                Field("payload's length", 4, counts="p"),
                Field("payload", letters="p"),
            ),
            example=bytes.fromhex("4251 01 03 00000000 02000000 0900"),
        ),
        Strip("1 Add, 2 Replace", "the payload", (NUMBER, Field("load option", letters=REST))),
        Strip("3 Remove, 5 Next, 8\N{NO-BREAK SPACE}First", "the payload", (NUMBER,), False),
        Strip("4 Order", "the payload: one for each entry, perhaps none", (NUMBER,), False),
        Strip("6 AddFree, 7 AddFirst", "the payload", (Field("load option", letters=REST),), False),
    ),
    (
        "Numbers are little-endian. The number of a request is at most 4,294,967,294, and p at most 131,072."
        " Kinds 1 to 5 are of version 1, kind 6 is of version 2, and kinds 7 and 8 are of version 3.",
    ),
)

RECORD = Strip(
    "A record",
    "for each variable, by rising names; below it an example",
    (
        Field("name's length", 1, counts="n"),
        Field("name", letters="n"),
        Field("data's length", 4, counts="d"),
        Field("data", letters="d"),
    ),
)

SET_FILE = Layout(
    "The bytes of a set file: the letters BVS1, and a record for each variable",
    (
        Strip("A set file", "", (Field("magic", 4, value="BVS1"), Field("records", letters=REST))),
        RECORD,
    ),
    ("Numbers are little-endian. n is 1 to 64, and d is 1 to 1,048,576. There are no attributes.",),
)

OPTION = Layout(
    "The bytes of a load option, which is the value of a variable Boot####",
    (
        Strip(
            "A load option",
            "below it Boot0001 of docs/examples/set",
            (
                Field("attributes", 4),
                Field("length of paths", 2, counts="p"),
                Field("description, and 0", letters="2u + 2"),
                Field("paths", letters="p"),
                Field("optional data", letters=REST),
            ),
        ),
    ),
    (
        "Numbers are little-endian. The description has u units of two bytes, none of them 0. p is 1 to 65,535: one or more"
        " device paths. There may be no optional data.",
        "Bits of the attributes: 0x1 active, 0x2 force reconnect, 0x8 hidden, and 0x1F00 the category, in which 0 is boot and"
        " 0x100 app. A file of efivarfs has four more bytes before all this, the attributes of the variable.",
    ),
)

JOURNAL = Layout(
    "The bytes of the journal's file: notes for senders, and after them a file of version 2",
    (
        Strip(
            "The file journal",
            "of version 3",
            (
                Field("magic", 4, value="BKJ3"),
                Field("journal's identity", 16),
                Field("count", 1, counts="c"),
                Field("digests", letters="12c"),
                Field("version 2", letters=REST),
            ),
        ),
        Strip(
            "A digest",
            "of a frame that was applied",
            (Field("request's number", 4), Field("start of its SHA-256", 8)),
        ),
        Strip(
            "Version 2",
            "begins so",
            (
                Field("magic", 4, value="BKJ2"),
                Field("name's length", 4, counts="m"),
                Field("name of the machine", letters="m"),
                Field("BootKeepState", letters=VALUE),
            ),
        ),
        Strip(
            "If something is to be done",
            "this follows",
            (
                Field("course", 1, value="1 or 2"),
                Field("identity's length", 1, counts="b"),
                Field("identity of the start", letters="b"),
                Field("BootKeepState before", letters=VALUE),
            ),
            False,
        ),
        Strip(
            "and each change",
            "in the order in which they are made",
            (
                Field("name's length", 1, counts="n"),
                Field("name", letters="n"),
                Field("what was there", letters=VALUE),
                Field("what is to be there", letters=VALUE),
            ),
            False,
        ),
        Strip(
            "A value",
            "",
            (Field("length", 4, counts="v"), Field("attributes (4), data", letters="v")),
        ),
    ),
    (
        "Numbers are little-endian. c is at most 128, m is 1 to 4,096, b is 1 to 64, n is that of Boot####, BootOrder, BootNext"
        " or Timeout, and v is at most 1,048,576, or 0 if there is no such variable. The value of BootKeepState is its data"
        " alone.",
        "The course is 1 while the changes are made, and 2 while they are rolled back: then BootKeepState before is left out.",
    ),
)

WIDTH, EDGE, LEFT, PAD, HIGH = 800, 8, 176, 8, 40
NAME_ROOM = 104
"""How wide a line of a field's name may be."""

MOST_SHOWN = 6
"""How many bytes of a field are shown of an example."""

RECORD_SIZE = sum(it.size for it in RECORD.fields)
"""How many bytes a record has beside a name and data."""


def picture(layout: Layout) -> str:
    """The picture of a layout."""
    drawing = Drawing(WIDTH, layout.title, _described(layout))
    y = 4.0
    for strip in layout.strips:
        y = _draw_strip(drawing, y, strip)
    for note in layout.notes:
        y = drawing.lines("note", EDGE, y + 12, wrapped(note, "note", WIDTH - 2 * EDGE)) - 8
    return drawing.written(y + 4)


def frame_picture() -> str:
    """The picture of a frame."""
    return picture(FRAME)


def set_picture() -> str:
    """The picture of a set file, with the one in docs/examples."""
    data = SET.read_bytes()
    variables = read_set(data)
    fields = [Field("BVS1", 4)]
    for name, value in variables.items():
        fields.append(Field(name, RECORD_SIZE + len(name) + len(value)))
    whole = Strip("docs/examples/set", f"{len(data)} bytes in all", tuple(fields))
    last = data[-fields[-1].size :]
    strips = (SET_FILE.strips[0], RECORD._replace(example=last), whole)
    return picture(SET_FILE._replace(strips=strips))


def option_picture() -> str:
    """The picture of a load option, with one of the set in docs/examples."""
    example = read_set(SET.read_bytes())["Boot0001"]
    return picture(OPTION._replace(strips=(OPTION.strips[0]._replace(example=example),)))


def journal_picture() -> str:
    """The picture of the journal's file."""
    return picture(JOURNAL)


def _widths(strip: Strip) -> List[float]:
    """How wide the boxes of the fields are: what is in them has room, and those without a fixed size fill the strip."""
    found = []
    for field, offset in zip(strip.fields, strip.offsets()):
        names = [width_of(it, "value") for it in wrapped(field.name, "value", NAME_ROOM)]
        others = [width_of(field.value, "code"), width_of(field.size_words, "note")]
        found.append(ceil(max(*names, *others, width_of(offset, "number"), 44)) + 2 * PAD)
    for at, shown in enumerate(_example(strip)):
        found[at] = max(found[at], ceil(width_of(shown, "number")) + PAD)
    free = WIDTH - EDGE - LEFT - sum(found)
    loose = [at for at, it in enumerate(strip.fields) if it.letters]
    return [it + free / len(loose) if at in loose else it for at, it in enumerate(found)]


def _example(strip: Strip) -> List[str]:
    """The bytes of the example, as they are shown of each field."""
    shown = []
    for part in strip.cut(strip.example)[0] if strip.example else []:
        first = part if len(part) <= MOST_SHOWN else part[: MOST_SHOWN - 1]
        shown.append(first.hex(" ") + (" .." if first != part else ""))
    return shown


def _draw_strip(drawing: Drawing, y: float, strip: Strip) -> float:
    """Draws fields, with where each begins above it, and how many bytes it has below. The answer is where the next strip
    begins."""
    top = y + (16 if strip.has_offsets else 6)
    after = drawing.lines("name", EDGE, top + 14, wrapped(strip.name, "name", LEFT - EDGE - 8))
    drawing.lines("note", EDGE, after, wrapped(strip.words, "note", LEFT - EDGE - 8))
    x = float(LEFT)
    example = _example(strip) or [""] * len(strip.fields)
    places = strip.offsets() if strip.has_offsets else [""] * len(strip.fields)
    for field, place, shown, wide in zip(strip.fields, places, example, _widths(strip)):
        if place:
            drawing.text("number", x + 1, top - 4, place)
        if shown:
            drawing.text("number", x + wide / 2, top + HIGH + 30, shown, "middle")
        _draw_field(drawing, x, top, wide, field)
        x += wide
    return top + HIGH + (44 if strip.example else 26)


def _draw_field(drawing: Drawing, x: float, y: float, wide: float, field: Field) -> None:
    """Draws a field."""
    drawing.rect("faint" if field.letters else "box", x, y, wide, HIGH)
    names = wrapped(field.name, "value", max(NAME_ROOM, wide - 2 * PAD))
    inside = field.value or field.counts
    base = y + HIGH / 2 + 4.5 - (len(names) + bool(inside) - 1) * 7.8
    after = drawing.lines("value", x + wide / 2, base, names, "middle")
    if inside:
        drawing.text("code", x + wide / 2, after, inside, "middle")
    drawing.text("note", x + wide / 2, y + HIGH + 14, field.size_words, "middle")


def _described(layout: Layout) -> str:
    """What the picture shows, in words."""
    return " ".join([*_told_strips(layout.strips), *layout.notes])


def _told_strips(strips: Sequence[Strip]) -> Iterator[str]:
    """Each strip in words."""
    for strip in strips:
        parts = []
        example = _example(strip) or [""] * len(strip.fields)
        for field, offset, shown in zip(strip.fields, strip.offsets(), example):
            at = f"at {offset}, " if strip.has_offsets else ""
            inside = f", {field.value}" if field.value else ""
            inside += f", which is {field.counts}" if field.counts else ""
            inside += f", in the example {shown}" if shown else ""
            parts.append(f"{at}{field.size_words}: {field.name}{inside}")
        words = f", {strip.words}" if strip.words else ""
        yield f"{strip.name}{words}: {'; '.join(parts)}."
