"""The picture of the layers: which crates stand on which, and what the proofs say of each.

In which layer a crate is follows from crates.txt, so that a new one has its place: it is in the highest layer of which
it begins a part, or of which it stands on a crate. What the proofs say of it is told here, as docs/promises.md has it;
of one that isn't named here it is taken that they say little."""

from __future__ import annotations

from typing import Dict, List, NamedTuple, Sequence, Tuple

from picture_drawing import Drawing, width_of, wrapped
from repository import Crate, crates_below, read_crates


class Layer(NamedTuple):
    """A layer: what it is of, and the crates with which it begins."""

    name: str
    words: str
    firsts: Tuple[str, ...]


LAYERS = (
    Layer("Bytes and their texts", "paths, options, images, partitions", ()),
    Layer("Variables", "as a set, or in a variable file", ("uefi_vars",)),
    Layer(
        "Requests and journal",
        "numbered changes, and changes that are cut off",
        ("boot_requests", "request_preconditions", "boot_notes", "machine_names", "boot_journal"),
    ),
    Layer(
        "Changes as a whole",
        "requests, edits, profiles and trials by the journal",
        ("journaled_requests", "boot_edits"),
    ),
    Layer(
        "Words",
        "what is read of words and files, and what is printed",
        ("messages", "value_texts", "efibootmgr_words"),
    ),
    Layer("Places of a machine", "its variables, files and disks", ("whole_files",)),
    Layer(
        "Commands",
        "changes of a machine, and looks at it",
        ("wanted_changes", "place_checks", "boot_commands"),
    ),
    Layer("Programs", "and the library for C", ("bootkeep", "bootvars", "bootkeep_c")),
)
"""From the lowest one on."""


class Cover(NamedTuple):
    """How much the proofs say of a crate: its look and that of its name, what it means, and the crates."""

    look: str
    name_look: str
    words: str
    crates: Tuple[str, ...]


COVERS = (
    Cover(
        "deep",
        "on-deep",
        "The contracts say what its calls answer, make and refuse.",
        (
            *("uefi_path", "uefi_text", "uefi_names", "partitions", "efi_images", "uefi_option"),
            *("uefi_vars", "var_stores", "entry_checks", "boot_requests", "boot_notes"),
            *(
                "machine_names",
                "boot_journal",
                "change_records",
                "journaled_requests",
                "boot_moves",
            ),
            *("boot_edits", "boot_profiles", "boot_trials", "efibootmgr_words", "bootkeep_c"),
        ),
    ),
    Cover(
        "pale",
        "code",
        "They say what it decides and leads to. What it reads, stores and prints, cases show.",
        (
            *("request_preconditions", "value_texts", "command_words", "profile_files"),
            *("boot_commands",),
            *("boot_history", "disk_files", "wanted_changes", "boot_updates", "place_edits"),
            *("place_checks", "profile_changes", "bootkeep"),
        ),
    ),
    Cover(
        "faint",
        "code",
        "They say little: mostly that each call returns and does nothing undefined. Cases show the rest.",
        (),
    ),
)
"""From the one with the most to say on."""

TESTED = "No Rattle, and nothing is proved of it: tests show what it does."

BESIDE = (
    ("calls bootkeep_c:", ("C, by bootkeep.h", "Python", "Rust", "bootfleet, for fleets")),
    ("runs bootvars:", ("bootfleet-agent", "Ansible", "units of systemd")),
)
"""What is beside the crates, and what it stands on."""

TITLE = "The layers of Bootkeep, from bytes at the bottom to the programs at the top"

WIDTH, LEFT, RIGHT, EDGE = 800, 196, 784, 8
BOX, GAP, PAD = 24, 6, 8
"""How high the box of a crate is, what is between two of them, and what is around them in their layer."""

LEGEND = 20
"""How high a line of the legend is."""

Row = List[Tuple[float, float, str]]
"""Boxes beside each other: of each where it begins, how wide it is, and what is in it."""


def layer_of(name: str, crates: Dict[str, Crate]) -> int:
    """The number of the layer that a crate is in, from the lowest one on."""
    within = {name, *crates_below(name, crates)}
    return max(at for at, it in enumerate(LAYERS) if not at or within & set(it.firsts))


def layered(crates: Dict[str, Crate]) -> List[List[str]]:
    """The crates of each layer, from the lowest one on, in the order of crates.txt."""
    found: List[List[str]] = [[] for _ in LAYERS]
    for name in crates:
        found[layer_of(name, crates)].append(name)
    return found


def cover_of(name: str) -> Cover:
    """What the proofs say of a crate."""
    return next((it for it in COVERS if name in it.crates), COVERS[-1])


def rows_of(names: Sequence[str], look: str, left: float = LEFT) -> List[Row]:
    """Boxes of these names, from this place on, in as many rows as it takes."""
    rows: List[Row] = [[]]
    x = left
    for name in names:
        wide = width_of(name, look) + 2 * PAD
        if rows[-1] and x + wide > RIGHT:
            rows.append([])
            x = left
        rows[-1].append((x, wide, name))
        x += wide + GAP
    return rows


def picture() -> str:
    """The picture."""
    layers = layered(read_crates())
    drawing = Drawing(WIDTH, TITLE, _described(layers))
    y = _draw_beside(drawing, EDGE)
    for layer, names in reversed(list(zip(LAYERS, layers))):
        y = _draw_layer(drawing, y, layer, names)
    return drawing.written(_draw_legend(drawing, y))


def _height(rows: int) -> int:
    """How high a layer with so many rows of boxes is."""
    return max(rows * (BOX + GAP) - GAP, 44) + 2 * PAD


def _tops(y: float, rows: int) -> List[float]:
    """Where these rows begin in a layer that begins here."""
    first = y + (_height(rows) - rows * (BOX + GAP) + GAP) / 2
    return [first + at * (BOX + GAP) for at in range(rows)]


def _draw_layer(drawing: Drawing, y: float, layer: Layer, names: Sequence[str]) -> float:
    """Draws a layer. The answer is where the next one begins."""
    rows = rows_of(names, "code")
    high = _height(len(rows))
    drawing.rect("band", EDGE, y, WIDTH - 2 * EDGE, high, 6)
    _draw_words(drawing, y + high / 2, layer.name, layer.words)
    for top, row in zip(_tops(y, len(rows)), rows):
        for x, wide, name in row:
            cover = cover_of(name)
            drawing.rect(cover.look, x, top, wide, BOX, 4)
            drawing.text(cover.name_look, x + PAD, top + 16, name)
    return y + high + GAP


def _draw_words(drawing: Drawing, middle: float, name: str, words: str) -> None:
    """Draws what a layer is."""
    lines = wrapped(words, "note", LEFT - EDGE - 2 * PAD)
    y = middle + 4 - 7 * len(lines)
    drawing.text("name", EDGE + PAD, y, name)
    drawing.lines("note", EDGE + PAD, y + 15, lines)


def _draw_beside(drawing: Drawing, y: float) -> float:
    """Draws what is beside the crates. The answer is where the first layer begins."""
    high = _height(len(BESIDE))
    drawing.rect("band", EDGE, y, WIDTH - 2 * EDGE, high, 6)
    _draw_words(drawing, y + high / 2, "Beside the crates", "libraries, the fleet, Ansible")
    left = LEFT + max(width_of(it, "note") for it, _ in BESIDE) + PAD
    for top, (onto, names) in zip(_tops(y, len(BESIDE)), BESIDE):
        drawing.text("note", LEFT, top + 16, onto)
        for x, wide, name in rows_of(names, "value", left)[0]:
            drawing.rect("open", x, top, wide, BOX, 4)
            drawing.text("value", x + PAD, top + 16, name)
    return y + high + GAP


def _draw_legend(drawing: Drawing, y: float) -> float:
    """Draws what the boxes mean. The answer is where that ends."""
    drawing.text(
        "text",
        EDGE,
        y + 14,
        "A crate stands on crates of its own layer and of those below it. What is proved of its calls:",
    )
    meanings = [*((it.look, it.words) for it in COVERS), ("open", TESTED)]
    for at, (look, words) in enumerate(meanings):
        top = y + LEGEND * (at + 1) + 2
        drawing.rect(look, EDGE + 1, top, 24, 13, 3)
        drawing.text("note", EDGE + 34, top + 11, words)
    return y + LEGEND * (len(meanings) + 1) + EDGE


def _described(layers: Sequence[Sequence[str]]) -> str:
    """What the picture shows, in words."""
    parts = [f"What {onto} {', '.join(names)}." for onto, names in BESIDE]
    for layer, names in reversed(list(zip(LAYERS, layers))):
        parts.append(f"{layer.name}, {layer.words}: {', '.join(names)}.")
    for cover in COVERS:
        named = [it for layer in layers for it in layer if cover_of(it) is cover]
        parts.append(f"{cover.words} So it is of {', '.join(named)}.")
    return f"From the top down. {' '.join(parts)}"
