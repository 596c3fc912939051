"""Tests of the pictures of the pages: that each is what is made now, that it can be read, and that it is shown."""

from __future__ import annotations

import contextlib
import io
import re
import sys
import tempfile
import unittest
from pathlib import Path
from typing import Dict, List, NamedTuple, Tuple
from xml.etree import ElementTree

ROOT = Path(__file__).resolve().parents[1]
sys.path.insert(0, str(ROOT / "tools"))

import picture_drawing  # noqa: E402
import picture_layers  # noqa: E402
import picture_layouts  # noqa: E402
import picture_list  # noqa: E402
import picture_plan  # noqa: E402
import picture_run  # noqa: E402
import picture_sources  # noqa: E402
import picture_terminal  # noqa: E402
import picture_window  # noqa: E402
from repository import Crate, crates_below, read_crates  # noqa: E402

SPACE = "{http://www.w3.org/2000/svg}"
WIDEST, EDGE = 800, 2
"""How wide a picture is at most, and how far texts stay away from its edges."""

LINK = re.compile(r"!\[([^\]]*)\]\(([\w./-]+\.svg)\)")
"""A picture in a page: what it says to those who don't see it, and its file."""

RUN_PAGE = """# Costs

## Beside plain Rust

| Call | Over | MB/s | Ratio |
|---|---|---|---|
| `one` | 2 and 3 nodes | 1,407, 1,044 | 1.09, 0.12 |
| all of `two` | the same | | 0.50, 2.00 |

## Beside libefivar

They are 48 nanoseconds beside 4,048 for 44 bytes, and
117,455 beside 452,770 for 21,604.

## More
"""


class Area(NamedTuple):
    """What a part of a picture takes: its left and upper edges, and its right and lower ones."""

    left: float
    top: float
    right: float
    bottom: float

    def has(self, other: Area) -> bool:
        """Whether the other one is in it."""
        return (
            self.left <= other.left
            and self.top <= other.top
            and other.right <= self.right
            and other.bottom <= self.bottom
        )

    def meets(self, other: Area) -> bool:
        """Whether they have something in common."""
        return (
            self.left < other.right
            and other.left < self.right
            and self.top < other.bottom
            and other.top < self.bottom
        )


def number(part: ElementTree.Element, name: str) -> float:
    return float(part.get(name, "0"))


def boxes_of(picture: ElementTree.Element) -> List[Area]:
    """The boxes and circles of a picture, but for its ground."""
    areas = []
    for it in list(picture.iter(f"{SPACE}rect"))[1:]:
        x, y = number(it, "x"), number(it, "y")
        areas.append(Area(x, y, x + number(it, "width"), y + number(it, "height")))
    for it in picture.iter(f"{SPACE}circle"):
        x, y, radius = number(it, "cx"), number(it, "cy"), number(it, "r")
        areas.append(Area(x - radius, y - radius, x + radius, y + radius))
    return areas


def texts_of(picture: ElementTree.Element) -> List[Tuple[str, Area]]:
    """The texts of a picture, and what each takes by an estimate."""
    found = []
    for it in picture.iter(f"{SPACE}text"):
        words, look = it.text or "", it.get("class", "")
        wide, size = picture_drawing.width_of(words, look), picture_drawing.LOOKS[look].size
        part = {"start": 0.0, "middle": 0.5, "end": 1.0}[it.get("text-anchor", "start")]
        left, base = number(it, "x") - part * wide, number(it, "y")
        found.append((words, Area(left, base - 0.74 * size, left + wide, base + 0.22 * size)))
    return found


def faults_of(picture: ElementTree.Element) -> List[str]:
    """Texts of a picture that run out of it, over the edge of a box, or over another text."""
    ground = Area(EDGE, EDGE, number(picture, "width") - EDGE, number(picture, "height") - EDGE)
    boxes, texts = boxes_of(picture), texts_of(picture)
    faults = [f"out of the picture: {words}" for words, it in texts if not ground.has(it)]
    for at, (words, it) in enumerate(texts):
        faults += [f"over an edge: {words}" for box in boxes if box.meets(it) and not box.has(it)]
        faults += [f"over {other}: {words}" for other, area in texts[:at] if area.meets(it)]
    return faults


def pages() -> List[Path]:
    return sorted([*ROOT.glob("*.md"), *ROOT.glob("docs/**/*.md")])


class Pictures(unittest.TestCase):
    """What all of them have in common."""

    def test_each_is_what_is_made_now(self) -> None:
        for name, make in picture_list.PICTURES.items():
            with self.subTest(name):
                file = picture_list.FOLDER / f"{name}.svg"
                is_so = file.read_text(encoding="utf-8") == make()
                self.assertTrue(
                    is_so, f"docs/pictures/{name}.svg is an older one: run tools/pictures"
                )

    def test_there_is_no_other(self) -> None:
        files = {it.stem for it in picture_list.FOLDER.iterdir()}
        self.assertEqual(files, set(picture_list.PICTURES))

    def test_each_is_for_light_and_dark_and_for_those_who_hear_it(self) -> None:
        for name, make in picture_list.PICTURES.items():
            with self.subTest(name):
                text = make()
                made = ElementTree.fromstring(text)
                self.assertLessEqual(number(made, "width"), WIDEST)
                self.assertEqual(
                    made.get("viewBox"), f"0 0 {made.get('width')} {made.get('height')}"
                )
                self.assertIn("prefers-color-scheme: dark", text)
                self.assertNotRegex(text, r"href|url\(|<script")
                for part in ("title", "desc"):
                    said = made.find(f"{SPACE}{part}")
                    assert said is not None
                    self.assertIn(said.get("id", "-"), made.get("aria-labelledby", "").split())
                    self.assertGreater(len(said.text or ""), 20)

    def test_texts_have_room(self) -> None:
        of_fleet = ROOT / "docs/fleet-scale.svg"
        for file in [*picture_list.FOLDER.iterdir(), of_fleet]:
            with self.subTest(file.name):
                self.assertEqual(faults_of(ElementTree.parse(file).getroot()), [])

    def test_a_text_without_room_is_found(self) -> None:
        drawing = picture_drawing.Drawing(100, "a title", "what it shows")
        drawing.rect("box", 10, 10, 40, 20)
        drawing.text("code", 12, 24, "long")
        drawing.text("code", 12, 50, "seven l")
        self.assertEqual(faults_of(ElementTree.fromstring(drawing.written(60))), [])
        drawing.text("code", 12, 22, "longer")
        drawing.text("code", 60, 52, "letters")
        self.assertEqual(
            faults_of(ElementTree.fromstring(drawing.written(60))),
            [
                "out of the picture: letters",
                "over an edge: longer",
                "over long: longer",
                "over seven l: letters",
            ],
        )

    def test_pages_show_what_is_there_and_say_what_it_is(self) -> None:
        shown: Dict[str, List[str]] = {}
        for page in pages():
            for said, link in LINK.findall(page.read_text(encoding="utf-8")):
                file = (page.parent / link).resolve()
                self.assertTrue(file.is_file(), f"{page.name}: {link}")
                self.assertGreater(len(said), 20, f"{page.name}: {link}")
                shown.setdefault(file.stem, []).append(page.name)
        self.assertLessEqual(set(picture_list.PICTURES), set(shown))

    def test_the_script_writes_what_is_new(self) -> None:
        with tempfile.TemporaryDirectory() as folder, contextlib.redirect_stdout(
            io.StringIO()
        ) as out:
            self.assertEqual(picture_list.main(["window"], Path(folder) / "new"), 0)
            self.assertEqual(picture_list.main(["window"], Path(folder) / "new"), 0)
            self.assertEqual(len(list((Path(folder) / "new").iterdir())), 1)
        self.assertEqual(out.getvalue(), "window.svg\n")
        with contextlib.redirect_stderr(io.StringIO()) as told:
            self.assertEqual(picture_list.main(["none"]), 2)
        self.assertEqual(told.getvalue(), "pictures: no picture is named none\n")


class Drawings(unittest.TestCase):
    """What drawings are made of."""

    def test_a_style_has_what_is_used_and_what_a_dark_page_has_otherwise(self) -> None:
        self.assertEqual(
            picture_drawing.style(["mark", "code"]).splitlines()[2:],
            [
                ".code { font-family: monospace; fill: #0b0b0b; }",
                ".mark { font-size: 11px; font-weight: 600; fill: #ffffff; }",
                "@media (prefers-color-scheme: dark) {",
                ".code { fill: #ffffff; }",
                "}",
            ],
        )

    def test_letters_of_a_console_are_equally_wide(self) -> None:
        self.assertAlmostEqual(picture_drawing.width_of("iiii", "code"), 4 * 0.6 * 12)
        self.assertLess(
            picture_drawing.width_of("iiii", "value"), picture_drawing.width_of("mmmm", "value")
        )

    def test_a_text_is_broken_at_plain_spaces(self) -> None:
        room = picture_drawing.width_of("one two", "code")
        self.assertEqual(
            picture_drawing.wrapped("one two 3\N{NO-BREAK SPACE}a longer", "code", room),
            ["one two", "3\N{NO-BREAK SPACE}a", "longer"],
        )

    def test_words_are_no_marks_of_xml(self) -> None:
        drawing = picture_drawing.Drawing(100, "a < b", "a & b")
        drawing.text("code", 1, 10, "<c> & d")
        made = ElementTree.fromstring(drawing.written(20))
        self.assertEqual([it.text for it in made.iter(f"{SPACE}text")], ["<c> & d"])


class Layers(unittest.TestCase):
    """The layers, by crates.txt."""

    def setUp(self) -> None:
        self.crates = read_crates()

    def test_each_crate_is_drawn_once(self) -> None:
        made = ElementTree.fromstring(picture_layers.picture())
        looks = {it.name_look for it in picture_layers.COVERS}
        texts = [it.text or "" for it in made.iter(f"{SPACE}text") if it.get("class") in looks]
        for name in self.crates:
            self.assertEqual(texts.count(name), 1, name)

    def test_no_crate_stands_on_one_above_it(self) -> None:
        layers = {it: picture_layers.layer_of(it, self.crates) for it in self.crates}
        for name in self.crates:
            for below in crates_below(name, self.crates):
                self.assertLessEqual(layers[below], layers[name], f"{name} on {below}")

    def test_a_new_crate_has_its_place(self) -> None:
        new = {"new_edits": Crate("new_edits", False, ["uefi_vars", "boot_edits", "thiserror"])}
        crates = {**self.crates, **new}
        self.assertEqual(
            picture_layers.layer_of("new_edits", crates),
            picture_layers.layer_of("boot_edits", crates),
        )
        self.assertIs(picture_layers.cover_of("new_edits"), picture_layers.COVERS[-1])

    def test_crates_that_are_named_are_there(self) -> None:
        firsts = [it for layer in picture_layers.LAYERS for it in layer.firsts]
        covered = [it for cover in picture_layers.COVERS for it in cover.crates]
        self.assertEqual(len(set(covered)), len(covered))
        self.assertEqual([it for it in [*firsts, *covered] if it not in self.crates], [])

    def test_the_least_is_said_of_what_the_readme_says_it_of(self) -> None:
        page = (ROOT / "README.md").read_text(encoding="utf-8")
        said = re.search(r"(?s)\*\*What the contracts say little of\.\*\*(.*?)\n\n", page)
        assert said is not None
        for name in re.findall(r"`(\w+)`", said[1]):
            self.assertIs(picture_layers.cover_of(name), picture_layers.COVERS[-1], name)


class Layouts(unittest.TestCase):
    """The fields of the layouts, over bytes."""

    def cut(self, strip: picture_layouts.Strip, data: bytes) -> Tuple[Dict[str, bytes], bytes]:
        parts, rest = strip.cut(data)
        self.assertEqual(b"".join(parts) + rest, data)
        return {field.name: part for field, part in zip(strip.fields, parts)}, rest

    def test_offsets_follow_from_sizes(self) -> None:
        self.assertEqual(picture_layouts.FRAME.strips[0].offsets(), ["0", "2", "3", "4", "8", "12"])
        self.assertEqual(picture_layouts.RECORD.offsets(), ["0", "1", "1 + n", "5 + n"])
        self.assertEqual(
            picture_layouts.OPTION.strips[0].offsets(), ["0", "4", "6", "8 + 2u", "8 + 2u + p"]
        )
        self.assertEqual(
            picture_layouts.JOURNAL.strips[0].offsets(), ["0", "4", "20", "21", "21 + 12c"]
        )

    def test_a_stream_is_frames(self) -> None:
        rest = (ROOT / "docs/examples/stream").read_bytes()
        kinds = []
        while rest:
            parts, rest = self.cut(picture_layouts.FRAME.strips[0], rest)
            self.assertEqual(
                parts["magic"].hex(" "), picture_layouts.FRAME.strips[0].fields[0].value
            )
            kinds.append(parts["kind"][0])
        self.assertEqual(kinds, [6, 4, 5])

    def test_a_set_is_records_and_its_entries_are_options(self) -> None:
        head, rest = self.cut(picture_layouts.SET_FILE.strips[0], picture_plan.SET.read_bytes())
        self.assertEqual((head["magic"], rest), (b"BVS1", b""))
        rest, found = head["records"], {}
        while rest:
            parts, rest = self.cut(picture_layouts.RECORD, rest)
            found[parts["name"].decode()] = parts["data"]
        self.assertEqual(found, picture_plan.read_set(picture_plan.SET.read_bytes()))
        option, rest = self.cut(picture_layouts.OPTION.strips[0], found["Boot0001"])
        description = option["description, and 0"].decode("utf-16-le")
        self.assertEqual((description, rest), ("Windows Boot Manager\0", b""))
        self.assertEqual(option["paths"][-4:].hex(), "7fff0400")
        self.assertEqual(option["optional data"], b"WINDOWS\0")

    def test_a_journal_is_what_cases_have(self) -> None:
        """One of version 3 with a digest, and one of version 2 with a change of BootOrder that is being made."""
        notes = "424b4a33" + "ff" * 16 + "01000000009c9414faf1a04f08"
        idle = "424b4a3207000000656669766172730a00000002010000000100000000"
        due = (
            "424b4a32010000006d000000000101620000000009426f6f744f72646572"
            "08000000070000000100020006000000070000000200"
        )
        for case, text in (("updates.json", notes + idle), ("edits.json", due)):
            self.assertIn(f'"{text}"', (ROOT / "tests/cases" / case).read_text(encoding="utf-8"))
        file, digest, two, pending, change, value = picture_layouts.JOURNAL.strips
        parts, _ = self.cut(file, bytes.fromhex(notes + idle))
        self.assertEqual(parts["version 2"].hex(), idle)
        self.assertEqual(self.cut(digest, parts["digests"])[1], b"")
        parts, rest = self.cut(two, parts["version 2"])
        self.assertEqual((parts["name of the machine"], rest), (b"efivars", b""))
        parts, rest = self.cut(two, bytes.fromhex(due))
        parts, rest = self.cut(pending, rest)
        self.assertEqual((parts["course"], parts["identity of the start"]), (b"\1", b"b"))
        parts, rest = self.cut(change, rest)
        self.assertEqual((parts["name"], rest), (b"BootOrder", b""))
        parts, rest = self.cut(value, parts["what is to be there"])
        self.assertEqual((parts["attributes (4), data"].hex(), rest), ("070000000200", b""))


class Others(unittest.TestCase):
    """What the other pictures are made of."""

    def test_a_plan_is_what_the_readme_has(self) -> None:
        rows = picture_plan.rows_of(picture_plan.read_set(picture_plan.SET.read_bytes()))
        page = (ROOT / "README.md").read_text(encoding="utf-8")
        self.assertIn(f"\n{picture_plan.plan_line(rows)}\n", page)
        drawn = re.findall(r"(?m)^ {4}(?:BootNext  |BootOrder | {10}) ?(\w{4})  .* \.+ (.*)$", page)
        self.assertEqual([it.number for it in rows], [int(it, 16) for it, _ in drawn])
        for row, (_, said) in zip(rows, drawn):
            self.assertEqual(row.words.split(":")[0], re.split("[,:]", said)[0])

    def test_a_window_is_as_wide_as_the_keeper_has_it(self) -> None:
        source = ROOT / "crates/boot_requests/src"
        for file in ("mark.rt", "window.rt"):
            text = (source / file).read_text(encoding="utf-8")
            self.assertRegex(text, rf"(?m)^pub const \w+: \w+ = {picture_window.KEPT};$")

    def test_a_terminal_shows_each_letter(self) -> None:
        block = picture_sources.console_of(picture_terminal.PAGE)
        lines = picture_terminal.lines_of(block)
        self.assertGreater(len(lines), len(block))
        self.assertLessEqual(max(len(it.words) for it in lines), picture_terminal.COLUMNS)
        whole: List[str] = []
        for line in lines:
            if line.is_first:
                whole.append("")
            whole[-1] += line.words
        self.assertEqual(whole, block)

    def test_figures_are_those_of_the_table(self) -> None:
        with tempfile.TemporaryDirectory() as folder:
            page = Path(folder) / "page.md"
            page.write_text(RUN_PAGE, encoding="utf-8")
            calls, texts = picture_run.calls_of(page), picture_run.texts_of(page)
            page.write_text("# Costs\n", encoding="utf-8")
            with self.assertRaises(picture_sources.NotThere):
                picture_run.calls_of(page)
        over = "2 and 3 nodes"
        self.assertEqual(calls, [("one", over, [1.09, 0.12]), ("all of two", over, [0.5, 2.0])])
        self.assertEqual(texts, [(44, 48, 4048), (21604, 117455, 452770)])

    def test_each_figure_is_drawn_and_on_the_scale(self) -> None:
        calls, texts = picture_run.calls_of(), picture_run.texts_of()
        ratios = [ratio for call in calls for ratio in call.ratios]
        self.assertLess(picture_run.LEAST, min(ratios))
        self.assertLess(max(ratios), picture_run.GREATEST)
        made = ElementTree.fromstring(picture_run.picture())
        dots = len(list(made.iter(f"{SPACE}circle")))
        self.assertEqual(dots, len(ratios) + 2 * len(texts))
        self.assertEqual(len(texts), 3)


if __name__ == "__main__":
    unittest.main()
