"""Tests of the schema of what `bootvars` prints as JSON: that all JSON of the cases and the pages is as it says, that all of
it occurs there, and that it refuses what isn't so."""

from __future__ import annotations

import contextlib
import copy
import io
import json
import re
import sys
import tempfile
import unittest
from importlib.machinery import ModuleSpec
from pathlib import Path
from types import ModuleType
from typing import Any, Callable, Dict, Iterator, List, Optional, Set, Tuple, cast
from unittest import mock

ROOT = Path(__file__).resolve().parents[1]
sys.path.insert(0, str(ROOT / "tools"))

import json_schema  # noqa: E402
from json_schema import Json, Printed  # noqa: E402

WHY = json_schema.why_not()

needs_jsonschema = unittest.skipIf(WHY is not None, WHY or "")

WRITTEN = re.compile(
    r'\bappend_(?:leaf|object|objects)\(\s*"(\w+)"|\(\s*"(\w+)",\s*(?:Leaf::|detail_leaf)'
)
"""Where a member of an object is written."""

Step = Any
"""The name of a member, or the place of an item in a list."""

Place = Tuple[Step, ...]
"""The steps to a value in lines."""

NO_VALUE = 0.5
"""What no member may have."""

OPTIONAL = {
    "show": ["version", "order", "trial"],
    "check": ["trial"],
    "told_trial": ["version"],
    "reply": ["version"],
}
"""The members that objects may be without: a line has its version, but not what it has in it of other lines."""


class Document(unittest.TestCase):
    """What the schema speaks of."""

    def setUp(self) -> None:
        self.definitions: Dict[str, Json] = json_schema.read_schema()["$defs"]
        self.objects = {
            name: it for name, it in self.definitions.items() if it.get("type") == "object"
        }
        del self.objects["commands"]

    def members(self) -> Set[str]:
        return {member for it in self.objects.values() for member in it["properties"]}

    def test_each_command_that_takes_json_has_its_lines(self) -> None:
        completions = (ROOT / "packaging/completions" / "bootvars.bash").read_text(encoding="utf-8")
        taking = re.findall(r'"bootvars ([\w-]+)"\) words="[^"]*--json\b', completions)
        told = {it.split()[0] for it in self.definitions["commands"]["properties"]}
        self.assertEqual(told, set(taking))

    def test_members_are_those_that_the_sources_write(self) -> None:
        texts = [it.read_text(encoding="utf-8") for it in ROOT.glob("crates/*/src/**/*.rt")]
        writing = [it for it in texts if "JsonWriter" in it]
        written = {name for text in writing for pair in WRITTEN.findall(text) for name in pair}
        self.assertEqual(self.members(), written - {""})

    def test_the_page_has_each_member(self) -> None:
        page = (ROOT / "docs" / "json.md").read_text(encoding="utf-8")
        for member in sorted(self.members()):
            with self.subTest(member):
                self.assertRegex(page, rf'`{member}`|"{member}":')

    def test_the_pages_have_each_word(self) -> None:
        """The words of faults are on the pages of their formats."""
        pages = [ROOT / "docs" / "json.md", *sorted(ROOT.glob("docs/formats/*.md"))]
        text = "\n".join(it.read_text(encoding="utf-8") for it in pages)
        words = {it.partition(" ")[2] for it in json_schema.parts_of(json_schema.read_schema())}
        for word in sorted(word for it in words for word in it.split()):
            with self.subTest(word):
                self.assertIsNotNone(re.search(rf"(?<![\w-]){word}(?![\w-])", text))

    def test_each_part_is_told_in_one_sentence(self) -> None:
        for name, definition in self.definitions.items():
            parts = {"": definition, **definition.get("properties", {})}
            for member, part in parts.items():
                reference = part.get("$ref", "")
                if "/properties/" not in reference:
                    with self.subTest(f"{name}.{member}"):
                        self.assertRegex(part["description"], r"^[A-Z](?:(?!\. ).)*\.$")

    def test_objects_have_no_other_members(self) -> None:
        for name, definition in self.objects.items():
            optional = OPTIONAL.get(name, [])
            with self.subTest(name):
                self.assertIs(definition["additionalProperties"], False)
                wanted = [it for it in definition["properties"] if it not in optional]
                self.assertEqual(definition["required"], wanted)


@needs_jsonschema
class Cases(unittest.TestCase):
    """What the cases and the pages say that is printed."""

    def setUp(self) -> None:
        self.schema = json_schema.Schema(json_schema.read_schema())
        self.printed = json_schema.all_printed()

    def test_all_is_as_the_schema_says(self) -> None:
        self.assertEqual(json_schema.differences(self.schema, self.printed), [])
        of_pages = [it for it in self.printed if it.command is None]
        self.assertGreater(len(of_pages), 0)
        self.assertGreater(len(self.printed), 130)

    def test_all_of_the_schema_occurs(self) -> None:
        never = json_schema.never(self.schema, self.printed)
        self.assertEqual(sorted(never), sorted(json_schema.NEVER))


def places(value: Json, place: Place = ()) -> Iterator[Place]:
    """Where the values are that are in this one."""
    parts: List[Tuple[Step, Json]] = []
    if isinstance(value, dict):
        parts = list(value.items())
    elif isinstance(value, list):
        parts = list(enumerate(value))
    for step, part in parts:
        yield (*place, step)
        yield from places(part, (*place, step))


def value_at(value: Json, place: Place) -> Json:
    for step in place:
        value = value[step]
    return value


def changed(lines: List[Json], place: Place, change: Callable[[Json], object]) -> Json:
    """These lines, of which the value at this place is changed."""
    copied = copy.deepcopy(lines)
    change(value_at(copied, place))
    return copied


def look_of(holder: Json) -> Tuple[Any, ...]:
    """What tells an object from those of other kinds: its members, and the words on which others depend."""
    if not isinstance(holder, dict):
        return ()
    return (*sorted(holder), *(str(holder.get(it)) for it in ("kind", "reply", "change")))


@needs_jsonschema
class Refused(unittest.TestCase):
    """What the schema refuses, at one place of each kind."""

    schema: json_schema.Schema
    printed: List[Printed]
    places: List[Tuple[Printed, Place]]

    @classmethod
    def setUpClass(cls) -> None:
        cls.schema = json_schema.Schema(json_schema.read_schema())
        cls.printed = [it for it in json_schema.all_printed() if it.command is not None]
        found: Dict[Tuple[Any, ...], Tuple[Printed, Place]] = {}
        for one in sorted(cls.printed, key=lambda it: len(json.dumps(it.lines))):
            for place in places(one.lines):
                step = place[-1] if isinstance(place[-1], str) else place[-2:-1]
                look = look_of(value_at(one.lines, place[:-1]))
                found.setdefault((one.command, look, step), (one, place))
        cls.places = list(found.values())

    def refuses(self, printed: Printed, lines: Json, what: str) -> None:
        allowed = self.schema.allows(printed._replace(lines=lines))
        self.assertFalse(allowed, f"{printed.source}: {what} of {lines}")

    def test_a_member_that_is_missing(self) -> None:
        for one, place in self.places:
            holder, member = value_at(one.lines, place[:-1]), place[-1]
            is_optional = (member == "order" and "variables" in holder) or (
                member == "trial" and ("variables" in holder or "state" in holder)
            )
            if isinstance(holder, dict) and not is_optional:
                left = changed(one.lines, place[:-1], lambda it: it.pop(member))
                self.refuses(one, left, f"without {place}")

    def test_an_unknown_member(self) -> None:
        for one, place in self.places:
            if isinstance(value_at(one.lines, place), dict):
                more = changed(one.lines, place, lambda it: it.update(more=None))
                self.refuses(one, more, f"one more at {place}")

    def test_a_value_of_another_type(self) -> None:
        for one, place in self.places:
            step = place[-1]
            other = changed(one.lines, place[:-1], lambda it: it.__setitem__(step, NO_VALUE))
            self.refuses(one, other, f"another value at {place}")

    def first(self, command: str, wanted: Callable[[Json], object]) -> Printed:
        """What a command prints whose first line is such a one."""
        some = (it for it in self.printed if it.command == command and it.lines)
        return next(it for it in some if wanted(it.lines[0]))

    def test_values_that_are_near(self) -> None:
        show = self.first("show", lambda it: bool(it["entries"]) and it["next"] is not None)
        diff = self.first("diff", lambda it: [c["change"] for c in it["changes"]] == ["added"])
        reply = self.first("update", lambda it: it.get("reply") == "applied")
        explain = self.first("explain", lambda it: bool(it["steps"]))
        for one, place, value in (
            (show, (0, "next"), "000a"),
            (show, (0, "entries", 0, "name"), "Boot001"),
            (show, (0, "entries", 0, "kind"), "order"),
            (show, (0, "entries", 0, "at_risk"), "undecodable"),
            (show, (0, "entries", 0, "paths"), []),
            (show, (0, "entries", 0, "optional"), "0"),
            (show, (0, "entries", 0, "category"), "0x0100"),
            (show, (0, "variables"), -1),
            (show, (0, "timeout"), 65536),
            (diff, (0, "changes", 0, "change"), "changed"),
            (diff, (0, "changes", 0, "entry"), None),
            (reply, (0, "reply"), "waiting"),
            (reply, (0, "offset"), 0),
            (reply, (0, "outcome"), None),
            (reply, (0, "fault"), "Short"),
            (reply, (0, "journal"), "00"),
            (explain, (0, "steps", 0, "line"), None),
            (explain, (0, "form"), "text"),
        ):
            step: Step = place[-1]
            near = changed(one.lines, place[:-1], lambda it: it.__setitem__(step, value))
            self.refuses(one, near, f"{value!r} at {place}")

    def test_other_lines(self) -> None:
        refusal = self.first("update", lambda it: "refused" in it)
        reply = self.first("update", lambda it: "reply" in it)
        added = self.first("add", lambda it: bool(it))
        planned = self.first("update --dry-run", lambda it: "reply" in it)
        for one, lines in (
            (refusal, [refusal.lines[0], reply.lines[0]]),
            (refusal, refusal.lines * 2),
            (reply, [*reply.lines, planned.lines[-1]]),
            (planned, planned.lines[:-1]),
            (planned, [*planned.lines, planned.lines[-1]]),
            (added, added.lines[:1]),
            (added, added.lines[::-1]),
            (added._replace(command="show"), added.lines),
            (added._replace(command="frame"), added.lines),
            (added._replace(command=None), [{"name": "Boot0001"}]),
        ):
            self.refuses(one, lines, "lines")


def case_of(**members: Any) -> str:
    """The file of one case."""
    call = members.pop("call", "bootvars")
    return json.dumps([{"call": call, "cases": [members]}])


SMALL = {
    "$schema": "https://json-schema.org/draft/2020-12/schema",
    "anyOf": [{"$ref": "#/$defs/line"}],
    "$defs": {
        "commands": {
            "properties": {"show": {"type": "array", "items": {"$ref": "#/$defs/line"}}},
            "additionalProperties": False,
        },
        "line": {
            "type": "object",
            "properties": {
                "count": {"anyOf": [{"$ref": "#/$defs/number"}, {"type": "null"}]},
                "kind": {"enum": ["new", "old", None]},
                "none": {"type": "null"},
            },
            "required": ["count"],
            "additionalProperties": False,
        },
        "number": {"type": "integer"},
    },
}


@needs_jsonschema
class SmallRepository(unittest.TestCase):
    """A schema of lines with a number and perhaps a word, and a few cases."""

    def setUp(self) -> None:
        folder = tempfile.TemporaryDirectory()
        self.addCleanup(folder.cleanup)
        self.root = Path(folder.name)
        self.write("docs/bootvars.schema.json", json.dumps(SMALL))
        self.show("one", '{"count":1,"kind":"new","none":null}\n')

    def write(self, name: str, text: str) -> None:
        file = self.root / name
        file.parent.mkdir(parents=True, exist_ok=True)
        file.write_text(text, encoding="utf-8")

    def show(self, name: str, printed: str, **more: Any) -> None:
        """Makes a case of `show`."""
        case = case_of(name=name, words=["show", "set", "--json"], stdout=printed, **more)
        self.write(f"tests/cases/{name}.json", case)

    def told(self, *words: str) -> Tuple[int, List[str]]:
        out = io.StringIO()
        with contextlib.redirect_stdout(out), contextlib.redirect_stderr(out):
            status = json_schema.main(list(words), self.root)
        return status, out.getvalue().splitlines()

    def test_what_never_occurs(self) -> None:
        never = "never occurs: line.kind old"
        self.assertEqual(self.told(), (1, [never, "1 outputs of 1 lines, 0 differ"]))
        with mock.patch.dict(json_schema.NEVER, {"line.kind old": "it is too old"}):
            never_now = [f"{never}: it is too old"]
            self.assertEqual(self.told(), (0, [*never_now, "1 outputs of 1 lines, 0 differ"]))
        self.show("two", '{"count":1,"kind":"old"}\n')
        self.assertEqual(self.told(), (0, ["2 outputs of 2 lines, 0 differ"]))

    def test_null_is_no_occurrence(self) -> None:
        self.show("one", '{"count":null}\n')
        parts = ("line.count", "line.kind", "line.kind new", "line.kind old", "line.none", "number")
        never = [f"never occurs: {it}" for it in parts]
        self.assertEqual(self.told(), (1, [*never, "1 outputs of 1 lines, 0 differ"]))

    def test_what_differs(self) -> None:
        for printed, why in (
            ('{"count":"1"}', "show/0/count: '1' is not valid under any of the given schemas"),
            ('{"count":1,"kind":"o"}', "show/0/kind: 'o' is not one of ['new', 'old', None]"),
            ("{}", "show/0: 'count' is a required property"),
            ('{"count":1,"count":2}', "an object has two members of one name"),
            ('{"count":NaN}', "NaN is no value of JSON"),
            ("variables 1", "variables 1"),
        ):
            with self.subTest(printed):
                self.show("one", printed)
                status, lines = self.told()
                self.assertEqual((status, lines[1:]), (1, ["1 outputs of 1 lines, 1 differ"]))
                self.assertIn("one.json: bootvars 1 (one): show/0", lines[0])
                self.assertIn(why, lines[0])

    def test_what_is_compared(self) -> None:
        self.show("refused", "", status=1)
        self.show("wrong_one", "{}\n")
        self.write("tests/cases/text.json", case_of(words=["show", "set"], stdout="variables 1\n"))
        self.assertEqual(self.told()[1][-1], "1 outputs of 1 lines, 0 differ")
        self.show("none", "")
        self.write("tests/cases/call.json", case_of(call="vars_json", answer='{"count":2}\n'))
        faulty = case_of(call="vars_json", answer='{"count":3}\nfaulty\n')
        self.write("tests/cases/faulty.json", faulty)
        update = {"words": ["show", "--json"], "stdout": "{}\n", "again": {"stdout": "[]\n"}}
        self.write("tests/cases/cuts.json", case_of(call="update_cuts", updates=[update]))
        self.write("README.md", '# Title\n\n```\n$ show\n{"count":0}\n```\n{"no block"}\n')
        self.write("docs/page.md", '# Title\n\n    {"count":"x"}\n')
        status, lines = self.told()
        sources = [re.split(r"[: ]", it)[0] for it in lines]
        self.assertEqual(sources, ["cuts.json", "cuts.json", "docs/page.md", "8"])
        self.assertEqual(lines[-1], "8 outputs of 7 lines, 3 differ")

    def test_words(self) -> None:
        self.assertEqual(self.told("all"), (2, ["schema: takes no word"]))


class Missing(unittest.TestCase):
    """What is said where the package isn't there, or an old one is."""

    def told(self, module: Optional[ModuleType]) -> List[str]:
        out = io.StringIO()
        installed = mock.patch.dict(sys.modules, {"jsonschema": cast(ModuleType, module)})
        with installed, contextlib.redirect_stderr(out):
            self.assertEqual(json_schema.main([]), 2)
        return out.getvalue().splitlines()

    def test_it_is_not_installed(self) -> None:
        why = "schema: jsonschema isn't installed (Debian's package python3-jsonschema)"
        self.assertEqual(self.told(None), [why])

    def test_it_is_too_old(self) -> None:
        module = ModuleType("jsonschema")
        module.__spec__ = ModuleSpec("jsonschema", None)
        why = "this version of jsonschema doesn't know JSON Schema 2020-12: 4.0 or later is needed"
        self.assertEqual(self.told(module), [f"schema: {why}"])


if __name__ == "__main__":
    unittest.main()
