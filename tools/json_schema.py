"""What the schema says of the JSON that `bootvars` prints, and the JSON of the cases and the pages, which has to be so.

The schema, docs/bootvars.schema.json, is read by jsonschema, Debian's package python3-jsonschema, from its version 4 on,
which knows JSON Schema 2020-12."""

from __future__ import annotations

import importlib.util
import json
import sys
from pathlib import Path
from typing import Any, Dict, Iterator, List, NamedTuple, Optional, Set, Tuple

from repository import ROOT

sys.path.append(str(ROOT / "tests"))

from case_files import Case, Stated, bytes_of, read_cases, text_of  # noqa: E402

Json = Any
"""A value as JSON has it, or a schema."""

SCHEMA = Path("docs", "bootvars.schema.json")
CASES = Path("tests", "cases")
PAGES = ("README.md", "docs/**/*.md")

WRONG = "wrong_"
"""How the name of a file begins whose cases all state something wrong."""

CALLS = {"vars_json": "show", "diff_json": "diff", "explain_json": "explain"}
"""The calls that answer JSON, and the commands that print it."""

FAULTY = "faulty"
"""The line after JSON by which a case says that something in it is at fault."""

OTHERS = {"undo": ("--list",), "update": ("--dry-run", "--look")}
"""The flags by which a command prints other JSON."""

PACKAGE = "python3-jsonschema"


class Printed(NamedTuple):
    """What a command prints as JSON."""

    source: str
    """The case or the page that has it."""
    command: Optional[str]
    """The words of the command as the schema has them; none of a page, which shows a line of whatever command."""
    lines: List[Json]


def why_not() -> Optional[str]:
    """Why nothing can be compared with a schema here, if it can't."""
    if importlib.util.find_spec("jsonschema") is None:
        return f"jsonschema isn't installed (Debian's package {PACKAGE})"
    import jsonschema

    if not hasattr(jsonschema, "Draft202012Validator"):
        return "this version of jsonschema doesn't know JSON Schema 2020-12: 4.0 or later is needed"
    return None


# ---- What is printed


def parsed(text: str) -> Json:
    """What a line of JSON (RFC 8259) says.

    Raises ValueError if it is none, or if an object in it has two members of one name."""
    return json.loads(text, object_pairs_hook=_object_of, parse_constant=_refuse)


def _object_of(members: List[Tuple[str, Json]]) -> Dict[str, Json]:
    found = dict(members)
    if len(found) < len(members):
        raise ValueError("an object has two members of one name")
    return found


def _refuse(word: str) -> Json:
    raise ValueError(f"{word} is no value of JSON")


def lines_of(text: str) -> List[Json]:
    """What the lines of JSON say. A line that is none is kept as a text, which no command prints."""
    return [_said_by(line) for line in text.splitlines()]


def _said_by(line: str) -> Json:
    try:
        return parsed(line)
    except ValueError as why:
        return f"{why}: {line[:60]}"


def command_of(words: List[str]) -> Optional[str]:
    """The command of a command line as the schema has it, or nothing if it isn't to print JSON."""
    if "--json" not in words and "--look" not in words:
        return None
    return " ".join(words[:1] + [it for it in OTHERS.get(words[0], ()) if it in words])


def of_cases(folder: Path) -> Iterator[Printed]:
    """What the cases say that is printed as JSON."""
    for file in sorted(folder.glob("*.json")):
        if not file.name.startswith(WRONG):
            for case in read_cases(file):
                yield from _of_case(f"{file.name}: {case.name}", case)


def _of_case(source: str, case: Case) -> Iterator[Printed]:
    members = case.members
    if case.call in CALLS:
        lines = text_of(members["answer"]).splitlines()
        told = lines[:-1] if lines[-1] == FAULTY else lines
        yield Printed(source, CALLS[case.call], lines_of("\n".join(told)))
    elif case.call == "bootvars":
        yield from _of_command_line(source, members, members)
    for update in members.get("updates", []):
        yield from _of_command_line(source, update, update)
        if "again" in update:
            yield from _of_command_line(source, update, update["again"])


def _of_command_line(
    source: str, asked: Dict[str, Stated], told: Dict[str, Stated]
) -> Iterator[Printed]:
    """What a command line prints if it is to print JSON, unless it is refused and prints nothing."""
    command = command_of([text_of(it) for it in asked["words"]])
    if command is None:
        return
    text = text_of(told.get("stdout", ""))
    if "bytes" in told:
        text = bytes_of(told["bytes"]).decode()
    if text or told.get("status", 0) == 0:
        yield Printed(source, command, lines_of(text))


def of_pages(root: Path) -> Iterator[Printed]:
    """The lines of JSON that are in blocks of the pages."""
    for page in sorted(file for pattern in PAGES for file in root.glob(pattern)):
        is_block = False
        for line in page.read_text(encoding="utf-8").splitlines():
            is_block ^= line.startswith("```")
            if (is_block or line.startswith("    ")) and line.lstrip().startswith('{"'):
                yield Printed(str(page.relative_to(root)), None, lines_of(line.strip()))


def all_printed(root: Path = ROOT) -> List[Printed]:
    """All JSON of the cases and the pages."""
    return [*of_cases(root / CASES), *of_pages(root)]


# ---- What the schema says


class Schema:
    """The schema of what `bootvars` prints, each of whose objects has a definition of its own."""

    def __init__(self, document: Json) -> None:
        """Raises jsonschema.SchemaError if the document is no schema."""
        import jsonschema

        jsonschema.Draft202012Validator.check_schema(document)
        self.document = document
        self.line = jsonschema.Draft202012Validator(document)
        commands = {"$ref": "#/$defs/commands", "$defs": document["$defs"]}
        self.commands = jsonschema.Draft202012Validator(commands)

    def allows(self, printed: Printed) -> bool:
        """Whether all is as the schema says."""
        return all(validator.is_valid(value) for validator, value in self._compared(printed))

    def faults(self, printed: Printed) -> List[str]:
        """What isn't as the schema says, for a person: nothing if all is."""
        from jsonschema.exceptions import best_match

        compared = self._compared(printed)
        errors = [best_match(validator.iter_errors(value)) for validator, value in compared]
        return [_words_of_error(error) for error in errors if error is not None]

    def _compared(self, printed: Printed) -> List[Tuple[Any, Json]]:
        """The values that are compared with the schema, and by what."""
        if printed.command is not None:
            return [(self.commands, {printed.command: printed.lines})]
        return [(self.line, line) for line in printed.lines]

    def occurring(self, printed: Printed) -> Set[str]:
        """What of the schema has occurred in what is printed as it says, each by its name (`parts_of`)."""
        found: Set[str] = set()
        if printed.command is not None:
            value = {printed.command: printed.lines}
            self._visit({"$ref": "#/$defs/commands"}, "", value, found)
        for line in [] if printed.command is not None else printed.lines:
            self._visit({"anyOf": self.document["anyOf"]}, "", line, found)
        return found

    def _visit(self, schema: Json, name: str, value: Json, found: Set[str]) -> None:
        """Goes over the parts of a schema that a value has, which is as it says."""
        if "$ref" in schema:
            target, called = self._target(schema["$ref"], name)
            found.add(called)
            self._visit(target, called, value, found)
        for branch in branches_of(schema):
            if self.commands.evolve(schema=branch).is_valid(value):
                self._visit(branch, name, value, found)
        found.update(f"{name} {word}" for word in words_of(schema) if word == value)
        if isinstance(value, dict) and is_closed(schema):
            for member, held in value.items():
                called, part = f"{name}.{member}", schema["properties"][member]
                if held is not None or part.get("type") == "null":
                    found.add(called)
                self._visit(part, called, held, found)
        if isinstance(value, list):
            for part, held in items_of(schema, value):
                self._visit(part, name, held, found)

    def _target(self, reference: str, name: str) -> Tuple[Json, str]:
        """The schema to which a reference leads, and its name, which is another one if it is a definition."""
        steps = reference.split("/")[1:]
        target = self.document
        for step in steps:
            target = target[step]
        return target, steps[1] if len(steps) == 2 else name


def _words_of_error(error: Any) -> str:
    place = "/".join(str(it) for it in error.absolute_path)
    return f"{place}: {error.message[:300]}"


def is_closed(schema: Json) -> bool:
    """Whether it says all members of an object; others only say more of some."""
    return schema.get("additionalProperties") is False


def branches_of(schema: Json) -> List[Json]:
    """The schemas of which a value meets one, several or all."""
    return [branch for it in ("oneOf", "anyOf", "allOf") for branch in schema.get(it, [])]


def items_of(schema: Json, value: List[Json]) -> Iterator[Tuple[Json, Json]]:
    """The items of a list, each behind its schema."""
    first, others = schema.get("prefixItems", []), schema.get("items")
    yield from zip(first, value)
    if isinstance(others, dict):
        yield from ((others, held) for held in value[len(first) :])


def words_of(schema: Json) -> List[str]:
    """The words among which it has a text choose."""
    return [it for it in schema.get("enum", []) if it is not None]


def parts_of(document: Json) -> Set[str]:
    """What the schema speaks of: its definitions, as `show`; members of objects, as `show.order`, which occur if they
    aren't null; and words, as `explain.form script`."""
    parts: Set[str] = set()
    for name, definition in document["$defs"].items():
        parts.add(name)
        parts.update(f"{name} {word}" for word in _all_words(definition))
        for member, part in definition["properties"].items() if is_closed(definition) else ():
            parts.add(f"{name}.{member}")
            parts.update(f"{name}.{member} {word}" for word in _all_words(part))
    return parts


def _all_words(schema: Json) -> List[str]:
    return [word for it in [schema, *branches_of(schema)] for word in words_of(it)]


# ---- What of it the cases have


NEVER = {
    "outcome NoFree": "all 65,536 entries have to be there",
    "refused.kind OutOfMemory": "no case refuses memory to a command, as bench/refused does",
}
"""What of the schema occurs in no case, each with the reason."""


def read_schema(root: Path = ROOT) -> Json:
    """The document of the schema."""
    return parsed((root / SCHEMA).read_text(encoding="utf-8"))


def differences(schema: Schema, printed: List[Printed]) -> List[str]:
    """What isn't printed as the schema says."""
    return [f"{it.source}: {fault}" for it in printed for fault in schema.faults(it)]


def never(schema: Schema, printed: List[Printed]) -> Set[str]:
    """What of the schema occurs in nothing of what is printed."""
    occurring = {part for it in printed for part in schema.occurring(it)}
    return parts_of(schema.document) - occurring


def main(words: List[str], root: Path = ROOT) -> int:
    """Compares the JSON of the cases and the pages with the schema, and tells what of that never occurs. The answer is a
    status."""
    why = "takes no word" if words else why_not()
    if why:
        print(f"schema: {why}", file=sys.stderr)
        return 2
    schema, printed = Schema(read_schema(root)), all_printed(root)
    differ = differences(schema, printed)
    left = [] if differ else sorted(never(schema, printed))
    for line in [*differ, *(f"never occurs: {it}{_reason(it)}" for it in left)]:
        print(line)
    lines = sum(len(it.lines) for it in printed)
    print(f"{len(printed)} outputs of {lines} lines, {len(differ)} differ")
    return 1 if differ or not NEVER.keys() >= set(left) else 0


def _reason(part: str) -> str:
    return f": {NEVER[part]}" if part in NEVER else ""
