"""Compares the calls for C with the command: `compare.py [--cases N] [--seed N] ROOT COMMAND DRIVER..`.

Values are taken from the examples and damaged at random: paths, texts, options, sets, streams, and runs of many events.
What the command doesn't tell of is worked out here: of records, notes and journals (state_files.py) and of variable files
(variable_files.py), which are made at random too.
DRIVER makes the calls that its lines ask for (calls.c, calls.py or calls.rs), and COMMAND is `bootkeep`. The last line is `N calls, M differ`,
and the status is 1 if some do.
"""

from __future__ import annotations

import argparse
import hashlib
import json
import random
import re
import struct
import subprocess
import sys
import tempfile
from dataclasses import dataclass, replace
from pathlib import Path
from typing import Any, Callable, Iterable

import state_files
import variable_files
from state_files import Refused

FAMILIES = {
    "path": ["PATH"],
    "text": ["TEXT"],
    "option": ["OPTION"],
    "set": ["SET", "VARS"],
    "run": ["SET", "STREAM", "VARS"],
}

# The kinds of requests, and the versions of the frames of those that aren't in version 1.
KINDS = range(1, 9)
VERSIONS = {6: 2, 7: 3, 8: 3}

NO_PLACE = 2**64 - 1
ABSENT, CLOSED = 3, 5
NO_ENTRY = 0x10000

# The replies in the order of their numbers, and so that none begins another that comes after it.
NUMBERED = [
    "malformed",
    "repeat",
    "old",
    "ahead",
    "conflict",
    "waiting",
    "applied",
    "prepared",
    "already prepared",
    "plan",
    "nothing prepared",
    "restarted",
]
REPLIES = sorted(NUMBERED, key=len, reverse=True)

# The outcomes in the order of their numbers.
OUTCOMES = ["Done", "Exists", "Missing", "OrderRepeats", "OrderUnknown", "NoFree"]

# The edits, and what comes of one, in the order of their numbers, and the positions of a new entry.
EDITS = [
    "Add",
    "Remove",
    "First",
    "Order",
    "Unrepeat",
    "Next",
    "Timeout",
    "Activate",
    "Deactivate",
]
EDITED = ["Done", "Added", "Present"]
POSITIONS = ["Last", "First", "NoOrder"]

# The variable with the state of a keeper, the attributes that the variables of a machine have, and those of new ones.
KEEP = "BootKeepState"
OLD, NEW = bytes([0x17, 0, 0, 0]), bytes([7, 0, 0, 0])

# How many bytes an identity has, of how many frames notes keep the digests, and how many bytes a digest has.
IDENTITY_LEN, KEPT_MAX, DIGEST_LEN = 16, 64, 8

# How a change stands beside the variables of a machine, by number.
UNCHANGED, NOT_MADE, CHANGED = range(3)

# How many bytes the paths of a load option have at most.
LIST_MAX = 0xFFFF

# From how many bytes on a variable file of the cases is left out.
LONG = 100_000

# The statuses in the order of their numbers.
STATUSES = ["DONE", "REFUSED", "NO_ROOM", "ABSENT", "NO_MEMORY", "CLOSED", "BAD_SIZE"]


def camel(name: str) -> str:
    return "".join(word.capitalize() for word in name.split("_"))


def snake(word: str) -> str:
    return re.sub(r"(?<!^)(?=[A-Z])", "_", word).upper()


@dataclass(frozen=True)
class Notes:
    """Notes at the start of a journal's file: an identity, and the digests of frames, each with its number."""

    identity: bytes
    digests: tuple[tuple[int, bytes], ...] = ()

    def data(self) -> bytes:
        kept = b"".join(number.to_bytes(4, "little") + digest for number, digest in self.digests)
        return b"BKJ3" + self.identity + bytes([len(self.digests)]) + kept

    @staticmethod
    def read(data: bytes) -> Notes | None:
        """The notes that the bytes begin with, if they begin with any.

        Raises Refused if these aren't whole."""
        if not data.startswith(b"BKJ3"):
            return None
        body = data[4:]
        if len(body) <= IDENTITY_LEN:
            raise Refused("NOTES_TRUNCATED", 4 if len(body) < IDENTITY_LEN else 4 + IDENTITY_LEN)
        count, kept_bytes = body[IDENTITY_LEN], body[IDENTITY_LEN + 1 :]
        size = 4 + DIGEST_LEN
        if count > 2 * KEPT_MAX:
            raise Refused("NOTES_TOO_MANY", 4 + IDENTITY_LEN)
        if len(kept_bytes) < size * count:
            raise Refused(
                "NOTES_TRUNCATED", 4 + IDENTITY_LEN + 1 + size * (len(kept_bytes) // size)
            )
        pieces = [kept_bytes[at : at + size] for at in range(0, size * count, size)]
        digests = tuple((int.from_bytes(it[:4], "little"), it[4:]) for it in pieces)
        return Notes(body[:IDENTITY_LEN], digests)

    def kept_before(self, first: int) -> list[tuple[int, bytes]]:
        """The digests that count before a run that begins with this next number."""
        return [kept for kept in self.digests if kept[0] < first][-KEPT_MAX:]


@dataclass(frozen=True)
class Record:
    """A record of a change."""

    machine: bytes
    time: int
    before: dict[str, bytes]
    after: dict[str, bytes]
    words: tuple[bytes, ...]

    def fields(self) -> list[bytes]:
        sets = [set_of([*variables.items()]) for variables in (self.before, self.after)]
        return [self.machine, self.time.to_bytes(8, "little"), *sets, *self.words]

    def data(self) -> bytes:
        return b"BKH1" + b"".join(
            len(field).to_bytes(4, "little") + field for field in self.fields()
        )

    def beside(self, now: dict[str, bytes]) -> Record:
        """The same with the Timeout that is there now, if it says nothing of one."""
        timeout = {name: data for name, data in now.items() if name == "Timeout"}
        if "Timeout" in self.before or "Timeout" in self.after:
            return self
        return replace(self, before={**self.before, **timeout}, after={**self.after, **timeout})

    def standing(self, now: dict[str, bytes]) -> int:
        """What the boot manager's variables are now, beside those before the change and after it. A start deletes
        BootNext."""
        stands, part = self.beside(now), boot_part(now)
        used = [part == as_used(part, stands.after), part == as_used(part, stands.before)]
        for held, standing in ((stands.after, UNCHANGED), (stands.before, NOT_MADE)):
            if part == held:
                return standing
        return [*used, True].index(True)

    def back(self, now: dict[str, bytes]) -> dict[str, bytes]:
        """What undoing the change brings back."""
        stands, name = self.beside(now), "BootNext"
        left, found = stands.after.get(name), now.get(name)
        if left is not None and found not in (left, stands.before.get(name)):
            return without(stands.before, name)
        return stands.before


@dataclass(frozen=True)
class Command:
    """A command over a machine: its words in a line, the variables, and how it ends if its moves are made."""

    words: str
    #: What the machine keeps.
    before: dict[str, bytes]
    #: What is there after it, without attributes, and the state of a keeper.
    after: dict[str, bytes]
    end: str


class Side:
    """The command, and what its words are as numbers."""

    def __init__(self, root: Path, command: str, work: Path) -> None:
        self.command, self.work = command, work
        header = (root / "libraries/c/include/bootkeep.h").read_text()
        found = re.findall(r"^#define BOOTKEEP_FAULT_(\w+) (0x[0-9a-f]{4})$", header, re.M)
        self.kinds = {name: int(number, 16) for name, number in found}
        self.numbers = {
            "status": {name: number for number, name in enumerate(STATUSES)},
            "refusal": self.kinds,
            "outcome": {
                name: number for number, name in enumerate(["NONE", *map(snake, OUTCOMES)])
            },
        }

    def ask(self, *words: str) -> tuple[int, str, str]:
        done = subprocess.run([self.command, *words], capture_output=True, text=True, check=False)
        return done.returncode, done.stdout, done.stderr

    def file(self, name: str, data: bytes) -> str:
        path = self.work / name
        path.write_bytes(data)
        return str(path)

    def kind(self, family: str, word: str) -> int:
        for prefix in FAMILIES[family]:
            if f"{prefix}_{snake(word)}" in self.kinds:
                return self.kinds[f"{prefix}_{snake(word)}"]
        raise KeyError(word)

    def refusal(self, family: str, told: str) -> str:
        """The driver's line of what the command refuses."""
        words = told.rpartition("refused: ")[2].split()
        if words[0] in ("Stream", "Open"):
            words = words[1:]
            if told.rpartition("refused: ")[2].startswith("Open"):
                return f"refused {self.kinds['VARS_' + snake(words[0])]} 0 {NO_PLACE} {NO_PLACE}"
            return f"refused {self.kinds['STREAM_' + snake(words[0])]} 0 {NO_PLACE} {NO_PLACE}"
        if family == "option" and words[0] == "Path":
            return f"refused {self.kinds['OPTION_PATH']} {self.kind('path', words[2])} {words[1]} {words[3]}"
        if words[0] == "Rest":
            return f"refused {self.kinds['STREAM_REST']} 0 {words[1]} {NO_PLACE}"
        place = words[1] if len(words) > 1 else NO_PLACE
        return f"refused {self.kind(family, words[0])} 0 {place} {NO_PLACE}"


def digits(data: bytes) -> str:
    return data.hex() or "-"


def taken_of(given: bytes, told: str) -> int:
    """How many of these bytes the path takes of which the command tells this."""
    return len(given) - int(line_of(r"^rest (\d+)$", told)[1])


def line_of(pattern: str, told: str) -> "re.Match[str]":
    """The first line of what a command tells that is of the pattern."""
    match = re.search(pattern, told, re.M)
    assert match is not None, f"no line is of {pattern}: {told}"
    return match


def damage(chance: random.Random, data: bytes) -> bytes:
    """The bytes with some changed, cut off, put in or doubled."""
    held = bytearray(data)
    for _ in range(chance.choice([0, 1, 1, 1, 2, 4])):
        at = chance.randrange(len(held) + 1)
        how = chance.randrange(5)
        if how == 0 and at < len(held):
            held[at] = chance.choice([0, 1, 4, 0x7F, 0xFF, chance.randrange(256)])
        elif how == 1:
            del held[at:]
        elif how == 2:
            held[at:at] = chance.randbytes(chance.choice([1, 2, 4]))
        elif how == 3:
            del held[at : at + chance.choice([1, 2, 4])]
        elif at < len(held):
            held[at] ^= 1 << chance.randrange(8)
    return bytes(held)


def variables_of(data: bytes) -> list[tuple[str, bytes]]:
    """The variables of a set file that is one."""
    found, at = [], 4
    while at < len(data):
        count = data[at]
        name = data[at + 1 : at + 1 + count].decode()
        at += 1 + count
        size = int.from_bytes(data[at : at + 4], "little")
        found.append((name, data[at + 4 : at + 4 + size]))
        at += 4 + size
    return found


def set_of(variables: list[tuple[str, bytes]]) -> bytes:
    """The set file of these variables."""
    records = (
        bytes([len(name)]) + name.encode() + len(data).to_bytes(4, "little") + data
        for name, data in sorted(variables, key=lambda variable: variable[0].encode())
    )
    return b"BVS1" + b"".join(records)


def numbers_of(data: bytes) -> list[int]:
    """The numbers of BootOrder or BootNext."""
    return [int.from_bytes(data[at : at + 2], "little") for at in range(0, len(data), 2)]


def number_bytes(numbers: Iterable[int]) -> bytes:
    return b"".join(number.to_bytes(2, "little") for number in numbers)


def long_bytes(numbers: Iterable[int]) -> bytes:
    return b"".join(number.to_bytes(4, "little") for number in numbers)


def entries_of(variables: list[tuple[str, bytes]]) -> dict[int, bytes]:
    """The data of the entries, by their numbers."""
    return {
        int(name[4:], 16): data for name, data in variables if re.fullmatch("Boot[0-9A-F]{4}", name)
    }


def places_of(option: bytes) -> tuple[int, ...]:
    """Where the description, the list and the optional data of a load option are that is one, each with its length."""
    end = 6
    while option[end : end + 2] != b"\0\0":
        end += 2
    length = int.from_bytes(option[4:6], "little")
    optional = end + 2 + length
    return 6, end - 6, end + 2, length, optional, len(option) - optional


def units_of(option: bytes) -> bytes:
    """The units of the description of a load option that is one."""
    start, length, *_ = places_of(option)
    return option[start : start + length]


def paths_of(option: bytes) -> bytes:
    """The list of paths of a load option that is one."""
    _, _, start, length, _, _ = places_of(option)
    return option[start : start + length]


def payload_of(kind: int, entry: int, option: bytes, order: bytes) -> bytes:
    """The payload of a request of this kind: of an entry, an option and an order what its kind takes."""
    short = number_bytes([entry])
    payloads = {1: short + option, 2: short + option, 4: order, 6: option, 7: option}
    return payloads.get(kind, short)


def frame_of(number: int, kind: int, payload: bytes) -> bytes:
    """The frame of these parts."""
    head = [number.to_bytes(4, "little"), len(payload).to_bytes(4, "little")]
    return b"BQ" + bytes([VERSIONS.get(kind, 1), kind]) + b"".join(head) + payload


def frames_of(stream: bytes) -> list[bytes]:
    frames, at = [], 0
    while at < len(stream):
        end = at + 12 + int.from_bytes(stream[at + 8 : at + 12], "little")
        frames.append(stream[at:end])
        at = end
    return frames


def data_of(variables: dict[str, str]) -> dict[str, bytes]:
    """The data of these variables, by their names."""
    return {name: bytes.fromhex(digits) for name, digits in variables.items()}


def is_boot_name(name: str) -> bool:
    """Whether the boot manager has a variable of this name."""
    return re.fullmatch("BootOrder|BootNext|Timeout|Boot[0-9A-F]{4}", name) is not None


def with_attributes(data: dict[str, bytes], there: dict[str, bytes]) -> dict[str, bytes]:
    """What a machine keeps of these variables. The attributes of those that are there stay."""
    return {
        name: there.get(name, NEW)[:4] + value if is_boot_name(name) else value
        for name, value in data.items()
        if name != KEEP
    }


def without(variables: dict[str, bytes], name: str) -> dict[str, bytes]:
    return {held: data for held, data in variables.items() if held != name}


def boot_part(variables: dict[str, bytes]) -> dict[str, bytes]:
    """The boot manager's variables of these."""
    return {name: data for name, data in variables.items() if is_boot_name(name)}


def as_used(now: dict[str, bytes], variables: dict[str, bytes]) -> dict[str, bytes]:
    """The variables, without a BootNext if there is none now."""
    return variables if "BootNext" in now else without(variables, "BootNext")


def digest_of(frame: bytes) -> bytes:
    """The digest of a frame that notes keep."""
    return hashlib.sha256(frame).digest()[:DIGEST_LEN]


def first_under(digests: Iterable[tuple[int, bytes]], number: int) -> bytes | None:
    """The first digest under a number."""
    return next((digest for kept, digest in digests if kept == number), None)


def noted(
    notes: Notes, first: int, frames: list[bytes], lines: list[str]
) -> tuple[Notes, list[int]]:
    """The notes after a run of frames that began with this next number, by the lines of the replies, and of each frame
    whether it is the one that was applied under its number."""
    before = notes.kept_before(first)
    applied: list[tuple[int, bytes]] = []
    waiting: dict[int, bytes] = {}
    same = []
    for frame, line in zip(frames, lines):
        number, digest = int.from_bytes(frame[4:8], "little"), digest_of(frame)
        known = first_under([*applied[-KEPT_MAX:], *before], number)
        is_repeat = line.startswith("repeat") and known is not None
        same.append((1 if known == digest else 2) if is_repeat else 0)
        if line.startswith("waiting"):
            waiting.setdefault(number, digest)
        elif line.startswith("applied"):
            after = int(line.split()[-1])
            applied.append((number, digest))
            applied += [(at, waiting[at]) for at in range(number, after) if at in waiting]
            waiting = {at: held for at, held in waiting.items() if at >= after}
    return replace(notes, digests=(*before, *applied[-KEPT_MAX:])), same


def kept(data: dict[str, bytes]) -> dict[str, bytes]:
    """What a machine keeps of these variables, which have its attributes."""
    return with_attributes(data, dict.fromkeys(data, OLD))


def journal_of(state: bytes) -> bytes:
    """The journal's file of the machine, if there is nothing to do: whose it is, and the state of a keeper."""
    parts = (b"machine", state)
    return b"BKJ2" + b"".join(len(part).to_bytes(4, "little") + part for part in parts)


def edit_numbers(case: dict[str, Any]) -> list[int]:
    """The six numbers of the edit of a case."""
    flags = [int(case.get(flag, False)) for flag in ("again", "stale", "only")]
    position = POSITIONS.index(case.get("position", "Last"))
    return [EDITS.index(case["edit"]) + 1, case.get("entry", NO_ENTRY), position, *flags]


def is_for_machines(case: dict[str, Any]) -> bool:
    """Whether an edit can be of a machine, whose variables have data, and has an option if it adds one."""
    has_data = all(data for name, data in case["vars"].items() if is_boot_name(name))
    return has_data and not case["answer"].startswith("BadOption")


def is_short(case: dict[str, Any]) -> bool:
    """Whether a case of an edit states each of its variables, and its data in digits: neither a range of entries, nor data
    in pieces."""
    named = [*case["vars"].items(), *case.get("after", {}).items()]
    is_spelled = all(isinstance(data, str) and ".." not in name for name, data in named)
    return is_spelled and isinstance(case.get("option", ""), str)


def images_of(root: Path) -> Iterable[tuple[str, bytes, str]]:
    """The images of the cases that have no fault, each with its call and the answer."""
    cases = json.loads((root / "tests/cases/efi_images.json").read_text(encoding="utf-8"))
    for part in cases:
        for case in part["cases"]:
            if part["call"] in ("image_digest", "check_image") and re.fullmatch(
                "no fault|[0-9a-f]{64}", case["answer"]
            ):
                name = part["call"].replace("check_image", "image_check")
                yield name, image_of(part["image"], case), case["answer"]


def pieces_of(parts: str | list[Any]) -> bytes:
    """The bytes of a case, which are digits, or pieces one after the other."""
    pieces = [parts] if isinstance(parts, str) else parts
    return b"".join(
        (bytes.fromhex(it) if isinstance(it, str) else bytes.fromhex(it["of"]) * it["times"])
        for it in pieces
    )


def image_of(parts: list[Any], case: dict[str, Any]) -> bytes:
    """The bytes of an image of a case, with its changes."""
    image = bytearray(pieces_of(parts))
    for place, data in case.get("changes", {}).items():
        at, changed = int(place, 16), bytes.fromhex(data)
        image[at : at + len(changed)] = changed
    length = case.get("len", len(image))
    return bytes(image[:length].ljust(length, b"\0"))


def written_of(root: Path) -> Iterable[tuple[bytes, dict[str, bytes], str]]:
    """The cases of variable files that are written: the file, what a machine is to keep, and the answer. Attributes that
    aren't given are those of no header."""
    cases = json.loads((root / "tests/cases/var_stores.json").read_text(encoding="utf-8"))
    written = [
        case for part in cases if part["call"] == "write_boot_vars" for case in part["cases"]
    ]
    for case in written:
        data, given = data_of(case["to"]), data_of(case.get("attributes", {}))
        whole = {name: held[:4] for name, held in given.items() if len(held) >= 4}
        there = {name: whole.get(name, variable_files.BLANK) for name in data}
        answer = case["answer"]
        told = answer if str(answer).isalpha() else digits(pieces_of(answer))
        yield pieces_of(case["file"]), with_attributes(data, there), told


class Cases:
    """Makes cases: the line for the driver, and what the command says."""

    def __init__(self, root: Path, side: Side, chance: random.Random) -> None:
        self.side, self.chance = side, chance
        self.set = (root / "docs/examples/set").read_bytes()
        self.frames = frames_of((root / "docs/examples/stream").read_bytes())
        stored = variables_of(self.set)
        self.options = [
            data for name, data in stored if re.fullmatch("Boot[0-9A-F]{4}", name) and len(data) > 8
        ]
        whole = [data for data in self.options if self.is_option(data)]
        self.frames += [
            frame_of(0, kind, payload_of(kind, entry, whole[0], number_bytes([0, 1])))
            for kind in KINDS
            for entry in (0, 1, 5, 0x77)
        ]
        self.paths = [paths_of(data) for data in whole]
        self.texts = [self.text(path) for path in self.paths]
        self.images = list(images_of(root))
        self.written = [case for case in written_of(root) if len(case[0]) < LONG]
        cases = json.loads((root / "tests/cases/named_texts.json").read_text(encoding="utf-8"))
        self.names = [
            (bytes.fromhex(case["input"]), case["answer"])
            for part in cases
            if part["call"] == "named_text"
            for case in part["cases"]
            if isinstance(case["input"], str) and isinstance(case["answer"], str)
        ]
        cases = json.loads((root / "tests/cases/boot_edits.json").read_text(encoding="utf-8"))
        edits = [case for part in cases if part["call"] == "edit" for case in part["cases"]]
        self.edits = [case for case in edits if is_short(case)]
        self.edits_of_machines = [case for case in self.edits if is_for_machines(case)]

    def is_option(self, data: bytes) -> bool:
        return self.side.ask("option", self.side.file("option", data))[0] == 0

    def text(self, path: bytes) -> str:
        return self.side.ask("path", path.hex())[1].partition("text ")[2].strip()

    def path_case(self) -> tuple[str, list[str]]:
        data = damage(self.chance, self.chance.choice(self.paths))
        status, out, told = self.side.ask("path", data.hex())
        lines = f"path_text {digits(data)}\npath_check {digits(data)}"
        if status:
            return lines, [self.side.refusal("path", told)] * 2
        taken = taken_of(data, out)
        text = out.partition("text ")[2].rstrip("\n").encode()
        return lines, [f"done {digits(text)} {taken}", f"done {taken}"]

    def names_case(self) -> tuple[str, list[str]]:
        """The text for a person of a path: what the cases of the repository say, or why there is none."""
        if self.chance.randrange(3) == 0:
            data = damage(self.chance, self.chance.choice(self.paths))
            status, _, told = self.side.ask("path", data.hex())
            if status:
                return f"path_names {digits(data)}", [self.side.refusal("path", told)]
        data, text = self.chance.choice(self.names)
        data += self.chance.randbytes(self.chance.randrange(5))
        taken = taken_of(data, self.side.ask("path", data.hex())[1])
        return f"path_names {digits(data)}", [f"done {digits(text.encode())} {taken}"]

    def word_case(self) -> tuple[str, list[str]]:
        """The word of a status, of a refusal or of an outcome."""
        family = self.chance.choice(["status", "refusal", "outcome"])
        words = {number: camel(name) for name, number in self.side.numbers[family].items()}
        number = self.chance.choice(
            [*words, 2**32 - 1, max(words) + 1, self.chance.randrange(0x900)]
        )
        line = f"{family}_word {number.to_bytes(4, 'little').hex()}"
        if number not in words:
            return line, [f"status {ABSENT}"]
        return line, [f"done {digits(words[number].encode())}"]

    def text_case(self) -> tuple[str, list[str]]:
        held = damage(self.chance, self.chance.choice(self.texts).encode()).replace(b"\0", b"0")
        line = f"path_parse_exact {digits(held)}"
        try:
            text = held.decode()
        except UnicodeDecodeError as error:
            return line, [f"refused {self.side.kinds['TEXT_NOT_UTF8']} 0 {error.start} {NO_PLACE}"]
        status, out, told = self.side.ask("text", text)
        if status:
            return line, [self.side.refusal("text", told)]
        return line, [f"done {out.strip() or '-'}"]

    def option_case(self) -> tuple[str, list[str]]:
        data = damage(self.chance, self.chance.choice(self.options))
        status, out, told = self.side.ask("option", self.side.file("option", data))
        calls = ("option_description", "option_description_utf8", "option_parts")
        lines = "\n".join(f"{call} {digits(data)}" for call in calls)
        if status:
            return lines, [self.side.refusal("option", told)] * len(calls)
        described = line_of(r"^description (.*)$", out)[1]
        attributes = int(line_of(r"^attributes (\w+)$", out)[1], 16)
        places = " ".join(map(str, places_of(data)))
        return lines, [
            f"done {digits(described.encode())}",
            self.described(units_of(data)),
            f"done {attributes} {places}",
        ]

    def described(self, units: bytes) -> str:
        """The description in UTF-8, or why there is none."""
        try:
            return f"done {digits(units.decode('utf-16-le').encode())}"
        except UnicodeDecodeError:
            return self.refused("OPTION_NOT_UTF16")

    def description_case(self) -> tuple[str, list[str]]:
        """A description of any units: it is shown, and an option is made of it again."""
        units = number_bytes(
            self.chance.choice([0x41, 0xF6, 0x1B, 0xD83D, 0xDC27, 0xDBFF, 0xDFFF, 0xFFFF])
            for _ in range(self.chance.choice([0, 1, 2, 3, 8, 300]))
        )
        if self.chance.randrange(4) == 0:
            units += number_bytes([0, 0x41])
        attributes = self.chance.getrandbits(32).to_bytes(4, "little")
        paths = self.chance.choice(self.paths)
        optional = self.chance.randbytes(self.chance.randrange(9))
        line = f"option_make_units {digits(attributes)} {digits(units)} {digits(paths)} {digits(optional)}"
        if b"\0\0" in (units[at : at + 2] for at in range(0, len(units), 2)):
            return line, [self.refused("OPTION_ZERO_UNIT")]
        option = attributes + len(paths).to_bytes(2, "little") + units + b"\0\0" + paths + optional
        lines = f"{line}\noption_description_utf8 {digits(option)}"
        return lines, [f"done {digits(option)}", self.described(units)]

    def parse_case(self) -> tuple[str, list[str]]:
        """A text for a person, or an exact one, is read as its path: what the cases of the repository say."""
        if self.chance.randrange(3) == 0:
            path = self.chance.choice(self.paths)
            text = self.text(path)
        else:
            data, text = self.chance.choice(self.names)
            path = data[: taken_of(data, self.side.ask("path", data.hex())[1])]
        spelled = text.encode()
        if self.chance.randrange(4) == 0:
            spelled += b"\xff"
            fault = f"refused {self.side.kinds['TEXT_NOT_UTF8']} 0 {len(spelled) - 1} {NO_PLACE}"
            return f"path_parse {digits(spelled)}", [fault]
        return f"path_parse {digits(spelled)}", [f"done {digits(path)}"]

    def plan_case(self) -> tuple[str, list[str]]:
        data = damage(self.chance, self.set)
        status, out, told = self.side.ask("show", self.side.file("set", data))
        line = f"vars_plan {digits(data)}"
        if status:
            return line, [self.side.refusal("set", told)]
        first, normal = line_of(r"^plan next (\S+) normal (.*)$", out).groups()
        numbers = number_bytes([] if normal == "-" else (int(word, 16) for word in normal.split()))
        return line, [f"done {digits(numbers)} {0x10000 if first == '-' else int(first, 16)}"]

    def risk_case(self) -> tuple[str, list[str]]:
        data = damage(self.chance, set_of(self.reordered()))
        status, _, told = self.side.ask("show", self.side.file("set", data))
        line = f"vars_at_risk {digits(data)}"
        if status:
            return line, [self.side.refusal("set", told)]
        variables = variables_of(data)
        order, first = (
            numbers_of(dict(variables).get(name, b"")) for name in ("BootOrder", "BootNext")
        )
        entries = entries_of(variables)
        unnamed = sorted(set(entries).difference(order, first))
        undecodable = sorted(
            number for number in set(order) & set(entries) if not self.is_option(entries[number])
        )
        return line, [f"done {digits(number_bytes(unnamed + undecodable))} {len(unnamed)}"]

    def reordered(self) -> list[tuple[str, bytes]]:
        """The variables of the set with another BootOrder and BootNext, or without."""
        stored = dict(variables_of(self.set))
        numbers = [*entries_of(variables_of(self.set)), 0x77]
        for name, most in (("BootOrder", 6), ("BootNext", 1)):
            chosen = self.chance.choices(numbers, k=self.chance.randrange(most + 1))
            stored.pop(name, None)
            stored.update({name: number_bytes(chosen)} if chosen else {})
        return list(stored.items())

    def set_case(self) -> tuple[str, list[str]]:
        """What is told of a set: its variables, its lowest free number, and what a boot makes of an entry."""
        data = damage(self.chance, set_of(self.reordered()))
        number = self.chance.choice([*entries_of(variables_of(self.set)), 0x77])
        given = digits(data)
        lines = f"vars_list {given}\nvars_lowest_free {given}\nvars_entry {given} {digits(number_bytes([number]))}"
        told = self.side.ask("show", self.side.file("set", data))[2]
        if told and "BadOrder" not in told and "BadNext" not in told:
            return lines, [self.side.refusal("set", told)] * 3
        variables = variables_of(data)
        entries = entries_of(variables)
        free = next(number for number in range(0x10001) if number not in entries)
        return lines, [
            f"done {digits(self.places(variables))}",
            f"done {free}",
            f"done {self.state(entries, number)}",
        ]

    def image_case(self) -> tuple[str, list[str]]:
        """The digest of an image of the cases, and that firmware asks nothing else of one without a fault."""
        call, image, answer = self.chance.choice(self.images)
        wanted = "done" if call == "image_check" else f"done {answer}"
        return f"{call} {digits(image)}", [wanted]

    def lists_case(self) -> tuple[str, list[str]]:
        """Where signature lists are, or the first that isn't one."""
        data = b"".join(self.signature_list() for _ in range(self.chance.randrange(4)))
        data = damage(self.chance, data)
        line, places, at = f"signature_lists {digits(data)}", b"", 0
        while at < len(data):
            if len(data) - at < 28:
                return line, [f"refused {self.side.kinds['LISTS_CUT_HEADER']} 0 {at} {NO_PLACE}"]
            size, header, each = struct.unpack_from("<III", data, at + 16)
            if not 28 + header <= size <= len(data) - at:
                kind = self.side.kinds["LISTS_BAD_LIST_SIZE"]
                return line, [f"refused {kind} 0 {at} {NO_PLACE}"]
            if each < 16 or (size - 28 - header) % each:
                kind = self.side.kinds["LISTS_BAD_SIGNATURE_SIZE"]
                return line, [f"refused {kind} 0 {at} {NO_PLACE}"]
            places += struct.pack("<QQQQ", at, size, header, each)
            at += size
        return line, [f"done {digits(places)}"]

    def signature_list(self) -> bytes:
        header, each = self.chance.choice([0, 0, 3]), self.chance.choice([16, 48, 20])
        count = self.chance.randrange(4)
        size = 28 + header + each * count
        return bytes(16) + struct.pack("<III", size, header, each) + bytes(size - 28)

    def named_case(self) -> tuple[str, list[str]]:
        """What BootNext and BootOrder name, and what a boot makes of it."""
        data = damage(self.chance, set_of(self.reordered()))
        line = f"vars_named {digits(data)}"
        status, _, told = self.side.ask("show", self.side.file("set", data))
        if status:
            return line, [self.side.refusal("set", told)]
        variables = variables_of(data)
        entries, named = entries_of(variables), b""
        for name, stands_for in (("BootNext", 0x10002), ("BootOrder", 0x10001)):
            for number in numbers_of(dict(variables).get(name, b"")):
                for part in (stands_for, number, self.state(entries, number)):
                    named += part.to_bytes(4, "little")
        return line, [f"done {digits(named)}"]

    def places(self, variables: list[tuple[str, bytes]]) -> bytes:
        """The places of the variables in their set, as C has them."""
        places, at = b"", 4
        for name, data in variables:
            start = at + 1 + len(name) + 4
            places += b"".join(
                number.to_bytes(8, "little") for number in (at + 1, len(name), start, len(data))
            )
            at = start + len(data)
        return places

    def state(self, entries: dict[int, bytes], number: int) -> int:
        if number not in entries:
            return 1
        if not self.is_option(entries[number]):
            return 2
        attributes = int.from_bytes(entries[number][:4], "little")
        if not attributes & 1:
            return 3
        return 4 if attributes & 0x1F00 else 0

    def changes_case(self) -> tuple[str, list[str]]:
        first, second = self.reordered(), self.reordered()
        for name in self.chance.sample([name for name, _ in second], k=2):
            second = [(held, b"\1" if held == name else data) for held, data in second]
        second = [(name, data) for name, data in second if self.chance.randrange(4) > 0]
        line = f"vars_changes {digits(set_of(first))} {digits(set_of(second))}"
        before, after = dict(first), dict(second)
        entry = re.compile("Boot[0-9A-F]{4}").fullmatch
        names = [name for name in sorted(after) if entry(name) and before.get(name) != after[name]]
        others = ("BootOrder", "BootNext", "Timeout")
        names += [name for name in others if before.get(name) != after.get(name)]
        names += [name for name in sorted(before) if entry(name) and name not in after]
        changes = b""
        for name in names:
            stands_for = {"BootOrder": 0x10001, "BootNext": 0x10002, "Timeout": 0x10003}
            number = stands_for.get(name) or int(name[4:], 16)
            kind = 1 if name not in before else 2 if name in after else 3
            changes += number.to_bytes(4, "little") + kind.to_bytes(4, "little")
        return line, [f"done {digits(changes)}"]

    def option_make_case(self) -> tuple[str, list[str]]:
        """An option of parts: the command reads what is expected of them."""
        too_many = LIST_MAX // len(self.paths[0]) + 1
        *others, last = self.chance.choice(
            [[b""], *([path] for path in self.paths)] * 2
            + [[self.paths[0], self.paths[-1]], [self.paths[0]] * too_many]
        )
        if last and self.chance.randrange(3) == 0:
            last = damage(self.chance, last)
        paths = b"".join(others) + last
        text = self.chance.choice(
            ["Linux", "", "Bööt \N{PENGUIN}", "a\0b", "x" * 300, "\uffff\U00010000"]
        ).encode()
        if self.chance.randrange(4) == 0:
            text = damage(self.chance, text)
        attributes = self.chance.getrandbits(32).to_bytes(4, "little")
        optional = self.chance.randbytes(self.chance.randrange(9))
        line = f"option_make {digits(attributes)} {digits(text)} {digits(paths)} {digits(optional)}"
        try:
            units = text.decode().encode("utf-16-le")
        except UnicodeDecodeError as error:
            return line, [
                f"refused {self.side.kinds['OPTION_NOT_UTF8']} 0 {error.start} {NO_PLACE}"
            ]
        fault = self.list_fault(paths)
        if fault:
            return line, [fault]
        zero = any(units[at : at + 2] == b"\0\0" for at in range(0, len(units), 2))
        if zero or not paths or len(paths) > LIST_MAX:
            kind = "ZERO_UNIT" if zero else "LIST_TOO_LONG" if paths else "EMPTY_LIST"
            return line, [self.refused(f"OPTION_{kind}")]
        option = attributes + len(paths).to_bytes(2, "little") + units + b"\0\0" + paths + optional
        return line, [f"done {digits(option)}"]

    def list_fault(self, paths: bytes) -> str:
        """The driver's line if the bytes aren't paths, one after the other. Of these the command is asked for those alone
        that aren't the first path of the set, since a word has at most 131,071 bytes."""
        at = 0
        while at < len(paths):
            if paths[at:].startswith(self.paths[0]) and at + len(self.paths[0]) < len(paths):
                at += len(self.paths[0])
                continue
            status, out, told = self.side.ask("path", paths[at:].hex())
            if status:
                inner = self.side.refusal("path", told).split()
                return f"refused {self.side.kinds['OPTION_PATH']} {inner[1]} {at} {inner[3]}"
            at += taken_of(paths[at:], out)
        return ""

    def frame_make_case(self) -> tuple[str, list[str]]:
        number = self.chance.choice([0, 1, 2**32 - 2, 2**32 - 1])
        kind, entry = self.chance.randrange(10), self.chance.randrange(0x10000)
        option = self.chance.choice([b"", *self.options])
        if self.chance.randrange(3) == 0:
            option = damage(self.chance, option)
        order = number_bytes(
            self.chance.choices(range(0x10000), k=self.chance.choice([0, 1, 5, 65536, 65537]))
        )
        numbers = (
            number.to_bytes(4, "little") + kind.to_bytes(4, "little") + entry.to_bytes(2, "little")
        )
        line = f"frame_make {digits(numbers)} {digits(option)} {digits(order)}"
        if kind not in KINDS:
            return line, [self.refused("FRAME_BAD_KIND")]
        if kind in (1, 2, 6, 7):
            status, _, told = self.side.ask("option", self.side.file("option", option))
            if status:
                return line, [self.side.refusal("option", told)]
        payload = payload_of(kind, entry, option, order)
        if len(payload) > 131072:
            return line, [self.refused("FRAME_TOO_LONG")]
        if number == 2**32 - 1:
            return line, [self.refused("FRAME_BAD_NUMBER")]
        return line, [f"done {digits(frame_of(number, kind, payload))}"]

    def frame_parts_case(self) -> tuple[str, list[str]]:
        """The parts of a frame, which is damaged at times: what is wrong with it the reply of a run says."""
        kind, entry = self.chance.choice(KINDS), self.chance.randrange(0x10000)
        option = self.chance.choice(self.options)
        order = self.chance.choices(range(0x10000), k=self.chance.choice([0, 1, 5, 600]))
        number = self.chance.choice([0, 1, 2**32 - 2, 2**32 - 1])
        frame = frame_of(number, kind, payload_of(kind, entry, option, number_bytes(order)))
        if self.chance.randrange(3) == 0:
            frame = damage(self.chance, frame)
        line = f"frame_parts {digits(frame)}"
        fault = self.frame_fault(frame)
        if fault:
            return line, [fault]
        return line, [f"done {self.frame_parts(frame)}"]

    def frame_parts(self, frame: bytes) -> str:
        """The parts of a frame that is one, as the drivers say them."""
        number, kind = int.from_bytes(frame[4:8], "little"), frame[3]
        entry = NO_ENTRY if kind in (4, 6, 7) else int.from_bytes(frame[12:14], "little")
        at = {1: 14, 2: 14, 6: 12, 7: 12}.get(kind, 0)
        count = len(frame) - at if at else 0
        return f"{digits(frame[12:] if kind == 4 else b'')} {number} {kind} {entry} {at} {count}"

    def frame_fault(self, frame: bytes) -> str:
        """The driver's line if the bytes aren't a frame, by the reply to their delivery."""
        script = self.side.file("script", b"deliver " + frame.hex().encode() + b"\n")
        held = self.side.file("set", self.set)
        _, said, _ = self.side.ask("run", held, script, "--out", str(self.side.work / "after"))
        words = said.split()
        if words[:1] != ["malformed"]:
            return ""
        if words[1] == "Option":
            return self.side.refusal("option", f"refused: {' '.join(words[2:])}")
        return self.refused(f"FRAME_{snake(words[1])}")

    def name(self) -> bytes:
        """A name of the set, or one that it hasn't, or what is no name."""
        kept = [name.encode() for name, _ in variables_of(self.set)]
        others = [
            b"Boot0009",
            b"A",
            b"~" * 64,
            b"",
            b"~" * 65,
            b"Boot 0000",
            b"Boot\xff",
            "Böot".encode(),
        ]
        return self.chance.choice(kept + others)

    def change_case(self) -> tuple[str, list[str]]:
        data, name = damage(self.chance, self.set), self.name()
        value = self.chance.randbytes(
            self.chance.choice([0, 1, 2, 300] * 4 + [1_048_576, 1_048_577])
        )
        given = f"{digits(data)} {digits(name)}"
        lines = f"vars_get {given}\nvars_put {given} {digits(value)}\nvars_remove {given}"
        told = self.side.ask("show", self.side.file("set", data))[2]
        if told and "BadOrder" not in told and "BadNext" not in told:
            return lines, [self.side.refusal("set", told)] * 3
        variables = {held.encode(): kept for held, kept in variables_of(data)}
        return lines, [
            self.got(variables, name),
            self.put(variables, name, value),
            self.removed(variables, name),
        ]

    def edit_case(self) -> tuple[str, list[str]]:
        """An edit of the cases of the repository, at times with a number that is none, or over bytes that are no set."""
        case = self.chance.choice(self.edits)
        numbers, entries = edit_numbers(case), number_bytes(case.get("entries", ()))
        data, wanted = set_of([*data_of(case["vars"]).items()]), self.edited(case)
        wrong = self.chance.choice(["", "", "", "kind", "number", "position", "set"])
        if wrong == "kind":
            numbers[0], wanted = self.chance.choice([0, 10, 2**32 - 1]), self.refused(
                "UNEDITED_BAD_KIND"
            )
        elif wrong == "number" and numbers[0] in (1, 6):
            numbers[1], wanted = 0x10001, self.refused("UNEDITED_BAD_NUMBER")
        elif wrong == "position" and numbers[0] == 1:
            numbers[2], wanted = 3, self.refused("UNEDITED_BAD_POSITION")
        elif wrong == "set":
            data, wanted = b"BVS2", f"refused {self.side.kinds['SET_BAD_MAGIC']} 0 0 {NO_PLACE}"
        words = [long_bytes(numbers), entries, bytes.fromhex(case.get("option", "")), data]
        return f"vars_edit {' '.join(map(digits, words))}", [wanted]

    def moves_case(self) -> tuple[str, list[str]]:
        """A command over a machine: what it runs, what becomes of its moves, and what is there in the end."""
        commands = [self.frames_command, self.edit_command, self.restore_command]
        command = self.chance.choice(commands)()
        old, new = command.before, with_attributes(command.after, command.before)
        state = command.after.get(KEEP, b"")
        answers, wanted = b"", f"done {command.end}"
        at, moves = self.chance.randrange(1 + 2 * (old != new)), old != new or state
        how = self.chance.choice(["", "refused", "perhaps", "cut"])
        if how and moves:
            answers = bytes(at) + bytes([["refused", "perhaps", "cut"].index(how) + 1])
            wanted = "cut" if how == "cut" else f"done 5 7 0 0 0 {NO_ENTRY}"
            if how != "cut" or at == 0:
                new, state = old, b""
        line = f"moves {digits(set_of([*old.items()]))} {digits(answers)} {command.words}"
        is_made = moves and (at > 0 or how in ("", "perhaps"))
        journal = journal_of(state) if is_made else b""
        return line, [wanted, f"done {digits(set_of([*new.items()]))} {digits(journal)}"]

    def frames_command(self) -> Command:
        """A command that runs frames over the set of the examples."""
        stream = b"".join(self.stream(self.chance.randrange(6)))
        out = self.side.work / "after"
        files = self.side.file("set", self.set), self.side.file("stream", stream)
        status, lines, told = self.side.ask("run", "--stream", *files, "--out", str(out))
        assert status == 0, told
        kinds = [
            next(kind for kind in REPLIES if line.startswith(kind)) for line in lines.splitlines()
        ]
        numbers = "".join(f" {1 + NUMBERED.index(kind)}" for kind in kinds)
        before = kept(dict(variables_of(self.set)))
        after = dict(variables_of(out.read_bytes()))
        return Command(f"f {digits(stream)}", before, after, f"1 0 0 0 0 {NO_ENTRY}{numbers}")

    def edit_command(self) -> Command:
        """A command that makes an edit of the cases of the repository."""
        case = self.chance.choice(self.edits_of_machines)
        words = [
            long_bytes(edit_numbers(case)),
            number_bytes(case.get("entries", ())),
            bytes.fromhex(case.get("option", "")),
        ]
        line, before = self.edited(case).split(), data_of(case["vars"])
        after = data_of(case["after"]) if line[0] == "done" else before
        # The journal has the state of a keeper, and a variable with one doesn't count.
        after = {name: data for name, data in after.items() if name != KEEP}
        end = (
            f"1 0 0 0 {' '.join(line[2:])}"
            if line[0] == "done"
            else f"4 0 0 {line[1]} 0 {NO_ENTRY}"
        )
        return Command(f"e {' '.join(map(digits, words))}", kept(before), after, end)

    def restore_command(self) -> Command:
        """A command that brings the variables of one case of an edit back to those of another one."""
        before, back = (data_of(self.chance.choice(self.edits_of_machines)["vars"]) for _ in "12")
        after = {name: data for name, data in before.items() if not is_boot_name(name)}
        after.update((name, data) for name, data in back.items() if is_boot_name(name))
        after.pop(KEEP, None)
        words = digits(set_of([*with_attributes(back, kept(before)).items()]))
        return Command(f"b {words}", kept(before), after, f"1 0 0 0 0 {NO_ENTRY}")

    def edited(self, case: dict[str, Any]) -> str:
        """The driver's line of what a case states of an edit."""
        word, *told = case["answer"].split()
        if word in EDITED:
            after = set_of([*data_of(case["after"]).items()])
            entry = int(told[0], 16) if told else 0x10000
            return f"done {digits(after)} {EDITED.index(word)} {entry}"
        if word == "BadOption":
            return self.side.refusal("option", f"refused: {' '.join(told)}")
        if word in ("BadOrder", "BadNext"):
            return self.refused(f"VARS_{snake(word)}")
        place = int(told[0], 16) if told else NO_PLACE
        return f"refused {self.side.kinds['UNEDITED_' + snake(word)]} 0 {place} {NO_PLACE}"

    def got(self, variables: dict[bytes, bytes], name: bytes) -> str:
        return f"done {digits(variables[name])}" if name in variables else f"status {ABSENT}"

    def removed(self, variables: dict[bytes, bytes], name: bytes) -> str:
        left = [(held.decode(), data) for held, data in variables.items() if held != name]
        return f"done {digits(set_of(left))}" if name in variables else f"status {ABSENT}"

    def put(self, variables: dict[bytes, bytes], name: bytes, value: bytes) -> str:
        if not re.fullmatch(rb"[!-~]{1,64}", name):
            return self.refused("PUT_BAD_NAME")
        if not 1 <= len(value) <= 1_048_576:
            return self.refused("PUT_DATA_TOO_LONG" if value else "PUT_EMPTY_DATA")
        return f"done {digits(set_of([(held.decode(), data) for held, data in {**variables, name: value}.items()]))}"

    def refused(
        self, kind: str, place: int = NO_PLACE, inner: int = 0, inner_place: int = NO_PLACE
    ) -> str:
        return f"refused {self.side.kinds[kind]} {inner} {place} {inner_place}"

    def told_of(self, made: Callable[[], str]) -> str:
        """The driver's line of an answer, or of why there is none: it is refused, or there is no such part."""
        try:
            return f"done {made()}".rstrip()
        except Refused as why:
            return self.refused(*why.args)
        except IndexError:
            return f"status {ABSENT}"

    def some_notes(self) -> Notes:
        """Notes with some digests."""
        count = self.chance.choice([0, 0, 1, 3, 2 * KEPT_MAX])
        numbers = [self.chance.randrange(6) for _ in range(count)]
        digests = tuple((number, self.chance.randbytes(DIGEST_LEN)) for number in numbers)
        return Notes(self.chance.randbytes(IDENTITY_LEN), digests)

    def notes_case(self) -> tuple[str, list[str]]:
        """Notes at the start of a file, perhaps damaged, and notes of an identity."""
        notes = self.some_notes()
        data = notes.data() + self.chance.randbytes(self.chance.choice([0, 1, 40]))
        if self.chance.randrange(2) == 0:
            data = damage(self.chance, data)
        identity = self.chance.randbytes(self.chance.choice([IDENTITY_LEN] * 4 + [0, 15, 17]))
        lines = f"notes_len {digits(data)}\nnotes_identity {digits(data)}\nnotes_make {digits(identity)}"
        made = f"done {digits(Notes(identity).data())}"
        if len(identity) != IDENTITY_LEN:
            made = self.refused("NOTES_BAD_IDENTITY")
        taken = self.told_of(lambda: str(len(self.notes_in(data))))
        if taken == "done 0":
            return lines, [taken, f"status {ABSENT}", made]
        return lines, [taken, self.told_of(lambda: digits(self.notes_in(data)[4:20])), made]

    def notes_in(self, data: bytes) -> bytes:
        """The notes that the bytes begin with."""
        notes = Notes.read(data)
        return b"" if notes is None else notes.data()

    def noted_case(self) -> tuple[str, list[str]]:
        """Two commands of frames over a machine, and what is noted of each, at times with no notes before them, or with damaged
        ones."""
        streams = [self.stream(self.chance.choice([0, 3, 6, 90])) for _ in "12"]
        given = self.some_notes().data() if self.chance.randrange(4) else b""
        if self.chance.randrange(4) == 0:
            given = damage(self.chance, given)
        words = [set_of([*kept(dict(variables_of(self.set))).items()]), given]
        line = f"noted {' '.join(map(digits, [*words, *map(b''.join, streams)]))}"
        try:
            return line, self.noted_lines(Notes.read(given), streams)
        except Refused as why:
            return line, [self.refused(*why.args)] * len(streams)

    def noted_lines(self, notes: Notes | None, streams: list[list[bytes]]) -> list[str]:
        """What is noted of each of these commands."""
        held, first, wanted = self.set, 0, []
        for frames in streams:
            held, lines = self.after_run(held, b"".join(frames))
            after, same = noted(notes or Notes(b""), first, frames, lines)
            numbers = [int(told.split()[-1]) for told in lines if told.startswith("applied")]
            first = numbers[-1] if numbers else first
            if notes is not None:
                notes = after
            told = same if notes is not None else [0] * len(same)
            spelled = "-" if notes is None else digits(notes.data())
            wanted.append(f"done {spelled}{''.join(f' {number}' for number in told)}")
        return wanted

    def after_run(self, data: bytes, stream: bytes) -> tuple[bytes, list[str]]:
        """The set after a stream, and the lines of the replies."""
        out = self.side.work / "after"
        files = self.side.file("set", data), self.side.file("stream", stream)
        status, lines, told = self.side.ask("run", "--stream", *files, "--out", str(out))
        assert status == 0, told
        return out.read_bytes(), lines.splitlines()

    def idle_case(self) -> tuple[str, list[str]]:
        """A journal of which nothing is left to do, or something, or none, or bytes that are no journal."""
        journal = state_files.some_journal(self.chance)
        others = [b"", journal_of(b""), self.some_notes().data() + journal]
        data = self.chance.choice([journal] * 3 + others)
        if self.chance.randrange(2):
            data = damage(self.chance, data)
        idle = self.told_of(lambda: str(int(state_files.is_idle(data))))
        return f"journal_is_idle {digits(data)}", [idle]

    def some_boot_variables(self) -> dict[str, bytes]:
        """Some of the variables of the examples, as a machine keeps them, and at times a Timeout and a BootNext."""
        held = kept(dict(variables_of(self.set)))
        some = {name: data for name, data in held.items() if self.chance.randrange(4)}
        for name in ("Timeout", "BootNext"):
            if self.chance.randrange(2):
                some[name] = OLD + number_bytes([self.chance.randrange(2)])
        return some

    def some_record(self) -> tuple[Record, list[dict[str, bytes]]]:
        """A record of a change, and the sets of which it is made."""
        before = self.some_boot_variables()
        after = self.chance.choice([self.some_boot_variables(), without(before, "BootOrder")])
        if self.chance.randrange(2):
            after["BootNext"] = OLD + number_bytes([self.chance.randrange(3)])
        words = self.chance.sample([b"", b"bootvars", b"first", "ä".encode(), b"3" * 600], 3)
        machine = self.chance.randbytes(self.chance.choice([1, 16, 4096]))
        time = self.chance.choice([0, 1_790_000_000, 2**64 - 1])
        made = Record(machine, time, boot_part(before), boot_part(after), tuple(words))
        return made, [before, after]

    def record_case(self) -> tuple[str, list[str]]:
        """A record that is made, and what is read of it, or of one that is damaged."""
        record, sets = self.some_record()
        line = b"".join(word + b"\0" for word in record.words)
        wrong = self.chance.choice(["", "", "", "machine", "open", "word", "before", "after"])
        machine, words, wanted = record.machine, line, f"done {digits(record.data())}"
        held = [set_of([*variables.items()]) for variables in sets]
        if wrong == "machine":
            machine, wanted = b"", self.refused("MACHINE_BAD_NAME")
        elif wrong == "open":
            words, wanted = line + b"\xff", self.refused("RECORD_OPEN_WORD", len(line))
        elif wrong == "word":
            words, wanted = line + b"\xff\0", self.refused("RECORD_BAD_WORD", 3)
        elif wrong:
            held[wrong == "after"] = b"BVS2"
            wanted = self.refused("SET_BAD_MAGIC", 0)
        given = [machine, record.time.to_bytes(8, "little"), *held, words]
        number = self.chance.randrange(5)
        data = self.damaged_record(record)
        lines = [
            f"record_make {' '.join(map(digits, given))}",
            f"record_parts {digits(data)}",
            f"record_word {digits(data)} {long_bytes([number]).hex()}",
        ]
        parts = self.told_of(lambda: self.parts_of(data))
        word = self.told_of(lambda: digits(self.record_in(data).words[number]))
        return "\n".join(lines), [wanted, parts, word]

    def parts_of(self, data: bytes) -> str:
        """The places of the parts of a record, as the drivers say them."""
        record = self.record_in(data)
        name, _, before, after, *words = record.fields()
        first = 8 + len(name) + 16
        second = first + len(before) + 4
        places = [8, len(name), record.time, first, len(before), second, len(after)]
        return " ".join(map(str, [*places, len(words)]))

    def record_in(self, data: bytes) -> Record:
        """The record of these bytes.

        Raises Refused if there is none."""
        machine, time, *sets_and_words = state_files.record_fields(data)
        before, after, *words = sets_and_words
        for name, held in (("BEFORE", before), ("AFTER", after)):
            told = self.side.ask("show", self.side.file("set", held))[2]
            if told and "BadOrder" not in told and "BadNext" not in told:
                _, inner, _, place, _ = self.side.refusal("set", told).split()
                raise Refused(f"RECORD_BAD_{name}", NO_PLACE, int(inner), int(place))
        for number, word in enumerate(words):
            if word.decode(errors="ignore").encode() != word:
                raise Refused("RECORD_BAD_WORD", number)
        sets = dict(variables_of(before)), dict(variables_of(after))
        return Record(machine, int.from_bytes(time, "little"), *sets, tuple(words))

    def damaged_record(self, record: Record) -> bytes:
        """The bytes of a record, perhaps damaged."""
        data, fields = record.data(), record.fields()
        wrong = self.chance.choice(
            ["", "", "bytes", "bytes", "magic", "few", "word", "set", "time"]
        )
        changed = {"magic": b"BKH2" + data[4:], "word": data + b"\1\0\0\0\xff"}
        changed["few"] = b"BKH1" + b"".join(map(state_files.with_length, fields[:3]))
        if wrong == "time":
            fields[1] = fields[1][:7]
        if wrong == "set":
            at = self.chance.choice([2, 3])
            fields[at] = damage(self.chance, fields[at])
        changed["set"] = changed["time"] = b"BKH1" + b"".join(map(state_files.with_length, fields))
        changed["bytes"] = damage(self.chance, data)
        return changed.get(wrong, data)

    def undo_case(self) -> tuple[str, list[str]]:
        """How a change stands that was recorded, and what undoes it, beside what a machine has now."""
        record, sets = self.some_record()
        now = dict(self.chance.choice([*sets, *sets, self.some_boot_variables()]))
        for name in ("BootNext", "Timeout"):
            if self.chance.randrange(3) == 0:
                now = without(now, name)
        data, held = self.damaged_record(record), set_of([*now.items()])
        is_set = self.chance.randrange(8) > 0
        held = held if is_set else b"BVS2"
        lines = f"record_standing {digits(data)} {digits(held)}\nrecord_back {digits(data)} {digits(held)}"
        standing = self.told_of(lambda: str(self.record_in(data).standing(now)))
        back = self.told_of(lambda: digits(set_of([*self.record_in(data).back(now).items()])))
        if not is_set and standing.startswith("done"):
            return lines, [self.refused("SET_BAD_MAGIC", 0)] * 2
        return lines, [standing, back]

    def store_case(self) -> tuple[str, list[str]]:
        """What a variable file has, which is damaged at times, and what becomes of it with other variables."""
        boot = boot_part(dict(variables_of(self.set)))
        file = variable_files.some_file(self.chance, boot)
        kept = variable_files.some_kept(self.chance, boot, file)
        how = self.chance.choice(["", "", "", "anywhere", "in a number", "set"])
        if how == "anywhere":
            file = damage(self.chance, file)
        elif how == "in a number":
            file = variable_files.damaged(self.chance, file)
        held = b"BVS2" if how == "set" else set_of([*kept.items()])
        lines = f"store_vars {digits(file)}\nstore_with {digits(file)} {digits(held)}"
        found = self.told_of(lambda: digits(set_of([*variable_files.vars_of(file).items()])))
        if how == "set":
            return lines, [found, self.refused("SET_BAD_MAGIC", 0)]
        return lines, [found, self.told_of(lambda: digits(variable_files.file_with(file, kept)))]

    def written_case(self) -> tuple[str, list[str]]:
        """A variable file that is written, of the cases of the repository."""
        file, kept_there, answer = self.chance.choice(self.written)
        line = f"store_with {digits(file)} {digits(set_of([*kept_there.items()]))}"
        is_fault = not re.fullmatch("[0-9a-f]+", answer)
        wanted = self.refused(f"STORE_{snake(answer)}") if is_fault else f"done {answer}"
        model = self.told_of(lambda: digits(variable_files.file_with(file, kept_there)))
        assert model == wanted, f"the case and what is worked out here don't agree: {answer}"
        return line, [wanted]

    def stream(self, count: int) -> list[bytes]:
        """Frames with other numbers, some of them damaged."""
        frames = []
        for number in range(count):
            frame = bytearray(self.chance.choice(self.frames))
            frame[4:8] = max(0, number + self.chance.choice([0, 0, 0, 0, 1, -1, 3, 80])).to_bytes(
                4, "little"
            )
            if self.chance.randrange(8) == 0:
                frame[12:] = damage(self.chance, bytes(frame[12:]))
                frame[8:12] = (len(frame) - 12).to_bytes(4, "little")
            frames.append(bytes(frame))
        return frames

    def run_case(self) -> tuple[str, list[str]]:
        stream = b"".join(self.stream(self.chance.randrange(12)))
        if self.chance.randrange(3) == 0:
            stream = damage(self.chance, stream)
        out = self.side.work / "after"
        status, lines, told = self.side.ask(
            "run",
            "--stream",
            self.side.file("set", self.set),
            self.side.file("stream", stream),
            "--out",
            str(out),
        )
        line = f"run {digits(self.set)} {digits(stream)}"
        if status:
            return line, [self.side.refusal("run", told)]
        return line, [f"done {digits(out.read_bytes())} {digits(lines.encode())}"]

    def keeper_case(self) -> tuple[str, list[str]]:
        frames = self.stream(self.chance.choice([5, 40, 200]))
        events = [self.chance.choice([f"d{frame.hex()}"] * 8 + ["p", "h", "r"]) for frame in frames]
        words = {"p": "prepare", "h": "hand", "r": "restart"}
        script = "".join(f"{words.get(event) or 'deliver ' + event[1:]}\n" for event in events)
        out = self.side.work / "after"
        status, lines, told = self.side.ask(
            "run",
            self.side.file("set", self.set),
            self.side.file("script", script.encode()),
            "--out",
            str(out),
        )
        assert status == 0, told
        as_values = [self.chance.randrange(2) == 0 for _ in events]
        answers = [
            f"done {self.value(line) if as_value else digits(line.encode())}"
            for line, as_value in zip(lines.splitlines(), as_values)
        ]
        asked = (
            event[0].upper() + event[1:] if as_value else event
            for event, as_value in zip(events, as_values)
        )
        line = f"keeper {digits(self.set)} {' '.join(asked)}"
        numbers = re.findall(r"^(?:applied|waiting) .*?(\d+)$", lines, re.M)
        opened = [
            f"status {CLOSED}",
            f"refused {self.side.kinds['SET_BAD_MAGIC']} 0 0 {NO_PLACE}",
            "done",
        ]
        return line, [
            *opened,
            *answers,
            f"done {digits(out.read_bytes())}",
            f"done {numbers[-1] if numbers else 0}",
        ]

    def value(self, line: str) -> str:
        """The fields of the reply of this line."""
        fault = outcome = count = 0
        entry = first = 0x10000
        option, next_number, normal = f"0 0 {NO_PLACE} {NO_PLACE}", 2**32 - 1, b""
        kind = next(kind for kind in REPLIES if line.startswith(kind))
        words = line[len(kind) :].split()
        if kind == "malformed":
            fault = self.side.kinds[f"FRAME_{snake(words[0])}"]
            if words[0] == "Option":
                option = self.side.refusal("option", f"refused: {' '.join(words[1:])}").partition(
                    " "
                )[2]
        elif kind in ("repeat", "applied"):
            outcome = 1 + OUTCOMES.index(words.pop(0))
            if words and re.fullmatch("[0-9A-F]{4}", words[0]) and len(words) > (kind == "applied"):
                entry = int(words.pop(0), 16)
        elif kind == "plan":
            first = 0x10000 if words[1] == "-" else int(words[1], 16)
            normal = number_bytes(int(word, 16) for word in words[3:] if word != "-")
            count = len(normal) // 2 + (words[1] != "-")
        elif kind == "prepared":
            count = int(words[0])
        if kind in ("ahead", "waiting", "applied", "restarted"):
            next_number = int(words[-1])
        return f"{digits(normal)} {1 + NUMBERED.index(kind)} {fault} {option} {outcome} {entry} {next_number} {first} {count}"


def made_by(cases: Cases, count: int) -> list[tuple[str, list[str]]]:
    """So many cases of each kind."""
    makers = [
        cases.path_case,
        cases.text_case,
        cases.option_case,
        cases.plan_case,
        cases.risk_case,
        cases.change_case,
        cases.edit_case,
        cases.moves_case,
        cases.run_case,
        cases.keeper_case,
        cases.set_case,
        cases.image_case,
        cases.lists_case,
        cases.changes_case,
        cases.option_make_case,
        cases.frame_make_case,
        cases.frame_parts_case,
        cases.names_case,
        cases.word_case,
        cases.named_case,
        cases.description_case,
        cases.parse_case,
        cases.notes_case,
        cases.noted_case,
        cases.idle_case,
        cases.record_case,
        cases.undo_case,
        cases.store_case,
        cases.written_case,
    ]
    return [maker() for _ in range(count) for maker in makers]


def compare(driver: list[str], made: list[tuple[str, list[str]]], seed: int) -> bool:
    """Whether a driver says what is wanted of the cases, and prints what differs."""
    asked = "".join(f"{line}\n" for line, _ in made)
    done = subprocess.run(driver, input=asked, capture_output=True, text=True, check=False)
    answers, wanted = done.stdout.splitlines(), [answer for _, lines in made for answer in lines]
    differ = abs(len(answers) - len(wanted)) + (done.returncode != 0)
    for number, (answer, want) in enumerate(zip(answers, wanted)):
        if answer != want:
            differ += 1
            print(
                f"answer {number} of seed {seed} is {answer[:200]}\nand the command's {want[:200]}"
            )
    if done.stderr:
        print(done.stderr[:2000])
    print(f"{len(wanted)} calls, {differ} differ")
    return differ == 0


def main() -> int:
    words = argparse.ArgumentParser()
    words.add_argument("root", type=Path)
    words.add_argument("command")
    words.add_argument("driver", nargs=argparse.REMAINDER)
    words.add_argument("--cases", type=int, default=100)
    words.add_argument("--seed", type=int, default=1)
    given = words.parse_args()
    with tempfile.TemporaryDirectory() as work:
        side = Side(given.root, given.command, Path(work))
        made = made_by(Cases(given.root, side, random.Random(given.seed)), given.cases)
    return not compare(given.driver, made, given.seed)


if __name__ == "__main__":
    sys.exit(main())
