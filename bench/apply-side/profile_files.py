"""Files of `bootvars apply`, written in many ways: as JSON, and as TOML 1.0 with tables, tables in lines and dotted keys, and
strings of all kinds; and files with a fault, of which is known where it is."""

from __future__ import annotations

import json
import random
from typing import Any, Dict, List, NamedTuple

File = Dict[str, Any]
"""What a file says, by its members."""

ESCAPES = {
    "\b": "\\b",
    "\t": "\\t",
    "\n": "\\n",
    "\f": "\\f",
    "\r": "\\r",
    '"': '\\"',
    "\\": "\\\\",
}
"""How characters are escaped in TOML and in JSON."""


class Wrong(NamedTuple):
    """A file that is refused by itself, and the line and the column of what is at fault with it."""

    text: str
    line: int
    column: int


# ---- TOML


def basic(text: str, chance: random.Random) -> str:
    """A string between quotes. Some characters that need no escape have one."""
    written = ""
    for character in text:
        code = ord(character)
        if character in ESCAPES:
            written += ESCAPES[character]
        elif code < 0x20 or code == 0x7F or chance.randrange(12) == 0:
            written += f"\\u{code:04x}" if code < 0x10000 else f"\\U{code:08X}"
        else:
            written += character
    return f'"{written}"'


def string(text: str, chance: random.Random) -> str:
    """A string, between apostrophes if it can be."""
    is_literal = "'" not in text and all(it >= " " and it != "\x7f" or it == "\t" for it in text)
    return f"'{text}'" if is_literal and chance.randrange(2) else basic(text, chance)


def number(value: int, chance: random.Random) -> str:
    """A number, to one of its bases."""
    forms = [f"{value}", f"{value}", f"+{value}", f"0x{value:x}", f"0x{value:04X}", f"0o{value:o}"]
    return chance.choice([*forms, f"0b{value:b}", f"{value:_}"])


def value_of(value: Any, chance: random.Random, in_line: bool = False) -> str:
    """A value. One in a table that has one line has one too."""
    if isinstance(value, bool):
        return "true" if value else "false"
    if isinstance(value, int):
        return number(value, chance)
    if isinstance(value, str):
        return string(value, chance)
    if isinstance(value, dict):
        inside = ", ".join(
            f"{key_of(key, chance)} = {value_of(it, chance, True)}" for key, it in value.items()
        )
        return f"{{ {inside} }}" if inside else "{}"
    items = [value_of(it, chance, in_line) for it in value]
    if in_line or chance.randrange(2):
        return f"[{', '.join(items)}]"
    lines = "".join(f"    {it}, # one of them\n" for it in items)
    return f"[\n{lines}]"


def key_of(key: str, chance: random.Random) -> str:
    """A key, sometimes between quotes."""
    return chance.choice([key, key, key, f'"{key}"', f"'{key}'"])


def pair(key: str, value: Any, chance: random.Random) -> str:
    """A line with a key and its value."""
    end = chance.choice(["", "", "", "   # it is so", " \t"])
    return f"{key_of(key, chance)}{chance.choice([' = ', '=', ' =  '])}{value_of(value, chance)}{end}\n"


def pairs(members: File, chance: random.Random) -> str:
    """A line for each member."""
    return "".join(pair(key, value, chance) for key, value in members.items())


def toml(file: File, chance: random.Random) -> str:
    """What a file says as TOML. What belongs to no table comes first."""
    heads, tables = [], []
    for key, value in file.items():
        is_table = key in ("order", "entries")
        form = chance.randrange(3) if is_table else 0
        if form == 0:
            heads.append(pair(key, value, chance))
        elif key == "order" and form == 1 and value:
            heads += [f"order . {pair(name, it, chance)}" for name, it in value.items()]
        elif key == "order":
            tables.append("[ order ]\n" + pairs(value, chance))
        else:
            tables += ["[[entries]]\n" + pairs(entry, chance) for entry in value]
    begin = chance.choice(["", "", "# What the machine is to have\n\n", "\n"])
    text = begin + "".join(heads) + "\n".join(tables)
    return text.replace("\n", "\r\n") if chance.randrange(8) == 0 else text


# ---- either


def written(file: File, chance: random.Random) -> str:
    """What a file says, as TOML or as JSON."""
    if chance.randrange(3):
        return toml(file, chance)
    spaces = chance.choice([None, 2])
    begin = chance.choice(["", "", "\n  ", "\t"])
    return begin + json.dumps(file, ensure_ascii=bool(chance.randrange(2)), indent=spaces)


MISTAKES = [
    "^colour = 5",
    "timeout = ^65536",
    "timeout = ^-1",
    "timeout = ^true",
    'timeout = ^"5"',
    "timeout = ^5.0",
    "timeout = 5\n^timeout = 6",
    "next = ^5",
    "next = ^true",
    'next = ^"a\\u0000b"',
    "next = ^'\\u12'",
    "order = ^5",
    "order = { ^last = [] }",
    "order = { first = [^5] }",
    'order = { first = ^"debian" }',
    "order = { first = [], ^only = [] }",
    "entries = ^5",
    "entries = [^5]",
    'entries = [^{ state = "present" }]',
    'entries = [^{ description = "d" }]',
    'entries = [{ description = ^5, path = "USB(1,0)" }]',
    'entries = [{ description = "d", state = ^"gone" }]',
    'entries = [{ description = "d", option = ^"0" }]',
    'entries = [{ description = "d", option = ^"xy" }]',
    'entries = [{ description = "d", option = ^"01000000" }]',
    'entries = [{ description = "d", path = ^5 }]',
    'entries = [{ description = "d", path = "USB(1,0)", active = ^1 }]',
    'entries = [{ description = "d", path = "USB(1,0)", optional = ^"123" }]',
    'entries = [{ description = "d", path = "USB(1,0)", optional = ^66 }]',
    'entries = [{ description = "d", path = "USB(1,0)", optional = "00", optional_text = ^"" }]',
    'entries = [{ description = "d", state = "absent", ^active = false }]',
    'entries = [{ description = "d", state = "absent", ^colour = 1 }]',
    '[[entries]]\ndescription = "d"\n^colour = 1',
    "[order]\n^last = []",
    "timeout = 5 ^5",
    "^= 5",
]
"""Lines that are at fault, with a mark before what is."""


def mistaken(chance: random.Random) -> Wrong:
    """A file with lines that are at fault after some that aren't."""
    before: List[str] = chance.choices(["# a line", "", "  # anothér", "\t"], k=chance.randrange(5))
    mistake = chance.choice(MISTAKES)
    begin = "\n".join([*before, mistake[: mistake.index("^")]])
    after = chance.choice(["", "\n", "\n# the end\n"])
    text = "\n".join([*before, mistake.replace("^", "")]) + after
    return Wrong(text, begin.count("\n") + 1, len(begin) - begin.rfind("\n"))
