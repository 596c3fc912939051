"""What the header for C declares, and what others declare of it by their own text: the package for Python, the crate for
Rust, manuals, and the crate of this repository that has the calls."""

from __future__ import annotations

import ast
import re
from pathlib import Path
from typing import Callable, Dict, List, NamedTuple, Tuple

ROOT = Path(__file__).resolve().parents[1]
HEADER = ROOT / "libraries/c/include/bootkeep.h"
PACKAGE = ROOT / "libraries/python/bootkeep"
CRATE = ROOT / "crates/bootkeep_c/src"
RUST = ROOT / "libraries/rust/src"

Field = Tuple[str, int]
"""The name of a field, and how many bytes it has."""

Kinds = List[str]
"""What a call is handed, as a processor has it: `ptr`, or `u16`, `u32`, `u64` and `usize`."""

WIDEST = 8
"""No value begins at a place that isn't a multiple of its width, or of this if it is wider."""

POINTER = "ptr"
REFUSAL_LEN = 24

# How many bytes a value has on x86-64, by its type in each of the languages.
HEADER_WIDTHS = {
    "uint32_t": 4,
    "uint64_t": 8,
    "size_t": 8,
    "void *": 8,
    "struct bootkeep_refusal": REFUSAL_LEN,
}
PACKAGE_WIDTHS = {
    "c_uint32": 4,
    "c_uint64": 8,
    "c_size_t": 8,
    "c_void_p": 8,
    "RawRefusal": REFUSAL_LEN,
}
CRATE_WIDTHS = {"u32": 4, "u64": 8, "usize": 8, "*mut u8": 8, "Global": 0, "Refusal": REFUSAL_LEN}
RUST_WIDTHS = {"u32": 4, "u64": 8, "usize": 8, "*mut u8": 8, "RawRefusal": REFUSAL_LEN}

# What a value that is no pointer is, by its type in each of the languages.
HEADER_KINDS = {"uint16_t": "u16", "uint32_t": "u32", "uint64_t": "u64", "size_t": "usize"}
PACKAGE_KINDS = {
    "c_uint16": "u16",
    "c_uint32": "u32",
    "c_uint64": "u64",
    "c_size_t": "usize",
    "c_char_p": POINTER,
}


def read(file: Path) -> str:
    return file.read_text(encoding="utf-8")


def without_comments(text: str) -> str:
    return re.sub(r"/\*.*?\*/", "", text, flags=re.DOTALL)


def snake(word: str) -> str:
    """A name such as `BadSize`, as a constant is called: `BAD_SIZE`."""
    return re.sub(r"(?<!^)(?=[A-Z])", "_", word).upper()


def camel(words: str) -> str:
    """A name such as `BAD_SIZE`, as an enum of Rust has it: `BadSize`."""
    return "".join(word.capitalize() for word in words.split("_"))


# ---- Structs


def header_structs(text: str) -> Dict[str, List[Field]]:
    """The fields of each struct that the header declares."""
    return {
        name: [
            (field, HEADER_WIDTHS[kind.strip()])
            for kind, field in re.findall(r"(\w[\w ]*?[ *]+)(\w+);", body)
        ]
        for name, body in re.findall(
            r"\bstruct (\w+) \{(.*?)\};", without_comments(text), re.DOTALL
        )
    }


def package_structs(text: str) -> Dict[str, List[Field]]:
    """The fields of each class of a module of the package that is a struct of C."""
    classes = [part for part in ast.parse(text).body if isinstance(part, ast.ClassDef)]
    return {
        made.name: [_package_field(field) for field in part.value.elts]
        for made in classes
        for part in made.body
        if isinstance(part, ast.Assign) and isinstance(part.value, ast.List) and _has_fields(part)
    }


def _has_fields(part: ast.Assign) -> bool:
    """Whether this gives a class the fields of a struct of C."""
    return any(isinstance(name, ast.Name) and name.id == "_fields_" for name in part.targets)


def _package_field(field: ast.expr) -> Field:
    """What a pair of a name and a type is as a field."""
    assert isinstance(field, ast.Tuple)
    name, kind = field.elts
    assert isinstance(name, ast.Constant) and isinstance(kind, ast.Name)
    return str(name.value), PACKAGE_WIDTHS[kind.id]


def struct_of(text: str, name: str, widths: Dict[str, int]) -> List[Field]:
    """The fields of this struct of a file of Rust or Rattle, with those of the structs of the file within it. For C there
    are no ghost fields, and none without bytes."""
    head = r"^#\[repr\(C\)\]\n(?:#\[.*\]\n)*(?:pub(?:\(crate\))? )?struct "
    found = re.search(rf"{head}{name} \{{\n(.*?)^\}}$", text, re.DOTALL | re.MULTILINE)
    assert found is not None, f"no struct {name} that is laid out as in C"
    fields: List[Field] = []
    for field, kind in re.findall(r"^ *(?:pub(?:\(\w+\))? )?(\w+): (.+),$", found[1], re.MULTILINE):
        if kind in widths:
            fields.append((field, widths[kind]))
        else:
            fields += struct_of(text, kind, widths)
    return [(field, width) for field, width in fields if width > 0]


def places(fields: List[Field]) -> Dict[str, int]:
    """Where C puts the fields of a struct on x86-64, and under `sizeof` how many bytes it has."""
    found: Dict[str, int] = {}
    end = 0
    for field, width in fields:
        found[field] = _round_up(end, min(width, WIDEST))
        end = found[field] + width
    found["sizeof"] = _round_up(end, max(min(width, WIDEST) for _, width in fields))
    return found


def _round_up(count: int, step: int) -> int:
    return -(-count // step) * step


def asserted(text: str, name: str) -> Dict[str, int]:
    """The places of the fields of a struct that the header asserts, and under `sizeof` how many bytes it has."""
    of_field = rf"^BOOTKEEP_ASSERT\(offsetof\(struct {name}, (\w+)\) == (\d+)\);$"
    of_whole = rf"^BOOTKEEP_ASSERT\((sizeof)\(struct {name}\) == (\d+)\);$"
    found = re.findall(of_field, text, re.MULTILINE) + re.findall(of_whole, text, re.MULTILINE)
    return {field: int(place) for field, place in found}


# ---- Calls


class Call(NamedTuple):
    """A call as a text declares it: what it is handed, each with its type."""

    name: str
    handed: List[str]

    def kinds(self, kind: Callable[[str], str]) -> Kinds:
        return [kind(it) for it in self.handed]


def header_calls(text: str) -> List[Call]:
    """The calls that the header declares."""
    found = re.findall(
        r"^uint32_t (\w+)\(([^;]*?)\)[^()]*(?:\(\(|;)", without_comments(text), re.MULTILINE
    )
    return [Call(name, _handed(words)) for name, words in found]


def manual_calls(text: str) -> List[Call]:
    """The calls of the synopsis of a manual."""
    lines = text.replace(" \\\n", " ")
    found = re.findall(r"^\.Ft uint32_t\n\.F[no] (\w+)(.*(?:\n\.Fa .*)*)$", lines, re.MULTILINE)
    return [Call(name, _handed(",".join(re.findall('"(.*?)"', words)))) for name, words in found]


def _handed(words: str) -> List[str]:
    handed = [" ".join(word.split()) for word in words.split(",")]
    return [] if handed == ["void"] else handed


def header_kind(handed: str) -> str:
    """What is handed for a parameter as C declares it."""
    return POINTER if "*" in handed else HEADER_KINDS[handed.split()[0]]


def rust_calls(text: str) -> List[Call]:
    """The calls that the crate for Rust declares."""
    found = re.findall(r"^    fn (\w+)\((.*)\) -> u32;$", text, re.MULTILINE)
    return [
        Call(name, [word.split(": ")[1] for word in words.split(", ") if word])
        for name, words in found
    ]


def rust_kind(handed: str) -> str:
    """What is handed for a parameter of this type of Rust."""
    return POINTER if handed.startswith("*") else handed


def package_calls(text: str) -> Dict[str, Kinds]:
    """What the package hands to each call."""
    named: Dict[str, ast.expr] = {}
    for part in ast.parse(text).body:
        if isinstance(part, ast.Assign) and isinstance(part.targets[0], ast.Name):
            named[part.targets[0].id] = part.value
        elif isinstance(part, ast.AnnAssign) and isinstance(part.target, ast.Name) and part.value:
            named[part.target.id] = part.value
    calls = named["_CALLS"]
    assert isinstance(calls, ast.Dict)
    return {
        str(name.value): _package_kinds(handed, named)
        for name, handed in zip(calls.keys, calls.values)
        if isinstance(name, ast.Constant)
    }


def _package_kinds(handed: ast.expr, named: Dict[str, ast.expr]) -> Kinds:
    """What types of the package hand over: a tuple, a pointer to a type, a name of these, or a type of C."""
    if isinstance(handed, ast.Tuple):
        return [kind for it in handed.elts for kind in _package_kinds(it, named)]
    if isinstance(handed, ast.Starred):
        return _package_kinds(handed.value, named)
    if isinstance(handed, ast.Call):
        return [POINTER]
    assert isinstance(handed, ast.Name)
    if handed.id in PACKAGE_KINDS:
        return [PACKAGE_KINDS[handed.id]]
    return _package_kinds(named[handed.id], named)


# ---- Constants


FIRMWARE_ALONE = {"STACK_MAX"}
"""What the header defines for programs in firmware, which are in C."""


def header_constants(text: str) -> Dict[str, int]:
    """The numbers that the header defines for all languages, by their names without `BOOTKEEP_`."""
    found = re.findall(r"^#define BOOTKEEP_(\w+) (0x[0-9a-f]+|\d+)$", text, re.MULTILINE)
    return {name: int(number, 0) for name, number in found if name not in FIRMWARE_ALONE}


def constants_of(text: str, kinds: str = "u32|usize") -> Dict[str, int]:
    """The numbers of these types that a file of Rust or Rattle defines for others, by their names."""
    head = rf"^pub(?:\(crate\))? const (\w+): (?:{kinds})"
    found = re.findall(rf"{head} = (0x[0-9A-Fa-f_]+|[\d_]+);$", text, re.MULTILINE)
    return {name: int(number, 0) for name, number in found}


def rust_faults(text: str) -> Dict[str, int]:
    """The faults of the crate for Rust, by their names there."""
    found = re.findall(r"^    (\w+) = (0x[0-9a-f]+),$", text, re.MULTILINE)
    return {name: int(number, 0) for name, number in found}


PACKAGE_PREFIXES = {
    "Attributes": "ATTRIBUTE_",
    "Became": "BECAME_",
    "ChangeKind": "CHANGE_",
    "EditKind": "EDIT_",
    "EditedKind": "EDITED_",
    "Effect": "EFFECT_",
    "EndKind": "END_",
    "EntryState": "ENTRY_",
    "Fault": "FAULT_",
    "MoveKind": "MOVE_",
    "Outcome": "OUTCOME_",
    "Position": "POSITION_",
    "ReplyKind": "REPLY_",
    "RequestKind": "REQUEST_",
    "Same": "SAME_",
    "Stage": "STAGE_",
    "Standing": "STANDING_",
}
"""What the names of the members of these classes of the package begin with in the header."""


def package_constants(text: str) -> Dict[str, int]:
    """The numbers that a module of the package defines, by their names in the header: members of classes, names that are set, and the
    statuses, which are set together."""
    found: Dict[str, int] = {}
    for part in ast.parse(text).body:
        if isinstance(part, ast.ClassDef) and part.name in PACKAGE_PREFIXES:
            prefix = PACKAGE_PREFIXES[part.name]
            found.update((prefix + name, number) for name, number in _assigned(part.body))
        elif isinstance(part, ast.Assign) and isinstance(part.targets[0], ast.Tuple):
            names = [it.id.lstrip("_") for it in part.targets[0].elts if isinstance(it, ast.Name)]
            if names[0] == "DONE":
                found.update((name, number) for number, name in enumerate(names))
        else:
            found.update(_assigned([part]))
    return found


def _assigned(parts: List[ast.stmt]) -> List[Tuple[str, int]]:
    """The names in upper case that are set to numbers, without `_` before them."""
    return [
        (part.targets[0].id.lstrip("_"), part.value.value)
        for part in parts
        if isinstance(part, ast.Assign)
        and isinstance(part.targets[0], ast.Name)
        and part.targets[0].id.lstrip("_").isupper()
        and isinstance(part.value, ast.Constant)
        and isinstance(part.value.value, int)
    ]
