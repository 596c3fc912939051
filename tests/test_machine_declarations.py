"""Tests that the header over a Linux machine, the package for Python and the crate for Rust declare the same structs, calls
and numbers, by the text of each."""

from __future__ import annotations

import ast
import re
import unittest
from typing import Dict, List, Tuple

from declarations import (
    POINTER,
    PACKAGE,
    ROOT,
    RUST,
    Call,
    Kinds,
    constants_of,
    read,
    rust_kind,
    snake,
    without_comments,
)

HEADER = ROOT / "libraries/c/include/bootkeep-linux.h"
PREFIX = "BOOTKEEP_MACHINE_"

Field = Tuple[str, str]
"""The name of a field, and its kind."""

# What the structs of the header are called in the package and in the crate for Rust.
STRUCTS = {
    "bootkeep_machine_fault": "RawFault",
    "bootkeep_machine_options": "RawOptions",
    "bootkeep_machine_plan": "RawPlan",
    "bootkeep_machine_entry": "RawEntry",
    "bootkeep_machine_change": "RawMachineChange",
    "bootkeep_machine_loader": "RawLoader",
    "bootkeep_machine_expected": "RawExpected",
    "bootkeep_machine_journal": "RawJournal",
}

REFUSAL = "refusal"

# What a field is, or a parameter: a pointer, a number, or what is handed as one of these.
HEADER_KINDS = {
    "uint8_t": "u8",
    "uint16_t": "u16",
    "uint32_t": "u32",
    "uint64_t": "u64",
    "int32_t": "i32",
    "size_t": "usize",
    "struct bootkeep_refusal": REFUSAL,
}
PACKAGE_KINDS = {
    "c_uint8": "u8",
    "c_uint16": "u16",
    "c_uint32": "u32",
    "c_uint64": "u64",
    "c_int32": "i32",
    "c_size_t": "usize",
    "c_void_p": POINTER,
    "c_char_p": POINTER,
    "RawRefusal": REFUSAL,
}

# The numbers of the header that both bindings have under the names of their members, by what these begin with.
FAMILIES = {
    "AT": "MachineStage",
    "PLACE": "MachinePlace",
    "LEFT": "Left",
    "FAULT": "MachineFault",
    "EXPECTS": "Expects",
}

# What a handle and a change are asked for, in the package.
OPTIONS, FLAGS = "Option", "Flag"


def constants(text: str) -> Dict[str, int]:
    """The numbers that the header defines, by their names without its prefix."""
    found = re.findall(rf"^#define {PREFIX}(\w+) (0x[0-9a-f]+|\d+)$", text, re.MULTILINE)
    return {name: int(number, 0) for name, number in found}


def structs(text: str) -> Dict[str, List[Field]]:
    """The fields of each struct that the header declares, with how many of them there are in a row, and their kinds."""
    found = re.findall(r"^struct (\w+) \{(.*?)^\};", without_comments(text), re.DOTALL | re.M)
    return {
        name: [_field(line) for line in body.split(";") if line.strip()] for name, body in found
    }


def _field(line: str) -> Field:
    kind, stars, name, count = re.findall(
        r"^\s*(?:const )?([\w ]+?) ?(\**)(\w+)(?:\[(\d+)\])?$", line
    )[0]
    return name, POINTER if stars else f"{HEADER_KINDS[kind.strip()]}{count and f'*{count}'}"


def calls(text: str) -> Dict[str, Kinds]:
    """What each call of the header is handed."""
    found = re.findall(
        r"^(?:uint32_t|void) (\w+)\(([^;]*?)\)[^()]*(?:\(\(|;)", without_comments(text), re.M
    )
    return {
        name: [_handed(it) for it in words.split(",") if it.strip() != "void"]
        for name, words in found
    }


def _handed(words: str) -> str:
    return POINTER if "*" in words else HEADER_KINDS[words.split()[0]]


def package_structs(text: str) -> Dict[str, List[Field]]:
    """The fields of each class of the package that is a struct of C."""
    found: Dict[str, List[Field]] = {}
    for made in ast.parse(text).body:
        for part in made.body if isinstance(made, ast.ClassDef) else []:
            if isinstance(made, ast.ClassDef) and isinstance(part, ast.Assign):
                assert isinstance(part.value, ast.List)
                found[made.name] = [_package_field(pair) for pair in part.value.elts]
    return found


def _package_field(pair: ast.expr) -> Field:
    assert isinstance(pair, ast.Tuple)
    name, kind = pair.elts
    assert isinstance(name, ast.Constant)
    if isinstance(kind, ast.BinOp):
        return str(name.value), f"{_package_kind(kind.left)}*{ast.literal_eval(kind.right)}"
    return str(name.value), _package_kind(kind)


def _package_kind(kind: ast.expr) -> str:
    if isinstance(kind, ast.Call):
        return POINTER
    assert isinstance(kind, ast.Name)
    return PACKAGE_KINDS[kind.id]


def package_calls(text: str) -> Dict[str, Kinds]:
    """What the package hands to each call."""
    named: Dict[str, ast.expr] = {}
    for part in ast.parse(text).body:
        if isinstance(part, (ast.Assign, ast.AnnAssign)) and part.value is not None:
            target = part.targets[0] if isinstance(part, ast.Assign) else part.target
            named[target.id if isinstance(target, ast.Name) else ""] = part.value
    listed = named["_CALLS"]
    assert isinstance(listed, ast.Dict)
    return {
        str(ast.literal_eval(name)): _package_kinds(kinds, named)
        for name, kinds in zip(listed.keys, listed.values)
        if name is not None
    }


def _package_kinds(kinds: ast.expr, named: Dict[str, ast.expr]) -> Kinds:
    assert isinstance(kinds, ast.Tuple)
    found: Kinds = []
    for kind in kinds.elts:
        if isinstance(kind, ast.Starred):
            assert isinstance(kind.value, ast.Name)
            found += _package_kinds(named[kind.value.id], named)
        else:
            found.append(_package_kind(kind))
    return found


def package_constants(text: str) -> Dict[str, int]:
    """The numbers that the module of the package has, by their names in the header."""
    prefixes = {name: f"{family}_" for family, name in FAMILIES.items()}
    prefixes.update({OPTIONS: "", FLAGS: ""})
    found: Dict[str, int] = {}
    for part in ast.parse(text).body:
        if isinstance(part, ast.ClassDef):
            prefix = prefixes[part.name]
            found.update((prefix + name, number) for name, number in _assigned(part.body))
        else:
            found.update(_assigned([part]))
    return {
        name: number for name, number in found.items() if name not in ("NOTHING", "EXPECTS_NOTHING")
    }


def _assigned(parts: List[ast.stmt]) -> List[Tuple[str, int]]:
    return [
        (part.targets[0].id, part.value.value)
        for part in parts
        if isinstance(part, ast.Assign)
        and isinstance(part.targets[0], ast.Name)
        and isinstance(part.value, ast.Constant)
        and isinstance(part.value.value, int)
    ]


def rust_structs(text: str) -> Dict[str, List[Field]]:
    """The fields of each struct of the crate for Rust that is laid out as in C, but for the one without any."""
    found = re.findall(r"^#\[repr\(C\)\]\nstruct (\w+) \{\n(.*?)^\}", text, re.DOTALL | re.M)
    return {
        name: [
            (field, _rust_kind(kind))
            for field, kind in re.findall(r"^    (\w+): (.*),$", body, re.M)
        ]
        for name, body in found
        if name != "RawMachine"
    }


def _rust_kind(kind: str) -> str:
    row = re.fullmatch(r"\[(\w+); (\d+)\]", kind)
    if row:
        return f"{row[1]}*{row[2]}"
    return REFUSAL if kind == "RawRefusal" else rust_kind(kind)


def rust_calls(text: str) -> List[Call]:
    """The calls that the crate for Rust declares."""
    found = re.findall(r"^    fn (bootkeep_\w+)\((.*)\)(?: -> u32)?;$", text, re.M)
    return [
        Call(name, [word.split(": ")[1] for word in words.split(", ") if word])
        for name, words in found
    ]


class Declarations(unittest.TestCase):
    """What goes over the border to C."""

    def setUp(self) -> None:
        self.header, self.package = read(HEADER), read(PACKAGE / "_linux.py")
        self.rust = read(RUST / "linux.rs")

    def test_structs_have_the_fields_of_the_header(self) -> None:
        wanted = {STRUCTS[name]: fields for name, fields in structs(self.header).items()}
        self.assertEqual(len(wanted), len(STRUCTS))
        self.assertEqual(package_structs(self.package), wanted)
        self.assertEqual(rust_structs(self.rust), wanted)

    def test_calls_are_handed_what_the_header_says(self) -> None:
        wanted = calls(self.header)
        declared = re.findall(r"^(?:uint32_t|void) bootkeep_", self.header, re.M)
        self.assertEqual(len(wanted), len(declared))
        in_rust = {call.name: call.kinds(rust_kind) for call in rust_calls(self.rust)}
        self.assertEqual(in_rust, wanted)
        closed = wanted.pop("bootkeep_machine_close")
        self.assertEqual(closed, [POINTER])
        self.assertEqual(package_calls(self.package), wanted)

    def test_numbers_are_those_of_the_header(self) -> None:
        wanted = constants(self.header)
        self.assertEqual(package_constants(read(PACKAGE / "_machine_numbers.py")), wanted)
        found = constants_of(read(RUST / "machine_numbers.rs"))
        faults = re.findall(r"^    (\w+) = (0x[0-9a-f]+),$", read(RUST / "machine.rs"), re.M)
        found.update((f"FAULT_{snake(name)}", int(number, 0)) for name, number in faults)
        self.assertEqual(found, wanted)

    def test_a_field_of_another_kind_differs(self) -> None:
        wider = self.rust.replace("    system_error: i32,", "    system_error: i64,")
        self.assertNotEqual(rust_structs(wider), rust_structs(self.rust))


if __name__ == "__main__":
    unittest.main()
