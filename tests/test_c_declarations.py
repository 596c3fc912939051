"""Tests that the header for C, the manuals, the package for Python, the crate for Rust and the crate that has the calls
declare the same structs, calls and numbers, by the text of each."""

from __future__ import annotations

import re
import sys
import unittest
from pathlib import Path
from typing import Dict, NamedTuple

sys.path.insert(0, str(Path(__file__).resolve().parents[1] / "tools"))

import call_header  # noqa: E402
import call_manuals  # noqa: E402
from declarations import (  # noqa: E402
    CRATE,
    CRATE_WIDTHS,
    HEADER,
    PACKAGE,
    ROOT,
    RUST,
    RUST_WIDTHS,
    asserted,
    camel,
    constants_of,
    header_calls,
    header_constants,
    header_kind,
    header_structs,
    manual_calls,
    package_calls,
    package_constants,
    package_structs,
    places,
    read,
    rust_calls,
    rust_faults,
    rust_kind,
    snake,
    struct_of,
)


class Names(NamedTuple):
    """What a struct is called in the package and in the crate for Rust, and in a file of the crate that has the calls."""

    in_bindings: str
    file: str
    in_crate: str


# By their names in the header.
STRUCTS = {
    "bootkeep_refusal": Names("RawRefusal", "refusal.rt", "Refusal"),
    "bootkeep_option_parts": Names("RawParts", "option.rt", "OptionPlaces"),
    "bootkeep_frame_parts": Names("RawFrame", "frame_parts.rt", "FrameParts"),
    "bootkeep_variable": Names("RawVariable", "variable.rt", "VariablePlaces"),
    "bootkeep_signature_list": Names("RawList", "lists.rt", "ListPlaces"),
    "bootkeep_named": Names("RawNamed", "named.rt", "NamedEntry"),
    "bootkeep_change": Names("RawChange", "change.rt", "ChangeNumbers"),
    "bootkeep_edit": Names("RawEdit", "edit.rt", "EditNumbers"),
    "bootkeep_edited": Names("RawEdited", "edit.rt", "EditedNumbers"),
    "bootkeep_reply": Names("RawReply", "reply.rt", "ReplyNumbers"),
    "bootkeep_keeper": Names("RawKeeper", "handle.rt", "KeeperHandle"),
    "bootkeep_moves": Names("RawMoves", "session_handle.rt", "MovesHandle"),
    "bootkeep_moves_end": Names("RawEnd", "end.rt", "EndNumbers"),
    "bootkeep_record_parts": Names("RawRecordParts", "record_places.rt", "RecordPlaces"),
}

# The calls that the crate for Rust leaves out: it has replies as values alone.
NOT_IN_RUST = {f"bootkeep_keeper_{it}" for it in ("deliver", "prepare", "hand", "restart")}

# What begins the names of what is of the standard, which the crate that has the calls has under other names.
STANDARD = "ATTRIBUTE_"

# What the package and the crate for Rust have `None` for, and a status that neither of them can meet.
WITHOUT_NUMBER = {"OUTCOME_NONE": 0, "BAD_SIZE": 6}


class Structs(unittest.TestCase):
    """The structs that go over the border to C."""

    def setUp(self) -> None:
        self.in_header = header_structs(read(HEADER))

    def test_each_struct_is_compared(self) -> None:
        self.assertEqual(set(self.in_header), set(STRUCTS))
        classes = set(package_structs(read(PACKAGE / "_library.py")))
        self.assertEqual(classes, {names.in_bindings for names in STRUCTS.values()})

    def test_the_package_has_the_fields_of_the_header(self) -> None:
        in_module = package_structs(read(PACKAGE / "_library.py"))
        for name, names in STRUCTS.items():
            with self.subTest(name):
                self.assertEqual(in_module[names.in_bindings], self.in_header[name])

    def test_the_crate_for_rust_has_the_fields_of_the_header(self) -> None:
        text = read(RUST / "library.rs")
        for name, names in STRUCTS.items():
            with self.subTest(name):
                fields = struct_of(text, names.in_bindings, RUST_WIDTHS)
                self.assertEqual(fields, self.in_header[name])

    def test_the_crate_has_the_fields_of_the_header(self) -> None:
        for name, names in STRUCTS.items():
            with self.subTest(name):
                fields = struct_of(read(CRATE / names.file), names.in_crate, CRATE_WIDTHS)
                self.assertEqual(fields, self.in_header[name])

    def test_the_header_asserts_where_each_field_is(self) -> None:
        for name, fields in self.in_header.items():
            with self.subTest(name):
                self.assertEqual(asserted(read(HEADER), name), places(fields))


class Calls(unittest.TestCase):
    """What each call is handed."""

    def setUp(self) -> None:
        self.in_header = header_calls(read(HEADER))
        self.kinds = {call.name: call.kinds(header_kind) for call in self.in_header}

    def test_no_declaration_of_the_header_is_passed_over(self) -> None:
        self.assertEqual(len(self.in_header), read(HEADER).count("\nuint32_t bootkeep_"))

    def test_manuals_have_the_calls_of_the_header(self) -> None:
        texts = [it.decode() for it in call_manuals.manuals().values()]
        self.assertEqual([manual_calls(it) for it in texts], [[it] for it in self.in_header])

    def test_the_package_hands_over_what_the_header_says(self) -> None:
        self.assertEqual(package_calls(read(PACKAGE / "_library.py")), self.kinds)

    def test_the_crate_for_rust_hands_over_what_the_header_says(self) -> None:
        in_rust = {
            call.name: call.kinds(rust_kind) for call in rust_calls(read(RUST / "library.rs"))
        }
        wanted = {name: kinds for name, kinds in self.kinds.items() if name not in NOT_IN_RUST}
        self.assertEqual(in_rust, wanted)


class Constants(unittest.TestCase):
    """The numbers that go over the border to C."""

    def setUp(self) -> None:
        self.in_header = header_constants(read(HEADER))

    def test_the_package_has_those_of_the_header(self) -> None:
        found = package_constants(read(PACKAGE / "_numbers.py"))
        self.assertEqual({**WITHOUT_NUMBER, **found}, self.in_header)

    def test_the_crate_for_rust_has_those_of_the_header(self) -> None:
        faults = {
            f"FAULT_{snake(name)}": number
            for name, number in rust_faults(read(RUST / "error.rs")).items()
        }
        of_options = constants_of(read(RUST / "option.rs"))
        found = {
            **WITHOUT_NUMBER,
            **constants_of(read(RUST / "numbers.rs")),
            **faults,
            **{f"ATTRIBUTE_{name}": number for name, number in of_options.items()},
        }
        self.assertEqual(found, self.in_header)

    def test_the_crate_has_those_of_the_header(self) -> None:
        found: Dict[str, int] = {}
        for file in CRATE.glob("*.rt"):
            found.update(constants_of(read(file), "u32"))
        wanted = {
            re.sub("^FAULT_", "", name): number
            for name, number in self.in_header.items()
            if not name.startswith(STANDARD)
        }
        self.assertEqual(found, wanted)

    def test_refusals_have_a_prefix_of_their_own(self) -> None:
        header = call_header.read_header(read(HEADER))
        refusals = {it.name for it in header.constants[call_header.REFUSALS]}
        faults = {f"BOOTKEEP_{name}" for name in self.in_header if name.startswith("FAULT_")}
        self.assertEqual(refusals - faults, {"BOOTKEEP_NO_KIND", "BOOTKEEP_NO_PLACE"})
        self.assertEqual(faults - refusals, set())


class Versions(unittest.TestCase):
    """The release, in each place that states it."""

    def test_the_release_is_the_same_everywhere(self) -> None:
        stated = {
            "tools/build-c": r"VERSION=(\S+) ABI",
            "libraries/python/pyproject.toml": r'version = "(.*)"',
            "libraries/python/bootkeep/__init__.py": r'__version__ = "(.*)"',
            "libraries/rust/Cargo.toml": r"\nversion = \"(.*)\"",
            "libraries/rust/Cargo.lock": r'name = "bootkeep"\nversion = "(.*)"',
        }
        found = {file: re.findall(words, read(ROOT / file)) for file, words in stated.items()}
        self.assertEqual(
            len({version for versions in found.values() for version in versions}), 1, found
        )


class Differences(unittest.TestCase):
    """What isn't the same declaration."""

    def test_fields_in_another_order_differ(self) -> None:
        text = read(HEADER)
        swapped = text.replace("uint32_t kind;", "uint32_t _;")
        swapped = swapped.replace("uint32_t inner_kind;", "uint32_t kind;")
        swapped = swapped.replace("uint32_t _;", "uint32_t inner_kind;")
        before = header_structs(text)["bootkeep_refusal"]
        after = header_structs(swapped)["bootkeep_refusal"]
        self.assertEqual(after, [before[1], before[0], *before[2:]])

    def test_a_field_of_another_width_differs(self) -> None:
        wider = read(CRATE / "refusal.rt").replace("pub kind: u32,", "pub kind: usize,")
        self.assertEqual(struct_of(wider, "Refusal", CRATE_WIDTHS)[0], ("kind", 8))

    def test_a_struct_that_is_not_laid_out_as_in_c_is_none(self) -> None:
        text = read(CRATE / "option.rt").replace("#[repr(C)]\n", "")
        with self.assertRaises(AssertionError):
            struct_of(text, "OptionPlaces", CRATE_WIDTHS)

    def test_a_call_that_is_handed_less_differs(self) -> None:
        text = read(RUST / "library.rs")
        shorter = text.replace(
            "(keeper: *mut RawKeeper, number: *mut u32)", "(keeper: *mut RawKeeper)"
        )
        self.assertNotEqual(rust_calls(shorter), rust_calls(text))

    def test_names_of_both_manners_are_the_same(self) -> None:
        self.assertEqual((snake("PathNoEnd"), camel("PATH_NO_END")), ("PATH_NO_END", "PathNoEnd"))


if __name__ == "__main__":
    unittest.main()
