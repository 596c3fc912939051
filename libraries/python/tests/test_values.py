"""Tests of the package's values, by the cases of the repository: what the library accepts goes both ways, to the byte, and
what it refuses is refused with the fault and the place that the case states."""

from __future__ import annotations

import copy
import io
import pickle
import random
import sys
import unittest
from pathlib import Path
from typing import Any, Callable, Dict, Iterator, List, Optional, Type

ROOT = Path(__file__).resolve().parents[3]
sys.path.insert(0, str(ROOT / "tests"))

import bootkeep  # noqa: E402
from bootkeep import Attributes, BootVariables, DevicePath, EntryNumber, Fault, LoadOption, Node
from case_files import Case, bytes_of, read_cases, text_of  # noqa: E402

SET = (ROOT / "docs/examples/set").read_bytes()
STREAM = (ROOT / "docs/examples/stream").read_bytes()

REQUESTS: Dict[str, Type[bootkeep.BootRequest]] = {
    "Add": bootkeep.Add,
    "Replace": bootkeep.Replace,
    "Remove": bootkeep.Remove,
    "Order": bootkeep.Order,
    "Next": bootkeep.Next,
    "AddFree": bootkeep.AddFree,
    "AddFirst": bootkeep.AddFirst,
    "First": bootkeep.First,
}


def cases(file: str, *calls: str) -> Iterator[Case]:
    """The cases of calls that take no longer than a second."""
    for case in read_cases(ROOT / "tests/cases" / f"{file}.json"):
        if case.call in calls and not case.is_slow:
            yield case


def inputs(case: Case) -> List[bytes]:
    """The bytes that a case is of: each front, if it states how long these are."""
    data = bytes_of(case.members["input"])
    first, last = case.members.get("cuts", (len(data), len(data)))
    return [data[:end] for end in range(first, last + 1)]


def fault_words(why: bootkeep.Refused, family: str) -> str:
    """A fault as cases state it."""
    word = bootkeep.refusal_word(why.kind) or ""
    told = [word[len(family) :] if word.startswith(family) else word]
    if why.place is not None:
        told.append(str(why.place))
    if why.inner_kind is not None:
        told.append((bootkeep.refusal_word(why.inner_kind) or "")[len("Path") :])
        told.append(str(why.inner_place))
    return " ".join(told)


def variables_of(stated: Dict[str, Any]) -> BootVariables:
    """The set that a case states. `Boot0000..Boot270F` are all entries from the one to the other."""
    found: Dict[str, bytes] = {}
    for name, data in stated.items():
        first, dots, last = name.partition("..")
        names = [name]
        if dots:
            numbers = range(EntryNumber.from_name(first), EntryNumber.from_name(last) + 1)
            names = [EntryNumber(number).name for number in numbers]
        found.update((it, bytes_of(data)) for it in names)
    return BootVariables(found)


class OfCases(unittest.TestCase):
    """What cases are compared by."""

    def compare(self, case: Case, family: str, call: Callable[[], str]) -> Optional[str]:
        """Compares what a call gives, or how it is refused, with a case's answer; and gives it if it isn't refused."""
        with self.subTest(case.name):
            answer = text_of(case.members["answer"])
            try:
                given = call()
            except bootkeep.Refused as why:
                self.assertEqual(fault_words(why, family), answer)
                return None
            self.assertEqual(given, answer)
            return given
        return None


class Paths(OfCases):
    """Device paths."""

    def test_the_bytes_of_each_path_go_both_ways(self) -> None:
        tried = 0
        for case in cases("uefi_path", "read_path"):
            for data in inputs(case):
                tried += self.compare(case, "Path", lambda: self.read(data)) is not None
        self.assertGreater(tried, 20)

    def read(self, data: bytes) -> str:
        """A path as the cases show it."""
        end = bootkeep.path_check(data)
        if end < len(data):
            with self.assertRaises(bootkeep.BytesLeft) as caught:
                DevicePath.from_bytes(data)
            self.assertEqual(
                (caught.exception.place, caught.exception.count), (end, len(data) - end)
            )
        path = DevicePath.from_bytes(data[:end])
        self.assertEqual(bytes(path), data[:end])
        self.assertEqual(DevicePath.from_nodes(path.nodes), path)
        ends = sum(node.is_end for node in path.nodes)
        self.assertEqual(DevicePath.from_text(str(path)), path)
        self.assertEqual(DevicePath.from_text(path.exact_text), path)
        return f"instances {ends + 1} nodes {len(path.nodes) - ends} rest {len(data) - end}"

    def test_each_path_has_its_texts(self) -> None:
        for file, call in (("uefi_text", "path_text"), ("named_texts", "named_text")):
            for case in cases(file, call):
                data = bytes_of(case.members["input"])
                path = DevicePath.from_bytes(data[: bootkeep.path_check(data)])
                text = path.exact_text if call == "path_text" else str(path)
                self.assertEqual(text, text_of(case.members["answer"]), case.name)
                self.assertEqual(DevicePath.from_text(text), path, case.name)

    def test_each_text_is_read(self) -> None:
        for case in cases("named_texts", "read_named_text"):
            text = text_of(case.members["input"])
            self.compare(case, "Text", lambda: DevicePath.from_text(text).exact_text)

    def test_a_node_is_replaced(self) -> None:
        text = r"PciRoot(0x0)/Pci(0x1,0x0)/File(\EFI\a.efi)"
        path = DevicePath.from_text(text)
        other = path.replace(-1, Node.file(r"\EFI\b (1), Größe/.efi"))
        self.assertEqual(other.nodes[:2], path.nodes[:2])
        self.assertEqual(other.nodes[2].data.decode("utf-16-le"), "\\EFI\\b (1), Größe/.efi\0")
        self.assertEqual(DevicePath.from_text(str(other)), other)
        self.assertEqual(other.replace(2, Node.from_text(r"\EFI\a.efi")), path)
        self.assertEqual(str(path), text)
        self.assertRaises(IndexError, path.replace, 3, path.nodes[0])

    def test_what_is_no_node_is_refused(self) -> None:
        for name in ("a\0b", "a\ud800"):
            self.assertRaises(ValueError, Node.file, name)
        for text in ("", "Pci(0x1,0x0)/Pci(0x2,0x0)"):
            self.assertRaises(ValueError, Node.from_text, text)
        self.assertRaises(OverflowError, Node, 256, 0)
        self.assertRaises(OverflowError, Node, 1, 1, bytes(65532))
        self.assertEqual(len(bytes(Node(1, 1, bytes(65531)))), 65535)
        with self.assertRaises(bootkeep.Refused) as caught:
            DevicePath.from_nodes([Node(0x7F, 2)])
        self.assertEqual(caught.exception.kind, Fault.PATH_BAD_END)


class Options(OfCases):
    """Load options."""

    def test_the_bytes_of_each_option_go_both_ways(self) -> None:
        tried = 0
        for case in cases("uefi_option", "read_option", "check_option"):
            case.members["answer"] = text_of(case.members["answer"]).partition(" list ")[0]
            for data in inputs(case):
                show = self.read if case.call == "read_option" else self.read_description
                tried += self.compare(case, "Option", lambda: show(data)) is not None
        self.assertGreater(tried, 10)

    def read(self, data: bytes) -> str:
        """An option as the cases show it."""
        option = LoadOption.from_bytes(data)
        self.assertEqual(bytes(option), data)
        self.made_again(option)
        units = option.description_bytes
        digits = " ".join(units[at : at + 2][::-1].hex() for at in range(0, len(units), 2))
        return (
            f"attributes 0x{option.attributes:08x} description {digits or '-'} paths {len(option.paths)}"
            f" optional {option.optional.hex() or '-'}"
        )

    def read_description(self, data: bytes) -> str:
        option = LoadOption.from_bytes(data)
        self.assertEqual(bytes(option), data)
        units = option.description_bytes.hex()
        return f"attributes 0x{option.attributes:08x} description {units or '-'}"

    def made_again(self, option: LoadOption) -> None:
        """Makes the option of its parts, in each way that there is."""
        others = (option.paths, option.attributes, option.optional)
        self.assertEqual(LoadOption.from_units(option.description_bytes, *others), option)
        if option.description is not None:
            self.assertEqual(LoadOption(option.description, *others), option)
        self.assertEqual(option.replace(), option)
        other = option.replace(attributes=~option.attributes)
        self.assertEqual(other.attributes, option.attributes ^ 0xFFFFFFFF)
        self.assertEqual(other.replace(attributes=~other.attributes), option)

    def test_each_option_is_made_of_its_parts(self) -> None:
        for case in cases("uefi_option", "make_option"):
            stated = case.members
            paths = [bytes_of(path) for path in stated["paths"]]
            units, optional = bytes_of(stated["description"]), bytes_of(stated["optional"])
            if "ZeroUnit" == stated["answer"] and len(units) % 2:
                continue
            self.compare(
                case,
                "Option",
                lambda: bytes(
                    LoadOption.from_units(units, paths, stated["attributes"], optional)
                ).hex(),
            )

    def test_its_parts_are_replaced(self) -> None:
        option = LoadOption("Mine", ["PciRoot(0x0)"], 0xFFFFFFFF, b"\1\2")
        other = option.replace(
            description="Bööt", attributes=option.attributes & ~Attributes.ACTIVE
        )
        self.assertEqual(other.attributes, 0xFFFFFFFE)
        self.assertEqual((other.description, other.description_line), ("Bööt", "B\\00f6\\00f6t"))
        self.assertEqual((other.paths, other.optional), (option.paths, option.optional))
        self.assertEqual((option.is_active, other.is_active), (True, False))
        self.assertEqual(option.attributes.category, 0x1F00)
        third = option.replace(paths=["PciRoot(0x1)", option.paths[0]], optional=b"")
        self.assertEqual(str(third), "Mine PciRoot(0x1) PciRoot(0x0)")
        for wrong in ("a\0b", "a\ud800"):
            with self.assertRaises(bootkeep.Refused):
                option.replace(description=wrong)
        self.assertRaises(bootkeep.Refused, option.replace, paths=[])
        self.assertRaises(TypeError, option.replace, paths="PciRoot(0x0)")


class Sets(OfCases):
    """Sets of variables."""

    def test_the_bytes_of_each_set_go_both_ways(self) -> None:
        tried = 0
        for case in cases("uefi_vars", "read_set"):
            for data in inputs(case):
                tried += self.compare(case, "Set", lambda: self.read(case, data)) is not None
        self.assertGreater(tried, 5)

    def read(self, case: Case, data: bytes) -> str:
        """A set as the cases show it."""
        variables = BootVariables.from_bytes(data)
        self.assertEqual(bytes(variables), data)
        stated = variables_of(case.members["after"])
        self.assertEqual(dict(variables), dict(stated))
        shuffled = random.sample(list(variables.items()), len(variables))
        self.assertEqual(BootVariables(dict(shuffled)), variables)
        return f"variables {len(variables)}"

    def test_each_set_has_its_plan(self) -> None:
        for case in cases("uefi_vars", "plan"):
            self.compare(case, "Vars", lambda: str(variables_of(case.members["vars"]).plan))

    def test_each_set_has_its_order(self) -> None:
        for case in cases("uefi_vars", "boot_order"):
            variables = variables_of(case.members["vars"])
            self.compare(
                case, "Vars", lambda: f"order {' '.join(map(str, variables.order)) or '-'}"
            )

    def test_changes_have_the_data_before_and_after(self) -> None:
        for case in cases("uefi_vars", "boot_changes"):
            stated = case.members
            self.compare(case, "Set", lambda: self.changes(stated["from"], stated["to"]))

    def changes(self, before: Dict[str, Any], after: Dict[str, Any]) -> str:
        """The changes from one set to another as the cases show them."""
        lines = []
        for change in variables_of(before).changes_to(variables_of(after)):
            shown = ["-" if data is None else data.hex() for data in (change.before, change.after)]
            lines.append(" ".join([change.name, *shown]))
        return "".join(f"{line}\n" for line in lines)

    def test_names_have_their_numbers(self) -> None:
        for case in cases("uefi_vars", "entry_name"):
            self.assertEqual(EntryNumber(case.members["number"]).name, case.members["answer"])
        for case in cases("uefi_vars", "entry_number"):
            with self.subTest(case.name):
                try:
                    found = str(int(EntryNumber.from_name(case.members["input"])))
                except ValueError:
                    found = "none"
                self.assertEqual(found, case.members["answer"])

    def test_entries_have_their_options_and_places(self) -> None:
        variables = BootVariables.from_bytes(SET)
        entries = {entry.number: entry for entry in variables.entries}
        self.assertEqual(
            list(entries), [int(it[4:], 16) for it in variables if bootkeep.is_entry_name(it)]
        )
        for number, entry in entries.items():
            self.assertEqual(entry.data, variables[number.name])
            self.assertEqual((entry.option is None), (entry.fault is not None))
            self.assertEqual(entry.is_next, number == variables.next)
            self.assertEqual(entry.is_in_order, number in variables.order)
            if entry.order_place is not None:
                self.assertEqual(variables.order[entry.order_place], number)
            self.assertEqual(entry.state, bootkeep.vars_entry(SET, number))
            self.assertEqual(str(entry).split()[0], number.name)
        normal = [number for number in variables.order if number in entries]
        normal = [it for it in normal if entries[it].state == bootkeep.EntryState.NORMAL]
        self.assertEqual(tuple(normal), variables.plan.normal)
        self.assertEqual(variables.plan.tried[0], variables.next)

    def test_an_entry_has_its_option(self) -> None:
        variables = BootVariables.from_bytes(SET)
        for entry in variables.entries:
            if entry.option is None:
                self.assertRaises(bootkeep.Refused, variables.option, entry.number)
            else:
                self.assertEqual(variables.option(entry.number), entry.option)
        self.assertRaises(KeyError, variables.option, 0xFFFF)
        self.assertRaises(OverflowError, variables.option, 0x10000)

    def test_it_is_a_mapping(self) -> None:
        variables = BootVariables.from_bytes(SET)
        self.assertEqual(dict(variables), bootkeep.vars_list(SET))
        self.assertIn("BootOrder", variables)
        with self.assertRaisesRegex(KeyError, "^there is no variable Nothing$"):
            self.assertEqual(variables["Nothing"], b"")
        with_one = variables.with_variable("Nothing", b"1")
        self.assertEqual(with_one["Nothing"], b"1")
        self.assertEqual(with_one.without("Nothing"), variables)
        self.assertRaises(KeyError, variables.without, "Nothing")
        self.assertEqual(bytes(BootVariables()), b"BVS1")
        with self.assertRaises(bootkeep.Refused) as caught:
            BootVariables({"Nothing": b""})
        self.assertEqual(caught.exception.kind, Fault.PUT_EMPTY_DATA)
        self.assertNotEqual(variables, dict(variables))

    def test_an_order_that_is_none_is_told(self) -> None:
        variables = BootVariables({"BootOrder": b"\1", "Boot0000": b"1"})
        calls: List[Callable[[], Any]] = [
            lambda: variables.plan,
            lambda: variables.entries,
            lambda: variables.order,
        ]
        for call in calls:
            with self.assertRaises(bootkeep.Refused) as caught:
                call()
            self.assertEqual(caught.exception.kind, Fault.VARS_BAD_ORDER)


class Requests(OfCases):
    """Requests, their frames and streams."""

    def test_each_request_has_its_frame(self) -> None:
        tried = 0
        for case in cases("boot_requests", "write_frame"):
            tried += self.compare(case, "Frame", lambda: self.frame(case)) is not None
        self.assertGreater(tried, 10)

    def frame(self, case: Case) -> str:
        """The digits of the frame of what a case asks for."""
        kind, *words = text_of(case.members["request"]).split()
        numbers = [int(word, 16) for word in words if len(word) == 4]
        options = [LoadOption.from_bytes(bytes.fromhex(word)) for word in words if len(word) > 4]
        given: List[Any] = [numbers] if kind == "Order" else [*numbers, *options]
        request = REQUESTS[kind](*given)
        self.assertEqual(pickle.loads(pickle.dumps(request)), request)
        return request.frame(case.members["number"]).hex()

    def test_each_frame_has_its_request(self) -> None:
        tried = 0
        for case in cases("boot_requests", "read_frame"):
            for data in inputs(case):
                tried += self.compare(case, "Frame", lambda: self.asked(data)) is not None
        self.assertGreater(tried, 9)

    def asked(self, data: bytes) -> str:
        """The number of a frame, and what it asks for, as cases show it, or the fault of its option, which is told as that
        of the option alone."""
        try:
            frame = bootkeep.Frame.from_bytes(data)
        except bootkeep.Refused as why:
            if not why.kind.name.startswith("OPTION_"):
                raise
            return f"Option {fault_words(why, 'Option')}"
        parts = bootkeep.frame_parts(data)
        self.assertEqual(bytes(frame), data)
        self.assertEqual(bootkeep.Frame(frame.number, frame.request), frame)
        given = {
            name: getattr(parts, name)
            for name in ("entry", "option", "order")
            if getattr(parts, name) is not None
        }
        self.assertEqual(bootkeep.frame_make(parts.number, parts.kind, **given), data)
        self.assertEqual((parts.number, parts.kind), (frame.number, frame.request.kind))
        words = [f"{number:04X}" for number in parts.order or ()]
        words += [] if parts.entry is None else [str(parts.entry)]
        words += [] if parts.option is None else [parts.option.hex()]
        return " ".join([str(frame.number), type(frame.request).__name__, *words])

    def test_a_frame_is_made_again_with_another_number(self) -> None:
        frame = bootkeep.Frame(7, bootkeep.Order((3, 1)))
        self.assertEqual((frame.number, frame.request), (7, bootkeep.Order((3, 1))))
        again = bootkeep.Frame(8, frame.request)
        self.assertEqual(bytes(frame).hex(), "425101040700000004000000" "03000100")
        self.assertEqual(bytes(again).hex(), "425101040800000004000000" "03000100")
        self.assertNotEqual(frame, again)
        with bootkeep.Keeper(SET) as keeper:
            first = bootkeep.Frame(0, bootkeep.Remove(0xFFFF))
            self.assertEqual(str(keeper.deliver(first)), "applied Missing 1")
            self.assertEqual(str(keeper.deliver(bytes(first))), "repeat Missing")
        self.assertRaises(TypeError, bootkeep.Frame.from_bytes, "text")
        with self.assertRaises(bootkeep.Refused) as caught:
            bootkeep.Frame(0xFFFFFFFF, frame.request)
        self.assertEqual(caught.exception.kind, Fault.FRAME_BAD_NUMBER)

    def test_an_order_of_all_entries_has_its_numbers(self) -> None:
        numbers = tuple(range(0x10000))
        frame = bootkeep.Frame(0, bootkeep.Order(numbers))
        self.assertEqual(len(bytes(frame)), bootkeep.FRAME_MAX)
        self.assertEqual(bootkeep.frame_parts(bytes(frame)).order, numbers)

    def test_requests_are_values(self) -> None:
        self.assertEqual(bootkeep.Remove(3), bootkeep.Remove(3))
        self.assertNotEqual(bootkeep.Remove(3), bootkeep.Next(3))
        self.assertEqual(len({bootkeep.Order((1, 2)), bootkeep.Order((1, 2))}), 1)
        self.assertEqual(str(bootkeep.Remove(3)), "Remove(entry=3)")
        self.assertRaises(OverflowError, bootkeep.Remove, 0x10000)
        self.assertRaises(OverflowError, bootkeep.Order, (0x10000,))
        none: Any = b"\1\0"
        self.assertRaises(TypeError, bootkeep.Order, none)
        self.assertRaises(OverflowError, bootkeep.Remove(3).frame, 1 << 32)
        with self.assertRaises(AttributeError):
            setattr(bootkeep.Remove(3), "entry", 4)

    def test_each_stream_is_cut(self) -> None:
        for case in cases("boot_requests", "feed"):
            if "cuts" not in case.members and "pieces" not in case.members:
                self.compare(case, "Stream", lambda: self.cut(bytes_of(case.members["input"])))

    def cut(self, data: bytes) -> str:
        """What is cut of a stream as the cases show it."""
        told, fault = [], None
        held = 0
        try:
            for frame in bootkeep.frames(io.BytesIO(data)):
                told.append(frame.hex())
        except bootkeep.Refused as why:
            if why.kind == Fault.STREAM_REST:
                held = why.place or 0
            else:
                fault = fault_words(why, "Stream")
        return " ".join([*told, f"held {held}", *([fault] if fault else [])])

    def test_streams_are_cut_as_runs_do_it(self) -> None:
        places = random.Random(5)
        for _ in range(300):
            data = bytearray(STREAM[: places.randrange(len(STREAM) + 1)])
            for _ in range(places.randrange(3)):
                if data:
                    data[places.randrange(len(data))] = places.choice([0, 1, 0x42, 0x51, 255])
            found: List[bytes] = []
            try:
                bootkeep.run(SET, data)
                wanted = None
            except bootkeep.Refused as why:
                wanted = why
            try:
                found.extend(bootkeep.frames(io.BytesIO(data)))
                told = None
            except bootkeep.Refused as why:
                told = why
            self.assertEqual(told, wanted, data.hex())
            if told is None:
                self.assertEqual(b"".join(found), data)

    def test_a_keeper_takes_requests(self) -> None:
        option = LoadOption("Mine", ["PciRoot(0x0)"])
        variables = BootVariables.from_bytes(SET)
        with bootkeep.Keeper(variables) as keeper:
            added = keeper.request(bootkeep.AddFirst(option))
            assert added.entry is not None
            self.assertEqual(str(added), f"applied Done {added.entry} 1")
            self.assertEqual(keeper.variables.order[0], added.entry)
            self.assertEqual(keeper.variables[added.entry.name], bytes(option))
            self.assertEqual(str(keeper.request(bootkeep.Order(()))), "applied Done 2")
            self.assertEqual(keeper.variables.order, ())


class Values(unittest.TestCase):
    """What all values have."""

    def setUp(self) -> None:
        path = DevicePath.from_text("PciRoot(0x0)")
        self.values: List[Any] = [
            path,
            LoadOption("Mine", [path]),
            BootVariables.from_bytes(SET),
            bootkeep.Frame(5, bootkeep.Remove(3)),
        ]

    def test_they_are_compared_by_their_bytes(self) -> None:
        for value in self.values:
            same = type(value).from_bytes(bytearray(bytes(value)))
            self.assertEqual(same, value)
            self.assertEqual(len({same, value}), 1)
            self.assertNotEqual(value, bytes(value))
        option = self.values[1]
        self.assertNotEqual(option, option.replace(description="Other"))

    def test_they_are_never_changed(self) -> None:
        for value in self.values:
            for name in ("_data", "other"):
                self.assertRaises(AttributeError, setattr, value, name, b"")
            self.assertRaises(AttributeError, delattr, value, "_data")

    def test_they_are_copied_and_sent(self) -> None:
        for value in self.values:
            for same in (
                copy.copy(value),
                copy.deepcopy(value),
                pickle.loads(pickle.dumps(value)),
            ):
                self.assertEqual((type(same), same), (type(value), value))

    def test_they_say_how_they_are_made(self) -> None:
        for value in self.values:
            self.assertEqual(eval(repr(value), vars(bootkeep)), value)

    def test_they_are_taken_where_bytes_are(self) -> None:
        path, option, *_ = self.values
        self.assertEqual(bootkeep.option_make(1, "Mine", [path]), bytes(option))
        frame = bootkeep.frame_make(0, bootkeep.RequestKind.ADD_FREE, option=option)
        self.assertEqual(bootkeep.AddFree(option).frame(0), frame)

    def test_an_entry_number_is_an_int(self) -> None:
        number = EntryNumber(0xAF)
        self.assertEqual((number, str(number), number.name), (175, "00AF", "Boot00AF"))
        self.assertEqual(f"{number:x} {number!r}", "af EntryNumber(0x00AF)")
        self.assertEqual(pickle.loads(pickle.dumps(number)), number)
        for wrong in (-1, 0x10000):
            self.assertRaises(OverflowError, EntryNumber, wrong)
        self.assertEqual(EntryNumber.from_text("00aF"), number)
        for text in ("", "AF", "000AF", "0x0A", " 0AF", "00AG", "00AF\n", "٠٠٠١"):
            self.assertRaises(ValueError, EntryNumber.from_text, text)

    def test_numbers_that_are_not_known_stay(self) -> None:
        for numbers in (Fault, bootkeep.ReplyKind, bootkeep.Outcome, bootkeep.EntryState):
            unknown = numbers(0xFFFE)
            self.assertEqual((unknown, unknown.is_known), (0xFFFE, False))
            self.assertEqual(pickle.loads(pickle.dumps(unknown)), unknown)
            self.assertTrue(all(it.is_known for it in numbers))
        self.assertEqual(str(bootkeep.Reply(bootkeep.ReplyKind(99))), "reply 99")
        self.assertRaises(ValueError, Fault, "1")


if __name__ == "__main__":
    unittest.main()
