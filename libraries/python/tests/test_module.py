"""Tests of the package `bootkeep` over the library that it finds, with the examples of the repository."""

from __future__ import annotations

import copy
import doctest
import gc
import hashlib
import itertools
import json
import os
import pickle
import subprocess
import sys
import threading
import unittest
import warnings
from pathlib import Path
from typing import Any, Callable, List, Optional

import bootkeep
from bootkeep import Fault, Outcome, ReplyKind, RequestKind, _sets

ROOT = Path(__file__).resolve().parents[3]
SET = (ROOT / "docs/examples/set").read_bytes()
STREAM = (ROOT / "docs/examples/stream").read_bytes()

TEXT = "PciRoot(0x0)/Pci(0x1,0x0)"
PATH = bytes.fromhex("02010c00d041030a00000000010106000001" "7fff0400")

HEADER = 12
THREADS = 50


def image() -> bytes:
    """An application for x86-64 of two sections, as the cases of images have it."""
    groups = json.loads((ROOT / "tests/cases/efi_images.json").read_text(encoding="utf-8"))
    parts = groups[0]["image"]
    return b"".join(
        bytes.fromhex(it) if isinstance(it, str) else bytes.fromhex(it["of"]) * it["times"]
        for it in parts
    )


IMAGE = image()


def frames(stream: bytes) -> List[bytes]:
    """The frames of a stream."""
    found = []
    while stream:
        end = HEADER + int.from_bytes(stream[8:HEADER], "little")
        found.append(stream[:end])
        stream = stream[end:]
    return found


def removal(number: int) -> bytes:
    """A request that does nothing, since there is no such entry."""
    return bootkeep.frame_make(number, RequestKind.REMOVE, entry=0xFFFF)


class Values(unittest.TestCase):
    """What goes in and comes out."""

    def test_a_file_has_its_letters(self) -> None:
        name = "\\Größe.efi\0".encode("utf-16-le")
        path = bytes([4, 4, 4 + len(name), 0]) + name + bytes.fromhex("7fff0400")
        self.assertEqual(bootkeep.path_names(path), "File(\\Größe.efi)")

    def test_a_path_has_its_text(self) -> None:
        self.assertEqual(bootkeep.path_text_and_len(PATH + b"rest"), (TEXT, len(PATH)))
        self.assertEqual(bootkeep.path_check(PATH + b"rest"), len(PATH))
        self.assertEqual(bootkeep.path_parse(TEXT), PATH)

    def test_bytes_come_in_each_type(self) -> None:
        spread = bytes(byte for one in PATH for byte in (one, 0))
        for data in (bytearray(PATH), memoryview(PATH), memoryview(spread)[::2]):
            self.assertEqual(bootkeep.path_text(data), TEXT)

    def test_a_path_is_all_of_the_bytes(self) -> None:
        for call in (bootkeep.path_text, bootkeep.path_names):
            self.assertEqual(call(PATH), TEXT)
            for rest in (b"r", PATH):
                with self.assertRaises(bootkeep.BytesLeft) as caught:
                    call(memoryview(PATH + rest))
                why = pickle.loads(pickle.dumps(caught.exception))
                self.assertEqual((why.place, why.count), (len(PATH), len(rest)))
                self.assertIsInstance(why, ValueError)

    def test_an_option_has_its_parts(self) -> None:
        made = bootkeep.option_make(bootkeep.ATTRIBUTE_ACTIVE, "Bööt", [TEXT, PATH], b"\1\0")
        option = bootkeep.option_parts(made)
        self.assertEqual(option.description, "Bööt")
        self.assertEqual(option.description_line, "B\\00f6\\00f6t")
        self.assertEqual(option.description_bytes.decode("utf-16-le"), "Bööt")
        self.assertEqual((option.paths, option.optional), ((PATH, PATH), b"\1\0"))
        self.assertTrue(option.is_normal)
        app = bootkeep.option_parts(
            bootkeep.option_make(bootkeep.ATTRIBUTE_CATEGORY_APP | 1, "", [PATH])
        )
        self.assertEqual((app.is_active, app.is_normal), (True, False))

    def test_a_description_goes_both_ways(self) -> None:
        for text in ("", "Linux", "Bööt \\00f6", "\N{PENGUIN}\uffff\x1b", "\\"):
            made = bootkeep.option_make(5, text, [PATH], b"x")
            option = bootkeep.option_parts(made)
            self.assertEqual(option.description, text)
            self.assertEqual(option.description_bytes, text.encode("utf-16-le"))
            assert option.description is not None
            parts = (option.attributes, option.description, option.paths, option.optional)
            self.assertEqual(bootkeep.option_make(*parts), made)

    def test_units_that_are_no_text_go_both_ways(self) -> None:
        for units in ([0xD83D], [0xDC27], [0xDC27, 0xD83D], [0x41, 0xD83D, 0x42], [0xD83D] * 3):
            data = b"".join(unit.to_bytes(2, "little") for unit in units)
            made = bootkeep.option_make_units(5, data, [TEXT, PATH], b"x")
            self.assertEqual(made, b"\5\0\0\0" + b"\x2c\0" + data + b"\0\0" + PATH + PATH + b"x")
            option = bootkeep.option_parts(made)
            self.assertEqual((option.description, option.description_bytes), (None, data))
            none: Any = option.description
            self.assertRaises(TypeError, bootkeep.option_make, 5, none, [PATH])

    def test_each_option_is_made_again_of_its_parts(self) -> None:
        for name, data in bootkeep.vars_list(SET).items():
            if name.startswith("Boot0") and bootkeep.vars_entry(SET, int(name[4:], 16)) != 2:
                it = bootkeep.option_parts(data)
                parts = (it.attributes, it.description_bytes, it.paths, it.optional)
                self.assertEqual(bootkeep.option_make_units(*parts), data)

    def test_what_is_printed_for_a_person_is_read(self) -> None:
        name = "\\Größe.efi\0".encode("utf-16-le")
        file = bytes([4, 4, 4 + len(name), 0]) + name
        for path in (PATH, bytes.fromhex("0302080001000200") + file + bytes.fromhex("7fff0400")):
            text = bootkeep.path_names(path)
            self.assertEqual(bootkeep.path_parse(text), path)
            self.assertEqual(bootkeep.path_parse(bootkeep.path_text(path)), path)
        self.assertEqual(text, "Scsi(0x1,0x2)/File(\\Größe.efi)")
        self.assertEqual(bootkeep.option_parts(bootkeep.option_make(1, "", [text])).paths, (path,))

    def test_the_variables_are_those_that_are_got(self) -> None:
        variables = bootkeep.vars_list(SET)
        self.assertEqual(list(variables), sorted(variables))
        for name, data in variables.items():
            self.assertEqual(bootkeep.vars_get(SET, name), data)
            self.assertIs(type(data), bytes)
        with_one = bootkeep.vars_put(SET, "Nothing", b"1")
        self.assertEqual(bootkeep.vars_list(with_one)["Nothing"], b"1")
        self.assertEqual(bootkeep.vars_remove(with_one, "Nothing"), SET)
        for call in (bootkeep.vars_get, bootkeep.vars_remove):
            with self.assertRaises(KeyError) as raised:
                call(SET, "Nothing")
            self.assertEqual(raised.exception.args, ("Nothing",))
            self.assertEqual(str(raised.exception), "there is no variable Nothing")

    def test_the_first_fault_of_an_image_is_told(self) -> None:
        found = bootkeep.image_check(b"")
        self.assertEqual(
            found,
            bootkeep.ImageFault(
                bootkeep.Fault.IMAGE_EMPTY, 0, bootkeep.Stage.BOOT_MANAGER, bootkeep.Effect.REFUSED
            ),
        )
        self.assertIsNone(bootkeep.image_check(IMAGE))
        cut = bootkeep.image_check(IMAGE[:-1])
        assert cut is not None
        self.assertEqual((cut.kind, cut.place), (bootkeep.Fault.IMAGE_SECTION_BEYOND_FILE, 0x170))
        self.assertEqual((cut.stage, cut.effect), (bootkeep.Stage.LOADER, bootkeep.Effect.REFUSED))
        beyond = bootkeep.image_check(IMAGE[:0x68] + b"\0\x30" + IMAGE[0x6A:])
        assert beyond is not None
        self.assertEqual((beyond.kind, beyond.place), (bootkeep.Fault.IMAGE_ENTRY_POINT, 0x68))
        self.assertEqual(
            (beyond.stage, beyond.effect), (bootkeep.Stage.START, bootkeep.Effect.UNSAFE)
        )

    def test_an_image_has_a_digest(self) -> None:
        # That which signtool and sbsign would sign: all of it but CheckSum and directory 4.
        digested = IMAGE[:0x98] + IMAGE[0x9C:0xE8] + IMAGE[0xF0:]
        self.assertEqual(bootkeep.image_digest(IMAGE), hashlib.sha256(digested).digest())
        with self.assertRaises(bootkeep.Refused) as told:
            bootkeep.image_digest(b"MZ")
        self.assertEqual(told.exception.kind, bootkeep.Fault.IMAGE_SHORT_DOS_HEADER)

    def test_signature_lists_are_found(self) -> None:
        kind, owner = bytes(range(16)), b"\1" * 16
        sizes = b"".join(number.to_bytes(4, "little") for number in (28 + 2 + 40, 2, 20))
        data = kind + sizes + b"ab" + (owner + b"1234") + (owner + b"5678")
        found = bootkeep.SignatureList(0, kind, b"ab", (owner + b"1234", owner + b"5678"))
        self.assertEqual(bootkeep.signature_lists(data), (found,))
        second = bootkeep.signature_lists(data * 2)[1]
        self.assertEqual(
            (second.place, second.signatures), (len(data), (owner + b"1234", owner + b"5678"))
        )
        self.assertEqual(bootkeep.signature_lists(b""), ())
        with self.assertRaises(bootkeep.Refused) as told:
            bootkeep.signature_lists(data + b"0")
        self.assertEqual(
            (told.exception.kind, told.exception.place),
            (bootkeep.Fault.LISTS_CUT_HEADER, len(data)),
        )

    def test_changes_have_names(self) -> None:
        after = bootkeep.vars_remove(bootkeep.vars_put(SET, "Boot00AF", b"1"), "BootNext")
        changes = [(it.name, it.kind) for it in bootkeep.vars_changes(SET, after)]
        wanted = [("Boot00AF", 1), ("BootNext", 3)]
        self.assertEqual(changes, wanted)

    def test_a_number_that_is_not_known_is_no_entry(self) -> None:
        numbers = {
            0: "Boot0000",
            0xFFFF: "BootFFFF",
            0x10001: "BootOrder",
            0x10002: "BootNext",
            0x10003: "Timeout",
        }
        for number, name in numbers.items():
            self.assertEqual(_sets._variable_name(number), name)
        for number in (0x10000, 0x10004, 0xFFFFFFFF):
            name = _sets._variable_name(number)
            self.assertEqual(name, f"variable 0x{number:08x}")
            self.assertRaises(KeyError, bootkeep.vars_get, SET, name)

    def test_states_are_of_entries(self) -> None:
        plan = bootkeep.vars_plan(SET)
        free = bootkeep.vars_lowest_free(SET)
        assert free is not None
        self.assertEqual(bootkeep.vars_entry(SET, plan.normal[0]), bootkeep.EntryState.NORMAL)
        self.assertEqual(bootkeep.vars_entry(SET, free), bootkeep.EntryState.ABSENT)

    def test_a_run_is_that_of_a_keeper(self) -> None:
        after, lines = bootkeep.run(SET, STREAM)
        with bootkeep.Keeper(SET) as keeper:
            self.assertEqual([str(keeper.deliver(frame)) for frame in frames(STREAM)], lines)
            self.assertEqual(keeper.set, after)

    def test_names_of_before_stay(self) -> None:
        self.assertEqual(bootkeep.plan(SET), bootkeep.vars_plan(SET))
        self.assertEqual(bootkeep.entries_at_risk(SET), bootkeep.vars_at_risk(SET))
        self.assertEqual(bootkeep.check_path(PATH), bootkeep.path_check(PATH))
        self.assertEqual(bootkeep.path_parse_exact(TEXT), bootkeep.path_parse(TEXT))
        self.assertRaises(bootkeep.Refused, bootkeep.path_parse_exact, "Scsi(0x1,0x2)")
        made = bootkeep.option_make(bootkeep.ATTRIBUTE_ACTIVE, "", [PATH])
        self.assertEqual(bootkeep.option(made), bootkeep.option_parts(made))

    def test_each_public_name_is_there(self) -> None:
        for name in bootkeep.__all__:
            self.assertTrue(hasattr(bootkeep, name), name)
        self.assertGreaterEqual(bootkeep.library_version(), bootkeep.VERSION)


class Faults(unittest.TestCase):
    """What is refused, and what isn't of the type that it has to be."""

    def refused(self, call: Callable[..., Any], *words: Any) -> bootkeep.Refused:
        with self.assertRaises(bootkeep.Refused) as caught:
            call(*words)
        return caught.exception

    def test_a_refusal_has_its_place(self) -> None:
        why = self.refused(bootkeep.path_check, PATH[:-4])
        self.assertEqual(
            (why.kind, why.place, str(why)), (Fault.PATH_NO_END, 18, "PATH_NO_END at 18")
        )
        self.assertIsInstance(why, ValueError)

    def test_a_refusal_has_the_fault_within(self) -> None:
        why = self.refused(bootkeep.option_parts, b"\1\0\0\0\1\0\0\0\x7f")
        self.assertEqual((why.kind, why.place), (Fault.OPTION_PATH, 8))
        self.assertEqual((why.inner_kind, why.inner_place), (Fault.PATH_SHORT_HEADER, 0))
        self.assertEqual(str(why), "OPTION_PATH at 8: PATH_SHORT_HEADER at 0")

    def test_faults_of_names_have_their_places(self) -> None:
        kinds = {
            "Scsi(0x1,0x2)/Scssi(0x1,0x2)": (Fault.TEXT_UNKNOWN_NAME, 14),
            "Scsi(0x1,pun)": (Fault.TEXT_BAD_ARGUMENT, 9),
            "Scsi(0x1)": (Fault.TEXT_BAD_COUNT, 8),
            "Scsi": (Fault.TEXT_BAD_SEGMENT, 0),
        }
        for text, (kind, place) in kinds.items():
            why = self.refused(bootkeep.path_parse, text)
            self.assertEqual((why.kind, why.place), (kind, place), text)

    def test_a_unit_has_two_bytes(self) -> None:
        self.assertRaises(ValueError, bootkeep.option_make_units, 1, b"abc", [PATH])
        why = self.refused(bootkeep.option_make_units, 1, b"a\0\0\0", [PATH])
        self.assertEqual((why.kind, why.place), (Fault.OPTION_ZERO_UNIT, None))
        why = self.refused(bootkeep.option_make_units, 1, b"", [])
        self.assertEqual(why.kind, Fault.OPTION_EMPTY_LIST)

    def test_a_surrogate_is_no_text(self) -> None:
        why = self.refused(bootkeep.path_parse, "ö\ud800")
        self.assertEqual((why.kind, why.place), (Fault.TEXT_NOT_UTF8, 2))

    def test_a_refusal_goes_to_another_process(self) -> None:
        why = self.refused(bootkeep.option_parts, b"\1\0\0\0\1\0\0\0\x7f")
        same = pickle.loads(pickle.dumps(why))
        self.assertEqual(str(same), str(why))
        self.assertEqual(str(bootkeep.Refused(0xFFFF, 3)), "0xffff at 3")

    def test_bytes_are_no_text_and_texts_no_bytes(self) -> None:
        wrong: Any = b"Boot0000"
        for call in (bootkeep.vars_get, bootkeep.vars_remove):
            self.assertRaises(TypeError, call, SET, wrong)
        self.assertRaises(TypeError, bootkeep.vars_put, SET, wrong, b"1")
        self.assertRaises(TypeError, bootkeep.path_parse, wrong)
        self.assertRaises(TypeError, bootkeep.option_make, 1, wrong, [PATH])
        for text in ("text", None, 5):
            given: Any = text
            self.assertRaises(TypeError, bootkeep.path_text, given)
            self.assertRaises(TypeError, bootkeep.Keeper, given)

    def test_numbers_have_their_bits(self) -> None:
        self.assertRaises(OverflowError, bootkeep.vars_entry, SET, 0x10000)
        self.assertRaises(OverflowError, bootkeep.option_make, -1, "", [PATH])
        self.assertRaises(OverflowError, bootkeep.frame_make, 0, RequestKind.ORDER, order=[0x10000])
        self.assertRaises(OverflowError, bootkeep.frame_make, 0, RequestKind.REMOVE, entry=0x10000)
        fraction: Any = 1.5
        self.assertRaises(TypeError, bootkeep.vars_entry, SET, fraction)

    def test_a_request_has_the_parts_of_its_kind_alone(self) -> None:
        parts = {"entry": 0, "option": bootkeep.option_make(1, "", [PATH]), "order": [0]}
        takes = {
            RequestKind.ADD: {"entry", "option"},
            RequestKind.REPLACE: {"entry", "option"},
            RequestKind.REMOVE: {"entry"},
            RequestKind.ORDER: {"order"},
            RequestKind.NEXT: {"entry"},
            RequestKind.ADD_FREE: {"option"},
            RequestKind.ADD_FIRST: {"option"},
            RequestKind.FIRST: {"entry"},
        }
        self.assertEqual(set(takes), set(RequestKind))
        for kind, wanted in takes.items():
            for count in range(len(parts) + 1):
                for names in itertools.combinations(parts, count):
                    given: Any = {name: parts[name] for name in names}
                    with self.subTest(kind=kind, given=names):
                        if set(names) == wanted:
                            self.assertEqual(bootkeep.frame_make(7, kind, **given)[3], kind)
                        else:
                            self.assertRaises(TypeError, bootkeep.frame_make, 7, kind, **given)

    def test_a_request_says_which_part_is_missing(self) -> None:
        with self.assertRaisesRegex(TypeError, r"RequestKind\.REMOVE needs the argument entry"):
            bootkeep.frame_make(0, RequestKind.REMOVE)
        with self.assertRaisesRegex(
            TypeError, r"RequestKind\.NEXT doesn't take the argument option"
        ):
            bootkeep.frame_make(0, RequestKind.NEXT, entry=1, option=b"")

    def test_the_number_and_the_kind_are_not_exchanged(self) -> None:
        make: Any = bootkeep.frame_make
        for words in ((RequestKind.ADD, 3), (3, 3), (RequestKind.ADD, RequestKind.REMOVE), (3, 77)):
            self.assertRaises(TypeError, make, *words, entry=1)
        self.assertRaises(TypeError, make, 0, RequestKind.REMOVE, 1)

    def test_an_order_is_numbers(self) -> None:
        self.assertEqual(len(bootkeep.frame_make(0, RequestKind.ORDER, order=[])), HEADER)
        for order in (b"\1\0", bytearray(b"\1\0"), memoryview(b"\1\0"), "01"):
            given: Any = order
            self.assertRaises(TypeError, bootkeep.frame_make, 0, RequestKind.ORDER, order=given)

    def test_one_path_is_not_a_list_of_paths(self) -> None:
        for path in (TEXT, PATH, bytearray(PATH), memoryview(PATH)):
            given: Any = path
            self.assertRaises(TypeError, bootkeep.option_make, 1, "", given)

    def test_a_library_that_is_missing_says_how_to_name_it(self) -> None:
        env = {**os.environ, "BOOTKEEP_LIBRARY": "/nowhere/libbootkeep.so.1"}
        said = subprocess.run(
            [sys.executable, "-c", "import bootkeep"],
            env=env,
            stderr=subprocess.PIPE,
            text=True,
            check=False,
        )
        self.assertEqual(said.returncode, 1)
        self.assertRegex(said.stderr, "ImportError: .*/nowhere/.*BOOTKEEP_LIBRARY")


class VariableFiles(unittest.TestCase):
    """Emulators' variable files."""

    def setUp(self) -> None:
        self.file = (ROOT / "docs/examples/vars.fd").read_bytes()
        self.kept = bootkeep.store_vars(self.file)

    def test_a_file_with_what_it_has_stays(self) -> None:
        self.assertEqual(bootkeep.store_with(self.file, self.kept), self.file)

    def test_a_file_has_the_variables_that_it_is_given(self) -> None:
        option = bootkeep.option_make(1, "Mine", [PATH])
        wanted = bootkeep.vars_put(b"BVS1", "Boot0007", b"\7\0\0\0" + option)
        wanted = bootkeep.vars_put(wanted, "BootOrder", b"\7\0\0\0" + b"\7\0")
        after = bootkeep.store_with(self.file, wanted)
        self.assertEqual(len(after), len(self.file))
        found = bootkeep.vars_list(bootkeep.store_vars(after))
        is_ours = {name: data for name, data in found.items() if name.startswith("Boot0")}
        self.assertEqual(is_ours, {"Boot0007": b"\7\0\0\0" + option})
        self.assertEqual(found["BootOrder"], b"\7\0\0\0\7\0")

    def test_what_is_no_such_file_or_set_is_refused(self) -> None:
        for file, kind in (
            (b"", Fault.STORE_NO_VOLUME),
            (self.file[:-1], Fault.STORE_BAD_HEADER),
        ):
            with self.assertRaises(bootkeep.Refused) as caught:
                bootkeep.store_vars(file)
            self.assertEqual(caught.exception.kind, kind)
        without_data = bootkeep.vars_put(b"BVS1", "BootNext", b"1234")
        for file, wanted, kind in (
            (b"", self.kept, Fault.STORE_NO_VOLUME),
            (b"", b"", Fault.SET_BAD_MAGIC),
            (self.file, without_data, Fault.MACHINE_NO_DATA),
        ):
            with self.assertRaises(bootkeep.Refused) as caught:
                bootkeep.store_with(file, wanted)
            self.assertEqual(caught.exception.kind, kind)


class Keepers(unittest.TestCase):
    """Keepers, their replies, and their threads."""

    def test_replies_are_values(self) -> None:
        option = bootkeep.option_make(1, "Mine", [PATH])
        with bootkeep.Keeper(SET) as keeper:
            added = keeper.deliver(bootkeep.frame_make(0, RequestKind.ADD_FREE, option=option))
            self.assertEqual((added.kind, added.outcome), (ReplyKind.APPLIED, Outcome.DONE))
            self.assertEqual((added.entry, added.next_number), (bootkeep.vars_lowest_free(SET), 1))
            self.assertEqual(str(keeper.deliver(removal(2))), "waiting 1")
            malformed = keeper.deliver(b"")
            self.assertEqual(
                (malformed.kind, malformed.fault), (ReplyKind.MALFORMED, Fault.FRAME_SHORT)
            )
            self.assertEqual(keeper.next_number, 1)
            self.assertEqual(str(keeper.restart()), "restarted 1")

    def test_a_request_puts_an_entry_first(self) -> None:
        option = bootkeep.option_make(1, "Mine", [PATH])
        *others, last = bootkeep.vars_plan(SET).normal
        with bootkeep.Keeper(SET) as keeper:
            added = keeper.deliver(bootkeep.frame_make(0, RequestKind.ADD_FIRST, option=option))
            self.assertEqual((added.outcome, added.next_number), (Outcome.DONE, 1))
            self.assertEqual(added.entry, bootkeep.vars_lowest_free(SET))
            first = keeper.deliver(bootkeep.frame_make(1, RequestKind.FIRST, entry=last))
            self.assertEqual(str(first), "applied Done 2")
            normal = bootkeep.vars_plan(keeper.set).normal
            self.assertEqual(normal, (last, added.entry, *others))

    def test_a_plan_is_handed_out_once(self) -> None:
        with bootkeep.Keeper(SET) as keeper:
            self.assertIsNone(keeper.hand())
            prepared = keeper.prepare()
            plan = keeper.hand()
            assert plan is not None
            self.assertEqual(plan, bootkeep.vars_plan(SET))
            self.assertEqual(prepared.count, len(plan.normal) + (plan.next is not None))
            self.assertIsNone(keeper.hand())
            self.assertNotIn("BootNext", bootkeep.vars_list(keeper.set))

    def test_one_that_is_closed_says_so(self) -> None:
        keeper = bootkeep.Keeper(SET)
        keeper.close()
        keeper.close()
        self.assertRaises(bootkeep.Closed, keeper.deliver, b"")
        self.assertRaises(bootkeep.Closed, keeper.hand)
        self.assertRaises(bootkeep.Closed, lambda: keeper.set)
        self.assertRaises(bootkeep.Closed, lambda: keeper.next_number)

    def test_it_has_one_owner(self) -> None:
        with bootkeep.Keeper(SET) as keeper:
            ways: List[Callable[[Any], Any]] = [copy.copy, copy.deepcopy, pickle.dumps]
            for way in ways:
                self.assertRaises(TypeError, way, keeper)

    def test_one_that_is_collected_warns(self) -> None:
        with warnings.catch_warnings(record=True) as caught:
            warnings.simplefilter("always")
            keeper = bootkeep.Keeper(SET)
            del keeper
            gc.collect()
        self.assertEqual([it.category for it in caught], [ResourceWarning])

    def test_another_thread_may_collect_it(self) -> None:
        held = [bootkeep.Keeper(SET)]
        held[0].prepare()
        with warnings.catch_warnings(record=True) as caught:
            warnings.simplefilter("always")
            thread = threading.Thread(target=held.clear)
            thread.start()
            thread.join()
            gc.collect()
        self.assertEqual([it.category for it in caught], [ResourceWarning])

    def test_many_threads_may_call_it(self) -> None:
        with bootkeep.Keeper(SET) as keeper:
            numbers = range(THREADS)
            threads = [
                threading.Thread(target=keeper.deliver, args=(removal(it),)) for it in numbers
            ]
            for thread in threads:
                thread.start()
            for thread in threads:
                thread.join()
            self.assertEqual(keeper.next_number, THREADS)


def load_tests(
    loader: unittest.TestLoader, tests: unittest.TestSuite, pattern: Optional[str]
) -> unittest.TestSuite:
    """Adds the examples of the package's own text."""
    tests.addTests(doctest.DocTestSuite(bootkeep))
    return tests


if __name__ == "__main__":
    unittest.main()
