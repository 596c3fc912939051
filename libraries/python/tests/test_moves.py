"""Tests of commands over a machine whose moves their caller makes: over a machine in memory, whatever is refused or cut off
when, what is there stands for the variables of before or for those to which the requests lead."""

from __future__ import annotations

import copy
import unittest
from dataclasses import dataclass, field
from pathlib import Path
from typing import Dict, Iterator, List, Optional, Union

import bootkeep
from bootkeep import Became, EndKind, Fault, MachineState, Move, MoveKind, Moves, Restore

ROOT = Path(__file__).resolve().parents[3]

#: The attributes of a variable that is new: it is kept, and shown to firmware's services of both kinds.
NEW = b"\x07\0\0\0"

#: Those that the variables of the test have, so that it shows that they stay.
OLD = b"\x17\0\0\0"

KEEP = "BootKeepState"


def before() -> bootkeep.BootVariables:
    """The variables before the requests."""
    return bootkeep.BootVariables.from_bytes((ROOT / "docs/examples/set").read_bytes())


def frames() -> bytes:
    """Requests that add an entry, put it first, and take another one out."""
    option = bytes(bootkeep.LoadOption("New", [bootkeep.DevicePath.from_bytes(b"\x7f\xff\4\0")]))
    requests: List[bootkeep.BootRequest] = [
        bootkeep.AddFirst(bootkeep.LoadOption.from_bytes(option)),
        bootkeep.Remove(0x0001),
        bootkeep.Next(0x0000),
    ]
    return b"".join(request.frame(number) for number, request in enumerate(requests))


def is_boot_name(name: str) -> bool:
    """Whether the boot manager has a variable of this name."""
    return name in ("BootOrder", "BootNext", "Timeout") or bootkeep.is_entry_name(name)


def with_attributes(data: Dict[str, bytes], there: Dict[str, bytes]) -> Dict[str, bytes]:
    """What a machine keeps of these variables: the attributes are those that are there."""
    return {
        name: there.get(name, NEW)[:4] + value if is_boot_name(name) else value
        for name, value in data.items()
        if name != KEEP
    }


@dataclass
class Machine:
    """A machine in memory. The move of this number, from 0 on, is refused, or power fails before or after it."""

    variables: Dict[str, bytes]
    journal: bytes = b""
    start: bytes = b"first"
    made: List[Move] = field(default_factory=list)

    def state(self) -> MachineState:
        """What is read of it."""
        return MachineState(
            b"machine", self.start, bootkeep.BootVariables(self.variables), self.journal
        )

    def make(self, move: Move) -> None:
        """Makes a move."""
        self.made.append(move)
        if move.kind == MoveKind.JOURNAL:
            self.journal = move.data or b""
        elif move.kind == MoveKind.DELETE:
            self.variables.pop(move.name or "", None)
        else:
            self.variables[move.name or ""] = move.data or b""

    def run(
        self, wanted: Union[bytes, Restore, None], answers: Iterator[Became]
    ) -> Optional[bootkeep.End]:
        """How a command ended whose moves become so; ``None`` if the answers ended before it, as if power failed. The move
        for which there is no answer isn't made."""
        with Moves(self.state(), wanted) as moves:
            while (move := moves.next()) is not None:
                became = next(answers, None)
                if became is None:
                    return None
                if became != Became.REFUSED:
                    self.make(move)
                moves.tell(became, 7 if became != Became.DONE else 0)
            return moves.end


def new_machine() -> Machine:
    """A machine with the variables of the example, and another one that is firmware's alone."""
    variables = {
        name: OLD + value if is_boot_name(name) else value for name, value in before().items()
    }
    return Machine(variables)


def all_done() -> Iterator[Became]:
    """Each move is made."""
    while True:
        yield Became.DONE


def after_refusal(place: int, became: Became) -> Iterator[Became]:
    """The move at this place becomes that, and all others are made."""
    for _ in range(place):
        yield Became.DONE
    yield became
    yield from all_done()


def cut(place: int) -> Iterator[Became]:
    """Power fails before the move at this place."""
    yield from [Became.DONE] * place


class Commands(unittest.TestCase):
    """Commands that run requests, ended and cut off."""

    def setUp(self) -> None:
        self.machine = new_machine()
        self.old = dict(self.machine.variables)
        after, self.lines = bootkeep.run(before(), frames())
        self.new = with_attributes(dict(bootkeep.BootVariables.from_bytes(after).items()), self.old)
        whole = copy.deepcopy(self.machine)
        self.assertIsNotNone(whole.run(frames(), all_done()))
        self.count = len(whole.made)

    def test_each_move_is_made(self) -> None:
        end = self.machine.run(frames(), all_done())
        assert end is not None
        self.assertEqual(end.kind, EndKind.DONE)
        self.assertEqual([str(reply) for reply in end.replies], self.lines)
        self.assertEqual(self.machine.variables, self.new)

    def test_the_journal_is_first_and_last(self) -> None:
        self.machine.run(frames(), all_done())
        kinds = [move.kind for move in self.machine.made]
        self.assertEqual([kinds[0], kinds[-1]], [MoveKind.JOURNAL] * 2)
        self.assertNotIn(MoveKind.JOURNAL, kinds[1:-1])
        self.assertGreater(self.count, 4)

    def test_requests_are_applied_once(self) -> None:
        self.machine.run(frames(), all_done())
        end = self.machine.run(frames(), all_done())
        assert end is not None
        self.assertEqual({reply.kind for reply in end.replies}, {bootkeep.ReplyKind.REPEAT})
        self.assertEqual(self.machine.variables, self.new)

    def test_what_a_cut_leaves_is_settled(self) -> None:
        for place in range(self.count):
            with self.subTest(place):
                machine = copy.deepcopy(self.machine)
                self.assertIsNone(machine.run(frames(), cut(place)))
                end = machine.run(None, all_done())
                assert end is not None
                self.assertEqual((end.kind, end.replies), (EndKind.DONE, ()))
                self.assertEqual(machine.variables, self.new if place else self.old)

    def test_a_start_uses_up_boot_next(self) -> None:
        for place in range(1, self.count):
            with self.subTest(place):
                machine = copy.deepcopy(self.machine)
                machine.run(frames(), cut(place))
                machine.start = b"second"
                machine.run(None, all_done())
                wanted = {name: it for name, it in self.new.items() if name != "BootNext"}
                self.assertEqual(machine.variables, wanted)

    def test_a_change_that_is_refused_is_taken_back(self) -> None:
        for became in (Became.REFUSED, Became.PERHAPS):
            for place in range(self.count - 1):
                with self.subTest((became, place)):
                    machine = copy.deepcopy(self.machine)
                    end = machine.run(frames(), after_refusal(place, became))
                    assert end is not None
                    self.assertEqual((end.kind, end.reason), (EndKind.TAKEN_BACK, 7))
                    self.assertEqual(machine.variables, self.old)

    def test_what_is_refused_twice_may_still_happen(self) -> None:
        answers = [Became.DONE, Became.DONE, Became.REFUSED, Became.REFUSED]
        end = self.machine.run(frames(), iter(answers))
        assert end is not None
        self.assertEqual(
            (end.kind, end.reason, end.second_reason, end.replies), (EndKind.UNSETTLED, 7, 7, ())
        )
        self.machine.run(None, all_done())
        self.assertIn(self.machine.variables, (self.old, self.new))


class Restoring(unittest.TestCase):
    """Commands that bring back what was there before a change."""

    def setUp(self) -> None:
        self.machine = new_machine()
        self.old = dict(self.machine.variables)
        self.back = Restore(self.machine.state().variables)
        self.machine.run(frames(), all_done())
        self.new = dict(self.machine.variables)

    def test_it_undoes_a_change(self) -> None:
        self.assertNotEqual(self.new, self.old)
        end = self.machine.run(self.back, all_done())
        assert end is not None
        self.assertEqual((end.kind, end.replies), (EndKind.DONE, ()))
        self.assertEqual(self.machine.variables, self.old)

    def test_it_leaves_other_variables_alone(self) -> None:
        self.machine.variables["Other"] = b"new"
        self.machine.run(self.back, all_done())
        self.assertEqual(self.machine.variables, {**self.old, "Other": b"new"})

    def test_it_is_whole_wherever_it_is_cut(self) -> None:
        whole = copy.deepcopy(self.machine)
        whole.made = []
        whole.run(self.back, all_done())
        for place in range(len(whole.made)):
            with self.subTest(place):
                machine = copy.deepcopy(self.machine)
                self.assertIsNone(machine.run(self.back, cut(place)))
                machine.run(None, all_done())
                self.assertEqual(machine.variables, self.old if place else self.new)

    def test_what_is_no_set_with_data_is_refused(self) -> None:
        for back, fault in (
            (b"BVS2", Fault.SET_BAD_MAGIC),
            (bytes(bootkeep.BootVariables({"Boot0001": NEW})), Fault.MACHINE_NO_DATA),
            (bytes(bootkeep.BootVariables({"Timeout": b"1"})), Fault.MACHINE_NO_DATA),
        ):
            with self.subTest(back), self.assertRaises(bootkeep.Refused) as raised:
                Moves(self.machine.state(), Restore(back))
            self.assertEqual(raised.exception.kind, fault)


class Values(unittest.TestCase):
    """What is handed in, and what a command answers besides."""

    def refused(self, stream: Optional[bytes] = None, **parts: bytes) -> Fault:
        """Why a command isn't begun."""
        whole = {"machine": b"m", "start": b"s", "variables": b"BVS1", "journal": b"", **parts}
        with self.assertRaises(bootkeep.Refused) as raised:
            Moves(MachineState(**whole), stream)
        return raised.exception.kind

    def test_what_is_none_is_refused(self) -> None:
        self.assertEqual(self.refused(machine=b""), Fault.MACHINE_BAD_NAME)
        self.assertEqual(self.refused(machine=b"m" * 4097), Fault.MACHINE_BAD_NAME)
        self.assertEqual(self.refused(start=b"a b"), Fault.MACHINE_BAD_START)
        self.assertEqual(self.refused(start=b"\xff"), Fault.MACHINE_BAD_START)
        self.assertEqual(self.refused(variables=b""), Fault.SET_BAD_MAGIC)
        self.assertEqual(self.refused(journal=b"BKJ3"), Fault.JOURNAL_BAD_MAGIC)
        self.assertEqual(self.refused(journal=b"BKJ2"), Fault.JOURNAL_TRUNCATED)
        self.assertEqual(self.refused(stream=b"BQ"), Fault.STREAM_REST)

    def test_a_journal_of_another_machine_is_refused(self) -> None:
        journal = b"BKJ2" + b"\5\0\0\0other" + b"\0\0\0\0"
        self.assertEqual(self.refused(journal=journal), Fault.JOURNAL_OF_ANOTHER)

    def test_a_journal_without_a_machine_is_taken(self) -> None:
        with Moves(MachineState(b"m", b"s", b"BVS1", b"BKJ1\0\0\0\0")) as moves:
            self.assertIsNone(moves.next())
            self.assertEqual(moves.end.kind, EndKind.DONE)

    def test_variables_that_cannot_be_kept_are_refused(self) -> None:
        for name, data, fault in (
            ("BootOrder", NEW + b"\1", Fault.VARS_BAD_ORDER),
            ("BootNext", NEW + b"\1", Fault.VARS_BAD_NEXT),
            ("Boot0001", NEW, Fault.MACHINE_NO_DATA),
        ):
            with self.subTest(name):
                machine = Machine({name: data})
                end = machine.run(frames(), all_done())
                assert end is not None
                self.assertEqual((end.kind, end.fault), (EndKind.RUN_REFUSED, fault))
                self.assertEqual(machine.made, [])

    def test_settling_alone_looks_at_no_variable(self) -> None:
        end = Machine({"BootOrder": NEW + b"\1"}).run(None, all_done())
        assert end is not None
        self.assertEqual(end.kind, EndKind.DONE)

    def test_asking_again_gives_the_same(self) -> None:
        with Moves(new_machine().state(), frames()) as moves:
            self.assertEqual(moves.next(), moves.next())
            with self.assertRaises(bootkeep.Error):
                moves.end  # pylint: disable=pointless-statement

    def test_nothing_is_told_of_no_move(self) -> None:
        with Moves(new_machine().state()) as moves:
            with self.assertRaises(bootkeep.Error):
                moves.tell(Became.DONE)

    def test_a_command_has_one_owner(self) -> None:
        moves = Moves(new_machine().state())
        with self.assertRaises(TypeError):
            copy.copy(moves)
        moves.close()
        moves.close()
        with self.assertRaises(bootkeep.Closed):
            moves.next()


if __name__ == "__main__":
    unittest.main()
