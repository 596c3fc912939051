"""Tests of what `bench/trials` takes for right, over what machines tell: right, or wrong in one way."""

from __future__ import annotations

import base64
import contextlib
import gzip
import io
import sys
import tarfile
import unittest
from pathlib import Path
from typing import Dict, List, Optional

ROOT = Path(__file__).resolve().parents[1]
sys.path.insert(0, str(ROOT / "bench"))

import ovmf_moves  # noqa: E402
import ovmf_store  # noqa: E402
import trials_law  # noqa: E402

CONFIRM = "bootkeep-confirm.service"

UNITS = {
    "passed over": "Result=exec-condition ExecMainStatus=0 ActiveState=inactive",
    "not started": "Result=success ExecMainStatus=0 ActiveState=inactive",
    "done": "Result=success ExecMainStatus=0 ActiveState=inactive",
    "failed": "Result=exit-code ExecMainStatus=10 ActiveState=failed",
}
"""What systemd tells of the confirm unit."""


class Machine:
    """A machine that is told of, line by line."""

    def __init__(self) -> None:
        self.values: Dict[str, bytes] = {"Timeout": b"\0\0"}
        self.values.update({f"Boot{it:04X}": bytes([1, 0, 0, 0, it]) for it in range(4)})
        self.order([0, 1, 2, 3])
        self.lines: List[str] = []
        self.starts = 0
        self.kept: Optional[int] = None
        self.start(0)

    def order(self, numbers: List[int]) -> None:
        self.values["BootOrder"] = b"".join(it.to_bytes(2, "little") for it in numbers)

    def first(self, entry: int) -> None:
        """Confirms an entry."""
        self.order([entry, *(it for it in ovmf_moves.order(self.values) if it != entry)])
        self.activate(entry, 1)
        self.kept = None

    def activate(self, entry: int, attributes: int) -> None:
        name = f"Boot{entry:04X}"
        self.values[name] = bytes([attributes]) + self.values[name][1:]

    def say(self, line: str) -> None:
        self.lines.append(f"@ {line}")

    def show(self, name: str) -> None:
        """Tells the variables, as the machine does."""
        file = io.BytesIO()
        with tarfile.open(fileobj=file, mode="w") as archive:
            for variable, value in self.values.items():
                member = tarfile.TarInfo(f"./{variable}-{trials_law.VENDOR}")
                member.size = len(value) + 4
                archive.addfile(member, io.BytesIO(b"\7\0\0\0" + value))
        self.pack(name, file.getvalue())

    def pack(self, name: str, data: bytes) -> None:
        self.say(f"vars {name} {base64.b64encode(gzip.compress(data)).decode()}")

    def begin(self, kind: str, entry: int) -> None:
        if self.kept is not None:
            self.say("forgotten 0")
        self.show("old")
        self.say(f"begin {kind} {entry:04X}")
        self.values["BootNext"] = entry.to_bytes(2, "little")
        self.kept = entry
        self.say("tried 0")
        self.show("tried")

    def cut(self) -> None:
        self.pack("left", ovmf_store.write_set(self.values))
        self.say("cut")

    def kernel(self, entry: int) -> None:
        self.values.pop("BootNext", None)
        self.say(f"kernel {entry:04X}")

    def start(
        self, entry: int, unit: str = "passed over", said: str = "", is_complete: bool = True
    ) -> None:
        """A start by an entry, of which the confirm unit ended so, and said this."""
        self.kernel(entry)
        self.starts += 1
        self.say(f"start {entry:04X} {self.starts}")
        state = "active" if is_complete else "inactive"
        target = f"Id=boot-complete.target ActiveState={state}"
        self.say(f"units {target}  {UNITS[unit]} Id={CONFIRM} ")
        if said:
            self.say(f"said {said}")
        self.say(f"kept {'no' if self.kept is None else 'yes'}")
        self.show("found")

    def fails(self, entry: int, why: str) -> None:
        """A start by an entry after which the trial has failed."""
        self.start(entry, "failed", f"trial of Boot{self.kept:04X} {why}")

    def confirms(self, entry: int) -> None:
        """A start by the entry on trial, which is confirmed."""
        self.first(entry)
        self.start(entry, "done", f"trial of Boot{entry:04X} confirmed: the machine came up by it")


OTHER = "failed: the machine came up by Boot0000"


class Law(unittest.TestCase):
    def setUp(self) -> None:
        self.machine = Machine()

    def told(self) -> str:
        """What is told of the machine, but for the last lines."""
        law = trials_law.Law()
        out = io.StringIO()
        with contextlib.redirect_stdout(out):
            for line in self.machine.lines:
                law.read(line[2:])
        self.assertEqual(law.failed, len(out.getvalue().splitlines()))
        self.assertGreater(law.checks, 10)
        return out.getvalue()

    def assert_right(self) -> None:
        self.assertEqual(self.told(), "")

    def assert_wrong(self, what: str) -> None:
        self.assertIn(f"not so: {what}", self.told())

    def test_a_good_entry_is_confirmed(self) -> None:
        self.machine.activate(1, 0)
        self.machine.begin("good", 1)
        self.machine.confirms(1)
        self.assert_right()

    def test_an_entry_that_does_not_start_fails(self) -> None:
        self.machine.begin("missing", 2)
        self.machine.fails(0, OTHER)
        self.assert_right()

    def test_a_start_that_is_not_complete_confirms_nothing(self) -> None:
        self.machine.begin("incomplete", 2)
        self.machine.start(2, "not started", is_complete=False)
        self.machine.fails(0, OTHER)
        self.assert_right()

    def test_an_incomplete_start_is_not_confirmed(self) -> None:
        self.machine.begin("incomplete", 2)
        self.machine.first(2)
        self.machine.start(2, "done", "trial of Boot0002 confirmed", is_complete=False)
        self.assert_wrong("and nothing is changed")

    def test_an_entry_that_did_not_start_is_not_first(self) -> None:
        self.machine.begin("missing", 2)
        self.machine.first(2)
        self.machine.start(0, "done", "trial of Boot0002 confirmed")
        self.assert_wrong("it is first since the machine came up by it")

    def test_a_failed_trial_changes_nothing_else(self) -> None:
        self.machine.begin("missing", 2)
        self.machine.activate(3, 0)
        self.machine.fails(0, OTHER)
        self.assert_wrong("it is as before, or the entry is first and active")

    def test_it_says_by_which_entry_the_machine_came_up(self) -> None:
        self.machine.begin("missing", 2)
        self.machine.fails(0, "failed: the machine came up by Boot0003")
        self.assert_wrong("it says by which entry it came up")

    def test_a_good_entry_that_is_not_confirmed_is_told(self) -> None:
        self.machine.begin("good", 1)
        self.machine.fails(1, "interrupted: the machine came up by it")
        self.assert_wrong("only one that was cut off is")

    def test_after_a_cut_it_is_as_before_or_confirmed(self) -> None:
        for is_interrupted in (False, True):
            self.machine.begin("active", 1)
            self.machine.kernel(1)
            self.machine.cut()
            self.machine.fails(0, "interrupted: .." if is_interrupted else OTHER)
        self.machine.begin("active", 1)
        self.machine.kernel(1)
        self.machine.first(1)
        self.machine.cut()
        self.machine.start(1)
        self.assert_right()

    def test_a_cut_leaves_the_order_before_a_start(self) -> None:
        self.machine.begin("active", 1)
        self.machine.first(1)
        self.machine.cut()
        self.assert_wrong("it is changed since the machine came up by it")

    def test_a_cut_leaves_other_variables(self) -> None:
        self.machine.begin("active", 1)
        self.machine.kernel(1)
        self.machine.order([1, 0])
        self.machine.cut()
        self.assert_wrong("each variable is as before, or as once confirmed")

    def test_a_trial_that_had_begun_is_kept(self) -> None:
        self.machine.begin("active", 1)
        self.machine.cut()
        self.machine.kept = None
        self.machine.start(0)
        self.assert_wrong("a trial that isn't kept had not begun")

    def test_without_a_trial_nothing_is_changed(self) -> None:
        self.machine.begin("good", 1)
        self.machine.confirms(1)
        self.machine.order([0, 1, 2, 3])
        self.machine.start(0)
        self.assert_wrong("nothing is changed without a trial")


if __name__ == "__main__":
    unittest.main()
