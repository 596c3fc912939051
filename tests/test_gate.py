"""Tests of what `./check` makes of what the toolchain's gate says."""

from __future__ import annotations

import contextlib
import io
import os
import sys
import tempfile
import unittest
from pathlib import Path

ROOT = Path(__file__).resolve().parents[1]
sys.path[:0] = [str(ROOT / "tools"), str(ROOT / "tests")]

import gate  # noqa: E402

REFUSED = "rt: must-fail low/a.edit: refused, as it must be: src/lib.rt:1:1: error\n"
BAD = "rt: must-fail low/b.edit: BAD EDIT: its `old:` text stands in src/lib.rt 0 times\n"


class Counts(unittest.TestCase):
    """What passed and what failed."""

    def test_all_passed(self) -> None:
        self.assertEqual(gate.gate_counts([REFUSED, "46 passed, 0 failed\n"], 0), (46, 0))

    def test_a_bad_edit_has_failed(self) -> None:
        said = [
            REFUSED,
            BAD,
            "note: bad must-fail edits, as told above: 1.\n",
            "46 passed, 0 failed\n",
        ]
        self.assertEqual(gate.gate_counts(said, 0), (46, 1))
        self.assertEqual(gate.gate_counts([BAD, *said], 0), (46, 2))

    def test_what_failed_is_counted_once(self) -> None:
        self.assertEqual(gate.gate_counts(["45 passed, 2 failed\n"], 1), (45, 2))

    def test_a_status_alone_is_a_failure(self) -> None:
        self.assertEqual(gate.gate_counts(["46 passed, 0 failed\n"], 1), (46, 1))

    def test_no_count_is_a_failure(self) -> None:
        self.assertEqual(gate.gate_counts([], 0), (0, 1))
        self.assertEqual(gate.gate_counts(["rt: no crates.txt\n"], 0), (0, 1))
        self.assertEqual(gate.gate_counts(["46 passed, 0 failed\n", "Killed\n"], 0), (0, 1))


class AtOnce(unittest.TestCase):
    """How many crates are checked at once."""

    def test_memory_for_each(self) -> None:
        self.assertEqual(gate.at_once(4, 20_000_000_000), {"RT_JOBS": "4"})
        self.assertEqual(gate.at_once(4, 19_999_999_999), {})

    def test_a_control_group(self) -> None:
        with tempfile.TemporaryDirectory() as folder:
            group = Path(folder)
            self.assertGreaterEqual(gate.processors(group), 1)
            self.assertGreater(gate.free_memory(group), 0)
            (group / "cpu.max").write_text("100000 100000\n", encoding="utf-8")
            (group / "memory.max").write_text("3000000\n", encoding="utf-8")
            (group / "memory.current").write_text("1000000\n", encoding="utf-8")
            self.assertEqual(gate.processors(group), 1)
            self.assertEqual(gate.free_memory(group), 2_000_000)
            (group / "cpu.max").write_text("max 100000\n", encoding="utf-8")
            (group / "memory.max").write_text("max\n", encoding="utf-8")
            self.assertEqual(gate.processors(group), len(os.sched_getaffinity(0)))
            self.assertGreater(gate.free_memory(group), 2_000_000)


TESTS = """import unittest

class Some(unittest.TestCase):
    def test_passes(self) -> None:
        pass

    def test_fails(self) -> None:
        self.fail("as it has to")

    @unittest.skip("the tool isn't installed")
    def test_needs_a_tool(self) -> None:
        pass

@unittest.skip("the package isn't installed")
class Others(unittest.TestCase):
    def test_needs_a_package(self) -> None:
        pass
"""


class Scripts(unittest.TestCase):
    """What the tests of the scripts say."""

    def test_what_is_left_out_is_told_and_not_counted(self) -> None:
        with tempfile.TemporaryDirectory() as folder, contextlib.redirect_stderr(
            io.StringIO()
        ) as out:
            Path(folder, "test_of_the_gate_itself.py").write_text(TESTS, encoding="utf-8")
            self.addCleanup(sys.path.remove, folder)
            self.assertEqual(gate.script_tests(Path(folder)), (1, 1))
        told = [it for it in out.getvalue().splitlines() if it.startswith("check: ")]
        name = "check: test_of_the_gate_itself"
        self.assertEqual(
            sorted(told),
            [
                f"{name}.Others.test_needs_a_package is left out: the package isn't installed",
                f"{name}.Some.test_needs_a_tool is left out: the tool isn't installed",
            ],
        )


if __name__ == "__main__":
    unittest.main()
