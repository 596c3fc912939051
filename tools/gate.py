"""What `./check` does: the gate, all cases, and the tests and checks of the scripts; or the cases alone."""

from __future__ import annotations

import os
import re
import shutil
import subprocess
import sys
import tempfile
import unittest
from concurrent.futures import ThreadPoolExecutor
from pathlib import Path
from typing import Dict, List, Optional, Tuple

import linters
import runner
import trying
from building import proved
from repository import ROOT, Verdict, sources_sum, toolchain_note

PROGRAMS = ("bootkeep", "bootvars")

PRODUCTS = (*PROGRAMS, "bootkeep_c")
"""What is made of the sources, over which the gate is run."""

ENDED = re.compile(r"^(\d+) passed, (\d+) failed")
"""The last line of `rt ci`."""

BAD_EDIT = ": BAD EDIT: "
"""What `rt ci` says of an edit that it can't apply, compile or read. Such a one shows nothing, and fails nothing there."""

CHECK_MEMORY = 5_000_000_000
"""How much memory the check of one crate takes at most, in bytes."""

GROUP = Path("/sys/fs/cgroup")
"""Where Linux tells what the control group of this machine or container may use."""

UNPROVED = "check: the cases alone, over programs that aren't proved"


def main(words: List[str]) -> int:
    """Runs what the words ask for, and says what passed. The answer is a status."""
    if words and words[0] != "--quick":
        print("check: takes --quick and names of files, or no word", file=sys.stderr)
        return 2
    if shutil.which("rt") is None:
        print("check: the toolchain's command rt isn't on PATH", file=sys.stderr)
        return 2
    try:
        return quick(words[1:]) if words else whole()
    except trying.NotTried as why:
        print(f"check: no case is tried: {why}", file=sys.stderr)
        return end(0, 1)


def quick(names: List[str]) -> int:
    """The cases alone, all but the slow ones or those of some files, over programs that aren't proved."""
    print(UNPROVED, flush=True)
    with tempfile.TemporaryDirectory(prefix="bootkeep-check-") as folder:
        passed, failed = runner.run(unproved_programs(Path(folder)), True, names)
    print(UNPROVED)
    return end(passed, failed)


def compiled_runner(folder: Path) -> Path:
    """What runs the cases of calls, unproved."""
    tree = runner.make_tree(folder / "tree")
    return trying.compiled(tree, runner.CRATE, runner.WAITS, folder)


def unproved_programs(folder: Path) -> runner.Programs:
    """What runs the cases, and the two programs, unproved."""
    with ThreadPoolExecutor() as pool:
        case_runner = pool.submit(compiled_runner, folder)
        programs = {
            it: pool.submit(trying.compiled, ROOT, it, trying.WAITS[it], folder) for it in PROGRAMS
        }
        return runner.Programs(
            case_runner.result(), {name: [it.result()] for name, it in programs.items()}
        )


def whole() -> int:
    """The gate, and then all cases over what it proved and built."""
    note = toolchain_note()
    if note:
        print(f"check: {note}", file=sys.stderr)
    sources = {it: sources_sum(it) for it in PRODUCTS}
    passed, failed = gate()
    if failed:
        print("check: the cases aren't tried, since the gate failed", file=sys.stderr)
        return end(passed, failed, sources)
    built = {it: ROOT / "crates" / it / "out" / it for it in PROGRAMS}
    for name, program in built.items():
        # Of sources that were edited meanwhile nobody knows which were proved.
        if sources[name] == sources_sum(name):
            proved(name).keep(program, sources[name])
    by_both = {it: [built[it], built[it].with_suffix(".by-rattle")] for it in PROGRAMS}
    with tempfile.TemporaryDirectory(prefix="bootkeep-check-") as folder:
        case_runner = compiled_runner(Path(folder))
        told = runner.run(runner.Programs(case_runner, by_both), False, [])
    for of_scripts in (script_tests(), linters.lint()):
        passed, failed = passed + of_scripts[0], failed + of_scripts[1]
    return end(passed + told[0], failed + told[1], sources)


def script_tests(folder: Path = ROOT / "tests") -> Tuple[int, int]:
    """What the tests of the scripts pass and fail. Those that fail are told, and those that are left out."""
    result = unittest.TextTestRunner(verbosity=0).run(unittest.TestLoader().discover(str(folder)))
    for test, why in result.skipped:
        print(f"check: {test.id()} is left out: {why}", file=sys.stderr)
    failed = len(result.failures) + len(result.errors)
    return result.testsRun - failed - len(result.skipped), failed


def numbers_in(file: Path, pattern: str) -> List[int]:
    """The numbers that the pattern finds in a file, or none if it can't be read."""
    try:
        found = re.search(pattern, file.read_text(encoding="utf-8"), re.MULTILINE)
    except OSError:
        return []
    return [int(it) for it in found.groups()] if found else []


def processors(group: Path = GROUP) -> int:
    """How many processors there are for this process."""
    found = len(os.sched_getaffinity(0))
    quota = numbers_in(group / "cpu.max", r"^(\d+) (\d+)")
    return min(found, max(quota[0] // quota[1], 1)) if quota else found


def free_memory(group: Path = GROUP) -> int:
    """How much memory there is for this process, in bytes."""
    available = [1024 * it for it in numbers_in(Path("/proc/meminfo"), r"^MemAvailable:\s+(\d+)")]
    limit, used = (numbers_in(group / f"memory.{it}", r"^(\d+)") for it in ("max", "current"))
    return min([*available, *(a - b for a, b in zip(limit, used))], default=0)


def at_once(count: int, memory: int) -> Dict[str, str]:
    """What has `rt ci` check as many crates at once as there are processors, if there is so much memory. By itself it counts on
    about twice the memory that they take, and leaves processors idle for it."""
    return {"RT_JOBS": str(count)} if memory >= count * CHECK_MEMORY else {}


def gate() -> Tuple[int, int]:
    """What `rt ci` passed and failed."""
    said = []
    with subprocess.Popen(
        ["rt", "ci"],
        cwd=ROOT,
        env={**at_once(processors(), free_memory()), **os.environ},
        stdin=subprocess.DEVNULL,
        stdout=subprocess.PIPE,
        text=True,
        errors="replace",
    ) as ci:
        assert ci.stdout is not None
        for line in ci.stdout:
            print(line, end="", flush=True)
            said.append(line)
    return gate_counts(said, ci.returncode)


def gate_counts(said: List[str], status: int) -> Tuple[int, int]:
    """What `rt ci` passed and failed, by the lines that it said and its status: of the first it says so itself in its last
    line, and each bad edit, which it only notes, has failed too."""
    ended = ENDED.match(said[-1]) if said else None
    if ended is None:
        return 0, 1
    passed, failed = int(ended[1]), int(ended[2])
    bad_edits = sum(BAD_EDIT in line for line in said)
    return passed, max(failed, int(status != 0)) + bad_edits


def end(passed: int, failed: int, sources: Optional[Dict[str, str]] = None) -> int:
    """Says what passed, and gives the status. What is said of the whole gate, over sources of these sums, is kept."""
    line = f"{passed} passed, {failed} failed"
    if sources == {it: sources_sum(it) for it in sources or ()}:
        Verdict().keep(line, sources)
    print(line)
    return 1 if failed else 0
