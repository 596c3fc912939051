"""Tests of what runs the checkers of scripts, over a small repository and checkers that are made up."""

from __future__ import annotations

import contextlib
import io
import os
import shutil
import sys
import tempfile
import unittest
from pathlib import Path
from typing import List, Tuple
from unittest import mock

ROOT = Path(__file__).resolve().parents[1]
sys.path.insert(0, str(ROOT / "tools"))

import linters  # noqa: E402

FILES = {
    "tools/low.py": "",
    "tools/high": "#!/usr/bin/env python3\n",
    "make": "#!/bin/sh\n",
    "packaging/tool.postinst": "#!/usr/bin/env bash\n",
    "packaging/completions/tool.bash": "# Completions\n",
    "bench/shared": "# shellcheck shell=bash\n",
    "README.md": "# It is made\n\n#!/bin/sh\n",
    "docs/page.md": "# Shell and Python\n",
    "out/made.py": "",
    "crates/low/out/made": "#!/bin/sh\n",
    "tools/__pycache__/low.py": "",
}

CHECKER = """#!/bin/sh
[ "$1" != --version ] || { echo "NAME, 23.1.0 (compiled: no)"; exit; }
echo "NAME $*" >>"$LINT_LOG"
for word; do
    case $word in WRONG) echo "$word is wrong"; exit 1 ;; esac
done
"""

NAMES = ("black", "pyflakes3", "mypy", "shellcheck")


class SmallRepository(unittest.TestCase):
    """A repository of a few scripts, and checkers that find fault with the files of one name."""

    def setUp(self) -> None:
        folder = tempfile.TemporaryDirectory()
        self.addCleanup(folder.cleanup)
        self.root, self.programs = Path(folder.name, "root"), Path(folder.name, "programs")
        self.log = Path(folder.name, "log")
        for name, text in FILES.items():
            self.write(self.root / name, text)
        for name in NAMES:
            self.make(name, "none")
        words = {"PATH": f"{self.programs}:/usr/bin:/bin", "LINT_LOG": str(self.log)}
        changed = mock.patch.dict(os.environ, words)
        changed.start()
        self.addCleanup(changed.stop)

    def write(self, file: Path, text: str) -> None:
        file.parent.mkdir(parents=True, exist_ok=True)
        file.write_text(text, encoding="utf-8")

    def make(self, name: str, wrong: str) -> None:
        """Makes a checker, to which one file is wrong."""
        self.write(self.programs / name, CHECKER.replace("NAME", name).replace("WRONG", wrong))
        (self.programs / name).chmod(0o755)

    def told(self, *words: str) -> Tuple[int, List[str]]:
        out = io.StringIO()
        with contextlib.redirect_stdout(out), contextlib.redirect_stderr(out):
            status = linters.main(list(words), self.root)
        return status, out.getvalue().splitlines()

    def test_scripts_are_told_by_their_names_and_first_lines(self) -> None:
        found = linters.find_scripts(self.root)
        self.assertEqual(found.modules, ["tools/low.py"])
        self.assertEqual(found.programs, ["tools/high"])
        packaging = ["packaging/tool.postinst", "packaging/completions/tool.bash"]
        self.assertEqual(found.shell, ["make", "bench/shared", *packaging])

    def test_all_is_well(self) -> None:
        self.assertEqual(self.told(), (0, ["4 passed, 0 failed"]))
        log = self.log.read_text(encoding="utf-8").splitlines()
        self.assertEqual(
            log[:2], [f"{it} tools/low.py tools/high" for it in ("black --check", "pyflakes3")]
        )
        self.assertEqual(sorted(log[2:4]), ["mypy tools/high", "mypy tools/low.py"])
        self.assertEqual(log[4].split()[0], "shellcheck")

    def test_something_is_found(self) -> None:
        for name, wrong in (("mypy", "tools/high"), ("shellcheck", "make")):
            self.make(name, wrong)
        told = [
            "lint: mypy finds this:",
            "tools/high is wrong",
            "lint: shellcheck finds this:",
            "make is wrong",
            "2 passed, 2 failed",
        ]
        self.assertEqual(self.told(), (1, told))

    def test_one_that_fails_without_a_word_is_told(self) -> None:
        self.write(self.programs / "pyflakes3", "#!/bin/sh\nexit 3\n")
        told = [
            "lint: pyflakes3 finds this:",
            "pyflakes3 ended with status 3",
            "3 passed, 1 failed",
        ]
        self.assertEqual(self.told(), (1, told))

    def test_one_that_is_missing_is_left_out(self) -> None:
        real = shutil.which
        without = mock.patch.object(shutil, "which", lambda it: None if it == "mypy" else real(it))
        with without:
            why = "lint: mypy is left out: it isn't installed (Debian's package mypy)"
            self.assertEqual(self.told(), (0, [why, "3 passed, 0 failed"]))

    def test_another_black_is_left_out(self) -> None:
        text = CHECKER.replace("NAME", "black").replace("23.1.0", "24.2.0")
        self.write(self.programs / "black", text)
        why = "lint: black is left out: its version is 24.2.0, and 23 is needed"
        self.assertEqual(self.told(), (0, [why, "3 passed, 0 failed"]))

    def test_words(self) -> None:
        self.assertEqual(self.told("all"), (2, ["lint: takes no word"]))


class ThisRepository(unittest.TestCase):
    """The scripts here are found."""

    def test_some(self) -> None:
        found = linters.find_scripts()
        self.assertTrue({"tools/linters.py", "fleet/sender/run.py"}.issubset(found.modules))
        self.assertTrue({"check", "tools/lint", "fleet/bootfleet"}.issubset(found.programs))
        shell = {"bootvars", "bench/guest", "packaging/debian/bootkeep.postinst", ".ci/run"}
        self.assertTrue(shell.issubset(found.shell))


if __name__ == "__main__":
    unittest.main()
