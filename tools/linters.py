"""What checks the scripts of the repository: how Python is written and typed, and what shell does.

Each of these programs is of Debian; one that isn't installed is left out, which is told. What they are to find is said
in pyproject.toml and .shellcheckrc."""

from __future__ import annotations

import os
import re
import shutil
import subprocess
import sys
from concurrent.futures import ThreadPoolExecutor
from dataclasses import dataclass
from pathlib import Path
from typing import Iterator, List, Optional, Tuple

from repository import ROOT

LEFT_OUT = frozenset([".git", "__pycache__", "out", "target"])
"""The names of folders in which nothing is the repository's."""

PYTHON = re.compile(r"#!.*\bpython")
SHELL = re.compile(r"#!.*\b(ba|da)?sh\b|# shellcheck shell=")
"""How scripts begin whose names don't tell what they are."""

BLACK = "23"
"""The version of black that breaks lines as they are here: others may do otherwise."""


@dataclass(frozen=True)
class Scripts:
    """The scripts of a repository, by their paths in it."""

    modules: List[str]
    """Those of Python that others import, or could."""
    programs: List[str]
    """Those of Python without a suffix."""
    shell: List[str]

    def python(self) -> List[str]:
        """All of Python."""
        return [*self.modules, *self.programs]


@dataclass(frozen=True)
class Linter:
    """A program that checks scripts."""

    name: str
    package: str
    """The package of Debian that has it."""
    calls: List[List[str]]
    """With which words it is called. All calls together are one check."""
    version: Optional[str] = None
    """What its version has to begin with, if that matters."""

    def why_not(self) -> Optional[str]:
        """Why it can't be run here, if it can't."""
        if shutil.which(self.name) is None:
            return f"it isn't installed (Debian's package {self.package})"
        if self.version is None:
            return None
        told = subprocess.run([self.name, "--version"], capture_output=True, text=True, check=False)
        found = re.search(r"\d+\.[\d.]+", told.stdout)
        if found and found[0].startswith(f"{self.version}."):
            return None
        return f"its version is {found[0] if found else 'not told'}, and {self.version} is needed"

    def findings(self, root: Path) -> str:
        """What it says of what it finds wrong; nothing if all is well."""
        with ThreadPoolExecutor(os.cpu_count()) as pool:
            told = pool.map(lambda words: run([self.name, *words], root), self.calls)
            return "".join(told)


def run(words: List[str], root: Path) -> str:
    """What a program says if it doesn't end with status 0."""
    ran = subprocess.run(
        words, cwd=root, stdout=subprocess.PIPE, stderr=subprocess.STDOUT, text=True, check=False
    )
    if ran.returncode == 0:
        return ""
    return ran.stdout or f"{words[0]} ended with status {ran.returncode}\n"


def files(root: Path) -> Iterator[Path]:
    """The files of the repository, in the order of their paths."""
    for folder, folders, names in os.walk(root):
        folders[:] = sorted(it for it in folders if it not in LEFT_OUT)
        paths = (Path(folder, name) for name in sorted(names))
        yield from (file for file in paths if file.is_file())


def first_line(file: Path) -> str:
    """How a file begins."""
    with file.open("rb") as it:
        return it.readline(100).decode(errors="replace")


def find_scripts(root: Path = ROOT) -> Scripts:
    """The scripts of the repository."""
    found = Scripts([], [], [])
    for file in files(root):
        begin = first_line(file)
        if file.suffix == ".py":
            found.modules.append(str(file.relative_to(root)))
        elif PYTHON.match(begin):
            found.programs.append(str(file.relative_to(root)))
        elif file.suffix in (".sh", ".bash") or SHELL.match(begin):
            found.shell.append(str(file.relative_to(root)))
    return found


def linters_over(scripts: Scripts) -> List[Linter]:
    """What is to be run over these scripts. To mypy each program is the module that runs, so it gets one at a time."""
    return [
        Linter("black", "black", [["--check", *scripts.python()]], BLACK),
        Linter("pyflakes3", "pyflakes3", [scripts.python()]),
        Linter("mypy", "mypy", [scripts.modules, *([it] for it in scripts.programs)]),
        Linter("shellcheck", "shellcheck", [scripts.shell]),
    ]


def lint(root: Path = ROOT) -> Tuple[int, int]:
    """How many of the checks pass and fail. What is found, and what is left out, is told."""
    passed = failed = 0
    for linter in linters_over(find_scripts(root)):
        why = linter.why_not()
        if why:
            print(f"lint: {linter.name} is left out: {why}", file=sys.stderr, flush=True)
            continue
        findings = linter.findings(root)
        passed, failed = passed + (not findings), failed + bool(findings)
        if findings:
            print(f"lint: {linter.name} finds this:\n{findings}", end="", flush=True)
    return passed, failed


def main(words: List[str], root: Path = ROOT) -> int:
    """Runs all checks, and says how many pass. The answer is a status."""
    if words:
        print("lint: takes no word", file=sys.stderr)
        return 2
    passed, failed = lint(root)
    print(f"{passed} passed, {failed} failed")
    return 1 if failed else 0
