"""The manuals say what the words of the programs are, and are written as mandoc wants it."""

from __future__ import annotations

import re
import shutil
import subprocess

import pytest
from conftest import FLEET, bootfleet

PAGES = ("bootfleet.1", "bootfleet-agent.8")
FOLDER = FLEET.parent / "packaging/man"


def manual(*words: str) -> "subprocess.CompletedProcess[str]":
    return subprocess.run([FLEET / "manual", *words], capture_output=True, text=True, check=False)


def test_words_are_those_of_the_programs() -> None:
    run = manual("--check")
    assert (run.returncode, run.stdout, run.stderr) == (0, "", "")


def test_words_that_it_does_not_know() -> None:
    run = manual("-c")
    assert (run.returncode, run.stdout) == (2, "")


@pytest.mark.skipif(shutil.which("mandoc") is None, reason="mandoc isn't there")
@pytest.mark.parametrize("page", PAGES)
def test_how_they_are_written(page: str) -> None:
    words = ["mandoc", "-T", "lint", "-W", "warning", str(FOLDER / page)]
    run = subprocess.run(words, capture_output=True, text=True, check=False)
    assert (run.returncode, run.stdout, run.stderr) == (0, "", "")


def test_each_command_and_option_is_there() -> None:
    """By what --help prints, and not by what makes the manual."""
    text = (FOLDER / "bootfleet.1").read_text(encoding="utf-8")
    commands = re.findall(r"^    ([\w-]+)\s", bootfleet("--help"), re.M)
    assert {"init", "enroll-sender", "try", "cancel"} <= set(commands)
    for command in commands:
        part = re.search(rf"\n\.It Cm {command}\n(.*?)\n(?:\.It Cm |\.\\\")", text, re.S)
        assert part is not None, command
        options = re.findall(r"^  --([\w-]+)", bootfleet(command, "--help"), re.M)
        assert re.findall(r"^\.It Fl -([\w-]+)", part[1], re.M) == options


def test_the_environment_is_there() -> None:
    for page, files in (
        ("bootfleet.1", [*(FLEET / "sender").glob("*.py")]),
        ("bootfleet-agent.8", [FLEET / "bootfleet-agent"]),
    ):
        code = "".join(file.read_text(encoding="utf-8") for file in files)
        named = re.findall(r'environ(?:\.get\(|\[)"(\w+)"', code)
        text = (FOLDER / page).read_text(encoding="utf-8")
        assert named
        assert [it for it in named if f".It Ev {it}\n" not in text] == []
