"""Runs one of the two programs with the given words, as the scripts of their names do.

A program that is proved and built of these sources is run if there is one. Otherwise words that make something which is
kept wait until it is proved and built, and all other words are answered at once by the same sources, compiled without a
proof; standard error says so. The program runs in the caller's folder with the caller's streams, and its status is this
one's, or 70 if there is no program to run.

    launch.py PROGRAM --prove     proves and builds it
    launch.py PROGRAM WORD ..     runs it with these words
"""

from __future__ import annotations

import os
import shutil
import signal
import subprocess
import sys
import tempfile
from pathlib import Path
from typing import Dict, FrozenSet, List, NamedTuple, NoReturn

import trying
from building import NotBuilt, build, proved, say
from progress import Progress
from repository import ROOT, crates_below, read_crates, sources_sum

NO_PROGRAM = 70
"""The status if there is no program to run."""


class Commands(NamedTuple):
    """The commands of a program, each in one of the first two."""

    shows: FrozenSet[str]
    """Those that only show something."""
    keeps: FrozenSet[str]
    """Those that make something which is kept: a file, a variable, or what is sent somewhere."""
    of_places: FrozenSet[str]
    """Those of which each word that is no option names a file or a folder."""


PROGRAMS: Dict[str, Commands] = {
    "bootkeep": Commands(
        shows=frozenset(["path", "text", "option", "show", "--help"]),
        keeps=frozenset(["run"]),
        of_places=frozenset(["option", "show"]),
    ),
    "bootvars": Commands(
        shows=frozenset(["check", "show", "diff", "explain", "help"]),
        keeps=frozenset(
            "read get add remove first order next timeout activate deactivate try confirm apply undo"
            " write update option frame efibootmgr".split()
        ),
        of_places=frozenset(["check", "show", "diff", "explain", "write"]),
    ),
}

DRY = frozenset(
    "add remove first order next timeout activate deactivate try confirm apply undo write update".split()
)
"""The commands of which `--dry-run` makes nothing that is kept."""

LISTING = {"undo": "--list", "apply": "--of"}
"""The option by which a command only shows something."""

HELP = frozenset(["-h", "--help", "-V", "--version"])

LISTS = frozenset(["-v", "--verbose"])
"""The words by which `efibootmgr` only lists, as without any."""


def options_of(words: List[str]) -> List[str]:
    """The words that are read as options: those before a word `--`."""
    return words[: words.index("--")] if "--" in words else words


def only_shows(program: str, words: List[str]) -> bool:
    """Whether the words make nothing that is kept, whatever becomes of them."""
    if not words or words[0] not in PROGRAMS[program].keeps:
        return True
    if program == "bootkeep":
        return False
    if words[0] == "efibootmgr":
        return HELP.union(LISTS).issuperset(words[1:])
    is_help = len(words) > 1 and words[1] in HELP
    options = options_of(words)
    is_list = LISTING.get(words[0]) in options
    return is_help or is_list or words[0] in DRY and "--dry-run" in options


def absolute(program: str, words: List[str]) -> List[str]:
    """The words, of which those that name files do so from any folder."""
    if not words or words[0] not in PROGRAMS[program].of_places:
        return words
    after = len(options_of(words))
    return [
        word
        if at == 0 or word == "-" or at < after and word.startswith("-") or at == after
        else os.path.abspath(word)
        for at, word in enumerate(words)
    ]


def run_unproved(program: str, words: List[str]) -> int:
    """The status of the unproved program with these words.

    Raises NotTried if there is no answer."""
    say(program, "this answer is of the program that isn't proved yet")
    with tempfile.TemporaryDirectory(prefix="bootkeep-") as folder:
        try:
            file = trying.compiled(ROOT, program, trying.WAITS[program], Path(folder))
            status = subprocess.run([file, *words], check=False).returncode
            status = 128 - status if status < 0 else status
        except trying.NotTried:
            if words and words[0] in DRY - PROGRAMS[program].of_places:
                raise
            sys.stdout.flush()
            status, told, complained = trying.answer(
                ROOT, program, absolute(program, words), sys.stdin.buffer
            )
            sys.stdout.buffer.write(told)
            sys.stdout.buffer.flush()
            sys.stderr.buffer.write(complained)
            sys.stderr.buffer.flush()
    say(program, f"not proved; './{program} --prove' proves it: {how_long(program)}")
    return status


def how_long(program: str) -> str:
    """How long it takes to prove the program."""
    crates = read_crates()
    return Progress(program, [*crates_below(program, crates), program], crates, say).outlook()


def give_up(program: str, why: object) -> NoReturn:
    """Ends without a program to run."""
    say(program, str(why))
    sys.exit(NO_PROGRAM)


def main(program: str, words: List[str]) -> int:
    """Runs the program, or builds it."""
    signal.signal(signal.SIGTERM, lambda number, _: sys.exit(128 + number))
    product = proved(program)
    try:
        if words == ["--prove"]:
            build(program)
            say(program, f"proved, in {product.path}")
            return 0
        if not product.is_of(sources_sum(program)):
            if only_shows(program, words) and shutil.which("rt"):
                try:
                    return run_unproved(program, words)
                except trying.NotTried as why:
                    say(program, f"there is no unproved answer, so it is proved now: {why}")
            build(program)
    except NotBuilt as why:
        give_up(program, why)
    except KeyboardInterrupt:
        return 130
    os.execv(product.path, [str(product.path), *words])


if __name__ == "__main__":
    sys.exit(main(sys.argv[1], sys.argv[2:]))
