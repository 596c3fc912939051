#!/usr/bin/env python3
"""Stands for the toolchain's command `rt` in tests of the scripts, and proves nothing.

What it makes are shell scripts that say which program they stand for. FAKE_RT has words that change what it does:

    refuse-try     no program compiles
    slow-try       a program compiles for a minute
    hide-program   what `rt try` runs can't be found, so no copy can be taken
    long-output    `rt try` doesn't say how the program ended
    refuse-run     a proof of a program fails
    refuse-lib     a proof of a library fails
    slow           a proof takes two seconds
"""

from __future__ import annotations

import os
import subprocess
import sys
import tempfile
import time
from pathlib import Path
from typing import List

PROGRAM = """#!/bin/bash
# Shows its words, and a file or a FIFO that it is to show.
if [[ $1 == --help ]]; then
    echo 'Usage: a program'
    exit
fi
if [[ $1 == show || $1 == explain ]] && [[ -e $2 ]]; then
    shown=$(cat -- "$2")
fi
echo "{kind} {name}: $*${{shown:+ has $shown}}"
if [[ $1 == wrong ]]; then
    echo 'wrong words' >&2
    exit 2
fi
"""

MODES = os.environ.get("FAKE_RT", "").split()


def write_program(path: Path, kind: str) -> None:
    """Makes a program for the crate of this folder."""
    path.write_text(PROGRAM.format(kind=kind, name=Path.cwd().name))
    path.chmod(0o755)


def try_program(words: List[str]) -> int:
    """`rt try`: compiles the program in a temporary folder, and runs it there with the words."""
    if "slow-try" in MODES:
        time.sleep(60)
    if "refuse-try" in MODES:
        print("error: it has no main\nrun=none proved=no", file=sys.stderr)
        return 1
    hidden = os.environ["FAKE_RT_HIDDEN"] if "hide-program" in MODES else None
    with tempfile.TemporaryDirectory(dir=hidden) as folder:
        program = Path(folder, "program")
        write_program(program, "unproved")
        ran = subprocess.run([program, *words], cwd=folder, check=False)
    if "long-output" in MODES:
        print("run=none proved=no", file=sys.stderr)
        return 6
    print(f"checked: ended status={ran.returncode}", file=sys.stderr)
    print(f"run=ended status={ran.returncode} runners=1 proved=no", file=sys.stderr)
    return ran.returncode


def prove(verb: str, jobs: List[str]) -> int:
    """`rt run -- --help` and `rt lib`, with or without a number of jobs."""
    name = Path.cwd().name
    print(
        f"rt: chose --jobs 2 for {name}\nchecked one, 1 of 2\nchecked two, 2 of 2", file=sys.stderr
    )
    with open(os.environ["FAKE_RT_LOG"], "a") as log:
        log.write(" ".join([verb, name, *jobs]) + "\n")
    if "slow" in MODES:
        time.sleep(2)
    if f"refuse-{verb}" in MODES or "refuse-lib" in MODES:
        print(f"error: {name} is not proved", file=sys.stderr)
        return 1
    out = Path("out")
    out.mkdir(exist_ok=True)
    if verb == "run":
        write_program(out / name, "proved")
    else:
        (out / "rlib").mkdir(exist_ok=True)
        (out / "rlib" / "stamp").write_text("built")
        (out / f"lib{name}.a").write_text(f"proved {name}\n")
    return 0


def main(words: List[str]) -> int:
    """Does what the words ask for."""
    if words == ["version"]:
        print("a toolchain that proves nothing")
        return 0
    if words[0] == "try":
        return try_program(words[words.index("--") + 1 :])
    return prove(words[0], [] if "--" in words else words[1:])


if __name__ == "__main__":
    sys.exit(main(sys.argv[1:]))
