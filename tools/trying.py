"""Programs that aren't proved: `rt try` compiles and runs them within a minute or two.

What `rt try` compiles is an ordinary program, which it runs in a temporary folder and then removes. So it is called for
once with words that keep the program waiting, and a copy is taken meanwhile, which then answers by itself."""

from __future__ import annotations

import fcntl
import os
import re
import signal
import subprocess
import sys
import tempfile
import time
from pathlib import Path
from typing import IO, List, Optional, Tuple

from repository import Product, sources_sum

COMPILED_WITHIN = 600
"""After how many seconds a program that isn't compiled is given up."""

ANSWERED_WITHIN = 20
"""The same for a copy of it that is asked for its help."""

WAITS = {"bootkeep": ["show"], "bootvars": ["explain"]}
"""The words of each program before the path of a file at which it waits if that is a FIFO."""

TRIED = re.compile(rb"(?:^|(?<=\n))(?:checked: .*\n)?run=ended status=(\d+) .*proved=no\n\Z")
"""The end of what `rt try` says of a program that ended, on standard error after what that said itself."""


class NotTried(Exception):
    """Why there is no program, or no answer of it."""


def compiled(tree: Path, crate: str, waits_on: List[str], into: Path) -> Path:
    """A program of a tree, unproved: the one of these sources that is kept, or one that is compiled now, one caller at a
    time. If it can't be kept, it is in the folder `into`.

    The program has to wait while it opens a FIFO whose path follows the words `waits_on`, and to answer `--help`.

    Raises NotTried if there is no such program."""
    kept = Product("unproved", crate)
    sources = sources_sum(crate, tree)
    if kept.is_of(sources):
        return kept.path
    try:
        kept.path.parent.mkdir(parents=True, exist_ok=True)
        lock = open(kept.path.with_name(f"{crate}.lock"), "w", encoding="utf-8")
    except OSError:
        return build(tree, crate, waits_on, into)
    with lock:
        fcntl.flock(lock, fcntl.LOCK_EX)
        if not kept.is_of(sources):
            made = build(tree, crate, waits_on, into)
            if sources != sources_sum(crate, tree):
                return made
            kept.keep(made, sources)
    return kept.path


def build(tree: Path, crate: str, waits_on: List[str], into: Path) -> Path:
    """Compiles a program as `compiled` does, and gives a copy of it in the folder `into`."""
    print(
        f"{crate}: compiling it without a proof takes a minute or two", file=sys.stderr, flush=True
    )
    with tempfile.TemporaryDirectory(prefix="bootkeep-try-") as folder:
        fifo = Path(folder, "fifo")
        os.mkfifo(fifo)
        words = [*waits_on, str(fifo)]
        with open(Path(folder, "said"), "w+b") as said:
            trying = subprocess.Popen(
                ["rt", "try", "--seconds", str(COMPILED_WITHIN), "--", *words],
                cwd=tree / "crates" / crate,
                env={**os.environ, "TMPDIR": folder},
                stdin=subprocess.DEVNULL,
                stdout=said,
                stderr=said,
                start_new_session=True,
            )
            try:
                made = _copy_of_running(trying, words, Path(folder), into / crate)
            finally:
                _end(trying)
            if made is None:
                said.seek(0)
                why = said.read().decode(errors="replace")
                raise NotTried(why or "`rt try` compiled nothing, and doesn't say why")
    _check_answers(made)
    return made


def _copy_of_running(
    trying: "subprocess.Popen[bytes]", words: List[str], folder: Path, copy: Path
) -> Optional[Path]:
    """Copies the program that runs with these words, as soon as it waits on the FIFO that the last of them names: None if
    `rt try` ends before.

    Raises NotTried if that takes too long, or the program isn't found."""
    until = time.monotonic() + COMPILED_WITHIN
    while trying.poll() is None:
        if time.monotonic() > until:
            minutes = COMPILED_WITHIN // 60
            raise NotTried(
                f"it wasn't compiled within {minutes} minutes: try again when the machine has less to do"
            )
        time.sleep(0.1)
        try:
            fifo = os.open(words[-1], os.O_WRONLY | os.O_NONBLOCK)
        except OSError:
            continue  # Nobody reads it yet.
        try:
            program = _running(words, folder)
            if program is None:
                raise NotTried("the program that was compiled isn't found while it runs")
            copy.write_bytes(program.read_bytes())
            copy.chmod(0o755)
            return copy
        finally:
            os.close(fifo)
    return None


def _running(words: List[str], folder: Path) -> Optional[Path]:
    """The program below the folder that runs with these words, perhaps by a loader that was given its path."""
    wanted = [word.encode() for word in words]
    for process in Path("/proc").glob("[0-9]*"):
        try:
            said = (process / "cmdline").read_bytes().split(b"\0")[:-1]
            if said[-len(wanted) :] == wanted:
                named = [Path(os.fsdecode(word)) for word in said[: -len(wanted)]]
                for program in (Path(os.readlink(process / "exe")), *reversed(named)):
                    if folder in program.parents and program.is_file():
                        return program
        except OSError:
            pass  # It has just ended, or is somebody else's.
    return None


def _end(trying: "subprocess.Popen[bytes]") -> None:
    """Ends what `rt try` runs, and waits until it has cleaned up."""
    trying.send_signal(signal.SIGTERM)
    try:
        trying.wait(ANSWERED_WITHIN)
    except subprocess.TimeoutExpired:
        os.killpg(trying.pid, signal.SIGKILL)
        trying.wait()


def _check_answers(program: Path) -> None:
    try:
        asked = subprocess.run(
            [program, "--help"],
            stdin=subprocess.DEVNULL,
            capture_output=True,
            timeout=ANSWERED_WITHIN,
            check=False,
        )
    except (OSError, subprocess.TimeoutExpired) as error:
        raise NotTried(f"the program that was compiled doesn't run by itself: {error}") from error
    if asked.returncode != 0 or not asked.stdout:
        raise NotTried("the program that was compiled doesn't answer by itself")


def answer(tree: Path, crate: str, words: List[str], given: IO[bytes]) -> Tuple[int, bytes, bytes]:
    """The status and the two outputs of a program of a tree that `rt try` runs, unproved, with these words.

    It runs in a folder of its own, so a word that names a file has to be an absolute path. All of standard input is read
    first.

    Raises NotTried if the program didn't end by itself, or said more than `rt try` shows."""
    with tempfile.TemporaryFile() as stdin:
        if not given.isatty():
            for piece in iter(lambda: given.read(1 << 16), b""):
                stdin.write(piece)
            stdin.seek(0)
        tried = subprocess.run(
            ["rt", "try", "--seconds", str(COMPILED_WITHIN), "--", *words],
            cwd=tree / "crates" / crate,
            stdin=stdin,
            capture_output=True,
            check=False,
        )
    ended = TRIED.search(tried.stderr)
    if ended is None:
        raise NotTried(tried.stderr.decode(errors="replace"))
    return int(ended[1]), tried.stdout, tried.stderr[: ended.start()]
