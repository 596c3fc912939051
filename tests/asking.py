"""Programs that are asked something, and what they answer."""

from __future__ import annotations

import functools
import os
import signal
import subprocess
import tempfile
from contextlib import ExitStack
from pathlib import Path
from typing import Any, Dict, List, Mapping, NamedTuple, Optional, Sequence, Tuple

FULL = "/dev/full"
"""What takes no byte."""

KEEPS_FILES = ["setpriv", "--bounding-set=-chown"]
"""What runs a program so that it may give no file away."""

SHOWN = 400
"""How many characters of an answer are told."""


class Answer(NamedTuple):
    """What a program answers."""

    status: int
    stdout: bytes
    stderr: bytes


class NoAnswer(Exception):
    """Why there is none."""


class Surroundings(NamedTuple):
    """What a program finds when it runs."""

    folder: Optional[Path] = None
    """The folder that it runs in, if that matters."""
    stdin: bytes = b""
    full: Sequence[str] = ()
    """Which of `stdout` and `stderr` take no byte."""
    closed: bool = False
    """Whether nobody reads standard output."""
    memory: Optional[int] = None
    """How many MiB it has at most, if that is limited."""
    keeps_files: bool = False
    """Whether it may give no file to another user or group, though root runs it."""
    environment: Optional[Mapping[str, str]] = None
    """The variables of its environment, if it has some."""


ANYWHERE = Surroundings()


def ask(
    program: Path, words: Sequence[bytes], seconds: float, around: Surroundings = ANYWHERE
) -> Answer:
    """What a program answers to words, the first of which is its name.

    Raises NoAnswer if it doesn't end by itself within so many seconds."""
    with ExitStack() as closing:
        settings: Dict[str, Any] = {"executable": program, "args": words}
        settings["env"] = dict(around.environment or {})
        if around.memory is not None and _is_sanitized(program):
            logs = closing.enter_context(tempfile.TemporaryDirectory(prefix="bootkeep-asan-"))
            settings["env"]["ASAN_OPTIONS"] = _sanitizer_options(around.memory, logs)
        elif around.memory is not None:
            settings["executable"], settings["args"] = _limited(program, words, around.memory)
        elif around.keeps_files:
            given = [*KEEPS_FILES, os.fspath(program), *map(os.fsdecode, words[1:])]
            settings["executable"], settings["args"] = given[0], given
        for stream in ("stdout", "stderr"):
            settings[stream] = subprocess.PIPE
            if stream in around.full:
                settings[stream] = closing.enter_context(open(FULL, "wb"))
        if around.closed:
            settings["stdout"] = _unread(closing)
        try:
            done = subprocess.run(
                input=around.stdin, cwd=around.folder, timeout=seconds, check=False, **settings
            )
        except subprocess.TimeoutExpired:
            raise NoAnswer(f"no answer within {seconds:g} seconds") from None
        except OSError as error:
            raise NoAnswer(f"it doesn't start: {error.strerror}") from None
    if done.returncode < 0:
        raise NoAnswer(f"killed by {_signal_name(-done.returncode)}")
    return Answer(done.returncode, done.stdout or b"", done.stderr or b"")


def shown(text: str) -> str:
    """The start of a text, on one line."""
    return repr(text[:SHOWN]) + ("..." if len(text) > SHOWN else "")


def _unread(closing: ExitStack) -> int:
    """What takes bytes and is read by nobody."""
    reader, writer = os.pipe()
    os.close(reader)
    closing.callback(os.close, writer)
    return writer


@functools.lru_cache(maxsize=None)
def _is_sanitized(program: Path) -> bool:
    """Whether the program was compiled with AddressSanitizer, which needs much address space."""
    return b"AddressSanitizer" in program.read_bytes()


def _sanitizer_options(mebibytes: int, logs: str) -> str:
    """With these AddressSanitizer refuses more than half of that at once, and says so elsewhere."""
    limit = f"max_allocation_size_mb={mebibytes // 2}:allocator_may_return_null=1"
    return f"{limit}:log_path={logs}/asan"


def _limited(program: Path, words: Sequence[bytes], mebibytes: int) -> Tuple[str, List[bytes]]:
    """A shell that runs the program with little address space, and its words."""
    script = f'ulimit -v {mebibytes * 1024} && exec "$0" "$@"'
    return "/bin/sh", [b"sh", b"-c", script.encode(), os.fsencode(program), *words[1:]]


def _signal_name(number: int) -> str:
    try:
        return signal.Signals(number).name
    except ValueError:
        return f"signal {number}"
