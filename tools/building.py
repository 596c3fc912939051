"""Proves and builds what a crate is made into: a program, or a static library.

Libraries that don't stand on each other are proved side by side. `rt` builds nothing beside a library that it uses, so
each of them stands in a tree of its own meanwhile."""

from __future__ import annotations

import contextlib
import fcntl
import os
import re
import shutil
import subprocess
import sys
import threading
from pathlib import Path
from typing import Dict, Iterator, List

from progress import Progress
from repository import (
    PARTS,
    ROOT,
    Product,
    crates_below,
    read_crates,
    sources_sum,
    toolchain_note,
    toolchain_sum,
)

ROOM_FOR_TWO = 12_000_000_000
"""How many bytes of memory have to be free for libraries to be proved side by side."""

JOBS_MAX = 4
"""How many jobs the proof of a library has at most. Each takes up to 2 GB, and more gain little."""

LOG_END = 20
"""How many lines of what a failed build said are told."""

WENT_WELL = re.compile(
    r"^\w+ (.*: proved$|so far: |checked |statements |library |crate |axioms |logic |logic=proved )"
)
"""What `rt` says of what went well, behind the name of the crate that it was called for."""


class NotBuilt(Exception):
    """Why there is nothing that was built."""


def proved(name: str, root: Path = ROOT) -> Product:
    """What is proved and built of a crate, whether it is there or not."""
    is_static = read_crates(root)[name].is_static
    return Product("proved", f"lib{name}.a" if is_static else name, root)


def say(name: str, text: str) -> None:
    """Tells the person who waits how it goes."""
    print(f"{name}: {text}", file=sys.stderr, flush=True)


def build(name: str, root: Path = ROOT) -> Path:
    """What is proved of these sources and built: what is there, or what is made now, one caller at a time.

    Raises NotBuilt if there is none."""
    product = proved(name, root)
    if not product.is_of(sources_sum(name, root)):
        with _turn(name, root):
            if not product.is_of(sources_sum(name, root)):
                _Build(name, product, root).run()
    return product.path


def build_by_rattle(name: str, root: Path = ROOT) -> Path:
    """A static library that is proved as `build` does it, and compiled by the toolchain's own compiler: in a tree of its
    own, whose crates.txt says so, with what is kept of the proof. One caller at a time makes it.

    Raises NotBuilt if there is none."""
    tree = root / "out" / "rattle"
    product = Product("proved", f"lib{name}.a", tree)
    if not product.is_of(sources_sum(name, root)):
        build(name, root)
        with _turn(name, root):
            if not product.is_of(sources_sum(name, root)):
                _plant_for_rattle(name, root, tree)
                build(name, tree)
    return product.path


def _plant_for_rattle(name: str, root: Path, tree: Path) -> None:
    """Makes the tree in which the library is compiled by the toolchain's own compiler.

    Raises NotBuilt if it can't be made."""
    try:
        _copy_for_rattle(name, root, tree)
    except OSError as error:
        raise NotBuilt(f"{error.filename} can't be copied: {error.strerror}") from error


def _copy_for_rattle(name: str, root: Path, tree: Path) -> None:
    crates = read_crates(root)
    below = crates_below(name, crates)
    shutil.rmtree(tree, ignore_errors=True)
    for crate in [*below, name]:
        for part in PARTS:
            if (root / "crates" / crate / part).is_dir():
                shutil.copytree(root / "crates" / crate / part, tree / "crates" / crate / part)
        kept, copy = root / "crates" / crate / "out", tree / "crates" / crate / "out"
        if crate == name and kept.is_dir():
            shutil.copytree(kept, copy)
        elif crate != name and (kept / "rlib").is_dir():
            # Nothing writes to a library that is built, and links take no room.
            shutil.copytree(kept / "rlib", copy / "rlib", copy_function=os.link)
    shutil.copy(root / "HANDLES", tree)
    lines = [f"{it}: {' '.join(crates[it].libraries)}\n" for it in below]
    lines.append(f"{name} staticlib backend=rattle: {' '.join(crates[name].libraries)}\n")
    (tree / "crates.txt").write_text("".join(lines), encoding="utf-8")


@contextlib.contextmanager
def _turn(name: str, root: Path) -> Iterator[None]:
    """Waits until no other caller builds."""
    try:
        for folder in [root, *(root / "crates" / crate for crate in read_crates(root))]:
            (folder / "out").mkdir(exist_ok=True)
        lock = open(root / "out" / "build.lock", "w", encoding="utf-8")
    except OSError as error:
        raise NotBuilt(
            f"it has to be proved and built, and {error.filename} can't be written: {error.strerror}"
        ) from error
    with lock:
        try:
            fcntl.flock(lock, fcntl.LOCK_EX | fcntl.LOCK_NB)
        except BlockingIOError:
            say(name, "waiting for another build")
            fcntl.flock(lock, fcntl.LOCK_EX)
        yield


class _Build:
    """A build that is at work."""

    def __init__(self, name: str, product: Product, root: Path) -> None:
        self.name, self.product, self.root = name, product, root
        self.crates = read_crates(root)
        self.trees = root / "out" / "trees"
        self.log: List[str] = []
        self.running: Dict[str, "subprocess.Popen[str]"] = {}
        self.changed = threading.Condition()
        self.lanes: List[threading.Thread] = []
        self.lacking: List[str] = []
        self.is_stopped = False

    def run(self) -> None:
        """Proves and builds, and keeps what comes out."""
        if toolchain_sum() is None:
            raise NotBuilt(
                "it has to be proved and built, and the command rt, which does that, isn't on PATH"
            )
        below = crates_below(self.name, self.crates)
        self.lacking = [it for it in below if not self._has_library(it)]
        self.progress = Progress(self.name, [*self.lacking, self.name], self.crates, say)
        note = toolchain_note()
        if note:
            say(self.name, note)
        say(self.name, f"it is proved first: {self.progress.outlook()}")
        sources = sources_sum(self.name, self.root)
        with self.progress.shown():
            try:
                if len(self.lacking) > 1 and has_room():
                    self._build_side_by_side()
                status = self._call(self.name, self.root / "crates" / self.name, self._last_words())
            finally:
                self._stop()
        made = self.root / "crates" / self.name / "out" / self.product.path.name
        if status != 0 or not made.is_file():
            raise NotBuilt(self._why())
        if sources != sources_sum(self.name, self.root):
            raise NotBuilt("sources changed while it was built: call again")
        self.product.keep(made, sources)
        say(self.name, f"proved and built in {self.progress.passed()}")

    def _last_words(self) -> List[str]:
        """`rt run` also runs the program: on a word that does no more than print how it is called."""
        return ["lib"] if self.crates[self.name].is_static else ["run", "--", "--help"]

    def _library(self, crate: str) -> Path:
        return self.root / "crates" / crate / "out" / "rlib"

    def _has_library(self, crate: str) -> bool:
        """Whether a library has been built, of these sources or of others."""
        return (self._library(crate) / "stamp").is_file()

    def _build_side_by_side(self) -> None:
        """Builds the libraries that have never been built. What doesn't come out is left to the last call, which says
        why."""
        self._clear_trees()
        self.trees.mkdir()
        self.lanes = [
            threading.Thread(target=self._build_library, args=(it,)) for it in self.lacking
        ]
        for lane in self.lanes:
            lane.start()
        for lane in self.lanes:
            lane.join()

    def _build_library(self, library: str) -> None:
        """Builds a library as soon as those below it are built."""
        below = crates_below(library, self.crates)
        with self.changed:
            self.changed.wait_for(
                lambda: self.is_stopped or all(self._has_library(it) for it in below)
            )
            if self.is_stopped:
                return
        status = 1
        try:
            tree = self._plant_tree(library, below)
            words = ["lib", *self._jobs(library)]
            status = self._call(library, tree / "crates" / library, words)
        except OSError as error:
            self.log.append(f"{library} {error}")
        finally:
            with self.changed:
                self._put_back(library)
                self.is_stopped = self.is_stopped or status != 0
                self.changed.notify_all()

    def _jobs(self, library: str) -> List[str]:
        """The words by which a library beside which no other one can be proved gets all processors: `rt` alone would
        give it two jobs at most if it is no large one. None otherwise, or if there is little memory.
        """
        others = [it for it in self.lacking if it != library and not self._has_library(it)]
        is_alone = not any(
            all(self._has_library(below) for below in crates_below(it, self.crates))
            for it in others
        )
        if not is_alone or not has_room():
            return []
        return ["--jobs", str(min(len(os.sched_getaffinity(0)), JOBS_MAX))]

    def _plant_tree(self, library: str, below: List[str]) -> Path:
        """Makes a tree for a library: all sources, what is built of the crates below it, and what is kept of itself."""
        tree = self.trees / library
        for crate in self.crates:
            for part in PARTS:
                if (self.root / "crates" / crate / part).is_dir():
                    copied = tree / "crates" / crate / part
                    shutil.copytree(self.root / "crates" / crate / part, copied)
        shutil.copy(self.root / "crates.txt", tree)
        for crate in below:
            # Links take no room, and nothing writes to a library that is built.
            to = tree / "crates" / crate / "out" / "rlib"
            shutil.copytree(self._library(crate), to, copy_function=os.link)
        os.rename(self.root / "crates" / library / "out", tree / "crates" / library / "out")
        return tree

    def _put_back(self, library: str) -> None:
        """Moves what a library's tree keeps of it to its place."""
        kept = self.trees / library / "crates" / library / "out"
        if kept.is_dir():
            shutil.rmtree(self.root / "crates" / library / "out", ignore_errors=True)
            os.rename(kept, self.root / "crates" / library / "out")

    def _call(self, crate: str, folder: Path, words: List[str]) -> int:
        """Calls `rt` in a crate's folder, and shows how far it is."""
        with self.changed:
            if self.is_stopped and crate != self.name:
                return 1
            called = subprocess.Popen(
                ["rt", *words],
                cwd=folder,
                stdin=subprocess.DEVNULL,
                stdout=subprocess.PIPE,
                stderr=subprocess.STDOUT,
                text=True,
                errors="replace",
            )
            self.running[crate] = called
        self.progress.begin(crate)
        assert called.stdout is not None
        for line in called.stdout:
            self.log.append(f"{crate} {line.rstrip()}")
            self.progress.tell(crate, line)
        status = called.wait()
        with self.changed:
            del self.running[crate]
        if status == 0:
            self.progress.end(crate)
        return status

    def _stop(self) -> None:
        """Lets no library's build go on, and keeps what they have done so far."""
        with self.changed:
            self.is_stopped = True
            for called in self.running.values():
                called.terminate()
            self.changed.notify_all()
        for lane in self.lanes:
            lane.join()
        self._clear_trees()

    def _clear_trees(self) -> None:
        """Removes the trees, also those of a build that was killed, and keeps what was done in them."""
        if self.trees.is_dir():
            for tree in self.trees.iterdir():
                self._put_back(tree.name)
            shutil.rmtree(self.trees, ignore_errors=True)

    def _why(self) -> str:
        """The end of what a failed build said, and where all of it is."""
        log = self.root / "out" / f"{self.name}.log"
        log.write_text("".join(f"{line}\n" for line in self.log), encoding="utf-8")
        told = [line.partition(" ")[2] for line in self.log if not WENT_WELL.match(line)]
        return "\n".join(
            [*told[-LOG_END:], f"{self.name}: the build failed; all that it said is in {log}"]
        )


def has_room() -> bool:
    """Whether there are processors and memory for two builds."""
    with open("/proc/meminfo", encoding="ascii") as lines:
        free = next((int(it.split()[1]) for it in lines if it.startswith("MemAvailable:")), 0)
    return len(os.sched_getaffinity(0)) > 1 and free * 1024 > ROOM_FOR_TWO
