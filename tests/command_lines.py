"""Command lines of the programs, each run in a new folder with the files that its case states."""

from __future__ import annotations

import functools
import os
import shutil
import stat
import subprocess
import tempfile
from pathlib import Path
from typing import Dict, List, Optional, Set

from asking import KEEPS_FILES, Answer, NoAnswer, Surroundings, ask, shown
from case_files import Case, Stated, bytes_of, image_of, text_of

SECONDS = 300
"""After how many seconds a command line has no answer."""

IN_MEMORY = (
    "in_memory",
    "refused",
    "locked",
    "hidden",
    "forbidden",
    "after_names",
    "after_rename",
    "before_lock",
)
"""The members of a case that only files in memory can have."""
PIPE = "a named pipe"


def runs_in_a_folder(case: Case) -> bool:
    """Whether a case needs a folder and no more.

    Others have files elsewhere, or some that are refused, locked or hidden, or that somebody else changes.
    """
    members = case.members
    if any(name in members for name in IN_MEMORY):
        return False
    stated = ("files", "texts", "images", "after", "links", "devices", "unchecked")
    return not any(path.startswith("/") for name in stated for path in members.get(name, []))


@functools.lru_cache(maxsize=None)
def may_give_files_away() -> bool:
    """Whether this user may, and may run programs that may not."""
    if shutil.which(KEEPS_FILES[0]) is None:
        return False
    with tempfile.TemporaryDirectory(prefix="bootkeep-case-") as folder:
        try:
            os.chown(folder, 1, 1)
        except OSError:
            return False
    return subprocess.run([*KEEPS_FILES, "true"], capture_output=True, check=False).returncode == 0


def differences(program: Path, case: Case) -> List[str]:
    """Runs a case, and tells what isn't as it states: nothing if it passes."""
    with tempfile.TemporaryDirectory(prefix="bootkeep-case-") as folder:
        home = Path(folder, "home")
        home.mkdir()
        contents = Contents(case)
        contents.make(home)
        try:
            if "first" in case.members:
                first = _run(program, case, "first", home)
                if first.status != 0:
                    return [f"the first run ends with status {first.status}"]
            answer = _run(program, case, "words", home)
        except NoAnswer as why:
            return [str(why)]
        return _unlike(case.members, answer) + contents.unlike(home)


def _run(program: Path, case: Case, words: str, home: Path) -> Answer:
    """What the program answers to those words of a case that this member has.

    Raises NoAnswer if it doesn't end by itself."""
    members = case.members
    around = Surroundings(
        folder=home,
        stdin=bytes_of(members.get("stdin", "")),
        full=members.get("full", []),
        closed="closed" in members,
        memory=members.get("memory"),
        keeps_files="keeps_files" in members,
        environment=members.get("environment"),
    )
    given = [case.call.encode(), *(_word_of(word) for word in members[words])]
    return ask(program, given, SECONDS, around)


def _word_of(stated: Stated) -> bytes:
    """A word: a text, or bytes that are none."""
    if isinstance(stated, dict) and "hex" in stated:
        return bytes_of(stated["hex"])
    return text_of(stated).encode()


def _unlike(members: Dict[str, Stated], answer: Answer) -> List[str]:
    """What isn't wanted of an answer."""
    unlike = []
    wanted_status = members.get("status", 0)
    if answer.status != wanted_status:
        unlike.append(f"status {answer.status}, wanted {wanted_status}")
    if "bytes" in members:
        stdout, wanted_stdout = answer.stdout.hex(), text_of(members["bytes"])
    else:
        stdout, wanted_stdout = _text(answer.stdout), text_of(members.get("stdout", ""))
    stderr, wanted_stderr = _text(answer.stderr), text_of(members.get("stderr", ""))
    for name, found, wanted in (
        ("stdout", stdout, wanted_stdout),
        ("stderr", stderr, wanted_stderr),
    ):
        if found != wanted:
            unlike.append(f"{name} {shown(found)}, wanted {shown(wanted)}")
    return unlike


def _text(printed: bytes) -> str:
    return printed.decode(errors="replace")


class Contents:
    """What is in the folder of a case, before it and after it."""

    def __init__(self, case: Case) -> None:
        members = case.members
        stated = members.get("files", {})
        self.files = {path: bytes_of(it) for path, it in stated.items() if path[-1] != "/"}
        texts: Dict[str, Stated] = members.get("texts", {})
        self.files.update({path: text_of(it).encode() for path, it in texts.items()})
        images: Dict[str, Dict[str, Stated]] = members.get("images", {})
        self.files.update({path: image_of(members["image"], it) for path, it in images.items()})
        self.devices: List[str] = members.get("devices", [])
        for path in self.devices:
            self.files.pop(path, None)
        self.folders = {path.rstrip("/") for path in stated if path[-1] == "/"}
        self.links: Dict[str, str] = members.get("links", {})
        self.fifos: List[str] = members.get("fifos", [])
        self.modes = {path: int(it, 8) for path, it in members.get("modes", {}).items()}
        changed = {path: int(it, 8) for path, it in members.get("modes_after", {}).items()}
        self.modes_after = {**self.modes, **changed}
        self.owners: Dict[str, List[int]] = members.get("owners", {})
        self.owners_after = {} if "keeps_files" in members else self.owners
        self.after: Dict[str, Stated] = members.get("after", {})
        self.unchecked: List[str] = members.get("unchecked", [])

    def make(self, home: Path) -> None:
        """Makes the files, the folders, the links and the pipes, with their rights."""
        for path in self.folders:
            (home / path).mkdir(parents=True, exist_ok=True)
        for path, content in self.files.items():
            (home / path).parent.mkdir(parents=True, exist_ok=True)
            (home / path).write_bytes(content)
        for path in self.devices:
            (home / path).parent.mkdir(parents=True, exist_ok=True)
            os.mkfifo(home / path)
        for path, target in self.links.items():
            (home / path).parent.mkdir(parents=True, exist_ok=True)
            (home / path).symlink_to(target)
        for path in self.fifos:
            (home / path).parent.mkdir(parents=True, exist_ok=True)
            os.mkfifo(home / path)
        for path, (user, group) in self.owners.items():
            os.chown(home / path, user, group)
        for path, mode in self.modes.items():
            if (home / path).exists():
                (home / path).chmod(mode)

    def unlike(self, home: Path) -> List[str]:
        """What isn't so after it."""
        found, due = self._found(home), self._due()
        for path in self.unchecked:
            found[path] = due[path] = "unchecked"
            if path in self.modes_after:
                due[path] = _rights(self.modes_after[path])
                found[path] = _rights(stat.S_IMODE((home / path).lstat().st_mode))
        unlike = []
        for path in sorted({*found, *due}):
            one, other = found.get(path, "nothing"), due.get(path, "nothing")
            if one != other:
                unlike.append(f"{path}: {shown(one)}, wanted {shown(other)}")
        return unlike + self._unlike_folders(home)

    def _found(self, home: Path) -> Dict[str, str]:
        """The files and the links that are there, by their paths, in words."""
        found = {}
        for path in _below(home):
            status = (home / path).lstat()
            if stat.S_ISLNK(status.st_mode):
                found[path] = f"a link to {os.readlink(home / path)}"
            elif stat.S_ISFIFO(status.st_mode):
                found[path] = PIPE
            elif not stat.S_ISDIR(status.st_mode):
                mode = stat.S_IMODE(status.st_mode) if path in self.modes_after else None
                owner = [status.st_uid, status.st_gid] if path in self.owners_after else None
                found[path] = _in_words((home / path).read_bytes(), mode, owner)
        return found

    def _due(self) -> Dict[str, str]:
        """Those that have to be there after it."""
        files = dict(self.files)
        for path, stated in self.after.items():
            if stated is None:
                del files[path]
            else:
                files[path] = bytes_of(stated)
        due = {
            path: _in_words(it, self.modes_after.get(path), self.owners_after.get(path))
            for path, it in files.items()
        }
        due.update({path: f"a link to {target}" for path, target in self.links.items()})
        due.update({path: PIPE for path in [*self.devices, *self.fifos]})
        return due

    def _unlike_folders(self, home: Path) -> List[str]:
        """Which of the folders are gone, and which are there without a reason."""
        known = set(self.folders)
        for path in [
            *self.files,
            *self.folders,
            *self.after,
            *self.links,
            *self.devices,
            *self.fifos,
        ]:
            known.update(str(folder) for folder in Path(path).parents)
        found = {path for path in _below(home) if stat.S_ISDIR((home / path).lstat().st_mode)}
        gone = [f"{path}: no folder" for path in sorted(self.folders - found)]
        return gone + [f"{path}: a new folder" for path in sorted(found - known)]


def _below(home: Path) -> Set[str]:
    """The paths of all that is below a folder."""
    below: Set[str] = set()
    for folder, folders, files in os.walk(home):
        below.update(os.path.relpath(os.path.join(folder, it), home) for it in folders + files)
    return below


def _in_words(content: bytes, mode: Optional[int], owner: Optional[List[int]]) -> str:
    """What a file has, and its rights and whose it is, if they matter."""
    rights = "" if mode is None else f", {_rights(mode)}"
    whose = "" if owner is None else f", of user {owner[0]} and group {owner[1]}"
    return f"{len(content)} bytes{rights}{whose}: {content.hex()}"


def _rights(mode: int) -> str:
    """The rights of a file, in words."""
    return f"rights {mode:o}"
