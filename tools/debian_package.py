"""Packages for Debian, made by dpkg's own tools out of the files of packaging/debian."""

from __future__ import annotations

import email.utils
import gzip
import os
import re
import shutil
import subprocess
import textwrap
from datetime import datetime, timezone
from pathlib import Path
from typing import List, NamedTuple

from file_tree import DATA_MODE, PROGRAM_MODE, FileTree
from repository import ROOT

SOURCES = ROOT / "packaging" / "debian"

TOOLS = ("dpkg-deb", "dpkg-gencontrol", "dpkg-shlibdeps")
"""What has to be there."""

SCRIPTS = ("preinst", "postinst", "prerm", "postrm")
"""What a package may have dpkg run."""

ELF = b"\x7fELF"

HEADING = re.compile(r"^## (\d[\w.+~-]*), (?:(\d{4}-\d{2}-\d{2})|not released yet)$", re.M)
"""A heading of CHANGELOG.md: a version, and the day on which it came out."""


class NotPacked(Exception):
    """Why there is no package."""


class Release(NamedTuple):
    """A version, and what CHANGELOG.md says of it."""

    version: str
    day: str
    """When it came out; empty if it hasn't."""
    changes: str


def releases(changelog: str) -> List[Release]:
    """All versions, the newest first.

    Raises NotPacked if there is none."""
    found = list(HEADING.finditer(changelog))
    if not found:
        raise NotPacked("CHANGELOG.md has no heading as '## 1.2.3, not released yet'")
    ends = [*(it.start() for it in found[1:]), len(changelog)]
    return [
        Release(it[1], it[2] or "", changelog[it.end() : end].strip())
        for it, end in zip(found, ends)
    ]


def debian_changelog(known: List[Release], maintainer: str, moment: int) -> str:
    """The changelog as Debian has it. What isn't released has this moment's time."""
    return "\n".join(
        f"bootkeep ({release.version}) {'unstable' if release.day else 'UNRELEASED'}; urgency=medium\n"
        f"{changed(release.changes)}\n -- {maintainer}  {when(release, moment)}\n"
        for release in known
    )


def changed(changes: str) -> str:
    """The changes of a version, an item each, and so each row of a table. What leads to some of them is a heading."""
    lines: List[str] = []
    for block in re.split(r"\n(?=- )|\n\n", changes):
        text = " ".join(block.replace("**", "").split())
        if text.startswith("- "):
            lines += wrapped(text[2:], "  * ")
        elif text.startswith("|"):
            lines += [line for row in rows(block) for line in wrapped(row, "  * ")]
        elif text.endswith(":"):
            lines += ["", f"  [ {text.rstrip(':')} ]"]
        elif text:
            lines += ["", *wrapped(text, "  ")]
    return "".join(f"{line}\n" for line in ["", *lines])


def wrapped(text: str, begins: str) -> List[str]:
    """A text in lines that are no longer than those of Debian, of which the first begins so."""
    inner = " " * len(begins)
    return textwrap.wrap(
        text, 78, initial_indent=begins, subsequent_indent=inner, break_on_hyphens=False
    )


def rows(table: str) -> List[str]:
    """The rows of a table, the head first, as texts."""
    found = [[it.strip() for it in line.strip("|").split("|")] for line in table.splitlines()]
    return ["; ".join(row) for row in found if set("".join(row)) != {"-"}]


def when(release: Release, moment: int) -> str:
    """The time of a version, as Debian writes it."""
    if release.day:
        day = datetime.strptime(release.day, "%Y-%m-%d")
        moment = int(day.replace(tzinfo=timezone.utc).timestamp())
    return email.utils.formatdate(moment).replace("-0000", "+0000")


def maintainer() -> str:
    """Who maintains the packages, as packaging/debian/control says."""
    found = re.search(r"^Maintainer: (.*)$", (SOURCES / "control").read_text("utf-8"), re.M)
    assert found is not None
    return found[1]


class Workshop:
    """A folder in which packages of one version are made."""

    def __init__(self, folder: Path, known: List[Release], moment: int) -> None:
        self.folder, self.version, self.moment = folder, known[0].version, moment
        self.changelog = debian_changelog(known, maintainer(), moment)
        self.debian = folder / "debian"
        self.debian.mkdir()
        shutil.copy(SOURCES / "control", self.debian)
        (self.debian / "changelog").write_text(self.changelog, encoding="utf-8")

    def pack(self, name: str, files: FileTree) -> Path:
        """Makes the package with these files, and those that each package has.

        Raises NotPacked if a tool of dpkg fails."""
        documents = f"usr/share/doc/{name}"
        files.put(f"{documents}/copyright", (SOURCES / "copyright").read_bytes())
        packed = gzip.compress(self.changelog.encode(), 9, mtime=0)
        files.put(f"{documents}/changelog.gz", packed)
        overrides = SOURCES / f"{name}.lintian-overrides"
        if overrides.exists():
            files.put(f"usr/share/lintian/overrides/{name}", overrides.read_bytes())
        tree = self.debian / name
        files.write(tree, self.moment)
        self._control(name, files).below("DEBIAN").write(tree, self.moment)
        self._call("dpkg-deb", "--root-owner-group", "-Zxz", "--build", str(tree), str(self.folder))
        (package,) = self.folder.glob(f"{name}_*.deb")
        return package

    def _control(self, name: str, files: FileTree) -> FileTree:
        """What dpkg reads of a package whose files are written."""
        control = FileTree()
        control.put("control", self._stanza(name, files).encode())
        control.put("md5sums", files.md5sums().encode())
        for part in (*SCRIPTS, "triggers"):
            source = SOURCES / f"{name}.{part}"
            if source.exists():
                control.put(
                    part, source.read_bytes(), PROGRAM_MODE if part in SCRIPTS else DATA_MODE
                )
        libraries = [re.match(r".*/(lib[\w-]+)\.so\.(\d+)$", path) for path in files.paths()]
        shlibs = [f"{it[1]} {it[2]} {name} (>= {self.version})\n" for it in libraries if it]
        if shlibs:
            control.put("shlibs", "".join(shlibs).encode())
        return control

    def _stanza(self, name: str, files: FileTree) -> str:
        """The file `control` of a package: on what it depends is what its programs import."""
        variables = f"debian/{name}.substvars"
        tree = f"debian/{name}"
        (self.folder / tree / "DEBIAN").mkdir()
        built = [f"{tree}/{it}" for it in files.paths() if files.files[it].data.startswith(ELF)]
        if built:
            self._call("dpkg-shlibdeps", f"-T{variables}", *built)
        return self._call("dpkg-gencontrol", f"-p{name}", f"-P{tree}", f"-T{variables}", "-O")

    def _call(self, *words: str) -> str:
        """What a tool prints."""
        called = subprocess.run(
            words,
            cwd=self.folder,
            env={**os.environ, "SOURCE_DATE_EPOCH": str(self.moment), "LC_ALL": "C"},
            stdin=subprocess.DEVNULL,
            stdout=subprocess.PIPE,
            stderr=subprocess.PIPE,
            text=True,
            check=False,
        )
        if called.returncode != 0:
            raise NotPacked(f"{' '.join(words)}: {called.stderr.strip() or called.returncode}")
        return called.stdout
