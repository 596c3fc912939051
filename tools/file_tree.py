"""Files by their paths, of which packages are made: equal files give equal bytes, whenever and wherever they are
written."""

from __future__ import annotations

import gzip
import hashlib
import io
import os
import tarfile
from dataclasses import dataclass, field
from pathlib import Path, PurePosixPath
from typing import Dict, Iterator, List, Tuple

PROGRAM_MODE, DATA_MODE, FOLDER_MODE = 0o755, 0o644, 0o755


@dataclass(frozen=True)
class File:
    """A file, or a symbolic link."""

    data: bytes
    mode: int = DATA_MODE
    target: str = ""
    """What a link leads to; empty if it is none."""


@dataclass
class FileTree:
    """Files and links by their paths, which are relative."""

    files: Dict[str, File] = field(default_factory=dict)

    def put(self, path: str, data: bytes, mode: int = DATA_MODE) -> None:
        """Adds a file."""
        self.files[path] = File(data, mode)

    def link(self, path: str, target: str) -> None:
        """Adds a symbolic link."""
        self.files[path] = File(b"", target=target)

    def paths(self) -> List[str]:
        """The paths of files and links, sorted."""
        return sorted(self.files)

    def folders(self) -> List[str]:
        """The folders above them, each after the one that it is in."""
        above = {str(it) for path in self.files for it in PurePosixPath(path).parents}
        return sorted(above - {"."})

    def below(self, folder: str) -> "FileTree":
        """The same in a folder."""
        return FileTree({f"{folder}/{path}": file for path, file in self.files.items()})

    def md5sums(self) -> str:
        """What `md5sum` prints of the files."""
        return "".join(
            f"{hashlib.md5(self.files[path].data).hexdigest()}  {path}\n"
            for path in self.paths()
            if not self.files[path].target
        )

    def write(self, top: Path, moment: int) -> None:
        """Writes all of it into a folder, with this time."""
        for folder in [".", *self.folders()]:
            (top / folder).mkdir(exist_ok=True)
            (top / folder).chmod(FOLDER_MODE)
        for path, file in self.files.items():
            if file.target:
                (top / path).symlink_to(file.target)
            else:
                (top / path).write_bytes(file.data)
                (top / path).chmod(file.mode)
        for path in [*self.files, *reversed(self.folders()), "."]:
            os.utime(top / path, (moment, moment), follow_symlinks=False)

    def tarball(self, moment: int) -> bytes:
        """A compressed archive of all of it, of which root is the owner."""
        packed = io.BytesIO()
        with tarfile.open(fileobj=packed, mode="w", format=tarfile.GNU_FORMAT) as archive:
            for about, data in self._members():
                about.mtime = moment
                about.uname = about.gname = "root"
                archive.addfile(about, io.BytesIO(data))
        return gzip.compress(packed.getvalue(), 9, mtime=0)

    def _members(self) -> Iterator[Tuple[tarfile.TarInfo, bytes]]:
        for folder in self.folders():
            about = tarfile.TarInfo(folder)
            about.type, about.mode = tarfile.DIRTYPE, FOLDER_MODE
            yield about, b""
        for path in self.paths():
            file = self.files[path]
            about = tarfile.TarInfo(path)
            about.mode, about.size = file.mode, len(file.data)
            if file.target:
                about.type, about.linkname, about.mode = tarfile.SYMTYPE, file.target, 0o777
            yield about, file.data
