"""Builds the wheel of the package `bootkeep`, which holds both shared libraries: what `pip wheel` calls.

The first library is the one that the environment's BOOTKEEP_LIBRARY names, as `tools/build-c FOLDER` makes it, and that
over machines is beside it. Nothing is downloaded. An archive of the sources has no library: to make a wheel of it takes
BOOTKEEP_LIBRARY, too."""

from __future__ import annotations

import base64
import calendar
import gzip
import hashlib
import io
import os
import re
import tarfile
import zipfile
from pathlib import Path
from typing import Any, Dict, List, Optional

HERE = Path(__file__).resolve().parent
PROJECT = HERE / "pyproject.toml"
NAME = "bootkeep"

# The libraries need the functions of glibc 2.34 at most, and a processor of x86-64, level x86-64-v2.
TAG = "py3-none-manylinux_2_34_x86_64"
GLIBC_MAX = 34

LIBRARY, OVER_MACHINES = "libbootkeep.so.1", "libbootkeep-linux.so.1"
"""What the libraries are called in the wheel."""

# A moment that each file of the wheel has, so that equal files make equal wheels.
MOMENT = (2026, 1, 1, 0, 0, 0)


def project(field: str) -> str:
    """A field of the project that is a text."""
    found = re.search(rf'^{field} = "(.*)"$', PROJECT.read_text(encoding="utf-8"), re.M)
    assert found is not None, field
    return found[1]


def classifiers() -> List[str]:
    """The classifiers of the project."""
    return re.findall(r'^    "(.* :: .*)",$', PROJECT.read_text(encoding="utf-8"), re.M)


def metadata() -> str:
    """What the wheel says of the package."""
    said = [
        ("Metadata-Version", "2.1"),
        ("Name", NAME),
        ("Version", project("version")),
        ("Summary", project("description")),
        ("Requires-Python", project("requires-python")),
        *(("Classifier", classifier) for classifier in classifiers()),
    ]
    return "".join(f"{field}: {text}\n" for field, text in said)


def libraries() -> Dict[str, bytes]:
    """The libraries that the wheel holds, by their names in it."""
    named = Path(os.environ.get("BOOTKEEP_LIBRARY", ""))
    beside = named.with_name(OVER_MACHINES) if named.name else named
    # What builds wheels calls this in another folder than that in which it was called.
    if not named.is_absolute() or not named.is_file() or not beside.is_file():
        raise SystemExit(
            f"BOOTKEEP_LIBRARY has to be the whole path of {LIBRARY}, which tools/build-c FOLDER makes with "
            f"{OVER_MACHINES} beside it: it is {str(named)!r}"
        )
    held = {LIBRARY: named.read_bytes(), OVER_MACHINES: beside.read_bytes()}
    for name, data in held.items():
        check_library(name, data)
    return held


def check_library(name: str, data: bytes) -> None:
    """Ends unless these bytes are a library for x86-64 that needs no later glibc than the wheel says."""
    # ELF of 64 bits, little-endian, and at 18 the number of the processor.
    if data[:6] != b"\x7fELF\2\1" or data[18:20] != b"\x3e\0":
        raise SystemExit(f"{name} is no shared library for x86-64")
    needed = [int(version) for version in re.findall(rb"GLIBC_2\.(\d+)", data)]
    if max(needed, default=0) > GLIBC_MAX:
        raise SystemExit(f"{name} needs glibc 2.{max(needed)}, and the wheel is for 2.{GLIBC_MAX}")


def modules() -> Dict[str, bytes]:
    """The files of the package, by their names."""
    found = sorted((HERE / NAME).glob("*.py"))
    return {
        **{f"{NAME}/{file.name}": file.read_bytes() for file in found},
        f"{NAME}/py.typed": b"",
    }


def files() -> Dict[str, bytes]:
    """The files of the wheel, by their names in it, without the list of them."""
    info = f"{NAME}-{project('version')}.dist-info"
    return {
        **modules(),
        **{f"{NAME}/{name}": data for name, data in libraries().items()},
        f"{info}/METADATA": metadata().encode(),
        f"{info}/WHEEL": f"Wheel-Version: 1.0\nGenerator: {NAME}\nRoot-Is-Purelib: false\nTag: {TAG}\n".encode(),
    }


def record(name: str, data: bytes) -> str:
    """The line of a file in the list of files."""
    digest = base64.urlsafe_b64encode(hashlib.sha256(data).digest()).rstrip(b"=").decode()
    return f"{name},sha256={digest},{len(data)}\n"


def build_wheel(
    wheel_directory: str,
    config_settings: Optional[Dict[str, Any]] = None,
    metadata_directory: Optional[str] = None,
) -> str:
    """Writes the wheel into a folder, and gives its name."""
    held, version = files(), project("version")
    listed = f"{NAME}-{version}.dist-info/RECORD"
    held[listed] = (
        "".join(record(name, data) for name, data in held.items()) + f"{listed},,\n"
    ).encode()
    name = f"{NAME}-{version}-{TAG}.whl"
    with zipfile.ZipFile(Path(wheel_directory, name), "w", zipfile.ZIP_DEFLATED) as wheel:
        for path, data in held.items():
            about = zipfile.ZipInfo(path, MOMENT)
            about.external_attr = (0o755 if ".so" in path else 0o644) << 16
            about.compress_type = zipfile.ZIP_DEFLATED
            wheel.writestr(about, data)
    return name


def build_sdist(sdist_directory: str, config_settings: Optional[Dict[str, Any]] = None) -> str:
    """Writes an archive of the sources into a folder, and gives its name."""
    held = {
        "PKG-INFO": metadata().encode(),
        PROJECT.name: PROJECT.read_bytes(),
        Path(__file__).name: Path(__file__).read_bytes(),
        **modules(),
    }
    stem, packed = f"{NAME}-{project('version')}", io.BytesIO()
    with tarfile.open(fileobj=packed, mode="w", format=tarfile.PAX_FORMAT) as archive:
        for path, data in held.items():
            about = tarfile.TarInfo(f"{stem}/{path}")
            about.size, about.mtime = len(data), calendar.timegm(MOMENT)
            archive.addfile(about, io.BytesIO(data))
    Path(sdist_directory, f"{stem}.tar.gz").write_bytes(gzip.compress(packed.getvalue(), mtime=0))
    return f"{stem}.tar.gz"


def get_requires_for_build_wheel(config_settings: Optional[Dict[str, Any]] = None) -> List[str]:
    """Nothing else is needed."""
    return []
