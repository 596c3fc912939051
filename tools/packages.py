"""Makes packages of what is proved, and proves what isn't: what `packaging/package` does."""

from __future__ import annotations

import os
import re
import shutil
import signal
import subprocess
import sys
import tempfile
from pathlib import Path
from typing import Dict, List, NamedTuple

import debian_package
import package_files
from building import NotBuilt, build, say
from debian_package import NotPacked, Release
from file_tree import PROGRAM_MODE, FileTree
from package_files import DEBIAN, OTHERS, Made
from proof_note import Proofs, told
from repository import ROOT

sys.path.append(str(ROOT / "libraries/python"))

import wheel_of_library  # noqa: E402

PROGRAMS = ("bootkeep", "bootvars")

BUILT = (
    "Every function of the sources named below was proved to meet its contract. The toolchain built\n"
    "the programs of them, and an archive of which the linker made the library:"
)
CALLED = (
    "No proof speaks of the modules of Python. What they call is the shared library, which the linker\n"
    "made of an archive that the toolchain built; every function of the sources named below was proved\n"
    "to meet its contract. As it was when this was built:"
)
AGENT = (
    "No proof speaks of the agent. What it calls is the program bootvars, which the toolchain built of\n"
    "the sources named below, of which every function was proved to meet its contract. As the programs\n"
    "were when this was built:"
)

COLLECTION = AGENT.replace("the agent", "the collection")

VERSION = re.compile(r"\d[A-Za-z0-9.+~]*")
"""A version as Debian has it, without a revision."""


class Words(NamedTuple):
    """What was asked for."""

    folder: Path
    version: str
    """The version that the packages are to have; empty for that of CHANGELOG.md."""


def read_words(words: List[str]) -> Words:
    """What the words ask for.

    Raises NotPacked if nobody can tell."""
    version = ""
    if words[:1] == ["--as"] and len(words) > 1:
        version, words = words[1], words[2:]
        if not VERSION.fullmatch(version):
            raise NotPacked(f"no version of a package: {version}")
    if len(words) != 1 or words[0].startswith("-"):
        raise NotPacked("takes the name of a folder, and before it --as VERSION or nothing")
    return Words(Path(words[0]).resolve(), version)


def main(words: List[str]) -> int:
    """Makes the packages. The answer is a status: 70 if there are none, 2 if the words are wrong."""
    signal.signal(signal.SIGTERM, lambda number, _: sys.exit(128 + number))
    try:
        asked = read_words(words)
    except NotPacked as why:
        say("package", str(why))
        return 2
    try:
        with tempfile.TemporaryDirectory(prefix="bootkeep-package-") as folder:
            for made in pack(asked, Path(folder)):
                print(made)
    except (NotPacked, NotBuilt, OSError) as why:
        say("package", str(why))
        return 70
    return 0


def pack(asked: Words, work: Path) -> List[Path]:
    """Makes all packages, and gives where they are.

    Raises NotPacked, NotBuilt or OSError if there are none."""
    for tool in debian_package.TOOLS:
        if shutil.which(tool) is None:
            raise NotPacked(f"{tool} is missing: Debian's package dpkg-dev has it")
    moment = moment_of_sources()
    known = debian_package.releases((ROOT / "CHANGELOG.md").read_text("utf-8"))
    made = build_all(work, known[0].version)
    if asked.version:
        known[0] = known[0]._replace(version=asked.version)
    asked.folder.mkdir(parents=True, exist_ok=True)
    done = debian_packages(made, work, known, moment)
    done.append(tarball(made, work, known, moment))
    return [put(it, asked.folder) for it in done]


def put(made: Path, folder: Path) -> Path:
    """Puts a package into its folder, in the place of one of that name."""
    beside = folder / f".{made.name}.{os.getpid()}"
    try:
        shutil.copyfile(made, beside)
        os.replace(beside, folder / made.name)
    finally:
        beside.unlink(missing_ok=True)
    return folder / made.name


def moment_of_sources() -> int:
    """The time that everything in the packages has: that of the commit, or SOURCE_DATE_EPOCH.

    Raises NotPacked if there is none."""
    said = os.environ.get("SOURCE_DATE_EPOCH") or told(["git", "log", "-1", "--format=%ct"])
    if not said.isdigit():
        raise NotPacked(
            "these files are in no clone, so SOURCE_DATE_EPOCH has to be the time of the packages"
        )
    return int(said)


def build_all(work: Path, version: str) -> Made:
    """What is proved and built, or is now.

    Raises NotBuilt or NotPacked if something isn't."""
    programs = {it: build(it) for it in PROGRAMS}
    said = told([str(programs["bootvars"]), "--version"])
    if said != f"bootvars {version}":
        raise NotPacked(
            f"CHANGELOG.md begins with the version {version}, and the program is {said}"
        )
    library = work / "library"
    if subprocess.run([ROOT / "tools/build-c", library], check=False).returncode != 0:
        raise NotBuilt("the library for C isn't built")
    return Made(programs, library)


class Content(NamedTuple):
    """What a package has, and what is to be said of its proofs."""

    files: FileTree
    proofs: Proofs
    about: str
    built: Dict[str, bytes]
    """What was built of what is proved: files of the package, or what they call."""


def debian_packages(made: Made, work: Path, known: List[Release], moment: int) -> List[Path]:
    """Makes the packages for Debian."""
    workshop = debian_package.Workshop(work, known, moment)
    contents = debian_contents(made)
    for name, content in contents.items():
        note = content.proofs.note(f"{name} {known[0].version}", content.about, content.built)
        said = package_files.proof_files(content.proofs, note, packs_list=True)
        content.files.files.update(said.below(f"usr/share/doc/{name}").files)
    return [workshop.pack(name, content.files) for name, content in contents.items()]


def debian_contents(made: Made) -> Dict[str, Content]:
    """What each package for Debian has."""
    examples = "share/doc/libbootkeep-dev/examples"
    python = package_files.python_files(
        wheel_of_library.modules(), wheel_of_library.metadata(), wheel_of_library.project("version")
    ).below("usr")
    bootkeep = package_files.program_files(made, DEBIAN).below("usr")
    shared = package_files.library_files(made, DEBIAN).below("usr")
    development = package_files.development_files(made, DEBIAN, examples).below("usr")
    agent = package_files.agent_files(DEBIAN).below("usr")
    collection = package_files.collection_files().below("usr")
    fleet = package_files.fleet_files(DEBIAN).below("usr")
    programs, library = Proofs.of(*PROGRAMS), Proofs.of("bootkeep_c")
    of_programs, of_library = built_files(bootkeep), built_files(shared)
    return {
        "ansible-collection-bootkeep-boot": Content(collection, programs, COLLECTION, of_programs),
        "bootkeep": Content(bootkeep, programs, BUILT, of_programs),
        "bootkeep-agent": Content(agent, programs, AGENT, of_programs),
        "bootkeep-fleet": Content(fleet, library, CALLED, of_library),
        "libbootkeep1": Content(shared, library, BUILT, of_library),
        "libbootkeep-dev": Content(development, library, BUILT, built_files(development)),
        "python3-bootkeep": Content(python, library, CALLED, of_library),
    }


def built_files(files: FileTree) -> Dict[str, bytes]:
    """Those that were built of what is proved: libbootkeep-linux isn't."""
    return {
        path: file.data
        for path, file in sorted(files.files.items())
        if file.data.startswith((debian_package.ELF, b"!<arch>"))
        and not Path(path).name.startswith("libbootkeep-linux.")
    }


def tarball(made: Made, work: Path, known: List[Release], moment: int) -> Path:
    """Makes the archive for other systems."""
    name = f"bootkeep-{known[0].version}-x86_64"
    documents = "share/doc/bootkeep"
    files = package_files.program_files(made, OTHERS)
    for part in (
        package_files.library_files(made, OTHERS),
        package_files.development_files(made, OTHERS, f"{documents}/examples"),
    ):
        files.files.update(part.files)
    for page, source in {
        "copyright": "packaging/debian/copyright",
        "CHANGELOG.md": "CHANGELOG.md",
    }.items():
        files.put(f"{documents}/{page}", (ROOT / source).read_bytes())
    proofs = Proofs.of(*PROGRAMS, "bootkeep_c")
    note = proofs.note(name, BUILT, built_files(files))
    files.files.update(
        package_files.proof_files(proofs, note, packs_list=False).below(documents).files
    )
    packed = files.below("files")
    packed.put("install.sh", (ROOT / "packaging" / "install.sh").read_bytes(), PROGRAM_MODE)
    wheel = wheel_of(made, work)
    packed.put(wheel.name, wheel.read_bytes())
    archive = work / f"{name}.tar.gz"
    archive.write_bytes(packed.below(name).tarball(moment))
    return archive


def wheel_of(made: Made, work: Path) -> Path:
    """Makes the wheel for Python."""
    os.environ["BOOTKEEP_LIBRARY"] = str(made.library / package_files.SHARED)
    return work / wheel_of_library.build_wheel(str(work))
