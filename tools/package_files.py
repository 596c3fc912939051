"""What is in each package, by its path: for Debian, and below one folder for other systems."""

from __future__ import annotations

import gzip
import os
import re
from dataclasses import dataclass
from pathlib import Path
from typing import Dict

import call_manual_files
import proof_note
from file_tree import PROGRAM_MODE, FileTree
from repository import ROOT

PREFIX_MARK = b"@prefix@"
"""What stands in files of packaging/ for the folder in which bin is."""

ARCHIVE, HEADER = "libbootkeep.a", "bootkeep.h"
SHARED, SHARED_NAMES = "libbootkeep.so.1.0.0", ("libbootkeep.so.1", "libbootkeep.so")

LINUX_ARCHIVE, LINUX_HEADER = "libbootkeep-linux.a", "bootkeep-linux.h"
LINUX_SHARED = "libbootkeep-linux.so.1.0.0"
LINUX_SHARED_NAMES = ("libbootkeep-linux.so.1", "libbootkeep-linux.so")

DESCRIPTIONS = ("bootkeep.pc", "bootkeep-linux.pc")
"""What pkg-config reads of each library."""

DOCS = ROOT / "docs"
"""The folder of the pages."""

OF_FLEET = "fleet.md"
"""The page for those who have the sender of a fleet."""

OF_CALLERS = ("c.md", "firmware.md", "linux.md")
"""The pages for those who write programs over the libraries for C."""

OF_PYTHON = ("c.md", "linux.md")
"""Those of them that have the module for Python too."""

NOT_INSTALLED = frozenset("CONTRIBUTING.md SECURITY.md architecture.md library.md".split())
"""The pages for those who have the source."""

PAGES = tuple(
    page
    for page in sorted(
        str(it.relative_to(DOCS)) for it in (*DOCS.glob("*.md"), *DOCS.glob("*/*.md"))
    )
    if page not in NOT_INSTALLED and page not in OF_CALLERS and page != OF_FLEET
)
"""The pages for those who have the programs, and for those who want to know what to trust, by their paths in docs."""

PICTURE = re.compile(r"!\[[^\]]*\]\(([^)\s]+)\)")
"""A picture that a page shows, by its path from there."""

SCHEMA = "bootvars.schema.json"
"""The schema of what `bootvars` prints as JSON. Programs read it, so it is never compressed."""


@dataclass(frozen=True)
class Place:
    """Where a system has things, below the folder in which bin is."""

    prefix: str
    """That folder, if it is known."""
    libraries: str
    zsh: str
    packs_texts: bool
    """Whether manuals and pages are compressed."""

    def script(self, name: str) -> bytes:
        """A file of packaging/ that names this folder."""
        return (ROOT / "packaging" / name).read_bytes().replace(PREFIX_MARK, self.prefix.encode())

    def put_text(self, files: FileTree, path: str, text: bytes) -> None:
        """Adds a manual or a page."""
        if self.packs_texts:
            files.put(f"{path}.gz", gzip.compress(text, 9, mtime=0))
        else:
            files.put(path, text)


DEBIAN = Place("/usr", "lib/x86_64-linux-gnu", "share/zsh/vendor-completions", True)
OTHERS = Place("@prefix@", "lib", "share/zsh/site-functions", False)


@dataclass(frozen=True)
class Made:
    """What is proved and built."""

    programs: Dict[str, Path]
    library: Path
    """The folder in which `tools/build-c` put it."""

    def built(self, name: str) -> bytes:
        """A file of the library."""
        return (self.library / name).read_bytes()


def program_files(made: Made, place: Place) -> FileTree:
    """Both programs, and what belongs to them."""
    files = FileTree()
    for name, program in made.programs.items():
        files.put(f"bin/{name}", program.read_bytes(), PROGRAM_MODE)
    for manual in ("bootkeep.1", "bootvars.1", "bootvars-efibootmgr.1"):
        put_manual(files, place, manual)
    for completion, path in {
        "bootvars.bash": "share/bash-completion/completions/bootvars",
        "_bootvars": f"{place.zsh}/_bootvars",
        "bootvars.fish": "share/fish/vendor_completions.d/bootvars.fish",
    }.items():
        files.put(path, (ROOT / "packaging/completions" / completion).read_bytes())
    for unit in ("bootkeep-confirm.service", "bootkeep-settle.service"):
        files.put(f"lib/systemd/system/{unit}", place.script(unit))
    files.put("libexec/bootkeep/efibootmgr", place.script("efibootmgr"), PROGRAM_MODE)
    for script, hook in {
        "initramfs-tools/bootkeep": "share/initramfs-tools/hooks/bootkeep",
        "dracut/module-setup.sh": "lib/dracut/modules.d/90bootkeep/module-setup.sh",
    }.items():
        files.put(hook, place.script(script), PROGRAM_MODE)
    for page in PAGES:
        put_page(files, place, "bootkeep", page)
    files.put(f"share/doc/bootkeep/{SCHEMA}", (DOCS / SCHEMA).read_bytes())
    return files


def put_page(files: FileTree, place: Place, package: str, page: str) -> None:
    """Adds a page to the documents of a package, with the pictures that it shows. These are never compressed."""
    to = f"share/doc/{package}"
    text = (DOCS / page).read_bytes()
    place.put_text(files, f"{to}/{page}", text)
    for picture in PICTURE.findall(text.decode()):
        file = os.path.normpath(Path(page).parent / picture)
        files.put(f"{to}/{file}", (DOCS / file).read_bytes())


def put_manual(files: FileTree, place: Place, name: str) -> None:
    """Adds a manual of packaging/man."""
    path = f"share/man/man{name[-1]}/{name}"
    place.put_text(files, path, (ROOT / "packaging/man" / name).read_bytes())


def agent_files(place: Place) -> FileTree:
    """The agent of a fleet, and its unit."""
    files = FileTree()
    agent, unit = "bootfleet-agent", "bootfleet-agent.service"
    files.put(f"bin/{agent}", (ROOT / "fleet" / agent).read_bytes(), PROGRAM_MODE)
    files.put(f"lib/systemd/system/{unit}", (ROOT / "fleet" / unit).read_bytes())
    put_manual(files, place, "bootfleet-agent.8")
    return files


def fleet_files(place: Place) -> FileTree:
    """The sender of a fleet, with its unit and the user that it runs as. Its program is a link, by which it finds its
    modules."""
    files = FileTree()
    modules = "share/bootkeep-fleet"
    files.put(f"{modules}/bootfleet", (ROOT / "fleet/bootfleet").read_bytes(), PROGRAM_MODE)
    files.link("bin/bootfleet", f"../{modules}/bootfleet")
    for module in sorted((ROOT / "fleet/sender").glob("*.py")):
        files.put(f"{modules}/sender/{module.name}", module.read_bytes())
    for source, path in {
        "fleet/bootfleet.service": "lib/systemd/system/bootfleet.service",
        "packaging/bootkeep-fleet.sysusers": "lib/sysusers.d/bootkeep-fleet.conf",
        "packaging/completions/bootfleet.bash": "share/bash-completion/completions/bootfleet",
        "packaging/completions/bootfleet.fish": "share/fish/vendor_completions.d/bootfleet.fish",
    }.items():
        files.put(path, (ROOT / source).read_bytes())
    put_manual(files, place, "bootfleet.1")
    put_page(files, place, "bootkeep-fleet", OF_FLEET)
    return files


def collection_files() -> FileTree:
    """The collection for Ansible, where Debian's Ansible looks for collections."""
    files = FileTree()
    source, to = ROOT / "packaging/ansible", "share/ansible/collections/ansible_collections"
    for name in ("galaxy.yml", "LICENSE", "README.md", "meta/runtime.yml"):
        files.put(f"{to}/bootkeep/boot/{name}", (source / name).read_bytes())
    for module in sorted(source.glob("plugins/*/*.py")):
        files.put(f"{to}/bootkeep/boot/{module.relative_to(source)}", module.read_bytes())
    return files


def library_files(made: Made, place: Place) -> FileTree:
    """The shared libraries."""
    files = FileTree()
    for shared, names in ((SHARED, SHARED_NAMES), (LINUX_SHARED, LINUX_SHARED_NAMES)):
        files.put(f"{place.libraries}/{shared}", made.built(shared))
        files.link(f"{place.libraries}/{names[0]}", shared)
    return files


def development_files(made: Made, place: Place, examples: str) -> FileTree:
    """What is needed to build programs over the libraries, with examples in this folder, and pages beside it."""
    files = FileTree()
    for archive in (ARCHIVE, LINUX_ARCHIVE):
        files.put(f"{place.libraries}/{archive}", made.built(archive))
    for names in (SHARED_NAMES, LINUX_SHARED_NAMES):
        files.link(f"{place.libraries}/{names[1]}", names[0])
    for described in DESCRIPTIONS:
        files.put(f"{place.libraries}/pkgconfig/{described}", pkg_config(made, place, described))
    for header in (HEADER, LINUX_HEADER):
        files.put(f"include/{header}", made.built(header))
    for manual in ("bootkeep.3", "bootkeep-linux.3"):
        put_manual(files, place, manual)
    for manual, text in call_manual_files.manuals().items():
        place.put_text(files, f"share/man/man3/{manual}", text)
    put_examples(files, "c/examples", "*.[ch]", examples)
    for page in OF_CALLERS:
        put_page(files, place, Path(examples).parent.name, page)
    return files


def put_examples(files: FileTree, source: str, pattern: str, to: str) -> None:
    """Adds examples of libraries/ to this folder."""
    for example in sorted((ROOT / "libraries" / source).glob(pattern)):
        files.put(f"{to}/{example.name}", example.read_bytes())


def pkg_config(made: Made, place: Place, name: str = "bootkeep.pc") -> bytes:
    """What pkg-config reads of a library, with this place's folders in the place of the one in which the library was built."""
    folders = {
        "prefix": place.prefix,
        "libdir": f"{place.prefix}/{place.libraries}",
        "includedir": f"{place.prefix}/include",
    }
    lines = made.built(name).decode().splitlines()
    for at, line in enumerate(lines):
        name, _, folder = line.partition("=")
        if folder == "${pcfiledir}":
            lines[at] = f"{name}={folders[name]}"
    return "".join(f"{line}\n" for line in lines).encode()


def python_files(modules: Dict[str, bytes], metadata: str, version: str) -> FileTree:
    """The module for Python, what Python knows of it as a package that is installed, its pages and the examples, as Debian
    has them."""
    files, to = FileTree(), "lib/python3/dist-packages"
    for path, module in modules.items():
        files.put(f"{to}/{path}", module)
    files.put(f"{to}/bootkeep-{version}.dist-info/METADATA", metadata.encode())
    put_examples(files, "python/examples", "*.py", "share/doc/python3-bootkeep/examples")
    for page in OF_PYTHON:
        put_page(files, DEBIAN, "python3-bootkeep", page)
    return files


def proof_files(proofs: proof_note.Proofs, note: str, packs_list: bool) -> FileTree:
    """What says which sources were proved."""
    files = FileTree()
    files.put("PROVED", note.encode())
    name, sources = proof_note.LIST, proofs.sources.encode()
    files.put(
        *((f"{name}.gz", gzip.compress(sources, 9, mtime=0)) if packs_list else (name, sources))
    )
    return files
