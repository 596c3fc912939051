"""Tests of what makes packages, and of the script by which an archive is installed."""

from __future__ import annotations

import gzip
import io
import os
import re
import shutil
import subprocess
import sys
import tarfile
import tempfile
import unittest
from pathlib import Path
from typing import Dict, Iterator, List, Set, Tuple

ROOT = Path(__file__).resolve().parents[1]
sys.path.insert(0, str(ROOT / "tools"))

import debian_package  # noqa: E402
import declarations  # noqa: E402
import package_files  # noqa: E402
import packages  # noqa: E402
import proof_note  # noqa: E402
import repository  # noqa: E402
from file_tree import PROGRAM_MODE, File, FileTree  # noqa: E402

HEADER = ROOT / "libraries/c/include/bootkeep.h"
LINUX_HEADER = HEADER.with_name("bootkeep-linux.h")

MOMENT = 1_700_000_000
"""Tue, 14 Nov 2023 22:13:20, as `date -u -d @1700000000` says."""

CHANGES = """# Changes

For readers.

## 0.2.0, not released yet

- **A change** of one thing, which is so long that what says so doesn't fit into a line of a changelog of Debian, and
  goes on.
- `other`

In the library:

- A third.

Renamed there, which is said in a paragraph of its own, that is too long for one line of a changelog.

| Was | Is |
|---|---|
| `set_plan` | `vars_plan` |

## 0.1.0, 2023-01-02

- The first.
"""

DEBIAN_CHANGES = """bootkeep (0.2.0) UNRELEASED; urgency=medium

  * A change of one thing, which is so long that what says so doesn't fit into
    a line of a changelog of Debian, and goes on.
  * `other`

  [ In the library ]
  * A third.

  Renamed there, which is said in a paragraph of its own, that is too long for
  one line of a changelog.
  * Was; Is
  * `set_plan`; `vars_plan`

 -- Somebody <some@body>  Tue, 14 Nov 2023 22:13:20 +0000

bootkeep (0.1.0) unstable; urgency=medium

  * The first.

 -- Somebody <some@body>  Mon, 02 Jan 2023 00:00:00 +0000
"""


class Changelog(unittest.TestCase):
    def test_as_debian_has_it(self) -> None:
        known = debian_package.releases(CHANGES)
        self.assertEqual([it.version for it in known], ["0.2.0", "0.1.0"])
        told = debian_package.debian_changelog(known, "Somebody <some@body>", MOMENT)
        self.assertEqual(told, DEBIAN_CHANGES)

    def test_lines_are_no_longer_than_those_of_debian(self) -> None:
        for release in debian_package.releases((ROOT / "CHANGELOG.md").read_text("utf-8")):
            for line in debian_package.changed(release.changes).splitlines():
                self.assertLessEqual(len(line), 80, line)
        for line in (ROOT / "packaging/debian/control").read_text("utf-8").splitlines():
            self.assertTrue(len(line) <= 80 or not line.startswith(" "), line)

    def test_without_a_version(self) -> None:
        with self.assertRaises(debian_package.NotPacked):
            debian_package.releases("# Changes\n\n## Soon\n")

    def test_all_places_have_the_version(self) -> None:
        version = debian_package.releases((ROOT / "CHANGELOG.md").read_text("utf-8"))[0].version
        for file, pattern in {
            "crates/bootvars_words/src/commands.rt": r'^const VERSION: &str = "(.*)";$',
            "tools/build-c": r"^readonly VERSION=(\S+) ",
            "libraries/python/pyproject.toml": r'^version = "(.*)"$',
            "libraries/python/bootkeep/__init__.py": r'^__version__ = "(.*)"$',
            "packaging/ansible/galaxy.yml": r"^version: (.*)$",
            "libraries/rust/Cargo.toml": r'^version = "(.*)"$',
            "docs/bootvars.schema.json": r'^  "title": "What bootvars (\S+) prints as JSON",$',
            "libraries/rust/Cargo.lock": r'^name = "bootkeep"\nversion = "(.*)"$',
        }.items():
            found = re.findall(pattern, (ROOT / file).read_text("utf-8"), re.M)
            self.assertEqual(found, [version], file)


class Words(unittest.TestCase):
    def test_a_folder_and_a_version(self) -> None:
        self.assertEqual(packages.read_words(["/made"]), (Path("/made"), ""))
        self.assertEqual(packages.read_words(["--as", "0.1.9", "/made"]), (Path("/made"), "0.1.9"))

    def test_wrong_words(self) -> None:
        wrong: List[List[str]] = [[], ["--as"], ["--as", "1"], ["--as", "a b", "f"], ["f", "g"]]
        for words in [*wrong, ["--help"]]:
            with self.assertRaises(debian_package.NotPacked, msg=str(words)):
                packages.read_words(words)


class Trees(unittest.TestCase):
    def setUp(self) -> None:
        self.folder = Path(tempfile.mkdtemp(prefix="bootkeep test "))
        self.addCleanup(shutil.rmtree, self.folder)
        self.files = FileTree()
        self.files.put("bin/tool", b"run", PROGRAM_MODE)
        self.files.put("share/a/text", b"read")
        self.files.link("share/link", "a/text")

    def test_written_whatever_the_umask(self) -> None:
        before = os.umask(0o077)
        self.addCleanup(os.umask, before)
        self.files.write(self.folder / "tree", MOMENT)
        found = {
            str(it.relative_to(self.folder)): (oct(it.lstat().st_mode), it.lstat().st_mtime)
            for it in [self.folder / "tree", *(self.folder / "tree").rglob("*")]
        }
        modes = {
            "tree": "0o40755",
            "tree/bin": "0o40755",
            "tree/bin/tool": "0o100755",
            "tree/share": "0o40755",
            "tree/share/a": "0o40755",
            "tree/share/a/text": "0o100644",
            "tree/share/link": "0o120777",
        }
        self.assertEqual(found, {path: (mode, float(MOMENT)) for path, mode in modes.items()})

    def test_an_archive(self) -> None:
        packed = self.files.tarball(MOMENT)
        with tarfile.open(fileobj=io.BytesIO(packed)) as archive:
            found = [(it.name, oct(it.mode), it.linkname, it.uid, it.mtime) for it in archive]
        self.assertEqual(
            found,
            [
                ("bin", "0o755", "", 0, MOMENT),
                ("share", "0o755", "", 0, MOMENT),
                ("share/a", "0o755", "", 0, MOMENT),
                ("bin/tool", "0o755", "", 0, MOMENT),
                ("share/a/text", "0o644", "", 0, MOMENT),
                ("share/link", "0o777", "a/text", 0, MOMENT),
            ],
        )
        self.assertEqual(packed, FileTree(dict(reversed(self.files.files.items()))).tarball(MOMENT))

    def test_sums_as_md5sum_prints_them(self) -> None:
        self.files.write(self.folder, MOMENT)
        words = ["md5sum", "bin/tool", "share/a/text"]
        told = subprocess.run(words, cwd=self.folder, capture_output=True, text=True, check=True)
        self.assertEqual(self.files.md5sums(), told.stdout)


class Notes(unittest.TestCase):
    def setUp(self) -> None:
        self.root = Path(tempfile.mkdtemp(prefix="bootkeep test "))
        self.addCleanup(shutil.rmtree, self.root)
        (self.root / "HANDLES").write_text("none\n")
        (self.root / "crates.txt").write_text("low: std\nhigh: low\nother: low\n")
        for crate in ("low", "high", "other"):
            (self.root / "crates" / crate / "src").mkdir(parents=True)
            (self.root / "crates" / crate / "src" / "lib.rt").write_text(f"// {crate}\n")

    def test_sources_are_those_of_the_crates_below_too(self) -> None:
        listed = proof_note.list_of_sources(("high",), self.root)
        (self.root / "list").write_text(listed)
        subprocess.run(["sha256sum", "-c", "--quiet", "list"], cwd=self.root, check=True)
        self.assertEqual(
            [line.split()[1] for line in listed.splitlines()],
            ["HANDLES", "crates.txt", "crates/high/src/lib.rt", "crates/low/src/lib.rt"],
        )

    def test_the_gate_is_of_the_sources_that_it_was_run_over(self) -> None:
        verdict = repository.Verdict(self.root)
        self.assertIsNone(verdict.over("high", self.root))
        sums = {it: repository.sources_sum(it, self.root) for it in ("high", "other")}
        verdict.keep("9 passed, 0 failed", sums)
        self.assertEqual(verdict.over("high", self.root), "9 passed, 0 failed")
        self.assertIsNone(verdict.over("low", self.root))
        (self.root / "crates" / "high" / "src" / "lib.rt").write_text("// changed\n")
        self.assertIsNone(verdict.over("high", self.root))
        self.assertEqual(verdict.over("other", self.root), "9 passed, 0 failed")

    def test_what_it_says(self) -> None:
        proofs = proof_note.Proofs(("high", "other"), "a\nb\n", "1234", "a kit", "")
        said = proofs.note("A title", "About it:", {"bin/tool": b""})
        self.assertEqual(said.split("\n\n")[:2], ["A title", "About it:"])
        # `sha256sum </dev/null` and `printf 'a\nb\n' | sha256sum` print these.
        self.assertIn(
            "    e3b0c44298fc1c149afbf4c8996fb92427ae41e4649b934ca495991b7852b855  bin/tool\n", said
        )
        self.assertIn("911169ddaaf146aff539f58c26c489af3b892dff0fe283c1c264c65ae5aa59a2", said)
        self.assertIn("2 files: high and other, and the crates below", said)
        self.assertIn("./check wasn't run to its end over these sources", said)
        said = proofs.__class__(("high",), "", "1", "a kit", "9 passed, 0 failed").note("", "", {})
        self.assertIn("./check over these sources ended with: 9 passed, 0 failed\n", said)


BUILT = (
    package_files.ARCHIVE,
    package_files.SHARED,
    package_files.HEADER,
    package_files.LINUX_ARCHIVE,
    package_files.LINUX_SHARED,
    package_files.LINUX_HEADER,
)
"""What the libraries are in the folder in which they are built, beside what pkg-config reads."""


class Places(unittest.TestCase):
    def setUp(self) -> None:
        self.folder = Path(tempfile.mkdtemp(prefix="bootkeep test "))
        self.addCleanup(shutil.rmtree, self.folder)
        for name in BUILT:
            (self.folder / name).write_text(name)
        for name in package_files.DESCRIPTIONS:
            (self.folder / name).write_text(
                "prefix=${pcfiledir}\nlibdir=${pcfiledir}\nincludedir=${pcfiledir}\n\n"
                "Name: bootkeep\nLibs: -L${libdir}\n"
            )
        self.made = package_files.Made({"bootvars": self.folder / "bootkeep.pc"}, self.folder)

    def test_pkg_config(self) -> None:
        self.assertEqual(
            package_files.pkg_config(self.made, package_files.DEBIAN).decode(),
            "prefix=/usr\nlibdir=/usr/lib/x86_64-linux-gnu\nincludedir=/usr/include\n\n"
            "Name: bootkeep\nLibs: -L${libdir}\n",
        )

    def test_the_folder_is_named_where_it_is_known(self) -> None:
        marked: Dict[package_files.Place, List[str]] = {}
        for place in (package_files.DEBIAN, package_files.OTHERS):
            files = package_files.program_files(self.made, place).files
            marked[place] = [it for it in files if package_files.PREFIX_MARK in files[it].data]
        self.assertEqual(marked[package_files.DEBIAN], [])
        self.assertEqual(
            sorted(marked[package_files.OTHERS]),
            [
                "lib/dracut/modules.d/90bootkeep/module-setup.sh",
                "lib/systemd/system/bootkeep-confirm.service",
                "lib/systemd/system/bootkeep-settle.service",
                "libexec/bootkeep/efibootmgr",
                "share/initramfs-tools/hooks/bootkeep",
            ],
        )

    def test_pages_are_those_that_are_no_others(self) -> None:
        self.assertIn("machines.md", package_files.PAGES)
        self.assertNotIn("c.md", package_files.PAGES)
        self.assertNotIn(package_files.OF_FLEET, package_files.PAGES)

    def test_a_page_brings_the_pictures_that_it_shows(self) -> None:
        files = package_files.fleet_files(package_files.DEBIAN).files
        picture = (ROOT / "docs/fleet-scale.svg").read_bytes()
        self.assertEqual(files["share/doc/bootkeep-fleet/fleet-scale.svg"].data, picture)

    def test_each_call_has_a_manual(self) -> None:
        examples = "share/doc/libbootkeep-dev/examples"
        for place in (package_files.DEBIAN, package_files.OTHERS):
            files = package_files.development_files(self.made, place, examples).files
            names = {it.rpartition("/")[2].partition(".")[0] for it in files if "/man3/" in it}
            declared = {it.name for it in declarations.header_calls(declarations.read(HEADER))}
            over_linux = re.findall(r"\b(bootkeep_machine_\w+)\(", declarations.read(LINUX_HEADER))
            self.assertEqual(names, {"bootkeep", "bootkeep-linux", *declared, *over_linux})

    def test_pages_for_callers_are_beside_the_header(self) -> None:
        for place, package in (
            (package_files.DEBIAN, "libbootkeep-dev"),
            (package_files.OTHERS, "bootkeep"),
        ):
            to = f"share/doc/{package}"
            files = package_files.development_files(self.made, place, f"{to}/examples").files
            names = {it.partition(f"{to}/")[2].partition(".gz")[0] for it in files}
            self.assertLessEqual({"c.md", "firmware.md", "linux.md"}, names)
            self.assertLessEqual({"examples/machine.c", "examples/tell.h"}, names)

    def test_the_module_for_python_has_its_pages_and_examples(self) -> None:
        files = package_files.python_files({"bootkeep/a.py": b"a"}, "M", "1").files
        self.assertEqual(files["lib/python3/dist-packages/bootkeep/a.py"].data, b"a")
        example = (ROOT / "libraries/python/examples/machine.py").read_bytes()
        self.assertEqual(files["share/doc/python3-bootkeep/examples/machine.py"].data, example)
        self.assertLessEqual(
            {f"share/doc/python3-bootkeep/{it}.md.gz" for it in ("c", "linux")}, set(files)
        )

    def test_each_page_of_a_format_is_there(self) -> None:
        names = {f"formats/{it.name}" for it in (ROOT / "docs" / "formats").glob("*.md")}
        self.assertIn("formats/paths.md", names)
        self.assertLessEqual(names, set(package_files.PAGES))

    def test_the_schema_is_there_as_it_is(self) -> None:
        schema = (ROOT / "docs" / package_files.SCHEMA).read_bytes()
        for place in (package_files.DEBIAN, package_files.OTHERS):
            files = package_files.program_files(self.made, place).files
            self.assertEqual(files[f"share/doc/bootkeep/{package_files.SCHEMA}"].data, schema)

    def test_pictures_of_pages_are_there(self) -> None:
        files = package_files.program_files(self.made, package_files.DEBIAN).files
        self.assertIn("share/doc/bootkeep/pictures/change.svg", files)
        for page in package_files.PAGES:
            text = (ROOT / "docs" / page).read_text(encoding="utf-8")
            for picture in re.findall(r"!\[[^\]]*\]\(([^)]*)\)", text):
                place = os.path.normpath(Path("share/doc/bootkeep", page).parent / picture)
                self.assertIn(place, set(files))

    def test_manuals_are_packed_for_debian(self) -> None:
        files = package_files.program_files(self.made, package_files.DEBIAN).files
        packed = files["share/man/man1/bootvars.1.gz"].data
        self.assertEqual(
            gzip.decompress(packed), (ROOT / "packaging/man" / "bootvars.1").read_bytes()
        )


ELSEWHERE = (
    "what is named in docs/ here is a page of the source",
    "Other pages that are named here are in the package `bootkeep`, or in the source",
)
"""How a text says where all pages are that it names."""

OF_ALL = ("PROVED", proof_note.LIST)
"""What each package has, beside what is its own."""

PAGE = re.compile(r"`?\bdocs/([\w/.-]+\.(?:md|json))\b`?")
MANUAL = re.compile(r"\b([\w-]+)(?:\((\d)\)| (\d)(?= ))")
INSTALLED = re.compile(r"/usr/(?:share|lib|libexec)/[\w/.-]*\w")


class Named(unittest.TestCase):
    """What the installed pages, manuals and texts name is in the same package, or in one that it depends on; or they say
    where it is."""

    packages: Dict[str, Dict[str, File]]
    depends: Dict[str, Set[str]]

    @classmethod
    def setUpClass(cls) -> None:
        folder = Path(tempfile.mkdtemp(prefix="bootkeep test "))
        cls.addClassCleanup(shutil.rmtree, folder)
        for name in (*BUILT, *package_files.DESCRIPTIONS):
            (folder / name).write_text("")
        shutil.copy(HEADER, folder)
        made = package_files.Made({}, folder)
        examples, place = "share/doc/libbootkeep-dev/examples", package_files.DEBIAN
        cls.packages = {
            "ansible-collection-bootkeep-boot": package_files.collection_files().files,
            "bootkeep": package_files.program_files(made, place).files,
            "bootkeep-agent": package_files.agent_files(place).files,
            "bootkeep-fleet": package_files.fleet_files(place).files,
            "libbootkeep-dev": package_files.development_files(made, place, examples).files,
        }
        control = (ROOT / "packaging/debian/control").read_text(encoding="utf-8")
        cls.depends = {
            re.split(r"\s", part)[0]: set(re.findall(r"[\w-]+", "".join(needed(part))))
            for part in control.split("Package: ")[1:]
        }

    def there(self, package: str) -> List[str]:
        """The paths of a package's files, and of those of the packages that it depends on, without `.gz`."""
        some = [it for it in self.packages if it == package or it in self.depends[package]]
        found = [re.sub(r"\.gz$", "", path) for it in some for path in self.packages[it]]
        return [*found, *(f"share/doc/{it}/{name}" for it in some for name in OF_ALL)]

    def texts(self) -> Iterator[Tuple[str, str, List[str]]]:
        """Each text that is installed, by its package and its path, in paragraphs without line breaks."""
        for package, files in self.packages.items():
            for path, file in files.items():
                data = gzip.decompress(file.data) if path.endswith(".gz") else file.data
                if re.search(r"(/doc/.*\.md|/man/.*|\.h|\.service|README.*)(\.gz)?$", path):
                    yield package, path, paragraphs(data.decode())

    def test_pages(self) -> None:
        named = 0
        for package, path, parts in self.texts():
            pages = [it.partition("/doc/")[2].partition("/")[2] for it in self.there(package)]
            if any(said in part for part in parts for said in ELSEWHERE):
                continue
            for part in parts:
                for found in PAGE.finditer(part):
                    after = part[found.end() :].lstrip(" `")
                    if not after.startswith("of the source") and not self.says(part, found[1]):
                        self.assertIn(found[1], pages, f"{package} {path}: {part}")
                        named += 1
        self.assertGreater(named, 20)

    def says(self, part: str, page: str) -> bool:
        """Whether a paragraph names the package that has a page."""
        have = [
            it for it, files in self.packages.items() if any(f"/{page}" in one for one in files)
        ]
        return any(says_package(part, it) for it in have)

    def test_pages_that_manuals_name_by_their_names(self) -> None:
        for package, path, parts in self.texts():
            if "/man/" in path:
                there = self.there(package)
                for part in parts:
                    for page in re.findall(r"(?<![\w/.-])([\w.-][\w./-]*\.(?:md|json))\b", part):
                        have = any(it.endswith(f"/{page}") for it in there)
                        self.assertTrue(have or "of the source" in part, f"{path}: {page}")

    def test_manuals(self) -> None:
        ours = {
            re.sub(r".*/man/man\d/|\.gz$", "", path): package
            for package, files in self.packages.items()
            for path in files
            if "/man/" in path
        }
        named = 0
        for package, path, parts in self.texts():
            there, text = {it.rpartition("/")[2] for it in self.there(package)}, "\n".join(parts)
            for name, section, other in MANUAL.findall(text):
                manual = f"{name}.{section or other}"
                if manual in ours and not says_package(text, ours[manual]):
                    self.assertIn(manual, there, f"{package} {path}")
                    named += 1
        self.assertGreater(named, 100)

    def test_files_of_packages(self) -> None:
        named = 0
        for package, path, parts in self.texts():
            there = [f"/usr/{it}" for it in self.there(package)]
            for part in parts:
                for file in INSTALLED.findall(part):
                    if "bootkeep" in file:
                        plain = re.sub(r"\.gz$", "", file)
                        have = any(it == plain or it.startswith(f"{plain}/") for it in there)
                        others = any(
                            says_package(part, it) for it in self.packages if it != package
                        )
                        self.assertTrue(have or others, f"{package} {path}: {file}")
                        named += 1
        self.assertGreater(named, 5)


def needed(part: str) -> List[str]:
    """What a package of the control file depends on."""
    return re.findall(r"^Depends: (.*(?:\n .*)*)", part, re.MULTILINE)


def says_package(part: str, package: str) -> bool:
    """Whether a text names a package."""
    return re.search(rf"(`|package ){package}(?![\w-])", part) is not None


def paragraphs(text: str) -> List[str]:
    """The paragraphs of a page, a manual or a header, each on one line, without the macros of manuals."""
    plain = re.sub(r"^\.(Xr|Pa|It|Nm|Cm|Em|Ql|Li) ", "", text, flags=re.MULTILINE)
    plain = plain.replace(" No of the source", " of the source")
    parts = re.split(r"\n(?:\s*\n|\.(?:Pp|Sh|Ss).*\n| \*\n)", plain)
    return [" ".join(re.sub(r"^ \* ", "", it, flags=re.MULTILINE).split()) for it in parts]


class Collection(unittest.TestCase):
    """What is in the package for Ansible."""

    def test_all_of_it_but_its_tests(self) -> None:
        top = "share/ansible/collections/ansible_collections/bootkeep/boot/"
        source = ROOT / "packaging/ansible"
        names = {
            str(it.relative_to(source))
            for it in source.rglob("*")
            if it.is_file() and not {"tests", "__pycache__"} & set(it.relative_to(source).parts)
        }
        found = package_files.collection_files().files
        self.assertIn("plugins/modules/entries.py", names)
        self.assertEqual(set(found), {top + it for it in names})


class Fleet(unittest.TestCase):
    """What is in the packages of a fleet."""

    def test_an_agent_has_its_unit(self) -> None:
        files = package_files.agent_files(package_files.DEBIAN).files
        unit = files["lib/systemd/system/bootfleet-agent.service"].data.decode()
        called = re.search(r"(?m)^ExecStart=/usr/(\S+) ", unit)
        assert called is not None
        self.assertEqual(files[called[1]].mode, PROGRAM_MODE)
        self.assertIn("share/man/man8/bootfleet-agent.8.gz", files)

    def test_a_sender_finds_its_modules(self) -> None:
        """By the link that is called, in the folder where the program is."""
        files = package_files.fleet_files(package_files.DEBIAN)
        with tempfile.TemporaryDirectory(prefix="bootkeep test ") as folder:
            files.write(Path(folder), MOMENT)
            program = (Path(folder) / "bin/bootfleet").resolve()
            self.assertTrue((program.parent / "sender/commands.py").is_file())
            self.assertEqual(program.stat().st_mode & 0o777, PROGRAM_MODE)

    def test_the_user_of_a_sender_is_made(self) -> None:
        files = package_files.fleet_files(package_files.DEBIAN).files
        unit = files["lib/systemd/system/bootfleet.service"].data.decode()
        user = re.search(r"(?m)^User=(\w+)$", unit)
        assert user is not None
        made = files["lib/sysusers.d/bootkeep-fleet.conf"].data.decode()
        self.assertRegex(made, rf"(?m)^u {user[1]} ")

    def test_each_package_is_described(self) -> None:
        control = (ROOT / "packaging/debian/control").read_text(encoding="utf-8")
        page = (ROOT / "docs/packages.md").read_text(encoding="utf-8")
        names = re.findall(r"(?m)^Package: (\S+)$", control)
        self.assertIn("bootkeep-agent", names)
        for name in names:
            self.assertIn(f"\n| `{name}` | ", page)


class Install(unittest.TestCase):
    """The script install.sh, over an archive of a few files."""

    def setUp(self) -> None:
        self.folder = Path(tempfile.mkdtemp(prefix="bootkeep test "))
        self.addCleanup(shutil.rmtree, self.folder)
        self.unpack("unpacked", {"lib/only-before": b"before"})

    def unpack(self, name: str, more: Dict[str, bytes]) -> None:
        """Makes an archive's folder."""
        files = FileTree()
        files.put("files/bin/bootvars", b"#!/bin/sh\necho @prefix@\n", PROGRAM_MODE)
        files.put("files/lib/systemd/system/a.service", b"ExecStart=@prefix@/bin/bootvars\n")
        files.link("files/lib/link", "systemd")
        for path, data in more.items():
            files.put(f"files/{path}", data)
        files.put("install.sh", (ROOT / "packaging" / "install.sh").read_bytes(), PROGRAM_MODE)
        files.write(self.folder / name, MOMENT)

    def call(
        self, name: str, *words: str, prefix: str = "/opt/boot"
    ) -> "subprocess.CompletedProcess[str]":
        """Calls its script, which installs below a folder."""
        return subprocess.run(
            [self.folder / name / "install.sh", *words],
            env={**os.environ, "DESTDIR": str(self.folder / "to"), "PREFIX": prefix},
            capture_output=True,
            text=True,
            check=False,
        )

    def installed(self) -> List[str]:
        """What is there."""
        top = self.folder / "to" / "opt" / "boot"
        return sorted(str(it.relative_to(top)) for it in top.rglob("*"))

    def test_is_installed_upgraded_and_taken_out(self) -> None:
        top = self.folder / "to" / "opt" / "boot"
        (top / "lib").mkdir(parents=True)
        (top / "lib" / "others").write_text("somebody's")
        called = self.call("unpacked")
        self.assertEqual((called.returncode, called.stderr), (0, ""))
        self.assertEqual((top / "bin" / "bootvars").read_text(), "#!/bin/sh\necho /opt/boot\n")
        self.assertEqual(oct((top / "bin" / "bootvars").stat().st_mode), "0o100755")
        self.assertEqual(
            (top / "lib/systemd/system/a.service").read_text(), "ExecStart=/opt/boot/bin/bootvars\n"
        )
        self.assertEqual(os.readlink(top / "lib" / "link"), "systemd")
        self.assertEqual((top / "lib" / "only-before").read_text(), "before")
        self.unpack("newer", {"share/new/file": b"new"})
        self.assertEqual(self.call("newer").returncode, 0)
        self.assertFalse((top / "lib" / "only-before").exists())
        self.assertEqual((top / "share/new/file").read_text(), "new")
        self.assertEqual(self.call("newer", "uninstall").returncode, 0)
        self.assertEqual(self.installed(), ["lib", "lib/others"])

    def test_what_it_refuses(self) -> None:
        for words, prefix, why in (
            ("remove", "/opt/boot", "takes the word uninstall, or none"),
            ("uninstall it", "/opt/boot", "takes the word uninstall, or none"),
            ("uninstall", "/opt/boot", "nothing is installed below"),
            ("", "opt/boot", "PREFIX has to begin with a slash: opt/boot"),
            ("", "/opt/a b", "PREFIX may have letters, digits and /._+- alone: /opt/a b"),
        ):
            called = self.call("unpacked", *words.split(), prefix=prefix)
            self.assertEqual(called.returncode, 1, words)
            self.assertIn(why, called.stderr)
            self.assertFalse((self.folder / "to").exists())


if __name__ == "__main__":
    unittest.main()
