"""Tests of the scripts `bootkeep`, `bootvars` and `efibootmgr`, over a toolchain that proves nothing."""

from __future__ import annotations

import os
import shutil
import subprocess
import sys
import tempfile
import time
import unittest
from pathlib import Path
from typing import Dict, List, Tuple
from unittest import mock

TESTS = Path(__file__).resolve().parent
ROOT = TESTS.parent
sys.path.insert(0, str(ROOT / "tools"))

import building  # noqa: E402
import command_rows  # noqa: E402
import launch  # noqa: E402
import progress  # noqa: E402
import repository  # noqa: E402
import trying  # noqa: E402

NOT_PROVED = "this answer is of the program that isn't proved yet"


class Words(unittest.TestCase):
    """Which words only show something."""

    def test_each_command_is_one_or_the_other(self) -> None:
        commands = launch.PROGRAMS["bootvars"]
        self.assertFalse(commands.shows & commands.keeps)
        named = {it.name for it in command_rows.bootvars_commands()}
        self.assertEqual(commands.shows | commands.keeps, named | {"help"})

    def test_what_changes_a_machine_is_not_only_shown(self) -> None:
        for line in (
            *("try vars 0001", "confirm vars", "apply vars file", "timeout vars 5"),
            *("undo vars", "add vars --loader f", "efibootmgr -n 0001", "apply vars -- --of"),
        ):
            self.assertFalse(launch.only_shows("bootvars", line.split()), line)
        for line in (
            *("try vars 0001 --dry-run", "apply --of vars", "apply vars file --dry-run"),
            *("timeout --help", "undo --list vars", "show vars", "efibootmgr -v", ""),
        ):
            self.assertTrue(launch.only_shows("bootvars", line.split()), line)


class Clone(unittest.TestCase):
    """A clone with crates that hold next to nothing, in a folder with a blank in its name."""

    def setUp(self) -> None:
        self.folder = Path(tempfile.mkdtemp(prefix="bootkeep test "))
        self.addCleanup(self.remove)
        self.root = self.folder / "a clone"
        self.log = self.folder / "log"
        shutil.copytree(
            ROOT / "tools", self.root / "tools", ignore=shutil.ignore_patterns("__pycache__")
        )
        for name in ("bootkeep", "bootvars", "HANDLES", "docs/performance.md"):
            (self.root / name).parent.mkdir(exist_ok=True)
            shutil.copy(ROOT / name, self.root / name)
        (self.root / "crates.txt").write_text(
            "low: thiserror\nother: thiserror\nhigh: low other\nbootkeep: low other high\n"
            "bootvars: low\ncalls_c staticlib: low\n"
        )
        for crate in ("low", "other", "high", "bootkeep", "bootvars", "calls_c"):
            (self.root / "crates" / crate / "src").mkdir(parents=True)
            (self.root / "crates" / crate / "src" / "lib.rt").write_text("pub fn one() {}\n")
        toolchain = self.folder / "toolchain"
        toolchain.mkdir()
        shutil.copy(TESTS / "fake_rt.py", toolchain / "rt")
        os.chmod(toolchain / "rt", 0o755)
        self.path = f"{toolchain}{os.pathsep}{os.environ['PATH']}"

    def remove(self) -> None:
        """Removes all, also what can't be written."""
        subprocess.run(["chmod", "-R", "u+w", self.folder], check=True)
        shutil.rmtree(self.folder)

    def environment(self, modes: str) -> Dict[str, str]:
        """The environment of a call."""
        hidden = {"FAKE_RT_LOG": str(self.log), "FAKE_RT_HIDDEN": str(self.folder)}
        return {
            **os.environ,
            **hidden,
            "PATH": self.path,
            "FAKE_RT": modes,
            "PYTHONDONTWRITEBYTECODE": "1",
        }

    def call(
        self, program: str, *words: str, modes: str = "", given: str = ""
    ) -> "subprocess.CompletedProcess[str]":
        """Runs a script in the folder above the clone's."""
        return subprocess.run(
            [self.root / program, *words],
            cwd=self.folder,
            env=self.environment(modes),
            input=given,
            capture_output=True,
            text=True,
            check=False,
            timeout=60,
        )

    def proofs(self) -> List[str]:
        """What was proved."""
        return self.log.read_text().splitlines() if self.log.exists() else []


class Unproved(Clone):
    """Calls before anything is proved."""

    def test_shows_at_once(self) -> None:
        called = self.call("bootvars", "show", "set")
        self.assertEqual(called.stdout, "unproved bootvars: show set\n")
        self.assertEqual(called.returncode, 0)
        first, *_, last = called.stderr.splitlines()
        self.assertEqual(first, f"bootvars: {NOT_PROVED}")
        self.assertRegex(
            last, r"^bootvars: not proved; './bootvars --prove' proves it: 2 crates, about "
        )
        self.assertEqual(self.proofs(), [])

    def test_keeps_what_was_compiled(self) -> None:
        self.assertIn("compiling", self.call("bootvars", "show").stderr)
        self.assertNotIn("compiling", self.call("bootvars", "show").stderr)
        (self.root / "crates" / "other" / "src" / "lib.rt").write_text("pub fn two() {}\n")
        self.assertNotIn("compiling", self.call("bootvars", "show").stderr)
        (self.root / "crates" / "low" / "src" / "lib.rt").write_text("pub fn two() {}\n")
        self.assertIn("compiling", self.call("bootvars", "show").stderr)

    def test_wrong_words_have_their_status(self) -> None:
        called = self.call("bootkeep", "wrong")
        self.assertEqual((called.returncode, called.stdout), (2, "unproved bootkeep: wrong\n"))
        self.assertIn("wrong words\n", called.stderr)

    def test_words_that_show(self) -> None:
        shows: List[Tuple[str, List[str]]] = [
            ("bootvars", ["write", "set", "place", "--dry-run"]),
            ("bootvars", ["first", "--dry-run", "place", "0000"]),
            ("bootvars", ["undo", "place", "--list"]),
            ("bootvars", ["read", "--help"]),
            ("bootvars", ["update", "-V"]),
            ("bootvars", ["explain", "script"]),
            ("bootvars", ["check", "place"]),
            ("bootvars", ["efibootmgr", "-v"]),
            ("bootkeep", ["option", "file"]),
            ("bootkeep", []),
        ]
        for program, words in shows:
            called = self.call(program, *words)
            self.assertEqual(called.stdout, f"unproved {program}: {' '.join(words)}\n")
        self.assertEqual(self.proofs(), [])

    def test_the_words_of_efibootmgr(self) -> None:
        (self.root / "efibootmgr").symlink_to("tools/efibootmgr")
        for script in ("tools/efibootmgr", "efibootmgr"):
            called = self.call(script, "-v")
            self.assertEqual(called.stdout, "unproved bootvars: efibootmgr -v\n")

    def test_words_that_keep_are_proved_first(self) -> None:
        for program, words in (
            ("bootvars", ["read", "place", "--out", "set"]),
            ("bootvars", ["write", "set", "place"]),
            ("bootvars", ["write", "set", "--", "--dry-run"]),
            ("bootvars", ["first", "place", "0000"]),
            ("bootvars", ["option", "--dry-run", "--out", "option"]),
            ("bootvars", ["update", "--state", "folder", "place", "script"]),
            ("bootvars", ["option", "--out", "option"]),
            ("bootvars", ["frame", "0", "next", "1"]),
            ("bootvars", ["efibootmgr", "-v", "-n", "1"]),
            ("bootkeep", ["run", "set", "script", "--out", "set"]),
        ):
            called = self.call(program, *words)
            self.assertEqual(called.stdout, f"proved {program}: {' '.join(words)}\n")
            self.assertNotIn(NOT_PROVED, called.stderr)

    def test_a_proof_by_name(self) -> None:
        called = self.call("bootkeep", "--prove")
        self.assertEqual((called.returncode, called.stdout), (0, ""))
        self.assertIn("4 crates, about ", called.stderr)
        self.assertIn(
            "this toolchain is a toolchain that proves nothing, and all is proved with",
            called.stderr,
        )
        self.assertEqual(sorted(self.proofs()), sorted(self.proofs_wanted()))
        self.assertEqual(self.call("bootkeep", "show").stdout, "proved bootkeep: show\n")
        self.assertEqual(self.call("bootkeep", "show").stderr, "")

    @staticmethod
    def proofs_wanted() -> List[str]:
        """The proofs of bootkeep: without room for two, `rt` proves the libraries by itself. Beside the third one no other
        can be proved, so it gets all processors."""
        if not building.has_room():
            return ["run bootkeep"]
        jobs = min(len(os.sched_getaffinity(0)), building.JOBS_MAX)
        return ["lib low", "lib other", f"lib high --jobs {jobs}", "run bootkeep"]

    def test_a_static_library(self) -> None:
        called = self.build("calls_c")
        self.assertEqual(called.returncode, 0)
        self.assertEqual(Path(called.stdout.rstrip()).read_text(), "proved calls_c\n")
        self.assertEqual(self.proofs(), ["lib calls_c"])
        self.assertEqual(self.build("calls_c").stderr, "")
        self.assertEqual(self.build("calls_c", modes="refuse-lib").returncode, 0)

    def test_a_static_library_by_rattle(self) -> None:
        called = self.build("--rattle", "calls_c")
        tree = self.root / "out" / "rattle"
        self.assertEqual(called.stdout, f"{tree / 'out' / 'proved' / 'libcalls_c.a'}\n")
        self.assertEqual(
            (tree / "crates.txt").read_text(),
            "low: thiserror\ncalls_c staticlib backend=rattle: low\n",
        )
        self.assertEqual(self.proofs(), ["lib calls_c", "lib calls_c"])
        self.assertEqual(self.build("--rattle", "calls_c", modes="refuse-lib").returncode, 0)
        (self.root / "crates" / "low" / "src" / "lib.rt").write_text("pub fn two() {}\n")
        self.assertEqual(self.build("--rattle", "calls_c", modes="refuse-lib").returncode, 70)
        self.assertEqual(self.build("--rattle", "calls_c").returncode, 0)
        self.assertEqual(
            (tree / "crates" / "low" / "src" / "lib.rt").read_text(), "pub fn two() {}\n"
        )

    def test_two_static_libraries_by_rattle_at_once(self) -> None:
        script = [sys.executable, str(self.root / "tools" / "build.py"), "--rattle", "calls_c"]
        calls = [
            subprocess.Popen(script, env=self.environment("slow"), stdout=subprocess.PIPE)
            for _ in range(3)
        ]
        made = [it.communicate(timeout=60)[0] for it in calls]
        self.assertEqual([it.returncode for it in calls], [0, 0, 0])
        self.assertEqual(len(set(made)), 1)
        self.assertEqual(self.proofs(), ["lib calls_c", "lib calls_c"])

    def build(self, *words: str, modes: str = "") -> "subprocess.CompletedProcess[str]":
        """Proves and builds a crate, as the script of the library for C does."""
        return subprocess.run(
            [sys.executable, self.root / "tools" / "build.py", *words],
            env=self.environment(modes),
            capture_output=True,
            text=True,
            check=False,
            timeout=60,
        )

    def test_a_changed_source(self) -> None:
        self.call("bootkeep", "--prove")
        (self.root / "crates" / "bootkeep" / "src" / "lib.rt").write_text("pub fn two() {}\n")
        self.assertEqual(self.call("bootkeep", "show").stdout, "unproved bootkeep: show\n")
        self.assertEqual(self.call("bootkeep", "run").stdout, "proved bootkeep: run\n")

    def test_a_build_that_fails(self) -> None:
        for mode, crate in (("refuse-run", "bootkeep"), ("refuse-lib", "low")):
            called = self.call("bootkeep", "run", "set", modes=mode)
            self.assertEqual((called.returncode, called.stdout), (70, ""))
            self.assertIn("is not proved", called.stderr)
            self.assertIn("the build failed", called.stderr)
            self.assertEqual(self.call("bootkeep", "show").stdout, "unproved bootkeep: show\n")

    def test_two_proofs_at_once(self) -> None:
        calls = [self.start("bootkeep", "--prove") for _ in range(2)]
        self.assertEqual([it.wait(60) for it in calls], [0, 0])
        self.assertEqual(self.proofs().count("run bootkeep"), 1)

    def test_shows_while_a_proof_is_at_work(self) -> None:
        proof = self.start("bootkeep", "--prove")
        while not self.log.exists():
            time.sleep(0.05)
        self.assertEqual(self.call("bootkeep", "show").stdout, "unproved bootkeep: show\n")
        self.assertEqual(proof.wait(60), 0)

    def start(self, program: str, *words: str) -> "subprocess.Popen[bytes]":
        """Starts a call that takes a while."""
        return subprocess.Popen(
            [self.root / program, *words], env=self.environment("slow"), stderr=subprocess.DEVNULL
        )

    def test_two_that_compile_at_once(self) -> None:
        calls = [
            subprocess.Popen(
                [self.root / "bootvars", "show"],
                env=self.environment(""),
                stdout=subprocess.PIPE,
                stderr=subprocess.DEVNULL,
            )
            for _ in range(2)
        ]
        for call in calls:
            self.assertEqual(call.communicate(timeout=60)[0], b"unproved bootvars: show\n")

    def test_a_clone_that_cannot_be_written(self) -> None:
        subprocess.run(["chmod", "-R", "a-w", self.root], check=True)
        if os.geteuid() == 0:
            # Nothing is kept from root by its rights: a file is in the place of the folder.
            subprocess.run(["chmod", "u+w", self.root], check=True)
            (self.root / "out").write_text("no folder")
        self.assertEqual(self.call("bootvars", "show").stdout, "unproved bootvars: show\n")
        called = self.call("bootvars", "read")
        self.assertEqual((called.returncode, called.stdout), (70, ""))
        self.assertIn("can't be written", called.stderr)


class WithoutCopy(Clone):
    """Calls if no copy can be taken of what was compiled: each goes by `rt try`."""

    def test_streams_places_and_status(self) -> None:
        (self.folder / "file").write_text("a text")
        called = self.call("bootvars", "show", "file", modes="hide-program")
        self.assertEqual(called.stdout, f"unproved bootvars: show {self.folder}/file has a text\n")
        called = self.call("bootkeep", "wrong", modes="hide-program")
        self.assertEqual(called.returncode, 2)
        self.assertIn("wrong words\n", called.stderr)
        self.assertNotIn("run=", called.stderr)

    def test_proves_if_there_is_no_answer(self) -> None:
        for mode in ("refuse-try", "hide-program long-output"):
            called = self.call("bootkeep", "show", modes=mode)
            self.assertEqual(called.stdout, "proved bootkeep: show\n")
            (self.root / "crates" / "low" / "src" / "lib.rt").write_text(f"// {mode}\n")


class Compiling(Clone):
    """Programs that `rt try` doesn't compile in time, or at all."""

    def why(self, modes: str) -> str:
        """Why there is no program within a second."""
        around = mock.patch.dict(os.environ, self.environment(modes))
        with around, mock.patch.object(trying, "COMPILED_WITHIN", 1):
            with self.assertRaises(trying.NotTried) as raised:
                trying.build(self.root, "bootvars", ["explain"], self.folder)
        return str(raised.exception)

    def test_one_that_takes_too_long(self) -> None:
        self.assertIn("it wasn't compiled within", self.why("slow-try"))

    def test_one_that_is_refused(self) -> None:
        self.assertIn("error: it has no main", self.why("refuse-try"))


class Programs(unittest.TestCase):
    """What the scripts know of the programs."""

    def test_each_crate_has_its_figures(self) -> None:
        self.assertEqual(set(progress.proof_seconds()), set(repository.read_crates()))


if __name__ == "__main__":
    unittest.main()
