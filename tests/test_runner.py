"""Tests of what runs the cases, over programs that stand for the real ones."""

from __future__ import annotations

import contextlib
import io
import sys
import tempfile
import unittest
from pathlib import Path
from typing import Any, Dict, List
from unittest import mock

TESTS = Path(__file__).resolve().parent
sys.path[:0] = [str(TESTS), str(TESTS.parent / "tools")]

import command_lines  # noqa: E402
import runner  # noqa: E402
from case_files import Case, bytes_of, read_cases, text_of  # noqa: E402

RIGHT = "echo 'some.json 2 cases, 0 differ'"


class WithPrograms(unittest.TestCase):
    """Tests with a folder for programs, which are scripts of the shell."""

    def setUp(self) -> None:
        folder = tempfile.TemporaryDirectory()
        self.addCleanup(folder.cleanup)
        self.folder = Path(folder.name)

    def program(self, script: str) -> Path:
        path = self.folder / "program"
        path.write_text(f"#!/bin/bash\n{script}\n", encoding="utf-8")
        path.chmod(0o755)
        return path


class Shares(WithPrograms):
    """What comes of a share of two cases."""

    def outcome(self, script: str) -> runner.Outcome:
        return runner.run_share(self.program(script), ["cases", "/some.json", "1/2"], 2)

    def check_none_passes(self, script: str, why: str) -> None:
        passed, failed, (line,) = self.outcome(script)
        self.assertEqual((passed, failed), (0, 2))
        self.assertIn(why, line)
        self.assertTrue(line.startswith("cases 1/2: "), line)

    def test_both_pass(self) -> None:
        self.assertEqual(self.outcome(RIGHT), (2, 0, []))

    def test_words(self) -> None:
        script = f'[[ "$0 $*" == *" cases /some.json 1/2" ]] && {RIGHT}'
        self.assertEqual(self.outcome(script), (2, 0, []))

    def test_one_differs(self) -> None:
        told = "echo 'some.json 2 cases, 1 differ'; echo '    read_path 1: found 1, wanted 2'"
        self.assertEqual(self.outcome(told), (1, 1, ["read_path 1: found 1, wanted 2"]))

    def test_rubbish(self) -> None:
        for script in (
            "true",
            "echo rubbish",
            "head -c 100 /dev/urandom",
            "echo 'some.json 1 cases, 0 differ'",
            "echo 'other.json 2 cases, 0 differ'",
            "echo 'some.json 2 cases, 1 differ'",
            f"{RIGHT}; echo more",
        ):
            self.check_none_passes(script, "2 cases are due")

    def test_a_failure(self) -> None:
        self.check_none_passes("echo no file >&2; exit 1", "status 1, 'no file\\n'")
        self.check_none_passes(f"{RIGHT}; exit 3", "status 3")
        self.check_none_passes(f"{RIGHT}; echo no memory >&2", "no memory")

    def test_killed(self) -> None:
        self.check_none_passes(f"{RIGHT}; kill -9 $$", "killed by SIGKILL")

    def test_hanging(self) -> None:
        with mock.patch.object(runner, "SECONDS", 0.2):
            self.check_none_passes(f"{RIGHT}; exec sleep 60", "no answer within 0.2 seconds")

    def test_no_program(self) -> None:
        outcome = runner.run_share(self.folder / "none", ["cases", "/some.json", "1/1"], 2)
        self.assertEqual(outcome[:2], (0, 2))


class Texts(WithPrograms):
    """What comes of checks of which the text is known."""

    def outcome(self, script: str) -> runner.Outcome:
        expected = self.folder / "expected"
        expected.write_text("2 checks, 0 fail\n", encoding="utf-8")
        return runner.run_text(self.program(script), ["checks"], expected, 2)

    def test_all_pass(self) -> None:
        self.assertEqual(self.outcome("echo '2 checks, 0 fail'"), (2, 0, []))

    def test_one_fails(self) -> None:
        passed, failed, lines = self.outcome("echo '2 checks, 1 fail'; echo '    a limit'")
        self.assertEqual(passed + failed, 2)
        self.assertIn("+     a limit", lines)

    def test_a_check_is_lost(self) -> None:
        self.assertGreater(self.outcome("echo '1 checks, 0 fail'").failed, 0)

    def test_killed(self) -> None:
        self.assertEqual(self.outcome("kill -9 $$"), (0, 2, ["killed by SIGKILL"]))


class CommandLines(WithPrograms):
    """What is found of command lines."""

    def found(self, script: str, **members: Any) -> List[str]:
        members.setdefault("words", [])
        return command_lines.differences(self.program(script), Case("bootkeep", 1, members))

    def test_nothing(self) -> None:
        self.assertEqual(self.found("true"), [])
        script = "printf %s \"$1\"; cat; echo 'no' >&2; exit 3"
        stated = {"words": ["a b"], "stdin": "63", "stdout": "a bc", "stderr": "no\n", "status": 3}
        self.assertEqual(self.found(script, **stated), [])
        self.assertEqual(self.found("printf '\\xff'", bytes="ff"), [])

    def test_answers(self) -> None:
        self.assertEqual(self.found("exit 2"), ["status 2, wanted 0"])
        self.assertEqual(self.found("echo a"), ["stdout 'a\\n', wanted ''"])
        self.assertEqual(self.found("echo a >&2", stderr="b"), ["stderr 'a\\n', wanted 'b'"])
        self.assertEqual(self.found("echo a", bytes="62"), ["stdout '610a', wanted '62'"])

    def test_files(self) -> None:
        stated = {"files": {"old": "61", "in/old": ""}}
        self.assertEqual(self.found("true", **stated), [])
        self.assertEqual(self.found("rm old", after={"old": None}, **stated), [])
        self.assertEqual(self.found("printf b >old", after={"old": "62"}, **stated), [])
        self.assertEqual(self.found("printf b >old", unchecked=["old"], **stated), [])
        self.assertEqual(self.found("rm -r in", after={"in/old": None}, **stated), [])
        for script in ("rm old", "printf b >old", "touch in/new", "mkdir new", "ln -s old link"):
            self.assertEqual(len(self.found(script, **stated)), 1, script)
        self.assertEqual(len(self.found("true", after={"old": "62"}, **stated)), 1)
        self.assertEqual(len(self.found("true", after={"old": None}, **stated)), 1)
        self.assertEqual(len(self.found("printf b >>old", files={"old": "61" * 1000})), 1)

    def test_folders(self) -> None:
        self.assertEqual(self.found("[[ -d empty ]]", files={"empty/": ""}), [])
        self.assertEqual(self.found("rmdir empty", files={"empty/": ""}), ["empty: no folder"])

    def test_links(self) -> None:
        stated = {"files": {"old": "61"}, "links": {"link": "old", "none": "new"}}
        self.assertEqual(self.found("printf b >link", after={"old": "62"}, **stated), [])
        self.assertEqual(self.found("printf b >none", after={"new": "62"}, **stated), [])
        self.assertEqual(len(self.found("rm link; cp old link", **stated)), 1)

    def test_modes(self) -> None:
        stated = {"files": {"old": "61"}, "modes": {"old": "640"}}
        self.assertEqual(self.found("[[ $(stat -c %a old) == 640 ]]", **stated), [])
        self.assertEqual(len(self.found("chmod 600 old", **stated)), 1)

    def test_other_modes_after(self) -> None:
        stated = {"files": {"old": "61"}, "modes": {"old": "640"}, "modes_after": {"old": "600"}}
        self.assertEqual(self.found("chmod 600 old", **stated), [])
        self.assertEqual(len(self.found("true", **stated)), 1)

    @unittest.skipUnless(command_lines.may_give_files_away(), "needs root")
    def test_owners(self) -> None:
        stated = {"files": {"old": "61"}, "owners": {"old": [1, 2]}}
        self.assertEqual(self.found("[[ $(stat -c %u:%g old) == 1:2 ]]", **stated), [])
        self.assertEqual(len(self.found("chown 3 old", **stated)), 1)
        self.assertEqual(self.found("! chown 3 old 2>/dev/null", keeps_files=True, **stated), [])

    def test_surroundings(self) -> None:
        self.assertEqual(self.found("[[ $1 == $'\\xff' ]]", words=[{"hex": "ff"}]), [])
        self.assertEqual(self.found("echo a 2>/dev/null || exit 5", full=["stdout"], status=5), [])
        self.assertEqual(
            self.found("trap '' PIPE; echo a 2>/dev/null || exit 5", closed=True, status=5), []
        )
        self.assertEqual(self.found("[[ $(ulimit -v) == 1048576 ]]", memory=1024), [])
        self.assertEqual(self.found("[[ $(ulimit -v) == unlimited && ! $HOME ]]"), [])

    def test_first_runs(self) -> None:
        script = "[[ $1 != fail ]] && echo a >>log && cat log"
        stated = {"words": ["b"], "stdout": "a\na\n", "after": {"log": "610a610a"}}
        self.assertEqual(self.found(script, first=["a"], **stated), [])
        found = self.found(script, first=["fail"], **stated)
        self.assertEqual(found, ["the first run ends with status 1"])

    def test_no_answer(self) -> None:
        self.assertEqual(self.found("kill -SEGV $$"), ["killed by SIGSEGV"])
        with mock.patch.object(command_lines, "SECONDS", 0.2):
            self.assertEqual(self.found("exec sleep 60"), ["no answer within 0.2 seconds"])

    def test_where_a_case_runs(self) -> None:
        elsewhere: List[Dict[str, Any]] = [
            {"files": {"/proc/a": ""}},
            {"after": {"/proc/a": ""}},
            {"refused": ["a"]},
            {"locked": ["a"]},
            {"in_memory": True},
        ]
        for members in elsewhere:
            self.assertFalse(command_lines.runs_in_a_folder(Case("bootvars", 1, members)))
        self.assertTrue(command_lines.runs_in_a_folder(Case("bootvars", 1, {"files": {"a": ""}})))


class Runs(WithPrograms):
    """What is told of all jobs."""

    def tally(self, jobs: List[runner.Job]) -> "tuple[runner.Tally, str]":
        printed = io.StringIO()
        with contextlib.redirect_stdout(printed):
            tally = runner.run_jobs(jobs)
        return tally, printed.getvalue()

    def test_counts(self) -> None:
        jobs = [
            runner.Job("a", lambda: runner.Outcome(2, 0, [])),
            runner.Job("b", lambda: runner.Outcome(1, 1, ["one differs"])),
            runner.Job("a", lambda: runner.Outcome(3, 0, [])),
        ]
        tally, printed = self.tally(jobs)
        self.assertEqual(tally, (6, 1))
        self.assertIn("a: 5 passed, 0 failed\n", printed)
        self.assertIn("b: 1 passed, 1 failed\n    one differs\n", printed)

    def test_names(self) -> None:
        programs = runner.Programs(self.program("echo '57 checks, 0 fail'"), {})
        with contextlib.redirect_stdout(io.StringIO()):
            self.assertEqual(runner.run(programs, True, ["checks"]), (57, 0))
            self.assertEqual(runner.run(programs, True, ["checks", "none.json"]), (57, 1))

    def test_wrong_answers_have_to_be_told(self) -> None:
        expected = self.folder / "expected"
        expected.write_text("bootkeep 1: status 0, wanted 1\n", encoding="utf-8")
        case = Case("bootkeep", 1, {"words": [], "status": 1})
        self.assertEqual(runner.run_wrong(self.program("true"), [case], expected), (1, 0, []))
        self.assertEqual(runner.run_wrong(self.program("exit 1"), [case], expected)[:2], (0, 1))


class Files(WithPrograms):
    """What files of cases state."""

    def test_pieces(self) -> None:
        self.assertEqual(text_of("a"), "a")
        self.assertEqual(text_of(["a", {"of": "b", "times": 3}]), "abbb")
        self.assertEqual(text_of({"numbers": [1, 258]})[-4:], "0201")
        self.assertEqual(text_of({"of": "{n};", "for": [9, 10]}), "9;10;")
        self.assertEqual(text_of({"of": "{n:04X};", "for": [9, 10]}), "0009;000A;")
        self.assertEqual(bytes_of({"of": "{n:le32}", "for": [1, 1]}), b"\1\0\0\0")

    def test_groups(self) -> None:
        file = self.folder / "some.json"
        file.write_text(
            '[{"call": "bootkeep", "status": 2, "files": {"a": "01", "b": "02"}, "cases": ['
            '{"words": []}, {"words": ["x"], "status": 1, "files": {"b": "03"}, "slow": true}]}]',
            encoding="utf-8",
        )
        first, second = read_cases(file)
        self.assertEqual(first.members, {"status": 2, "files": {"a": "01", "b": "02"}, "words": []})
        self.assertEqual(second.members["files"], {"a": "01", "b": "03"})
        self.assertEqual((second.members["status"], second.number), (1, 2))
        self.assertEqual((first.is_slow, second.is_slow), (False, True))


if __name__ == "__main__":
    unittest.main()
