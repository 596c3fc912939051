"""Runs the cases: those of calls by the program case_runner, those of command lines by the programs
themselves."""

from __future__ import annotations

import difflib
import os
import re
import shutil
from concurrent.futures import ThreadPoolExecutor, as_completed
from functools import partial
from pathlib import Path
from typing import Callable, Dict, Iterator, List, NamedTuple, Sequence

import completion_list
from asking import NoAnswer, ask, shown
from case_files import Case, read_cases
from command_lines import differences, may_give_files_away, runs_in_a_folder

TESTS = Path(__file__).resolve().parent
ROOT = TESTS.parent
CASES = TESTS / "cases"
EXPECTED = TESTS / "expected"

CRATE = "case_runner"
"""The program that makes calls. Its sources are in the folder `program`."""

LIBRARIES = (
    "uefi_path uefi_text uefi_names uefi_option partitions efi_images uefi_vars var_stores "
    "boot_requests whole_files machine_names boot_journal journaled_requests boot_moves "
    "boot_edits boot_commands messages value_texts boot_texts request_texts command_words "
    "var_places change_records boot_history wanted_changes machine_storage machine_changes "
    "boot_updates disk_files boot_trials boot_profiles place_edits trial_changes profile_changes "
    "efibootmgr_runs var_commands serde_json hex anyhow"
)
"""What it stands on."""

WAITS = ["cases"]
"""The words before the path of a file at which it opens the file."""

WRONG = "wrong_"
"""How the name of a file begins whose cases all state something wrong."""

TABLE = CASES / "node_table.md"
"""The table of nodes."""

SHARE = 24
"""How many cases a process has at least where several share a file."""

SECONDS, SLOW_SECONDS = 600, 3600
"""After how many seconds case_runner has no answer, and after how many if that takes long."""


class Programs(NamedTuple):
    """What runs the cases."""

    case_runner: Path
    commands: Dict[str, List[Path]]
    """The executables of `bootkeep` and of `bootvars`. Each has to answer all command lines."""


class Tally(NamedTuple):
    """How many cases and checks passed, and how many didn't."""

    passed: int
    failed: int


class Outcome(NamedTuple):
    """What came of some cases or checks."""

    passed: int
    failed: int
    lines: List[str]
    """What is told of those that failed."""


class Job(NamedTuple):
    """Some cases or checks, which are run one after the other."""

    subject: str
    """The name of their file, or of the checks."""
    run: Callable[[], Outcome]


def make_tree(tree: Path, root: Path = ROOT) -> Path:
    """Makes a folder in which the crate of case_runner stands beside all others."""
    left_out = shutil.ignore_patterns("out", "must-fail")
    shutil.copytree(root / "crates", tree / "crates", ignore=left_out)
    shutil.copy(root / "HANDLES", tree)
    lines = (root / "crates.txt").read_text(encoding="utf-8")
    (tree / "crates.txt").write_text(f"{lines}{CRATE}: {LIBRARIES}\n", encoding="utf-8")
    program = root / "tests" / "program"
    for source in program.rglob("*.rattle"):
        copy = tree / "crates" / CRATE / "src" / source.relative_to(program).with_suffix(".rt")
        copy.parent.mkdir(parents=True, exist_ok=True)
        shutil.copy(source, copy)
    return tree


def run(programs: Programs, quick: bool, names: Sequence[str] = ()) -> Tally:
    """Runs all cases and checks, or those of the files that are named, and tells what came of each.

    If it is to be quick, those that take long are left out."""
    wanted = [Path(name).name for name in names]
    jobs = [job for job in all_jobs(programs, quick) if not wanted or job.subject in wanted]
    unknown = set(wanted) - {job.subject for job in jobs}
    for subject in sorted(unknown):
        print(f"{subject}: there are no such cases")
    passed, failed = run_jobs(jobs)
    return Tally(passed, failed + len(unknown))


def run_jobs(jobs: Sequence[Job]) -> Tally:
    """Runs jobs side by side, and tells what came of a subject as soon as all of it is done."""
    outcomes: Dict[str, List[Outcome]] = {}
    left: Dict[str, int] = {}
    for job in jobs:
        left[job.subject] = left.get(job.subject, 0) + 1
    with ThreadPoolExecutor(processors()) as pool:
        running = {pool.submit(job.run): job.subject for job in jobs}
        try:
            for future in as_completed(running):
                subject = running[future]
                outcomes.setdefault(subject, []).append(future.result())
                left[subject] -= 1
                if left[subject] == 0:
                    tell(subject, outcomes[subject])
        finally:
            for future in running:
                future.cancel()
    every = [outcome for some in outcomes.values() for outcome in some]
    return Tally(sum(it.passed for it in every), sum(it.failed for it in every))


def tell(subject: str, outcomes: List[Outcome]) -> None:
    """Tells what came of a subject."""
    passed, failed = sum(it.passed for it in outcomes), sum(it.failed for it in outcomes)
    lines = "".join(f"    {line}\n" for outcome in outcomes for line in outcome.lines)
    print(f"{subject}: {passed} passed, {failed} failed\n{lines}", end="", flush=True)


def processors() -> int:
    """How many processes run at once."""
    return len(os.sched_getaffinity(0))


def all_jobs(programs: Programs, quick: bool) -> List[Job]:
    """All there is to run, first what takes long, which is left out if it is to be quick."""
    files = {file: read_cases(file) for file in sorted(CASES.glob("*.json"))}
    wrong = {file: files.pop(file) for file in list(files) if file.name.startswith(WRONG)}
    jobs: List[Job] = []
    if quick:
        jobs.append(left_out("slow-checks", due_of("slow-checks.txt")))
    else:
        jobs.append(text_job(programs.case_runner, ["slow-checks"], "slow-checks.txt"))
    for file, cases in files.items():
        jobs += slow_jobs(programs, quick, file, [case for case in cases if case.is_slow])
    for file, cases in wrong.items():
        jobs += wrong_jobs(programs, file, cases)
    for file, cases in files.items():
        others = [case for case in cases if not case.is_slow]
        calls = [case for case in others if not case.is_of_program]
        shares = min(processors(), len(calls) // SHARE + 1)
        jobs += jobs_of_calls(programs.case_runner, "cases", file, calls, shares)
        jobs += jobs_of_command_lines(programs, file, others)
    jobs.append(text_job(programs.case_runner, ["checks"], "checks.txt"))
    jobs.append(text_job(programs.case_runner, ["node-table", str(TABLE)], "node-table.txt"))
    jobs.append(text_job(programs.case_runner, ["examples"], "examples.txt"))
    for program in programs.commands.get("bootvars", []):
        jobs.append(Job("completions", partial(run_completions, program)))
    return jobs


def slow_jobs(programs: Programs, quick: bool, file: Path, cases: List[Case]) -> Iterator[Job]:
    """The cases of a file that take long, each alone."""
    if not quick:
        verb, program = "slow-cases", programs.case_runner
        one_each = jobs_of_calls(program, verb, file, cases, len(cases))
        yield from (job for job, case in zip(one_each, cases) if not case.is_of_program)
        yield from jobs_of_command_lines(programs, file, cases)
    elif cases:
        yield left_out(file.name, len(cases))


def left_out(subject: str, count: int, why: str = "take long") -> Job:
    """Tells that so many cases or checks are left out."""
    return Job(subject, lambda: Outcome(0, 0, [f"{count} {why}, and are left out"]))


def jobs_of_calls(
    program: Path, verb: str, file: Path, cases: List[Case], shares: int
) -> Iterator[Job]:
    """The cases of a file that case_runner runs with this verb, shared by so many processes."""
    if cases and not is_of_command_lines(cases):
        for number in range(1, shares + 1):
            words = [verb, str(file), f"{number}/{shares}"]
            due = len(cases[number - 1 :: shares])
            yield Job(file.name, partial(run_share, program, words, due))


def is_of_command_lines(cases: List[Case]) -> bool:
    """Whether only programs run the cases of a file: those of `bootkeep` are no library's."""
    return any(case.call == "bootkeep" for case in cases)


def jobs_of_command_lines(programs: Programs, file: Path, cases: List[Case]) -> Iterator[Job]:
    """The cases of a file that each executable of a program runs."""
    lines = [it for it in cases if it.call in programs.commands and runs_in_a_folder(it)]
    due = [it for it in lines if not it.gives_files_away or may_give_files_away()]
    for case in due:
        for program in programs.commands[case.call]:
            yield Job(file.name, partial(run_command_line, program, case))
    if len(due) < len(lines):
        yield left_out(file.name, len(lines) - len(due), "need root")


def wrong_jobs(programs: Programs, file: Path, cases: List[Case]) -> Iterator[Job]:
    """A file whose cases all state something wrong: what is told of them is known."""
    expected = EXPECTED / f"{file.stem}.txt"
    if is_of_command_lines(cases):
        for name, executables in programs.commands.items():
            some = [case for case in cases if case.call == name]
            for program in executables:
                yield Job(file.name, partial(run_wrong, program, some, expected))
    else:
        words = ["cases", str(file)]
        run_all = partial(run_text, programs.case_runner, words, expected, len(cases))
        yield Job(file.name, run_all)


def text_job(program: Path, words: List[str], expected: str) -> Job:
    """Something of which all that case_runner prints is known."""
    run_all = partial(run_text, program, words, EXPECTED / expected, due_of(expected))
    return Job(words[0], run_all)


def due_of(expected: str) -> int:
    """How many checks a text that is known counts, or 1."""
    counted = re.match(r"(\d+) checks, ", (EXPECTED / expected).read_text(encoding="utf-8"))
    return int(counted[1]) if counted else 1


def run_share(program: Path, words: List[str], due: int) -> Outcome:
    """Runs a share of so many cases of a file, and finds which differ."""
    share = f"{words[0]} {words[2]}"
    try:
        printed = printed_by(program, words)
    except NoAnswer as why:
        return Outcome(0, due, [f"{share}: {why}"])
    head, *lines = printed.rstrip("\n").split("\n")
    if head != f"{Path(words[1]).name} {due} cases, {len(lines)} differ":
        return Outcome(0, due, [f"{share}: {due} cases are due, and it printed {shown(printed)}"])
    return Outcome(due - len(lines), len(lines), [line.strip() for line in lines])


def run_text(program: Path, words: List[str], expected: Path, due: int) -> Outcome:
    """Runs so many cases or checks, of which all that is printed is known."""
    try:
        printed = printed_by(program, words)
    except NoAnswer as why:
        return Outcome(0, due, [str(why)])
    return compared(printed.splitlines(), expected.read_text(encoding="utf-8").splitlines(), due)


def compared(found: List[str], wanted: List[str], due: int) -> Outcome:
    """What came of so many cases or checks, of which other lines may be wanted than were found."""
    unlike = [line for line in difflib.ndiff(wanted, found) if line[0] in "-+"]
    failed = min(due, max(sum(line[0] == sign for line in unlike) for sign in "-+"))
    return Outcome(due - failed, failed, unlike)


def printed_by(program: Path, words: List[str]) -> str:
    """What case_runner prints.

    Raises NoAnswer if it doesn't end well."""
    seconds = SLOW_SECONDS if words[0].startswith("slow-") else SECONDS
    answer = ask(program, [it.encode() for it in (CRATE, *words)], seconds)
    if answer.status != 0 or answer.stderr:
        complaint = shown(answer.stderr.decode(errors="replace"))
        raise NoAnswer(f"status {answer.status}, {complaint}")
    return answer.stdout.decode(errors="replace")


def run_command_line(program: Path, case: Case) -> Outcome:
    """Runs a command line, and finds what isn't as its case states."""
    lines = [f"{case.name}, {program}: {line}" for line in differences(program, case)]
    return Outcome(0, 1, lines) if lines else Outcome(1, 0, [])


def run_completions(program: Path) -> Outcome:
    """Compares the completions of `bootvars` with those that are made of what its --help prints."""
    lines = completion_list.differences(program, "bootvars")
    return Outcome(0, 1, lines) if lines else Outcome(1, 0, [])


def run_wrong(program: Path, cases: List[Case], expected: Path) -> Outcome:
    """Runs command lines that all state something wrong, of which it is known what is found."""
    found = [f"{case.name}: {line}" for case in cases for line in differences(program, case)]
    calls = {case.call for case in cases}
    known = expected.read_text(encoding="utf-8").splitlines()
    return compared(found, [line for line in known if line.split(" ")[0] in calls], len(cases))
