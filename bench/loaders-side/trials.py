"""Starts files, asks what `bootvars check` says of them, and compares the two."""

from __future__ import annotations

from collections import Counter
from dataclasses import dataclass, field
from enum import Enum
from typing import Dict, List, Optional, Sequence

from kinds import RSA
from loader_machine import Machine, Told, Verdict
from ovmf_starts import (
    Disk,
    Entry,
    Firmware,
    Outcome,
    Patience,
    Seen,
    make_disk,
    own_lists,
    read_line,
)
from samples import Lists, Sample, lists_of, parts
from signing import Signing

AT_ONCE = 100
"""How many files a start has at most."""

SIGNED = "secure_boot_undecided"
"""The finding that a signature decides, which isn't looked at. Files that have it are counted, and not told."""

LAST = "LAST.EFI"
"""The file of the last entry, which turns the machine off."""


class Word(Enum):
    """What comes of a comparison."""

    AGREE = "agree"
    DIFFER = "differ"
    UNDECIDED = "undecided"
    UNSAFE = "unsafe"
    EXCEPTED = "excepted"
    UNTOLD = "untold"


@dataclass(frozen=True)
class Way:
    """How files are tried."""

    name: str
    is_secure: bool
    patience: Patience = Patience()
    at_once: int = AT_ONCE


@dataclass(frozen=True)
class Result:
    """What was found of a file."""

    sample: Sample
    seen: Seen
    told: Told
    word: Word
    reason: str = ""


@dataclass
class Trials:
    """All trials."""

    firmware: Firmware
    machine: Machine
    signing: Signing
    counts: "Counter[Word]" = field(default_factory=Counter)
    tried: int = 0
    started: int = 0
    tells_of_secure_boot: bool = False

    def __post_init__(self) -> None:
        self.own = own_lists(self.firmware.template)
        self.last = self.signing.sign(self.signing.named("!last"), "trusted")

    def disk(self, samples: Sequence[Sample]) -> Disk:
        """Makes the partition, of the machine and of the firmware, with these files."""
        self.machine.empty()
        for index, sample in enumerate(samples):
            path = self.machine.partition / file_name(index)
            if sample.is_folder:
                path.mkdir()
            elif sample.data is not None:
                path.write_bytes(sample.data)
        (self.machine.partition / LAST).write_bytes(self.last)
        return make_disk(self.machine.partition, self.firmware.work / "disk")

    def learn(self, samples: Sequence[Sample]) -> None:
        """Finds out whether `check` says something else of any of these files once Secure Boot is on."""
        disk, lists = self.disk(samples), lists_of(samples, self.own)
        off, on = (self.ask(samples, disk, is_on, lists) for is_on in (False, True))
        self.tells_of_secure_boot = off != on

    def ask(
        self, samples: Sequence[Sample], disk: Disk, is_secure: bool, lists: Lists
    ) -> List[Told]:
        """What `check` says of each file."""
        entries = [Entry(f"File {index}", file_name(index)) for index in range(len(samples))]
        self.machine.set_variables(entries, disk.blocks, is_secure, lists)
        told = self.machine.check()
        return [told[f"Boot{index:04X}"] for index in range(len(samples))]

    def run(self, samples: Sequence[Sample], way: Way) -> None:
        """Tries these files, and tells what differs and what isn't decided."""
        found: List[Result] = []
        for part in parts(list(samples), way.at_once):
            found += self.try_part(part, way)
        counts = Counter(it.word for it in found)
        said = ", ".join(f"{counts[word]} {word.value}" for word in Word if counts[word])
        started = sum(it.seen.is_started for it in found)
        print(f"{way.name}: {len(found)} files, {started} started: {said}", flush=True)
        for result in found:
            show(result, way)
        self.counts.update(counts)
        self.tried, self.started = self.tried + len(found), self.started + started

    def try_part(self, samples: List[Sample], way: Way) -> List[Result]:
        """Tries files that are on one partition. What differs is started once more, alone: an image that goes wrong may
        leave firmware in disorder."""
        disk, lists = self.disk(samples), lists_of(samples, self.own)
        told = self.ask(samples, disk, way.is_secure, lists)
        seen = self.observe(range(len(samples)), disk, lists, way)
        found = []
        for index, sample in enumerate(samples):
            result = self.compare(sample, seen[index], told[index], way)
            if result.word == Word.DIFFER:
                again = self.observe([index], disk, lists, way)[index]
                if again != seen[index]:
                    print(f"{way.name}: {sample.name}: {seen[index]} after others, {again} alone")
                result = self.compare(sample, again, told[index], way)
            found.append(result)
        return found

    def observe(self, wanted: Sequence[int], disk: Disk, lists: Lists, way: Way) -> Dict[int, Seen]:
        """Starts the machine until each of these files was tried.

        Raises RuntimeError if firmware tries none."""
        found = {index: Seen(Outcome.UNTRIED) for index in wanted}
        left = list(wanted)
        while left:
            entries = [Entry(f"File {index}", file_name(index)) for index in left]
            entries.append(Entry("last", LAST))
            text = self.firmware.start(entries, disk, way.is_secure, lists, way.patience)
            told = read_line(text, len(entries))
            for number, seen in told.items():
                if number < len(left):
                    found[left[number]] = seen
            if told.get(len(left), Seen(Outcome.UNTRIED)).is_started:
                break
            reached = max((it for it in told if it < len(left)), default=-1)
            if reached < 0:
                raise RuntimeError(f"firmware tries no entry: {text[-200:]!r}")
            found[left[reached]] = stuck(found[left[reached]])
            left = left[reached + 1 :]
        return found

    def compare(self, sample: Sample, seen: Seen, told: Told, way: Way) -> Result:
        """Whether firmware did what `check` says."""

        def result(word: Word, reason: str = "") -> Result:
            return Result(sample, seen, told, word, reason)

        if seen.outcome == Outcome.UNTRIED:
            return result(Word.DIFFER)
        verdict = told.verdict
        if verdict == Verdict.UNSAFE:
            return result(Word.UNSAFE)
        if verdict == Verdict.UNDECIDED:
            return result(Word.UNDECIDED)
        if (verdict == Verdict.STARTS) == seen.is_started:
            return result(Word.AGREE)
        if verdict == Verdict.STARTS and seen.is_denied and not self.tells_of_secure_boot:
            return result(Word.UNTOLD)
        reason = exception(sample, seen) if verdict == Verdict.STARTS else None
        return result(Word.EXCEPTED, reason) if reason else result(Word.DIFFER)


def exception(sample: Sample, seen: Seen) -> Optional[str]:
    """Why a file in which `check` finds nothing was denied, if that is known."""
    return RSA.get(sample.name.split()[0]) if seen.is_denied else None


def file_name(index: int) -> str:
    """The name of a file."""
    return f"F{index}.EFI"


def stuck(seen: Seen) -> Seen:
    """What became of the last entry of a start that didn't come to its end."""
    if seen.outcome in (Outcome.RAN, Outcome.STARTED):
        return Seen(Outcome.STUCK)
    return seen


def show(result: Result, way: Way) -> None:
    """Tells of a file what isn't plain."""
    if result.word in (Word.AGREE, Word.UNTOLD) and result.seen.outcome != Outcome.CRASHED:
        return
    if result.word == Word.UNDECIDED and any(it.kind == SIGNED for it in result.told.findings):
        return
    reason = f" ({result.reason})" if result.reason else ""
    print(f"  {result.word.value}: {way.name}: {result.sample.name}{reason}")
    print(f"    firmware: {result.seen}")
    print(f"    check: {result.told}")
