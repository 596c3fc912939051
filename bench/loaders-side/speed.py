"""How long `bootvars check` takes over 20 entries whose loaders are real ones, and one of 60 MB, all in the page cache."""

from __future__ import annotations

import os
import subprocess
import time
from typing import Dict, List

from images import Headers, put
from loader_machine import Machine
from ovmf_starts import Entry
from samples import Lists

ENTRIES = 20

LARGE = 60 << 20
"""How many bytes the largest file has."""

LEAST = 100 << 10
"""How many bytes a file has at least to be taken for a loader."""

ROUNDS = 15
"""How often it is run at most."""

ENOUGH = 20
"""After how many seconds it isn't run again."""

MOST = 0.050
"""How many seconds more than before it may take."""


def grown(data: bytes, length: int) -> bytes:
    """An image with so many zeros in its last section that it has this length, as a kernel's image with all that it needs
    has them."""
    headers = Headers(data)
    sections = headers.sections(data)
    index = max(range(len(sections)), key=lambda it: sections[it].raw_start)
    place, held = headers.table + 40 * index, sections[index]
    filled = data[: held.raw_start + held.raw_size].ljust(length, b"\0")
    size = len(filled) - held.raw_start
    filled = put(put(filled, place + 8, "I", size), place + 16, "I", size)
    pages = -(-(held.address + size) // 4096) * 4096
    filled = put(filled, headers.pe + 80, "I", max(pages, headers.image_size))
    return put(put(filled, headers.pe + 168, "I", 0), headers.pe + 172, "I", 0)


def best(words: List[str]) -> float:
    """The fewest seconds that a command takes."""
    took: List[float] = []
    while len(took) < ROUNDS and sum(took) < ENOUGH:
        began = time.perf_counter()
        subprocess.run(words, stdout=subprocess.DEVNULL, stderr=subprocess.DEVNULL, check=False)
        took.append(time.perf_counter() - began)
    return min(took)


def measure(machine: Machine, applications: Dict[str, bytes], lists: Lists) -> int:
    """Measures it with Secure Boot off and on, beside the program of before that BOOTVARS_BEFORE names, or else beside
    `show`. Gives how often it takes longer than it may."""
    loaders = [it for it in applications.values() if len(it) >= LEAST]
    if not loaders:
        print("time: there are no loaders to measure it with")
        return 0
    machine.empty()
    held = [grown(loaders[0], LARGE)] + [loaders[it % len(loaders)] for it in range(ENTRIES - 1)]
    entries = [Entry(f"Entry {index}", f"E{index}.EFI") for index in range(ENTRIES)]
    for entry, data in zip(entries, held):
        (machine.partition / entry.file).write_bytes(data)
    print(f"time: {ENTRIES} entries with {sum(map(len, held)) / 1e6:.0f} MB of files")
    return sum(is_longer(machine, entries, is_secure, lists) for is_secure in (False, True))


def is_longer(machine: Machine, entries: List[Entry], is_secure: bool, lists: Lists) -> bool:
    """Measures it in one way."""
    machine.set_variables(entries, 0x64000, is_secure, lists)
    before, words = os.environ.get("BOOTVARS_BEFORE"), machine.words("check")
    now = best(words)
    old = best([before, *words[1:]]) if before else best(machine.words("show"))
    beside = "the program of before" if before else "show, which looks at no file,"
    state, more = "on" if is_secure else "off", now - old
    print(
        f"time: Secure Boot {state}: check takes {now * 1000:.1f} ms, {beside} {old * 1000:.1f} ms: "
        f"{more * 1000:.1f} ms more, at most {MOST * 1000:.0f} wanted"
    )
    return more > MOST
