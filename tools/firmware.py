"""Checks the library for firmware, and says how much of the stack its calls take: `firmware.py OBJECT HEADER`.

Firmware has no C library, and its interrupt handlers write to the stack below its pointer. So the object has to define
the calls of the header, and to refer to the three functions alone that the header has the program define; nothing is
written but what is handed in, so that no section may stay writable; and no instruction may use memory below the stack
pointer, a segment, or a register that UEFI doesn't set up (UEFI 2.10, 2.3.4). What isn't so is told, and the status is
then 1.

An array on the stack may be indexed from its end, as `-0x1(%rsp,%r8,1)`: that its index is within it is proved of the
sources. How many instructions do so is told, and which functions use registers of SSE that the firmware's convention
of calls wants back (UEFI 2.10, 2.3.4.2), and the library's doesn't.

The stack that a call takes is worked out from the frames that the compiler tells, along the longest way down, without
the program's own three functions. What comes to itself again has to be one of those below, and counts as often as it
does at most. No call may take more than BOOTKEEP_STACK_MAX of the header.
"""

from __future__ import annotations

import re
import subprocess
import sys
from pathlib import Path
from typing import Dict, FrozenSet, Iterator, List, NamedTuple, Set, Tuple

CALLER = {"bootkeep_allocate", "bootkeep_grow", "bootkeep_free"}
"""The functions that the program defines."""

DEPTHS = {
    "core::slice::sort::unstable::quicksort": 33,
    "core::slice::sort::stable::quicksort": 33,
    "core::slice::sort::stable::merge_sort": 17,
    "core::slice::sort::pivot::median_of_medians": 5,
    "core::slice::sort::runs::climb": 18,
    "std_collections::btree::node::Node::count": 12,
    "std_collections::btree::node::Node::destroy": 12,
    "std_collections::btree::node::Node::fill_above": 12,
    "std_collections::btree::node::Node::fill_last": 12,
    "std_collections::btree::node::Node::make_room": 12,
}
"""How often functions of the toolchain's libraries are in themselves, for 65,536 numbers, of which no call sorts more:
a quicksort twice the binary logarithm of how many there are, and once more, before it leaves the rest to another sort;
a merge sort for each halving; the choice of a pivot for each time that there are eight times as many; a merge of runs
for each depth of the tree of merges; and what goes down a tree of numbers as often as that is high at most."""

STACK_MAX = re.compile(r"^#define BOOTKEEP_STACK_MAX (\d+)$", re.M)
DECLARED = re.compile(r"^uint32_t (bootkeep_\w+)\(", re.M)
SYMBOL = re.compile(r"^ *\d+: ([0-9a-f]+) +(\d+) FUNC +\w+ +\w+ +\d+ (.+)$")
SECTION = re.compile(r"^ *\[ *\d+\] (\S+) +\S+ +[0-9a-f]+ [0-9a-f]+ ([0-9a-f]+) [0-9a-f]+ +(\w*) ")
INSTRUCTION = re.compile(r"^ *([0-9a-f]+):\t(.*)$")
TARGET = re.compile(r"^(?:call|j\w+) +([0-9a-f]+) <")
TABLE = re.compile(r"^lea .*# ([0-9a-f]+) <")
FRAME = re.compile(r" FDE .*pc=([0-9a-f]+)\.\.")
OFFSET = re.compile(r"DW_CFA_def_cfa(?:_offset)?: .*?(\d+)$")

BELOW = re.compile(r"-0x[0-9a-f]+\(%rsp\)")
INDEXED = re.compile(r"-0x[0-9a-f]+\(%rsp,")
PROBED = re.compile(r"^lea +-0x[0-9a-f]+\(%rsp\),%r11$")
"""How far down the stack is touched, page by page, before it is used: an address that is compared alone."""

REFUSED = re.compile(
    r"\(bad\)|%(st\b|mm\d|[yz]mm\d|k[0-7]\b|[fg]s:|[cd]r\d)|^(syscall|sysenter|int|in|out|hlt|cli|sti)\b"
)
WANTED_BACK = re.compile(r"%xmm(6|7|8|9|1[0-5])\b")


class Function(NamedTuple):
    """A function by its instructions."""

    name: str
    lines: List[str]
    calls: Set[str]
    frame: int


class Findings:
    """What is found of an object."""

    def __init__(self) -> None:
        self.wrong: List[str] = []
        self.indexed = 0
        self.wanted_back: Set[str] = set()

    def look(self, function: Function) -> None:
        """Looks at the instructions of a function."""
        for line in function.lines:
            if (BELOW.search(line) and not PROBED.match(line)) or REFUSED.search(line):
                self.wrong.append(f"{function.name}: {line}")
            if re.match(r"call +\*", line):
                self.wrong.append(f"{function.name} calls what isn't known: {line}")
            self.indexed += bool(INDEXED.search(line))
            if WANTED_BACK.search(line):
                self.wanted_back.add(function.name)


def output(*words: str) -> str:
    """What a tool prints."""
    return subprocess.run(words, check=True, capture_output=True, text=True).stdout


def frames(file: str) -> Dict[int, int]:
    """The bytes of the frame of each function, by its place, with the place that it returns to."""
    found: Dict[int, int] = {}
    place = -1
    for line in output("readelf", "--debug-dump=frames", "-W", file).splitlines():
        began, offset = FRAME.search(line), OFFSET.search(line)
        if began:
            place = int(began[1], 16)
            found[place] = 8
        elif offset and place >= 0:
            found[place] = max(found[place], int(offset[1]))
        elif " CIE" in line:
            place = -1
    return found


def functions(file: str) -> Iterator[Function]:
    """The functions. Behind its code a function may have tables of jumps, which it names by their places."""
    symbols = [SYMBOL.match(line) for line in output("readelf", "-sW", file).splitlines()]
    places = {int(it[1], 16): (int(it[2]), it[3]) for it in symbols if it and int(it[2])}
    known = frames(file)
    text: Dict[int, List[Tuple[int, str]]] = {it: [] for it in places}
    starts = sorted(places)
    at = 0
    for line in output("objdump", "-d", "--no-show-raw-insn", "-j", ".text", file).splitlines():
        found = INSTRUCTION.match(line)
        if not found:
            continue
        place = int(found[1], 16)
        while at + 1 < len(starts) and place >= starts[at + 1]:
            at += 1
        if starts[at] <= place < starts[at] + places[starts[at]][0]:
            text[starts[at]].append((place, " ".join(found[2].split())))
    for start, lines in text.items():
        size, name = places[start]
        tables = [int(it[1], 16) for it in map(TABLE.match, (line for _, line in lines)) if it]
        end = min([it for it in tables if start < it < start + size], default=start + size)
        code = [line.partition(" #")[0] for place, line in lines if place < end]
        targets = [int(it[1], 16) for it in map(TARGET.match, code) if it]
        calls = {places[it][1] for it in targets if it in places}
        yield Function(name, code, calls, known.get(start, 8))


class Stack:
    """How much of it each function takes."""

    def __init__(self, found: List[Function]) -> None:
        self.functions = {it.name: it for it in found}
        self.most: Dict[str, Tuple[int, FrozenSet[str]]] = {}

    def call(self, name: str) -> int:
        """The bytes that a call of the header takes.

        Raises KeyError for what comes to itself again, nobody knows how often."""
        most, again = self.of(name)
        return most + sum(
            (DEPTHS[it.partition("::<")[0]] - 1) * self.functions[it].frame for it in again
        )

    def of(self, name: str, above: Tuple[str, ...] = ()) -> Tuple[int, FrozenSet[str]]:
        """The bytes on the longest way down, and the functions on ways that come to themselves again."""
        if name in self.most:
            return self.most[name]
        again: Set[str] = set()
        most = 0
        for called in self.functions[name].calls:
            if called == name or called in above:
                again |= {*above[above.index(called) :], name} if called in above else {name}
                continue
            bytes_down, again_down = self.of(called, (*above, name))
            most = max(most, bytes_down)
            again |= again_down
        answer = self.functions[name].frame + most, frozenset(again)
        if not again & set(above):
            self.most[name] = answer
        return answer


def check(file: str, header: str) -> List[str]:
    """What isn't as it has to be, and on standard output what is found besides."""
    text = Path(header).read_text(encoding="utf-8")
    declared = set(DECLARED.findall(text))
    defined = set(output("nm", "-g", "--defined-only", "-j", file).split())
    findings = Findings()
    findings.wrong += [f"{it} is not defined" for it in sorted(declared - defined)]
    findings.wrong += [f"{it} is defined" for it in sorted(defined - declared)]
    needed = set(output("nm", "-u", "-j", file).split())
    findings.wrong += [f"{it} is needed" for it in sorted(needed - CALLER)]
    for line in output("readelf", "-SW", file).splitlines():
        section = SECTION.match(line)
        if section and "W" in section[3] and int(section[2], 16) and section[1] != ".data.rel.ro":
            findings.wrong.append(
                f"{section[1]} has {int(section[2], 16)} bytes that may be written"
            )
    found = list(functions(file))
    for function in found:
        findings.look(function)
    findings.wrong += check_stack(Stack(found), sorted(declared & defined), text)
    print(f"instructions that index an array on the stack from its end: {findings.indexed}")
    print(f"functions that use XMM6 to XMM15: {', '.join(sorted(findings.wanted_back)) or 'none'}")
    return findings.wrong


def check_stack(stack: Stack, calls: List[str], header: str) -> Iterator[str]:
    """The calls that take more of the stack than the header says."""
    said = STACK_MAX.search(header)
    most = int(said[1]) if said else 0
    for name in calls:
        try:
            taken = stack.call(name)
        except KeyError as what:
            yield f"{name} comes to {what} again, nobody knows how often"
            continue
        print(f"stack {taken:5} {name}")
        if taken > most:
            yield f"{name} takes {taken} bytes of stack, more than BOOTKEEP_STACK_MAX"


def main(words: List[str]) -> int:
    """Checks an object against a header."""
    wrong = check(*words)
    for line in wrong:
        print(f"firmware: {line}", file=sys.stderr)
    return int(bool(wrong))


if __name__ == "__main__":
    sys.exit(main(sys.argv[1:]))
