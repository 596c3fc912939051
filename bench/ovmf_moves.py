#!/usr/bin/env python3
"""Which boot entries a start of edk2's firmware may write over or delete, and what it did to them. It is written from
the definition, and shares nothing with the program that it is compared with. Places are set files and variable files.

    ovmf_moves.py told PLACE            the entries that a start may write over or delete
    ovmf_moves.py start BEFORE AFTER    says what a start did that wasn't told before it
    ovmf_moves.py moved BEFORE AFTER    the entries that a start wrote over, deleted or made
    ovmf_moves.py settled MODEL PLACE BEFORE AFTER..
                                        says where PLACE is neither the model nor what one of the starts made of it
    ovmf_moves.py keep MODEL PLACE      writes a set of PLACE to standard output, with BootKeepState of MODEL

Such firmware deletes what BootOrder names and is no load option, and takes it and what isn't there out of BootOrder. To
entries that it makes it gives the lowest number that neither BootOrder nor BootNext names, and puts it at BootOrder's
end; what was stored under it is written over. Then it deletes BootNext. This is what edk2's of Debian's package `ovmf`
2022.11 was seen to do, and no rule of the standard.

The status is 0 if nothing is wrong, and 1 otherwise.
"""

from __future__ import annotations

import itertools
import struct
import sys
from typing import Dict, Iterator, List, NamedTuple, Optional, Set

import ovmf_store

Values = Dict[str, bytes]

PATH_END, INSTANCE_END = b"\x7f\xff\x04\x00", b"\x7f\x01\x04\x00"
"""The nodes that end a path, and one of its instances."""


class AtRisk(NamedTuple):
    """The numbers of entries that a start of firmware may write over or delete."""

    unnamed: Set[int]
    """Those that are stored, and that neither BootOrder nor BootNext names."""
    undecodable: Set[int]
    """Those that are stored, that BootOrder names, and that are no load option."""


def entry_name(number: int) -> str:
    """The name of the variable of an entry."""
    return f"Boot{number:04X}"


def entries(values: Values) -> Dict[int, bytes]:
    """The entries that are stored, by their numbers."""
    return {
        int(name[4:], 16): data
        for name, data in values.items()
        if ovmf_store.is_boot_name(name) and name not in ("BootOrder", "BootNext", "Timeout")
    }


def order(values: Values) -> List[int]:
    """The numbers of BootOrder: none if it isn't there."""
    return [number for number, in struct.iter_unpack("<H", values.get("BootOrder", b""))]


def next_entry(values: Values) -> Optional[int]:
    """The number of BootNext, if it is there."""
    return struct.unpack("<H", values["BootNext"])[0] if "BootNext" in values else None


def length_of_path(data: bytes) -> Optional[int]:
    """The length of the path at the front of these bytes, if there is one."""
    place = 0
    while place + 4 <= len(data):
        if data[place : place + 4] == PATH_END:
            return place + 4
        (length,) = struct.unpack_from("<H", data, place + 2)
        is_end = data[place] == PATH_END[0]
        if (
            length < 4
            or place + length > len(data)
            or is_end
            and data[place : place + 4] != INSTANCE_END
        ):
            return None
        place += length
    return None


def is_option(data: bytes) -> bool:
    """Whether these bytes are a load option: attributes, the length of a list, a description with its end, and a list
    of paths, one at least."""
    if len(data) < 6:
        return False
    (length,) = struct.unpack_from("<H", data, 4)
    ends = (place + 2 for place in range(6, len(data) - 1, 2) if data[place : place + 2] == b"\0\0")
    start = next(ends, None)
    if start is None or length == 0 or start + length > len(data):
        return False
    paths = data[start : start + length]
    while paths:
        front = length_of_path(paths)
        if front is None:
            return False
        paths = paths[front:]
    return True


def at_risk(values: Values) -> AtRisk:
    """Which entries a start of firmware may write over or delete."""
    stored, named = entries(values), order(values)
    return AtRisk(
        unnamed={
            number for number in stored if number not in named and number != next_entry(values)
        },
        undecodable={
            number for number in stored if number in named and not is_option(stored[number])
        },
    )


def told_of(values: Values) -> List[int]:
    """The numbers of all entries that a start may write over or delete, rising."""
    unnamed, undecodable = at_risk(values)
    return sorted(unnamed | undecodable)


def own_entries(before: Values, after: Values) -> List[int]:
    """The numbers of the entries that a start put at the order's end."""
    return order(after)[len(kept_order(before)) :]


def kept_order(values: Values) -> List[int]:
    """What a start keeps of the order: the entries that are load options."""
    stored, risk = entries(values), at_risk(values)
    return [
        number for number in order(values) if number in stored and number not in risk.undecodable
    ]


def findings_of_start(before: Values, after: Values) -> Iterator[str]:
    """What a start did to the boot variables that wasn't told before it."""
    was, now, risk = entries(before), entries(after), at_risk(before)
    kept, own = kept_order(before), own_entries(before, after)
    for number in sorted(was):
        if now.get(number) != was[number] and number not in risk.unnamed | risk.undecodable:
            yield f"{entry_name(number)} is changed, and it wasn't told"
        if number not in now and number not in risk.undecodable:
            yield f"{entry_name(number)} is gone"
    for number in sorted(now.keys() - was.keys() - set(own)):
        yield f"{entry_name(number)} is new, and isn't at the order's end"
    if order(after)[: len(kept)] != kept:
        yield f"the order is {words_of(order(after))}, and doesn't begin with {words_of(kept)}"
    taken = {*kept, next_entry(before)}
    for number in own:
        if number != next(free for free in itertools.count() if free not in taken):
            yield f"{entry_name(number)} isn't the lowest number that is in no order"
        if not is_option(now.get(number, b"")):
            yield f"{entry_name(number)} was put into the order, and is no load option"
        taken.add(number)
    if "BootNext" in after:
        yield "BootNext is left"


def moved_by(before: Values, after: Values) -> List[int]:
    """The numbers of entries that differ before and after a start."""
    was, now = entries(before), entries(after)
    return sorted(
        number for number in was.keys() | now.keys() if was.get(number) != now.get(number)
    )


def findings_of_settling(model: Values, place: Values, *starts: Values) -> Iterator[str]:
    """Where the boot variables of a place that was settled after starts are neither those of the model nor what one of
    the starts made of them: of each there is what was before it and after it. BootNext is gone."""
    found = ovmf_store.boot_values(place)
    pairs = list(zip(starts[::2], starts[1::2]))
    for name in sorted(found.keys() | ovmf_store.boot_values(model).keys() - {"BootNext"}):
        made = [after.get(name) for before, after in pairs if after.get(name) != before.get(name)]
        if name == "BootNext":
            yield "it has a BootNext after a start"
        elif found.get(name) not in [model.get(name), *made]:
            yield f"{name} is neither the model's nor firmware's"


def with_state(model: Values, place: Values) -> Values:
    """The boot variables of the place, and which requests were applied to the model."""
    return ovmf_store.boot_values(place) | {
        name: data for name, data in model.items() if name == "BootKeepState"
    }


def words_of(numbers: List[int]) -> str:
    """The numbers as text."""
    return " ".join(f"{number:04X}" for number in numbers) or "-"


def read_values(place: str) -> Values:
    """The values in a set file or a variable file, by name."""
    data = ovmf_store.read_file(place)
    if data[:4] == b"BVS1":
        return ovmf_store.read_set(data)
    return ovmf_store.global_values(ovmf_store.read_store(data))


def main(words: List[str]) -> int:
    """Does what the words say. Gives the status."""
    command, *places = words
    values = [read_values(place) for place in places]
    if command == "keep":
        sys.stdout.buffer.write(ovmf_store.write_set(with_state(*values)))
        return 0
    if command in ("told", "moved"):
        print(words_of(told_of(*values) if command == "told" else moved_by(*values)))
        return 0
    findings = list(
        findings_of_start(*values) if command == "start" else findings_of_settling(*values)
    )
    for finding in findings:
        print(finding)
    return 1 if findings else 0


if __name__ == "__main__":
    try:
        sys.exit(main(sys.argv[1:]))
    except ovmf_store.Malformed as fault:
        sys.exit(f"ovmf_moves: {' '.join(sys.argv[1:])}: {fault}")
