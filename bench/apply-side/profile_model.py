"""What `bootvars apply` has to make of boot variables, worked out from the definitions and the UEFI specification 2.10. It
shares nothing with the program that it is compared with."""

from __future__ import annotations

import struct
from dataclasses import dataclass, field
from typing import Dict, List, Optional, Tuple, Union

Values = Dict[str, bytes]
"""The data of variables, by name."""

ACTIVE = 1
"""The attribute LOAD_OPTION_ACTIVE (UEFI 2.10, 3.1.3)."""

END_ALL, END_ONE, END = 0xFF, 0x01, 0x7F
"""The sub-types of the node that ends a path, and of the one that ends an instance; and the type of both (10.3.1)."""


class Refused(Exception):
    """Why a profile isn't applied: of which part of it, for what, and which description that part has. An order in which an
    entry is twice has the number of that."""

    def __init__(self, part: str, why: str, description: str) -> None:
        super().__init__(f"{part} {description!r}: {why}")
        self.part, self.why, self.description = part, why, description


@dataclass(frozen=True)
class Entry:
    """An entry that is to be there, with these bytes, or without them isn't to be there."""

    description: str
    option: Optional[bytes] = None
    active: Optional[bool] = None


@dataclass
class Profile:
    """What a machine is to have."""

    entries: List[Entry] = field(default_factory=list)
    first: Optional[List[str]] = None
    only: Optional[List[str]] = None
    next: Union[None, bool, str] = None
    """A description, or false if BootNext isn't to be there."""
    timeout: Union[None, bool, int] = None
    """Seconds, or false if Timeout isn't to be there."""


# ---- load options


def ends_of_paths(data: bytes, place: int, end: int) -> List[int]:
    """Where each path ends of those between two places; nothing if what is there are no paths."""
    ends: List[int] = []
    while place < end:
        if end - place < 4:
            return []
        kind, sub, length = struct.unpack_from("<BBH", data, place)
        is_end = kind == END and sub in (END_ALL, END_ONE)
        if length < 4 or place + length > end or (is_end and length != 4):
            return []
        place += length
        if kind == END and sub == END_ALL:
            ends.append(place)
    return ends if ends and ends[-1] == end else []


def parts_of(data: bytes) -> Optional[Tuple[bytes, int, int]]:
    """The units of the description of a load option, and where its paths begin and end; nothing of what is none."""
    if len(data) < 6:
        return None
    (length,) = struct.unpack_from("<H", data, 4)
    place = 6
    while data[place : place + 2] != b"\0\0":
        if place + 2 > len(data):
            return None
        place += 2
    begin = place + 2
    if begin + length > len(data) or not ends_of_paths(data, begin, begin + length):
        return None
    return data[6:place], begin, begin + length


def units_of(description: str) -> bytes:
    """The bytes of a description, without the unit that closes it."""
    return description.encode("utf-16-le", "surrogatepass")


def text_of(units: bytes) -> str:
    """The text of a description."""
    return units.decode("utf-16-le", "surrogatepass")


def load_option(attributes: int, description: str, paths: bytes, optional: bytes = b"") -> bytes:
    """The bytes of a load option."""
    head = struct.pack("<IH", attributes, len(paths))
    return head + units_of(description) + b"\0\0" + paths + optional


def switched(data: bytes, active: bool) -> bytes:
    """A load option that is active, or isn't."""
    return bytes([data[0] & ~ACTIVE | active]) + data[1:]


# ---- variables


def is_entry(name: str) -> bool:
    """Whether a variable is an entry."""
    digits = name[4:]
    return name[:4] == "Boot" and len(digits) == 4 and set(digits) <= set("0123456789ABCDEF")


def is_boot_name(name: str) -> bool:
    """Whether profiles speak of a variable."""
    return is_entry(name) or name in ("BootOrder", "BootNext", "Timeout")


def numbers_of(values: Values, description: str) -> List[int]:
    """The entries that have a description, by rising number."""
    found = []
    for name in sorted(filter(is_entry, values)):
        parts = parts_of(values[name])
        if parts and parts[0] == units_of(description):
            found.append(int(name[4:], 16))
    return found


def order_of(values: Values) -> Optional[List[int]]:
    """The numbers of BootOrder, none without one; nothing if it can't be read."""
    data = values.get("BootOrder", b"")
    return None if len(data) % 2 else [it for it, in struct.iter_unpack("<H", data)]


def put_order(values: Values, order: List[int]) -> None:
    """Makes BootOrder these numbers, or without any takes it out."""
    values.pop("BootOrder", None)
    if order:
        values["BootOrder"] = struct.pack(f"<{len(order)}H", *order)


def put_number(values: Values, name: str, number: Union[bool, int]) -> None:
    """Makes a variable this number, or by false takes it out."""
    values.pop(name, None)
    if number is not False:
        values[name] = struct.pack("<H", number)


# ---- profiles


def applied(before: Values, profile: Profile) -> Values:
    """What becomes of variables.

    Raises Refused if nothing does."""
    values = dict(before)
    for place, entry in enumerate(profile.entries):
        if entry.description in [it.description for it in profile.entries[place + 1 :]]:
            raise Refused("entry", "twice", entry.description)
        if entry.option is None:
            take_out(values, entry)
        else:
            put_entry(values, entry, entry.option)
    reorder(values, profile)
    if profile.next is not None:
        put_next(values, profile.next)
    if profile.timeout is not None:
        put_number(values, "Timeout", profile.timeout)
    return values


def take_out(values: Values, entry: Entry) -> None:
    """Takes out all entries that have the description."""
    numbers = numbers_of(values, entry.description)
    if not numbers:
        return
    order, next_data = order_of(values), values.get("BootNext")
    if order is None:
        raise Refused("entry", "order", entry.description)
    if next_data is not None and len(next_data) != 2:
        raise Refused("entry", "next", entry.description)
    for number in numbers:
        del values[f"Boot{number:04X}"]
    put_order(values, [it for it in order if it not in numbers])
    if next_data is not None and struct.unpack("<H", next_data)[0] in numbers:
        del values["BootNext"]


def put_entry(values: Values, entry: Entry, option: bytes) -> None:
    """Has one entry with the description, and these bytes."""
    parts = parts_of(option)
    if parts is None:
        raise Refused("entry", "option", entry.description)
    if parts[0] != units_of(entry.description):
        raise Refused("entry", "other", entry.description)
    numbers = numbers_of(values, entry.description)
    if len(numbers) > 1:
        raise Refused("entry", "several", entry.description)
    if numbers:
        name = f"Boot{numbers[0]:04X}"
        there = bool(values[name][0] & ACTIVE)
        values[name] = switched(option, there if entry.active is None else entry.active)
        return
    order = order_of(values)
    if order is None:
        raise Refused("entry", "order", entry.description)
    number = next(it for it in range(0x10000) if f"Boot{it:04X}" not in values)
    values[f"Boot{number:04X}"] = option if entry.active is None else switched(option, entry.active)
    put_order(values, order if number in order else [*order, number])


def named(values: Values, part: str, description: str) -> int:
    """The one entry that has the description."""
    numbers = numbers_of(values, description)
    if len(numbers) != 1:
        raise Refused(part, "several" if numbers else "unknown", description)
    return numbers[0]


def reorder(values: Values, profile: Profile) -> None:
    """Makes BootOrder what it is to be."""
    names = profile.only if profile.first is None else profile.first
    if names is None:
        return
    numbers = [named(values, "order", it) for it in names]
    for place, number in enumerate(numbers):
        if number in numbers[:place]:
            raise Refused("order", "twice", f"{number:04X}")
    others = (order_of(values) or []) if profile.first is not None else []
    put_order(values, numbers + [it for it in others if it not in numbers])


def put_next(values: Values, wanted: Union[bool, str]) -> None:
    """Makes BootNext what it is to be."""
    if isinstance(wanted, str):
        put_number(values, "BootNext", named(values, "next", wanted))
    else:
        values.pop("BootNext", None)


# ---- the file that a place has


def told(values: Values) -> Profile:
    """What `bootvars apply --of` has to say of variables: what each description means that one entry has."""
    profile, names = Profile(), names_told(values)
    for number, description in names.items():
        profile.entries.append(Entry(description, values[f"Boot{number:04X}"]))
    order = order_of(values)
    if order is not None and set(order) <= set(names) and len(set(order)) == len(order):
        profile.only = [names[it] for it in order]
    next_data = values.get("BootNext", b"")
    if len(next_data) == 2 and struct.unpack("<H", next_data)[0] in names:
        profile.next = names[struct.unpack("<H", next_data)[0]]
    if len(values.get("Timeout", b"")) == 2:
        profile.timeout = struct.unpack("<H", values["Timeout"])[0]
    return profile


def names_told(values: Values) -> Dict[int, str]:
    """The descriptions by which such a file names entries, in the order of their numbers: those that one entry has."""
    found: Dict[int, str] = {}
    for name in sorted(filter(is_entry, values)):
        parts = parts_of(values[name])
        description = text_of(parts[0]) if parts else ""
        if parts and len(numbers_of(values, description)) == 1:
            found[int(name[4:], 16)] = description
    return found
