"""Machines of `bench/fleet` and `bench/fleet-scale`: their variables, and the model of what is to become of them."""

from __future__ import annotations

import random
import re
import struct
from pathlib import Path
from typing import Dict, List, Mapping, NamedTuple, Optional

VENDOR = "8be4df61-93ca-11d2-aa0d-00e098032b8c"
ATTRIBUTES = b"\7\0\0\0"

NAME = re.compile("Boot[0-9A-F]{4}")
"""The name of an entry's variable."""


class Model:
    """A machine as plain values: its entries, BootOrder and BootNext. Each goal is made at once, as docs/requests.md
    and `bootfleet --help` say it."""

    def __init__(
        self, entries: Dict[int, bytes], order: List[int], following: Optional[int]
    ) -> None:
        self.entries, self.order, self.next = entries, order, following

    def __eq__(self, other: object) -> bool:
        return isinstance(other, Model) and vars(self) == vars(other)

    def __str__(self) -> str:
        names = " ".join(
            f"{number:04X}:{data[6:20:2].decode('latin-1')}"
            for number, data in sorted(self.entries.items())
        )
        return f"{names} order {self.order} next {self.next}"

    def _there(self, option: bytes) -> List[int]:
        return sorted(number for number, data in self.entries.items() if data == option)

    def _one_of(self, there: List[int]) -> int:
        return next((number for number in self.order if number in there), there[0])

    def _add(self, option: bytes) -> int:
        number = next(number for number in range(1 << 16) if number not in self.entries)
        self.entries[number] = option
        return number

    def first(self, option: bytes) -> None:
        there = self._there(option)
        number = self._one_of(there) if there else self._add(option)
        if self.order[:1] != [number]:
            self.order = [number, *(other for other in self.order if other != number)]

    def next_once(self, option: bytes) -> None:
        there = self._there(option)
        number = self._one_of(there) if there else self._add(option)
        if not there and number not in self.order:
            self.order.append(number)
        self.next = number

    def send_free(self, option: bytes) -> None:
        """What the request AddFree makes, however often the option is there."""
        number = self._add(option)
        if number not in self.order:
            self.order.append(number)

    def remove(self, option: bytes) -> None:
        for number in self._there(option):
            del self.entries[number]
            self.order = [other for other in self.order if other != number]
            self.next = None if self.next == number else self.next

    def reach(self, kind: str, option: bytes) -> int:
        """Makes a goal at once. How many requests it takes."""
        there = self._there(option)
        number = self._one_of(there) if there else None
        if kind == "remove":
            self.remove(option)
            return len(there)
        if kind == "first":
            takes = int(number is None or self.order[:1] != [number])
            self.first(option)
            return takes
        takes = int(number is None) + int(number is None or self.next != number)
        self.next_once(option)
        return takes

    def has_twice(self) -> bool:
        return len(set(self.entries.values())) != len(self.entries)


def model_of(variables: Mapping[str, bytes]) -> Model:
    """What variables are as plain values, by their data."""
    entries: Dict[int, bytes] = {}
    order: List[int] = []
    following = None
    for name, data in variables.items():
        if name == "BootOrder":
            order = [number for (number,) in struct.iter_unpack("<H", data)]
        elif name == "BootNext":
            (following,) = struct.unpack("<H", data)
        elif NAME.fullmatch(name):
            entries[int(name[4:], 16)] = data
    return Model(entries, order, following)


def read_machine(place: Path) -> Model:
    """What a folder has."""
    variables = {
        file.name.partition("-")[0]: file.read_bytes()[len(ATTRIBUTES) :]
        for file in place.iterdir()
    }
    return model_of(variables)


def draw_variables(draw: random.Random, option: bytes, wanted: List[bytes]) -> Dict[str, bytes]:
    """The variables of a machine at random: up to five entries, perhaps one that is wanted; an order that may name an
    entry which isn't there, or one twice, and perhaps a BootNext."""
    numbers = draw.sample(range(7), draw.randrange(1, 6))
    entries = {number: option + bytes([number, draw.randrange(256)]) for number in numbers}
    if draw.random() < 0.2:
        entries[draw.choice(numbers)] = draw.choice(wanted)
    order = draw.sample(numbers, len(numbers))
    if draw.random() < 0.2:
        order.insert(draw.randrange(len(order) + 1), 9)
    if draw.random() < 0.2:
        order.append(order[0])
    values = {f"Boot{number:04X}": data for number, data in entries.items()}
    values["BootOrder"] = struct.pack(f"<{len(order)}H", *order)
    values["Timeout"] = b"\5\0"
    if draw.random() < 0.3:
        values["BootNext"] = struct.pack("<H", numbers[0])
    return values


def make_machine(place: Path, draw: random.Random, option: bytes, wanted: List[bytes]) -> None:
    """Makes a machine at random in a folder."""
    place.mkdir(parents=True)
    for name, data in draw_variables(draw, option, wanted).items():
        (place / f"{name}-{VENDOR}").write_bytes(ATTRIBUTES + data)


class Weather(NamedTuple):
    """What becomes of messages: which part is lost, and doubled, for how many seconds at most one is late, and with how
    many of them one comes again that came long before."""

    lost: float
    doubled: float
    late: float
    again: float = 0


FAIR = Weather(0, 0, 0)
FOUL = Weather(0.3, 0.2, 4)
FOULEST = Weather(0.3, 0.2, 4, 0.1)
