"""Runs the menu under OVMF, and compares it with the command `bootvars`.

    runs.py BOOTVARS CODE VARIABLES APPLICATIONS

Each run is a screen, what a key changed, or what a program that was started says. What differs is told, and the last
line is `N runs, M differ`; the status is 1 if some do.
"""

from __future__ import annotations

import json
import re
import shutil
import subprocess
import sys
import tempfile
from pathlib import Path
from typing import Any, Dict, List, Optional, Tuple

from console import Ended, Machine

Shown = Dict[str, Any]

WIDTH = 80
"""How many columns OVMF's console has, of which the last one is left free."""

BEHIND_LIST = 10
"""How many lines are below the list: one of the entry, three of its path, five of messages, and that of the keys."""

KEYS_LINE = "Enter start  n next  +/- move  a active or not  d delete  Esc leave"

SMALL = 200_000
"""A variable file with fewer bytes has a small store."""

LEFT = {True: 25_000, False: 60_000}
"""How many bytes of a store are left at first, of a small one and of a large one. With less than the largest variable
has, 8,192 or 33,792, the firmware moves its records at each start, and with more it takes long to fill the rest."""

DISK = "HD(1,MBR,0xbe1afdfa,0x3f,0xfbfc1)"
"""The partition that qemu makes of a folder."""

LONG = "\\EFI\\" + "\\".join(f"a-folder-with-a-long-name-{at}" for at in range(6)) + "\\a.efi"

ENTRIES: List[Tuple[str, str, str, List[str]]] = [
    ("00F0", "Menu", f"{DISK}/File(\\EFI\\menu.efi)", []),
    ("0101", "File alone", "File(\\EFI\\options.efi)", ["--optional-text", "by its file"]),
    ("0102", "Partition", f"{DISK}/File(\\EFI\\options.efi)", ["--optional-hex", "00ff7f80"]),
    ("0103", "Whole path", f"PciRoot(0x0)/Pci(0x5,0x0)/{DISK}/File(\\EFI\\options.efi)", []),
    ("0104", "Inactive", "File(\\EFI\\options.efi)", ["--inactive", "--optional-text", "x"]),
    ("0105", "Application", "File(\\EFI\\options.efi)", ["--app"]),
    ("0106", "Network disk", "Uri(http://192.0.2.1/boot.efi)", []),
    (
        "0107",
        "Nowhere",
        f"HD(7,GPT,5f2c1a9e-7d64-4b0e-9c3b-1e8f60a2d7c4,0x800,0x64000)/File({LONG})",
        [],
    ),
    ("0108", "A description that is longer than its column", "File(\\NOTHING.EFI)", []),
    ("0109", "Löwe", "File(\\EFI\\options.efi)", []),
    ("010A", "Fill", "File(\\EFI\\setter.efi)", ["--optional-hex", "66"]),
    ("010B", "Empty", "File(\\EFI\\setter.efi)", ["--optional-hex", "65"]),
    ("010C", "Refuse", "File(\\EFI\\refuse.efi)", []),
    ("010D", "Raised", "File(\\EFI\\raised.efi)", []),
    ("010F", "Stale", "File(\\EFI\\setter.efi)", ["--optional-hex", "73"]),
    ("010E", "In no order", "File(\\EFI\\options.efi)", ["--no-order"]),
]


HOSTILE = {
    "Boot0BA0": "01",
    "Boot0BA1": "0100000046004200",
    "Boot0BA2": "01000000ffff460000007fff",
    "Boot0BA3": "010000000400460000007f020400",
    "Boot0BA4": "0100000004001b5b00007fff0400",
    "Boot000a": "01000000",
    "boot0001": "01000000",
    "BootABCDE": "01000000",
    "Boot0": "01",
}
"""What no boot manager wrote: entries that are no load options, one with an empty path, and names that are none of
entries. A BootOrder of an odd length is tried on the host: OVMF stores none."""


class Bench:
    """What is compared."""

    def __init__(self, bootvars: str, code: Path, variables: Path, work: Path) -> None:
        self.bootvars, self.code, self.work = bootvars, code, work
        self.file = work / "file.fd"
        self.runs = self.differ = 0
        shutil.copy(variables, self.file)

    def compare(self, what: str, found: object, wanted: object) -> None:
        """Counts a run, and tells it if what is found isn't what is wanted."""
        self.runs += 1
        if found != wanted:
            self.differ += 1
            print(f"bench/uefi: {what}: {found!r} and not {wanted!r}", flush=True)

    def ask(self, *words: str) -> str:
        """What `bootvars` prints."""
        done = subprocess.run([self.bootvars, *words], capture_output=True, text=True, check=False)
        if done.returncode not in (0, 1):
            raise Ended(f"{words}: {done.stderr}")
        return done.stdout

    def edit(self, command: str, place: Path, *words: str) -> str:
        """What a command that changes a place prints."""
        return self.ask(command, str(place), *words, "--state", str(self.work / "state"))

    def copy(self) -> Path:
        """A copy of the variable file as the machine has it now."""
        copy = self.work / "copy.fd"
        shutil.copy(self.file, copy)
        return copy

    def read(self, name: str) -> Path:
        """A set of the boot variables that the machine has now."""
        made = self.work / name
        self.ask("read", "--boot-only", str(self.copy()), "--out", str(made))
        return made

    def show(self) -> Shown:
        """What `bootvars show` tells of the machine now."""
        copy = str(self.copy())
        shown = json.loads(self.ask("show", "--json", copy))
        assert isinstance(shown, dict)
        told = dict(re.findall(r"(?m)^Boot(\w{4}) (?:normal|other) (.*)$", self.ask("show", copy)))
        for entry in shown["entries"]:
            entry["description"] = told.get(entry["entry"], "")
        return shown

    def show_order(self, place: Path) -> List[str]:
        """The numbers of the order of a set."""
        order = json.loads(self.ask("show", "--json", str(place)))["order"]
        assert isinstance(order, list)
        return order


def reason(entry: Optional[Shown]) -> str:
    """Why an entry that is named isn't tried."""
    if entry is None:
        return "no such entry"
    if entry["kind"] == "undecodable":
        return "no load option"
    return "no entry of a normal boot" if entry["active"] else "not active"


class Row:
    """A line of the menu, as it has to be."""

    def __init__(self, mark: str, number: str, entry: Optional[Shown], detail: str) -> None:
        self.mark, self.number, self.entry, self.detail = mark, number, entry, detail

    def line(self, is_selected: bool) -> str:
        """The line."""
        head = f"{'>' if is_selected else ' '} {self.mark:>4} {self.number}".ljust(12)
        head += (self.entry or {}).get("description") or ""
        return (head[:39].ljust(40) + self.detail)[: WIDTH - 1].rstrip()

    def details(self) -> List[str]:
        """The lines of the entry if it is selected."""
        if self.entry is None:
            return [""] * 4
        if self.entry["kind"] == "undecodable":
            size = len(self.entry["data"]) // 2
            return [f"Boot{self.number}: {size} bytes, Option{self.entry['fault'].split()[0]}"] + [
                ""
            ] * 3
        size = len(self.entry["optional"] or "") // 2
        head = f"Boot{self.number}: attributes 0x{self.entry['attributes']:08X}, optional data {size} bytes, path"
        path = self.entry["named_paths"][0]
        return [head] + [
            path[at * (WIDTH - 1) : (at + 1) * (WIDTH - 1)].rstrip() for at in range(3)
        ]


def rows_of(shown: Shown) -> List[Row]:
    """The lines of the menu that these variables have to give."""
    entries = {it["entry"]: it for it in shown["entries"]}
    plan = shown["plan"] or {"next": None, "normal": []}
    tried = ([("next", plan["next"])] if plan["next"] else []) + [
        (str(at + 1), number) for at, number in enumerate(plan["normal"])
    ]
    rows = [Row(mark, it, entries[it], entries[it]["named_paths"][0]) for mark, it in tried]
    seen = {number for _, number in tried}
    is_whole = shown["plan"] is not None
    named = ([shown["next"]] if shown["next"] else []) + (shown["order"] or []) if is_whole else []
    for number in named:
        if number not in seen:
            seen.add(number)
            rows.append(Row("-", number, entries.get(number), reason(entries.get(number))))
    for number, entry in sorted(entries.items()):
        if number not in seen:
            rows.append(Row("-", number, entry, "in no order"))
    return rows


class Menu:
    """The menu, as it runs."""

    def __init__(self, bench: Bench, machine: Machine) -> None:
        self.bench, self.machine = bench, machine
        self.selected = 0

    def lines(self) -> List[str]:
        """The lines of the screen, from the title to the keys."""
        lines = self.machine.screen.lines()
        return lines[: lines.index(KEYS_LINE) + 1]

    def press(self, key: str, draws: int = 1) -> None:
        """Presses a key, after which everything is shown so many times."""
        since = len(self.machine.said)
        self.machine.send(key)
        self.machine.await_text(KEYS_LINE, draws, since)

    def messages(self) -> List[str]:
        """What is said."""
        return [it for it in self.lines()[-6:-1] if it]

    def select(self, number: str, mark: str = "") -> None:
        """Moves to the line of an entry: the first one, or the one with this mark."""
        rows = rows_of(self.bench.show())
        place = next(
            at for at, it in enumerate(rows) if it.number == number and mark in ("", it.mark)
        )
        while self.selected != place:
            self.press("down" if self.selected < place else "up")
            self.selected += 1 if self.selected < place else -1

    def find(self) -> None:
        """Finds the line that is selected."""
        lines = self.lines()[1:]
        self.selected = next((at for at, it in enumerate(lines) if it.startswith("> ")), 0)

    def compare_shown(self, what: str) -> None:
        """Compares the list, and the details of the entry that is selected."""
        rows = rows_of(self.bench.show())
        self.find()
        lines = self.lines()
        wanted = [it.line(at == self.selected) for at, it in enumerate(rows)]
        room = len(lines) - 1 - BEHIND_LIST
        self.bench.compare(f"{what}: the list", lines[1 : 1 + room], (wanted + [""] * room)[:room])
        details = rows[self.selected].details() if rows else [""] * 4
        self.bench.compare(f"{what}: the entry", lines[1 + room : 5 + room], details)

    def change(self, key: str, number: str, mark: str = "", asks: bool = False) -> Path:
        """Changes an entry by a key, and gives the set from before."""
        self.select(number, mark)
        before = self.bench.read("before")
        self.press(key, 1 if asks else 2)
        if asks:
            self.press("y")
        return before

    def compare_changed(self, what: str, before: Path, wanted: Path, said: str = "done") -> None:
        """Compares what the machine has, and what the menu said, with the changes that lead to a set."""
        after = self.bench.read("after")
        self.bench.compare(
            f"{what}: variables", self.bench.ask("diff", str(wanted), str(after)), ""
        )
        changes = self.bench.ask("diff", str(before), str(wanted)).splitlines()
        names = sorted(" ".join(it.split()[:2]) for it in changes if it[:1] in "+~-")
        messages = self.messages()
        told = sorted(" ".join(it.split()[:2]) for it in messages[:-1])
        self.bench.compare(f"{what}: the changes that are told", told, names)
        self.bench.compare(f"{what}: what is said", messages[-1:], [said])
        self.compare_shown(what)


def rewrite(command: str, place: Path, *words: str) -> None:
    """Puts what the writer of variable files and sets that is no part of Bootkeep makes of a file in its place."""
    store = [sys.executable, str(Path(__file__).resolve().parent.parent / "ovmf_store.py")]
    made = subprocess.run([*store, command, str(place), *words], capture_output=True, check=True)
    place.write_bytes(made.stdout)


def set_order(place: Path, order: List[str]) -> None:
    """Gives a set this order."""
    data = b"".join(int(it, 16).to_bytes(2, "little") for it in order)
    rewrite("put", place, "BootOrder", data.hex())


def try_list(menu: Menu) -> None:
    """Each line, and each entry's own lines, before and after BootOrder and BootNext name what isn't tried."""
    walk(menu)
    start(menu, "010F", None, ": Success")
    while menu.selected > 0:
        menu.press("up")
        menu.selected -= 1
    walk(menu)


def walk(menu: Menu) -> None:
    """Every line of the list, and each entry's own lines."""
    count = len(rows_of(menu.bench.show()))
    for at in range(count):
        menu.compare_shown(f"line {at + 1} of {count}")
        if at + 1 < count:
            menu.press("down")


def try_keys(menu: Menu) -> None:
    """Each key that changes something, and a question that is answered by no."""
    bench = menu.bench
    changes: List[Tuple[str, str, List[str]]] = [
        ("n", "0102", ["next", "0102"]),
        ("n", "0104", ["next", "0104"]),
        ("a", "0103", ["deactivate", "0103"]),
        ("a", "0103", ["activate", "0103"]),
        ("a", "010E", ["deactivate", "010E"]),
        ("d", "0108", ["remove", "0108"]),
        ("d", "0104", ["remove", "0104"]),
        ("d", "0177", []),
    ]
    for key, number, command in changes:
        before = menu.change(key, number, asks=key == "d")
        wanted = shutil.copy(before, bench.work / "wanted")
        if command:
            bench.edit(command[0], wanted, *command[1:])
        else:
            set_order(wanted, [it for it in bench.show_order(before) if it != number])
        menu.compare_changed(f"{key} on {number}", before, wanted)
    menu.select("0107")
    before = bench.read("before")
    menu.press("d")
    menu.press("x")
    bench.compare(
        "d without y: variables", bench.ask("diff", str(before), str(bench.read("after"))), ""
    )
    menu.compare_shown("d without y")


def try_moves(menu: Menu) -> None:
    """The keys that move an entry in the order, at its ends too."""
    bench = menu.bench
    for key, number in [("+", "0103"), ("+", "0103"), ("-", "0102"), ("-", "0105")]:
        before = menu.change(key, number)
        order = bench.show_order(before)
        at = order.index(number)
        other = at - 1 if key == "+" else at + 1
        order[at], order[other] = order[other], order[at]
        wanted = shutil.copy(before, bench.work / "wanted")
        set_order(wanted, order)
        menu.compare_changed(f"{key} on {number}", before, wanted)
    order = bench.show_order(bench.read("before"))
    last = str(len(bench.show()["plan"]["normal"]))
    for key, number, mark in [("+", order[0], "1"), ("-", order[-1], last)]:
        before = menu.change(key, number, mark)
        menu.compare_changed(f"{key} at the end", before, before, "that is so already")


def start(menu: Menu, number: str, wanted: Optional[str], said: str) -> None:
    """Starts an entry, and compares what that prints, and what the menu says after it."""
    menu.select(number)
    since = len(menu.machine.said)
    menu.press("enter")
    printed = menu.machine.said[since:].decode(errors="replace")
    if wanted is not None:
        menu.bench.compare(f"what {number} prints", wanted in printed, True)
    menu.bench.compare(f"what is said after {number}", menu.messages(), [f"Boot{number}{said}"])
    menu.compare_shown(f"after {number}")


def try_starts(menu: Menu) -> None:
    """Entries that can be started, with their optional data and BootCurrent, and some that can't."""
    text = "by its file".encode("utf-16-le").hex().upper()
    for number, options in [("0101", text), ("0102", "00FF7F80"), ("0103", ""), ("010E", "")]:
        size = len(options) // 2
        wanted = f"load options {size} bytes {options}\r\nBootCurrent {number}"
        start(menu, number, wanted, ": Success")
    start(menu, "0107", None, ": Not Found")
    start(menu, "0177", None, ": Not Found")
    start(menu, "0BA0", None, ": Not Found")
    start(menu, "0106", None, " can't be started here: only the boot manager expands such a path")
    plan = menu.bench.show()["plan"]
    numbers = "".join(f" {it}" for it in plan["normal"])
    after = f"{int(plan['next'], 16):X}" if plan["next"] else "10000"
    start(menu, "010D", f"plan status 0 next {after} normal{numbers} free 1.", ": Success")


def compare_refused(menu: Menu, what: str, before: Path, said: str) -> None:
    """Compares what the firmware refused: the variables are as before, and the menu says why."""
    after = menu.bench.read("after")
    menu.bench.compare(f"{what}: variables", menu.bench.ask("diff", str(before), str(after)), "")
    menu.bench.compare(f"{what}: what is said", menu.messages()[-1:], [said])
    menu.compare_shown(what)


def try_full(menu: Menu) -> None:
    """A store of variables that is full: nothing that takes more room is stored."""
    start(menu, "010A", None, ": Success")
    before = menu.change("n", "0103")
    compare_refused(
        menu,
        "n in a full store",
        before,
        "the firmware refused BootNext: Out of Resources; nothing is changed",
    )
    start(menu, "010B", None, ": Success")
    before = menu.change("n", "0103")
    wanted = shutil.copy(before, menu.bench.work / "wanted")
    menu.bench.edit("next", wanted, "0103")
    menu.compare_changed("n after that", before, wanted)


def try_refused(menu: Menu) -> None:
    """Firmware that refuses a change after it made others."""
    start(menu, "010C", None, ": Success")
    before = menu.change("d", "0103", asks=True)
    compare_refused(
        menu,
        "d that is refused",
        before,
        "the firmware refused Boot0103: Write Protected; nothing is changed",
    )


def make_variables(bench: Bench) -> None:
    """Gives the variable file the entries, and fills most of its store."""
    for number, description, path, words in ENTRIES:
        made = ["--description", description, "--path", path, "--entry", number, "--again", *words]
        bench.edit("add", bench.file, *made)
    made_set = bench.work / "set"
    bench.ask("read", str(bench.file), "--out", str(made_set))
    for name, data in HOSTILE.items():
        rewrite("put", made_set, name, data)
    bench.edit("write", made_set, str(bench.file))
    rewrite("fill", bench.file, str(LEFT[bench.file.stat().st_size < SMALL]))


def main(words: List[str]) -> int:
    """Runs all of it."""
    bootvars, code, variables, applications = words
    with tempfile.TemporaryDirectory() as folder:
        work = Path(folder)
        bench = Bench(bootvars, Path(code), Path(variables), work)
        (work / "disk").mkdir()
        shutil.copytree(applications, work / "disk" / "EFI")
        make_variables(bench)
        machine = Machine(bench.code, bench.file, work / "disk")
        try:
            machine.await_text(KEYS_LINE)
            menu = Menu(bench, machine)
            for part in (
                try_list,
                try_starts,
                try_keys,
                try_moves,
                try_full,
                try_refused,
            ):
                menu.find()
                part(menu)
        except Ended as why:
            bench.compare("the menu", str(why), "it goes on")
        finally:
            machine.end()
    print(f"{bench.runs} runs, {bench.differ} differ")
    return int(bench.differ > 0)


if __name__ == "__main__":
    sys.exit(main(sys.argv[1:]))
