"""Draws machines, and files of what they are to have."""

from __future__ import annotations

import random
import struct
from typing import Any, Dict, List, NamedTuple, Tuple

from profile_files import File
from profile_model import END, END_ALL, Entry, Profile, Values, is_boot_name, load_option

END_NODE = struct.pack("<BBH", END, END_ALL, 4)

DISK = (
    "04012a00" + "01000000" + "0008000000000000" + "0040060000000000"
    "9e1a2c5f647d0e4b9c3b1e8f60a2d7c4" + "0202"
)
"""The partition of docs/examples/make-system as a node."""


def file_node(name: str) -> str:
    """The node of a file, in digits."""
    units = name.encode("utf-16-le") + b"\0\0"
    return (struct.pack("<BBH", 4, 4, 4 + len(units)) + units).hex()


PATHS = {
    r"HD(1,GPT,5f2c1a9e-7d64-4b0e-9c3b-1e8f60a2d7c4,0x800,0x64000)/File(\EFI\debian\grubx64.efi)": DISK
    + file_node(r"\EFI\debian\grubx64.efi"),
    "PciRoot(0x0)/Pci(0x5,0x0)": "02010c00d041030a00000000" + "010106000005",
    "USB(0x1,0x0)": "030506000100",
    "Vlan(0x64)": "031406006400",
    "Path(0x1,0x1,0205aa)": "010107000205aa",
    r"File(\A)": "04040a005c0041000000",
}
"""Texts of paths, and the digits of their nodes without the one at the end."""

LOADERS = {
    f"/boot/efi/EFI/{name}.efi": DISK + file_node("\\EFI\\" + name.replace("/", "\\") + ".efi")
    for name in ("debian/shimx64", "rescue/grubx64", "Microsoft/Boot/bootmgfw")
}
"""The loaders of docs/examples/make-system, and the digits of the nodes that lead to them."""

DESCRIPTIONS = [
    *("debian", "Windows Boot Manager", "a", "A", "aa", " ", "  two  spaces ", "# no comment"),
    *('UEFI: "stick"', "back\\slash", "it's", "été", "Ωμέγα 漢字", "\U0001f600", "= [x]", "\u202e"),
    *("a\tb", "a\nb", "\x1b[0m", "\x7f", "\uffff", "true", "5", "C:\\users", "\\beef", "a\\"),
    *("\ud800", "a\udfff"),
]
"""Descriptions. The last two have half of a pair."""

HEX = set("0123456789abcdefABCDEF")


class Machine(NamedTuple):
    """What a machine has."""

    values: Values
    attributes: Dict[str, int]
    """Those of its variables."""


# ---- machines


def path_bytes(chance: random.Random) -> bytes:
    """A path, sometimes of several instances."""
    nodes = [chance.choice(list(PATHS.values())) for _ in range(1 + chance.randrange(8) // 7)]
    return bytes.fromhex("7f010400".join(nodes)) + END_NODE


def any_option(chance: random.Random, description: str) -> bytes:
    """A load option of any kind."""
    paths = b"".join(path_bytes(chance) for _ in range(1 + chance.randrange(7) // 6))
    optional = chance.choice([b"", b"", b"\1", "quiet".encode("utf-16-le"), b"\0" * 5])
    attributes = chance.choice([1, 1, 1, 0, 0, 9, 0x101, 0x100, 0x80000001, 3])
    return load_option(attributes, description, paths, optional)


def no_option(chance: random.Random) -> bytes:
    """Data that are no load option."""
    whole = load_option(1, "debian", path_bytes(chance))
    return chance.choice(
        [
            whole[:5],
            whole[:-1],
            b"\1",
            whole[:4] + b"\xff\xff" + whole[6:],
            whole[:6] + b"A\0" * 9,
            load_option(1, "debian", b"\3\5\3\0"),
        ]
    )


def machine(chance: random.Random) -> Machine:
    """Variables of a machine, some of which can't be read."""
    values: Values = {"Lang": b"eng", "BootCurrent": b"\2\0", "ConOut": path_bytes(chance)}
    some = chance.sample(DESCRIPTIONS, 6)
    high = chance.choice([6, 12, 0x10000])
    for entry in chance.sample(range(high), chance.randrange(6)):
        data = (
            no_option(chance)
            if chance.randrange(9) == 0
            else any_option(chance, chance.choice(some))
        )
        values[f"Boot{entry:04X}"] = data
    values.update(singles(chance, values))
    return Machine(values, {name: attributes_of(chance, name) for name in values})


def singles(chance: random.Random, values: Values) -> Values:
    """BootOrder, BootNext and Timeout, or some of them."""
    found: Values = {}
    numbers = [int(name[4:], 16) for name in values if is_boot_name(name)]
    order = chance.sample(numbers, chance.randrange(len(numbers) + 1))
    if chance.randrange(4) == 0:
        order.insert(chance.randrange(len(order) + 1), chance.choice([0, 5, 9, *order]))
    if order:
        found["BootOrder"] = struct.pack(f"<{len(order)}H", *order)
    if chance.randrange(12) == 0:
        found["BootOrder"] = chance.choice([b"\0", b"\1\0\2"])
    if numbers and chance.randrange(3) == 0:
        found["BootNext"] = struct.pack("<H", chance.choice([*numbers, *numbers, 9]))
    if chance.randrange(12) == 0:
        found["BootNext"] = chance.choice([b"\0", b"\1\0\2"])
    if chance.randrange(3) == 0:
        found["Timeout"] = chance.choice([b"\5\0", b"\0\0", b"\xff\xff", b"\5", b"\0\0\0\0"])
    return found


def attributes_of(chance: random.Random, name: str) -> int:
    """The attributes of a variable: mostly those that the standard gives it."""
    return chance.choice([7, 7, 7, 3]) if is_boot_name(name) else 7


# ---- files


def descriptions_of(values: Values) -> List[str]:
    """Descriptions that the machine has, or perhaps has."""
    return [it for it in DESCRIPTIONS if any(units(it) in data for data in values.values())]


def units(description: str) -> bytes:
    """A description with the unit that closes it."""
    return description.encode("utf-16-le", "surrogatepass") + b"\0\0"


def spelled(description: str, chance: random.Random) -> str:
    """A description as `bootvars` takes it: some characters are escapes, and those that have to be."""
    text = ""
    for place, character in enumerate(description):
        rest = description[place + 1 :]
        looks_so = rest[:1] == "u" or (len(rest) > 3 and set(rest[:4]) <= HEX)
        is_half = "\ud800" <= character <= "\udfff"
        if is_half or (character == "\\" and looks_so) or chance.randrange(16) == 0:
            data = character.encode("utf-16-le", "surrogatepass")
            text += "".join(f"\\u{unit:04x}" for unit, in struct.iter_unpack("<H", data))
        else:
            text += character
    return text


def optional_data(chance: random.Random, said: Dict[str, Any]) -> bytes:
    """Optional data, which are said, or none."""
    what = chance.randrange(4)
    if what == 0:
        text = chance.choice(["quiet", "initrd=\\initrd.gz", "été", "\U0001f600", ""])
        said["optional_text"] = text
        return text.encode("utf-16-le")
    if what == 1:
        data = bytes(chance.randrange(256) for _ in range(chance.randrange(9)))
        said["optional"] = chance.choice([data.hex(), data.hex().upper()])
        return data
    return b""


def present(chance: random.Random, description: str, there: List[bytes]) -> Tuple[File, Entry]:
    """An entry that is to be there. Sometimes it is one of those that are."""
    said: File = {"description": spelled(description, chance)}
    if chance.randrange(3) == 0:
        said["state"] = "present"
    active = chance.choice([None, None, True, False])
    if active is not None:
        said["active"] = active
    same = [it for it in there if units(description) in it]
    what = chance.randrange(3)
    if what == 0:
        option = chance.choice([*same, *same, any_option(chance, description)])
        said["option"] = option.hex()
    else:
        pool = PATHS if what == 1 else LOADERS
        text = chance.choice(list(pool))
        said["path" if what == 1 else "loader"] = text
        nodes = bytes.fromhex(pool[text]) + END_NODE
        option = load_option(1, description, nodes, optional_data(chance, said))
    return said, Entry(description, option, active)


def entries(chance: random.Random, values: Values) -> Tuple[List[File], List[Entry]]:
    """Entries that are to be there, or not."""
    known, said, meant = descriptions_of(values), [], []
    pool = [*known, *known, *chance.sample(DESCRIPTIONS, 2)]
    descriptions = chance.choices(pool, k=chance.randrange(4))
    if chance.randrange(8):
        descriptions = list(dict.fromkeys(descriptions))
    for description in descriptions:
        if chance.randrange(4) == 0:
            entry = Entry(description)
            words = {"description": spelled(description, chance), "state": "absent"}
        else:
            words, entry = present(chance, description, list(values.values()))
        said.append(shuffled(words, chance))
        meant.append(entry)
    return said, meant


def shuffled(said: File, chance: random.Random) -> File:
    """The same members in another sequence."""
    keys = list(said)
    chance.shuffle(keys)
    return {key: said[key] for key in keys}


def file(chance: random.Random, values: Values) -> Tuple[File, Profile]:
    """What a file says, and what that means."""
    said: File = {}
    profile = Profile()
    if chance.randrange(5):
        said["entries"], profile.entries = entries(chance, values)
    made = [it.description for it in profile.entries if it.option is not None]
    pool = [*descriptions_of(values), *made, *made]
    if not pool or chance.randrange(16) == 0:
        pool.append(chance.choice(DESCRIPTIONS))
    names = chance.choices(pool, k=chance.randrange(4))
    if chance.randrange(8):
        names = list(dict.fromkeys(names))
    what = chance.randrange(5)
    if what < 2:
        profile.first = names
        said["order"] = {"first": [spelled(it, chance) for it in names]}
    elif what < 4:
        profile.only = names
        said["order"] = {"only": [spelled(it, chance) for it in names]}
    if chance.randrange(2):
        name = chance.choice([None, chance.choice(pool)])
        profile.next = False if name is None else name
        said["next"] = False if name is None else spelled(name, chance)
    if chance.randrange(2):
        profile.timeout = said["timeout"] = chance.choice([False, 0, 5, 65535, 258])
    return shuffled(said, chance), profile


def needs_system(said: File) -> bool:
    """Whether a file names loaders."""
    return any("loader" in it for it in said.get("entries", []))
