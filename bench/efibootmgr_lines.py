#!/usr/bin/env python3
"""What bench/efibootmgr needs besides a machine.

efibootmgr_lines.py disks FOLDER                 makes disks with partitions there, and the file `links`
efibootmgr_lines.py lines SEED COUNT FOLDER      draws command lines, a file for each with a word on each line
efibootmgr_lines.py compare RESULTS LINES        compares what both programs did, and says where they differ

A disk in a command line is between two @, as @vdc@."""

from __future__ import annotations

import random
import re
import struct
import sys
import uuid
import zlib
from pathlib import Path
from typing import Dict, List, NamedTuple, Optional, Tuple

SIZE = 32 << 20
"""How many bytes a disk has."""

MBR_SIGNATURE = 0x1234ABCD

ESP_TYPE = uuid.UUID("c12a7328-f81f-11d2-ba4b-00a0c93ec93b")

FAT_SIGNATURE = "be1afdfa-01"
"""How Linux calls the partition of the disk that qemu makes of a folder."""

DISKS = {"gpt": "vdc", "mbr": "vdd", "large": "vde"}
"""What the disks with partitions are called in the machine."""


def identity(seed: str) -> uuid.UUID:
    """An identity that is always the same."""
    return uuid.uuid5(uuid.NAMESPACE_URL, seed)


def gpt_disk(block: int, name: str) -> Tuple[bytes, List[str]]:
    """A disk with two partitions by GUID (UEFI 2.10, 5.3), and its lines of `links`."""
    count = SIZE // block
    array_blocks = 128 * 128 // block
    first, last = 2 + array_blocks, count - 2 - array_blocks
    disk_guid = identity(name)
    entries = b""
    links = []
    for number, (start, end) in enumerate([(256, 1023), (1024, 2047)], 1):
        guid = identity(f"{name} {number}")
        entries += ESP_TYPE.bytes_le + guid.bytes_le + struct.pack("<QQQ72x", start, end, 0)
        links.append(f"{name} {number} {guid}")
    entries = entries.ljust(128 * 128, b"\0")

    def header(here: int, other: int, array: int) -> bytes:
        fields = struct.pack(
            "<8sIIIIQQQQ16sQIII",
            *(b"EFI PART", 0x10000, 92, 0, 0, here, other, first, last),
            *(disk_guid.bytes_le, array, 128, 128, zlib.crc32(entries)),
        )
        return fields[:16] + struct.pack("<I", zlib.crc32(fields)) + fields[20:]

    disk = bytearray(SIZE)
    disk[446:462] = struct.pack("<BBBBBBBBII", 0, 0, 2, 0, 0xEE, 255, 255, 255, 1, count - 1)
    disk[510:512] = b"\x55\xaa"
    for here, other, array in ((1, count - 1, 2), (count - 1, 1, count - 1 - array_blocks)):
        disk[here * block : here * block + 92] = header(here, other, array)
        disk[array * block : array * block + len(entries)] = entries
    return bytes(disk), links


def mbr_disk() -> Tuple[bytes, List[str]]:
    """A disk with a master boot record (UEFI 2.10, 5.2), and its lines of `links`."""
    disk = bytearray(SIZE)
    disk[440:444] = struct.pack("<I", MBR_SIGNATURE)
    for number, (start, size) in enumerate([(2048, 4096), (8192, 8192)]):
        place = 446 + 16 * number
        disk[place : place + 16] = struct.pack(
            "<BBBBBBBBII", 0, 0, 0, 0, 0xEF, 0, 0, 0, start, size
        )
    disk[510:512] = b"\x55\xaa"
    return bytes(disk), [f"mbr {number} {MBR_SIGNATURE:08x}-{number:02}" for number in (1, 2)]


def make_disks(folder: Path) -> None:
    """Makes the disks, and the links by which udev would name their partitions."""
    links = [f"esp 1 {FAT_SIGNATURE}"]
    for name, (data, names) in {
        "gpt": gpt_disk(512, "gpt"),
        "mbr": mbr_disk(),
        "large": gpt_disk(4096, "large"),
    }.items():
        (folder / f"{name}.disk").write_bytes(data)
        links += names
    (folder / "links").write_text("\n".join(links) + "\n", encoding="ascii")


REFIND = [
    "-c",
    "-l",
    r"\EFI\refind\refind_x64.efi",
    "-L",
    "rEFInd Boot Manager",
    "-d",
    "@vdc@",
    "-p",
    "1",
]

FIXED: List[List[str]] = [
    [],
    ["-v"],
    REFIND,
    [*REFIND, "-u", "one two"],
    ["--bootorder", "0001,0000"],
    ["--bootnext", "0001"],
    ["-b", "0000", "-B"],
    ["-c", "-d", "@vdd@", "-p", "2", "-l", r"\EFI\BOOT\BOOTX64.EFI", "-L", "MBR", "-w"],
    ["-c", "-d", "@vde@", "-p", "2", "-l", r"\EFI\BOOT\BOOTX64.EFI", "-L", "4096"],
    ["-C", "-d", "@vdc@", "-l", r"\EFI\x.efi", "-L", "only", "-b", "00AB", "more", "words"],
    ["-v"],
    ["-r"],
    ["-y", "-v"],
    ["-r", "-O"],
    ["-r", "-c", "-d", "@vdc@", "-p", "1", "-l", r"\EFI\drivers\ext4.efi", "-L", "ext4"],
    ["-r", "-c", "-d", "@vdd@", "-p", "2", "-l", r"\EFI\drivers\btrfs.efi", "-L", "btrfs"],
    ["-y", "-c", "-d", "@vde@", "-p", "2", "-l", r"\EFI\prepare.efi", "-L", "prepare", "-b", "2"],
    ["-y", "-C", "-d", "@vdc@", "-l", r"\EFI\only.efi", "-L", "only", "-b", "00AB", "-u", "word"],
    ["-r", "-o", "1,0"],
    ["-r", "-v"],
    ["-y"],
]
"""The lines that come before those that are drawn: first what refind-install and rauc call."""

FAMILIES = {
    "-r": "Driver",
    "--driver": "Driver",
    "-y": "SysPrep",
    "--sysprep": "SysPrep",
    "--sys": "SysPrep",
}
"""What the names of variables begin with by the words that mean another family than the boot manager's."""

ENTRY = r"(?:Boot|Driver|SysPrep)[0-9A-F]{4}"
"""The names of entries."""


def family_of(words: List[str]) -> str:
    """What the names of the variables begin with that a line is about."""
    return next((FAMILIES[word] for word in words if word in FAMILIES), "Boot")


def drawn_entry(draw: random.Random) -> str:
    """A number of an entry, which may be there."""
    form = draw.choice(["04X", "04x", "X", "x"])
    return format(draw.choice([*range(10), 0xAB, 0xF00]), form)


def drawn_order(draw: random.Random) -> str:
    """An order of some entries, each once."""
    numbers = draw.sample(range(8), draw.randrange(1, 5))
    return ",".join(f"{number:04X}" for number in numbers)


NO_PART = "177"
"""The number of a partition that no disk has."""

VERBOSE = {"-v", "--verb"}
"""The words by which paths and optional data are listed."""

NO_FIRST = 17
"""The other program's status for `-N` if there is no Boot0001, whatever BootNext names: nothing is compared then."""

IN_ORDER = {"-c", "--create"}
"""The words by which an entry is made and put into the order."""

OTHERS = {"more", "words", "quiet", "root=/dev/x", "ro"}
"""The words that belong to no option: optional data."""


def drawn_new(draw: random.Random) -> List[str]:
    """The words by which an entry is made."""
    words = [draw.choice(["-c", "-C", "--create", "--create-only"])]
    words += ["-d", draw.choice([*(f"@{name}@" for name in DISKS.values()), "@vdz@"])]
    words += draw.choice([[], ["-p", draw.choice(["1", "2", "2", NO_PART])]])
    words += ["-l", draw.choice([r"\EFI\a\b.efi", r"\x.efi", "/EFI/a/b.efi"])]
    words += draw.choice([[], ["-L", draw.choice(["one", "two words", "L" * 40])]])
    words += draw.choice([[], [], ["-b", drawn_entry(draw)]])
    words += draw.choice([[], [], ["-u"], ["-g"], ["-w"], ["-e", "-1"], ["--keep"]])
    words += draw.choice([[], ["quiet"], ["root=/dev/x", "ro"]])
    return words


def drawn_action(draw: random.Random) -> List[str]:
    """The words of one action."""
    kinds: List[List[str]] = [
        ["-n", drawn_entry(draw)],
        [f"--bootnext={drawn_entry(draw)}"],
        ["-N"],
        ["-o", drawn_order(draw)],
        ["-O"],
        ["-D"],
        ["-t", str(draw.randrange(100))],
        ["-T"],
        ["-b", drawn_entry(draw), "-B"],
        ["-b", drawn_entry(draw), draw.choice(["-a", "-A"])],
        drawn_new(draw),
        drawn_new(draw),
        drawn_new(draw),
    ]
    return draw.choice(kinds)


def drawn_of_family(draw: random.Random) -> List[str]:
    """The words of one action on drivers or on what prepares the system: of few entries, so that many are there, and now
    and then one that the boot manager's alone have."""
    entry = format(draw.randrange(4), draw.choice(["04X", "x"]))
    order = ",".join(f"{number:X}" for number in draw.sample(range(4), draw.randrange(1, 3)))
    kinds: List[List[str]] = [
        ["-o", order],
        ["-o", order, "--keep"],
        ["-O"],
        ["-D"],
        ["-b", entry, "-B"],
        ["-b", entry, draw.choice(["-a", "-A"])],
        ["-b", entry, draw.choice(["-a", "-A"])],
        drawn_new(draw),
        drawn_new(draw),
        drawn_new(draw),
        drawn_action(draw),
    ]
    return [draw.choice(list(FAMILIES)), *draw.choice(kinds)]


WRONG: List[List[str]] = [
    ["-B"],
    ["-a"],
    ["-b", "zz", "-B"],
    ["-b", "12345"],
    ["-n", "10000"],
    ["-n", "x"],
    ["-t", "x"],
    ["-p", "x"],
    ["-e", "x"],
    ["-e", "2"],
    ["-vv"],
    ["-o", "1,,2"],
    ["-o", "zz"],
    ["-o", "0F0F"],
    ["-Z"],
    ["--nothing"],
    ["--boot", "1"],
    ["-n"],
    ["--active=1"],
    ["-V"],
    ["-r", "-y"],
    ["-y", "-r", "-n", "0"],
    ["-r", "-y", "-V"],
    ["-r", "-n", "0"],
    ["-y", "-N"],
    ["-r", "-N", "-T"],
    ["-y", "-t", "5"],
    ["--driver", "-T"],
    ["-r", "-n", "x"],
    ["-r", "-B"],
    ["-y", "-A"],
    ["-r", "-B", "-t", "5"],
    ["--driver=1"],
]


def drawn_line(draw: random.Random) -> List[str]:
    """A command line."""
    kind = draw.randrange(20)
    if kind == 0:
        return draw.choice(WRONG)
    if kind < 4:
        family: List[str] = draw.choice([[], [], ["-r"], ["-y"]])
        listed: List[str] = draw.choice([[], ["-v"], ["-v1"], ["--verbose"], ["-q"]])
        return [*family, *listed]
    words = drawn_of_family(draw) if kind < 11 else drawn_action(draw)
    if kind == 10 or kind > 16:
        more = drawn_of_family(draw)[1:] if kind == 10 else drawn_action(draw)
        words = words if NO_PART in words + more else [*words, *more]
    fronts: List[List[str]] = [[], ["-q"], ["-v"], ["--verb"]]
    return [*draw.choice(fronts), *words]


def make_lines(seed: int, count: int, folder: Path) -> None:
    """Draws the command lines."""
    draw = random.Random(seed)
    lines = FIXED + [drawn_line(draw) for _ in range(count - len(FIXED))]
    for number, words in enumerate(lines):
        text = "".join(f"{word}\n" for word in words)
        (folder / f"{number:03}").write_text(text, encoding="ascii")


class Run(NamedTuple):
    """What a program did."""

    status: int
    stdout: str
    stderr: str
    variables: Dict[str, bytes]


def variables_in(folder: Path) -> Dict[str, bytes]:
    """The variables in a folder, by their names."""
    return {file.name.split("-")[0]: file.read_bytes() for file in sorted(folder.iterdir())}


def run_in(folder: Path) -> Run:
    """What a program did that left this folder."""
    return Run(
        int((folder / "status").read_text()),
        (folder / "stdout").read_text(encoding="utf-8", errors="replace"),
        (folder / "stderr").read_text(encoding="utf-8", errors="replace"),
        variables_in(folder / "vars"),
    )


def numbers_of(order: Optional[bytes]) -> List[int]:
    """The numbers of an order, which has four bytes of attributes in front."""
    data = (order or b"")[4:]
    return list(struct.unpack(f"<{len(data) // 2}H", data[: len(data) // 2 * 2]))


def order_of(numbers: List[int]) -> bytes:
    """An order of these numbers, with its attributes."""
    return struct.pack(f"<I{len(numbers)}H", 7, *numbers)


def in_order(text: str) -> str:
    """A listing, with the entries in the order of their numbers: the other program lists a new one last."""
    lines = text.splitlines(keepends=True)
    entries = [line for line in lines if re.match(f"{ENTRY}[* ] ", line)]
    others = lines[: len(lines) - len(entries)]
    return "".join([*others, *sorted(entries)])


def with_optional(data: bytes, optional: bytes) -> bytes:
    """The data of an entry, with these optional data; those of another variable as they are."""
    end = data.find(b"\x7f\xff\x04\x00")
    return data if end < 0 else data[: end + 4] + optional


def is_new(words: List[str], before: Dict[str, bytes], name: str, data: bytes) -> bool:
    """Whether a variable was made by a line, perhaps in the place of one that the line took out before."""
    return name not in before or ("-B" in words and before[name] != data)


def as_linux_keeps(words: List[str], before: Dict[str, bytes], theirs: Run) -> Run:
    """What is done by a line that makes a SysPrepOrder and then changes it: Linux shows a new one as a file that nobody may
    change, and Bootkeep's program can't take that flag away. What other lines do."""
    made = [name for name in theirs.variables if name not in before and name[:-4] == "SysPrep"]
    if not made or "SysPrepOrder" in before or not IN_ORDER.intersection(words):
        return theirs
    first = order_of([int(made[0][-4:], 16)])
    if theirs.variables.get("SysPrepOrder") == first:
        return theirs
    status = 7 if "-O" in words else 8
    return Run(status, "", theirs.stderr, {**theirs.variables, "SysPrepOrder": first})


def expected(words: List[str], before: Dict[str, bytes], theirs: Run) -> Run:
    """What Bootkeep's program has to do: what the other one did, but for what docs/efibootmgr.md lists."""
    # A partition that isn't there has no entry.
    if NO_PART in words and theirs.status == 0 and theirs.variables != before:
        return Run(5, "", theirs.stderr, before)
    status, stdout, stderr, variables = as_linux_keeps(words, before, theirs)
    variables = dict(variables)
    stdout = in_order(stdout) if status == 0 else ""
    # Several other words have a blank between two, and no zeros.
    others = [word for word in words if word in OTHERS]
    if len(others) > 1:
        optional = " ".join(others).encode("utf-16-le" if "-u" in words else "ascii")
        variables = {
            name: with_optional(data, optional) if is_new(words, before, name, data) else data
            for name, data in variables.items()
        }
        stdout = "?" if stdout else ""
    # Optional data are listed as bytes, also by -u.
    if "-u" in words and VERBOSE.intersection(words):
        stdout = "?" if stdout else ""
    # An entry that is taken out isn't in BootNext any more.
    gone = [
        name for name in before if re.fullmatch("Boot[0-9A-F]{4}", name) and name not in variables
    ]
    following = variables.get("BootNext")
    if gone and following and f"Boot{numbers_of(following)[0]:04X}" in gone:
        del variables["BootNext"]
        stdout = re.sub(r"^BootNext: .*\n", "", stdout)
    # A new entry is in the order once, though a stale number of it was there.
    name_of_order = f"{family_of(words)}Order"
    order = numbers_of(variables.get(name_of_order))
    once = list(dict.fromkeys(order))
    if once != order and any(name not in before for name in variables):
        variables[name_of_order] = order_of(once)
        stdout = re.sub(
            rf"^{name_of_order}: .*$",
            f"{name_of_order}: " + ",".join(f"{number:04X}" for number in once),
            stdout,
            flags=re.M,
        )
    # To take an order out that isn't there is nothing.
    if "-O" in words and status == 1 and name_of_order not in before and not theirs.stdout:
        status, stdout = 0, "?"
    return Run(status, stdout, stderr, variables)


def differences(words: List[str], before: Dict[str, bytes], ours: Run, theirs: Run) -> List[str]:
    """Where Bootkeep's program did something else than it has to."""
    if theirs.status == NO_FIRST:
        return []
    wanted = expected(words, before, theirs)
    found = []
    if ours.status != wanted.status:
        found.append(f"status {ours.status}, not {wanted.status}: {ours.stderr.strip()}")
    if wanted.stdout not in ("?", ours.stdout):
        found.append(f"printed {ours.stdout!r}, not {wanted.stdout!r}")
    if ours.variables != wanted.variables:
        for name in sorted({*ours.variables, *wanted.variables}):
            here, there = ours.variables.get(name), wanted.variables.get(name)
            if here != there:
                found.append(
                    f"{name} is {here.hex() if here else None}, not {there.hex() if there else None}"
                )
    if not found and ours.status == 0 and ours.stdout and wanted.stdout != "?":
        if cuts_of(ours.stdout) != cuts_of(wanted.stdout):
            found.append("something else is cut from what is printed")
    return found


def cuts_of(text: str) -> List[str]:
    """What refind-install and rauc cut from a listing."""
    order = [line[11:15] for line in text.splitlines() if "BootOrder" in line]
    return order + [
        f"{match[1]} {match[2]}"
        for match in re.finditer(r"^Boot([0-9a-fA-F]{4})[* ] (.+)$", text, flags=re.M)
    ]


def compare(results: Path, lines: Path) -> int:
    """Compares what both programs did, prints where they differ, and returns how often."""
    differ = 0
    statuses: Dict[int, int] = {}
    for line in sorted(lines.iterdir()):
        words = line.read_text(encoding="ascii").splitlines()
        folder = results / line.name
        before = variables_in(folder / "before")
        ours, theirs = run_in(folder / "ours"), run_in(folder / "theirs")
        statuses[ours.status] = statuses.get(ours.status, 0) + 1
        found = differences(words, before, ours, theirs)
        if found:
            differ += 1
            print(f"{line.name}: efibootmgr {' '.join(words)}")
            for text in found:
                print(f"    {text}")
    if variables_in(results / "adding/ours") != variables_in(results / "adding/theirs"):
        differ += 1
        print("bootvars add --loader makes another entry than efibootmgr -c")
    counted = ", ".join(
        f"{count} with status {status}" for status, count in sorted(statuses.items())
    )
    print(f"command lines: {counted}")
    return differ


def main(words: List[str]) -> int:
    """Does what the words say."""
    if words[0] == "disks":
        make_disks(Path(words[1]))
        return 0
    if words[0] == "lines":
        make_lines(int(words[1]), int(words[2]), Path(words[3]))
        return 0
    differ = compare(Path(words[1]), Path(words[2]))
    print(f"{differ} differ")
    return 1 if differ else 0


if __name__ == "__main__":
    sys.exit(main(sys.argv[1:]))
