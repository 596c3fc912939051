"""What the tests share: the modules, load options by short names, and a machine in a folder."""

from __future__ import annotations

import json
import os
import re
import subprocess
import sys
from collections import deque
from importlib.machinery import SourceFileLoader
from importlib.util import module_from_spec, spec_from_loader
from pathlib import Path
from types import ModuleType
from typing import Any, Callable, Deque, Dict, List, Optional, Sequence, Tuple

import pytest

FLEET = Path(__file__).resolve().parents[1]
sys.path[:0] = [str(FLEET), str(FLEET.parent / "libraries/python")]
# No systemd is asked whether a boot is complete.
os.environ["BOOTFLEET_COMPLETE"] = "true"

import bootkeep  # noqa: E402
from sender.courier import Came  # noqa: E402
from sender.entries import Wanted  # noqa: E402
from sender.goals import Goal  # noqa: E402
from sender.ledger import Ledger  # noqa: E402
from sender.run import Sender  # noqa: E402

PATH = "PciRoot(0x0)/Pci(0x1,0x0)"
VENDOR = "8be4df61-93ca-11d2-aa0d-00e098032b8c"


def option(label: str) -> bytes:
    """The load option of a description, after which `inactive` or `optional` may say more."""
    name, _, more = label.partition(" ")
    attributes = 0 if more == "inactive" else bootkeep.ATTRIBUTE_ACTIVE
    return bootkeep.option_make(attributes, name, [PATH], b"x" if more == "optional" else b"")


def wanted(label: str) -> Wanted:
    """What is meant: by a whole option, or after a `=` by its description."""
    return Wanted(None, label[1:]) if label.startswith("=") else Wanted(option(label))


def goal(kind: str, *labels: str) -> Goal:
    return Goal(kind, tuple(map(wanted, labels)))


@pytest.fixture
def ledger(tmp_path: Path) -> Ledger:
    """A ledger of two machines."""
    made = Ledger.make(tmp_path / "ledger", {"broker": "localhost:8883", "certs": str(tmp_path)})
    with made.transaction():
        made.add_machine("m1")
        made.add_machine("m2")
    return made


class Folder:
    """A machine: variables in a folder, and that of its journal."""

    def __init__(self, path: Path, entries: Dict[int, bytes], order: List[int]) -> None:
        self.place, self.state = path / "efi", path / "state"
        self.start: Optional[str] = "start 1"
        self.is_complete: Optional[bool] = True
        self.place.mkdir(parents=True)
        self.state.mkdir()
        numbers = b"".join(number.to_bytes(2, "little") for number in order)
        self.put("BootOrder", numbers)
        for number, data in entries.items():
            self.put(f"Boot{number:04X}", data)

    def put(self, name: str, data: bytes) -> None:
        (self.place / f"{name}-{VENDOR}").write_bytes(b"\7\0\0\0" + data)

    def take_out(self, name: str) -> None:
        (self.place / f"{name}-{VENDOR}").unlink(missing_ok=True)

    def restart(self, *broken: int) -> None:
        """Starts the machine anew: by BootNext, which is gone then, or by the first active entry of BootOrder, but for
        those that don't start."""
        number = int((self.start or "start 0").split()[1]) + 1
        self.start = f"start {number}"
        following = self.get("BootNext")
        tried = [] if following is None else [int.from_bytes(following, "little")]
        tried += [it for it in self.order() if (self.entries().get(it) or b"\0")[0] & 1]
        self.take_out("BootNext")
        self.came_up_by(next(it for it in tried if it in self.entries() and it not in broken))

    def came_up_by(self, entry: Optional[int]) -> None:
        """Says by which entry the machine came up."""
        if entry is None:
            self.take_out("BootCurrent")
        else:
            self.put("BootCurrent", entry.to_bytes(2, "little"))

    def get(self, name: str) -> Optional[bytes]:
        file = self.place / f"{name}-{VENDOR}"
        return file.read_bytes()[4:] if file.exists() else None

    def order(self) -> List[int]:
        data = self.get("BootOrder") or b""
        return [int.from_bytes(data[at : at + 2], "little") for at in range(0, len(data), 2)]

    def entries(self) -> Dict[int, bytes]:
        return {
            int(file.name[4:8], 16): file.read_bytes()[4:]
            for file in self.place.glob("Boot????-*")
            if re.fullmatch("[0-9A-F]{4}", file.name[4:8])
        }


@pytest.fixture
def machine(tmp_path: Path) -> Folder:
    """A machine with two entries, of which `b` is first."""
    return Folder(tmp_path / "machine", {0: option("a"), 1: option("b")}, [1, 0])


def load_agent() -> ModuleType:
    """The agent as a module."""
    loader = SourceFileLoader("bootfleet_agent", str(FLEET / "bootfleet-agent"))
    made = module_from_spec(spec_from_loader("bootfleet_agent", loader))  # type: ignore[arg-type]
    loader.exec_module(made)
    return made


agent: Any = load_agent()


def answer(machine: Folder, payload: bytes) -> bytes:
    """What a machine answers to a message: its start isn't that of the machine that the tests run on."""
    held = json.loads(agent.answer(payload, str(machine.state), str(machine.place)))
    if "show" in held:
        held.update({"start": machine.start, "complete": machine.is_complete})
    return json.dumps(held).encode()


def frames_of(payload: bytes) -> bytes:
    """The frames of a message."""
    return payload.partition(b"\n")[2]


def update(machine: Folder, frames: bytes) -> Dict[str, Any]:
    """Has a machine apply frames, as it is now, and gives what it replies."""
    look = json.loads(agent.answer(b"", str(machine.state), str(machine.place)))
    line = f"bootfleet 2 journal={look['journal']} next={look['next']}\n".encode()
    held: Dict[str, Any] = json.loads(
        agent.answer(line + frames, str(machine.state), str(machine.place))
    )
    return held


def bootfleet(*words: object, status: int = 0) -> str:
    """Calls bootfleet, and gives what it prints."""
    run = subprocess.run(
        [FLEET / "bootfleet", *map(str, words)], capture_output=True, text=True, check=False
    )
    assert run.returncode == status, run.stderr
    return run.stdout + run.stderr


Deliver = Callable[[int, bytes], List[bytes]]


class Hand:
    """A courier by hand: `requests` and `replies` say what comes of each message, by its number."""

    def __init__(self, machines: Dict[str, Folder]) -> None:
        self.machines = machines
        self.count = [0, 0]
        self.sent: List[Tuple[str, bytes]] = []
        self.came: Deque[Came] = deque()
        self.requests: Deliver = lambda _number, payload: [payload]
        self.replies: Deliver = lambda _number, payload: [payload]

    def send(self, name: str, payload: bytes) -> None:
        self.sent.append((name, payload))
        for copy in self.requests(self._next(0), payload):
            folder = self.machines[name]
            said = answer(folder, copy)
            self.came += [Came(name, it) for it in self.replies(self._next(1), said)]

    def _next(self, way: int) -> int:
        self.count[way] += 1
        return self.count[way] - 1

    def receive(self, seconds: float) -> List[Came]:
        came = list(self.came)
        self.came.clear()
        return came


@pytest.fixture
def sender(ledger: Ledger, machine: Folder) -> Sender:
    return Sender(ledger, Hand({"m1": machine}), "sender", 0.01, 0.05)


@pytest.fixture
def pair(ledger: Ledger, machine: Folder, tmp_path: Path) -> Sender:
    """A sender over two machines."""
    other = Folder(tmp_path / "other", {0: option("a"), 1: option("b")}, [1, 0])
    return Sender(ledger, Hand({"m1": machine, "m2": other}), "sender", 0.01, 0.05)


def add(ledger: Ledger, *goals: Goal, to: Sequence[str] = ("m1",)) -> None:
    with ledger.transaction():
        for one in goals:
            ledger.add_job(one, to)


def run(sender: Sender) -> bool:
    return sender.run(True, 600, lambda: False)


def frames(sender: Sender) -> List[bytes]:
    courier: Any = sender.courier
    sent = dict.fromkeys(frames_of(it) for _, it in courier.sent)
    return [it for it in sent if it]


def troubled(sender: Sender) -> str:
    """Runs until nothing is left but trouble, which it gives."""
    assert run(sender)
    assert not sender.ledger.all_reached()
    return sender.ledger.trouble("m1") or ""


def hostile(sender: Sender, make: Callable[[Dict[str, Any]], bytes]) -> None:
    """Lets m1 reply by what is made of the true reply, and m2 truly, which has to come to its goal."""
    courier: Any = sender.courier

    def reply(number: int, payload: bytes) -> List[bytes]:
        return [make(json.loads(payload)) if courier.sent[-1][0] == "m1" else payload]

    courier.replies = reply


def pytest_report_header() -> str:
    return f"bootvars: {os.environ.get('BOOTVARS')}, library: {os.environ.get('BOOTKEEP_LIBRARY')}"
