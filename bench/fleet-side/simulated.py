"""A machine without a firmware: variables in a keeper of the library, which answers as `bootfleet-agent` does with
`bootvars update --look`."""

from __future__ import annotations

import hashlib
import json
import random
import sys
from functools import lru_cache
from importlib.machinery import SourceFileLoader
from importlib.util import module_from_spec, spec_from_loader
from pathlib import Path
from typing import Any, Dict, List, Mapping, Optional, Protocol, cast

ROOT = Path(__file__).resolve().parents[2]
sys.path[:0] = [str(ROOT / "libraries/python")]

import bootkeep  # noqa: E402
from machines import Model, model_of  # noqa: E402

HEADER = 12
"""How many bytes a frame has before its payload."""

STATE = "BootKeepState"
"""The variable of a keeper, which a machine has in its journal."""

NOT_DONE, UNMET = 6, 9
"""The statuses of `bootvars` if a reply says that something wasn't done, and if something isn't as it is expected."""

OUTCOMES = {"ORDER_REPEATS": "OrderRepeats", "ORDER_UNKNOWN": "OrderUnknown", "NO_FREE": "NoFree"}
"""The words of outcomes of two words."""


class Told(Protocol):
    """What the agent reads of a message."""

    expectations: List[str]
    frames: bytes


def load_agent() -> Any:
    """The agent as a module: it reads messages for simulated machines too."""
    loader = SourceFileLoader("bootfleet_agent", str(ROOT / "fleet/bootfleet-agent"))
    spec = spec_from_loader("bootfleet_agent", loader)
    assert spec is not None
    made = module_from_spec(spec)
    loader.exec_module(made)
    return made


agent = load_agent()


class Machine:
    """A machine: its keeper, the identity of its journal, and the digests of the frames that it has applied."""

    def __init__(self, variables: Mapping[str, bytes], draw: random.Random) -> None:
        self.keeper = bootkeep.Keeper(bytes(bootkeep.BootVariables(variables)))
        self.journal = f"{draw.getrandbits(128):032x}"
        self.start = f"{draw.getrandbits(64):016x}"
        self.applied: Dict[int, bytes] = {}

    def model(self) -> Model:
        """What the machine is like now."""
        return model_of(self.keeper.variables)

    def answer(self, payload: bytes) -> bytes:
        """The reply to a message."""
        told: Dict[str, Any] = {
            "to": hashlib.sha256(payload).hexdigest()[:16],
            "status": 0,
            "complete": True,
        }
        try:
            message = cast(Told, agent.read_message(payload))
        except agent.BadMessage as why:
            return json.dumps({"to": told["to"], "status": 2, "error": str(why)}).encode()
        variables = dict(self.keeper.variables)
        unmet = self._unmet(message.expectations, variables)
        replies: List[Dict[str, Any]] = []
        if unmet is None and message.frames:
            replies = [self._deliver(frame) for frame in cut_stream(message.frames)]
            variables = dict(self.keeper.variables)
        held = {
            **told,
            "status": status_of(replies) if unmet is None else UNMET,
            "version": 1,
            "next": self.keeper.next_number,
            "journal": self.journal,
            "start": self.start,
            "unmet": unmet,
            "replies": replies,
            "show": shown(variables),
        }
        return json.dumps(held).encode()

    def _unmet(
        self, expectations: List[str], variables: Mapping[str, bytes]
    ) -> Optional[Dict[str, str]]:
        """The first of what is expected that isn't so."""
        for expected in expectations:
            found = self._found(expected.partition("=")[0], variables)
            if found != expected:
                return {"expected": expected, "found": found}
        return None

    def _found(self, name: str, variables: Mapping[str, bytes]) -> str:
        """What is so, as the word that expects that."""
        if name == "journal":
            return f"journal={self.journal}"
        if name == "next":
            return f"next={self.keeper.next_number}"
        if name == "order":
            order = ",".join(f"{it:04X}" for it in model_of(variables).order)
            return f"order={order or 'none'}"
        data = variables.get(f"Boot{name}")
        return f"{name}={'none' if data is None else hashlib.sha256(data).hexdigest()}"

    def _deliver(self, frame: bytes) -> Dict[str, Any]:
        """What comes of a frame, with the members that the reply of `bootvars` has."""
        number, seen = int.from_bytes(frame[4:8], "little"), hashlib.sha256(frame).digest()[:8]
        reply = self.keeper.deliver(frame)
        if reply.kind == bootkeep.ReplyKind.APPLIED:
            self.applied[number] = seen
        is_repeat = reply.kind == bootkeep.ReplyKind.REPEAT
        return {
            "line": None,
            "request": number,
            "reply": reply.kind.name.lower().replace("_", "-"),
            "outcome": None if reply.outcome is None else outcome_word(reply.outcome),
            "same": self.applied.get(number) == seen if is_repeat else None,
            "entry": None if reply.entry is None else f"{int(reply.entry):04X}",
            "next": self.keeper.next_number,
            "followers": [],
            "fault": None,
            "reason": None if reply.fault is None else str(reply.fault),
            "options": None,
            "plan": None,
            "journal": self.journal,
        }


def status_of(replies: List[Dict[str, Any]]) -> int:
    is_done = all(it["outcome"] == "Done" and it["same"] is not False for it in replies)
    return 0 if is_done else NOT_DONE


def outcome_word(outcome: bootkeep.Outcome) -> str:
    return OUTCOMES.get(outcome.name, outcome.name.capitalize())


def cut_stream(stream: bytes) -> List[bytes]:
    """The frames of a stream."""
    frames, at = [], 0
    while at < len(stream):
        end = at + HEADER + int.from_bytes(stream[at + 8 : at + HEADER], "little")
        frames.append(stream[at:end])
        at = end
    return frames


def shown(variables: Mapping[str, bytes]) -> Dict[str, Any]:
    """What `bootvars show --json` has of variables, as far as a sender reads it."""
    model = model_of(variables)
    entries = [
        {
            "name": f"Boot{number:04X}",
            "entry": f"{number:04X}",
            **shown_option(model.entries[number]),
        }
        for number in sorted(model.entries)
    ]
    return {
        "variables": len(variables) - (STATE in variables),
        "entries": entries,
        "order": [f"{it:04X}" for it in model.order],
        "next": None if model.next is None else f"{model.next:04X}",
        "current": None,
        "timeout": int.from_bytes(variables["Timeout"], "little"),
        "faults": [],
        "others": [{"name": "Timeout", "length": len(variables["Timeout"])}],
    }


@lru_cache(65536)
def shown_option(data: bytes) -> Dict[str, Any]:
    """What there is of an entry's data."""
    option = bootkeep.LoadOption.from_bytes(data)
    return {
        "kind": "option",
        "description": option.description,
        "description_hex": None,
        "attributes": int(option.attributes),
        "active": option.is_active,
        "hidden": False,
        "force_reconnect": False,
        "category": "boot",
        "normal": option.is_normal,
        "paths": [path.exact_text for path in option.paths],
        "named_paths": [str(path) for path in option.paths],
        "optional": option.optional.hex() or None,
        "optional_text": None,
    }
