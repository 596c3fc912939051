"""The simulated machines of `bench/fleet-scale` answer as the agent does with `bootvars update`, word for word, as far as
a sender reads it."""

from __future__ import annotations

import hashlib
import json
import random
import sys
from typing import Any, Dict, List, Tuple

import bootkeep
import pytest
from bootkeep import Request
from conftest import FLEET, Folder, agent, option

sys.path[:0] = [str(FLEET.parent / "bench/fleet-side")]

from simulated import Machine  # noqa: E402
from simulator import cut_packets, packet  # noqa: E402

HASH = hashlib.sha256(option("b")).hexdigest()

Frame = Tuple[int, Request, Dict[str, Any]]

ADD_FIRST: Frame = (0, Request.ADD_FIRST, {"option": option("new optional")})

Words = Tuple[List[str], List[Frame]]
"""What a message expects, and its frames."""

CASES: List[Tuple[str, List[Words]]] = [
    ("a look", []),
    ("an entry that is added", [(["next=0", "order=0001,0000"], [ADD_FIRST])]),
    ("a repeat", [(["next=0"], [ADD_FIRST]), (["next=1"], [ADD_FIRST])]),
    (
        "a repeat of another request",
        [
            (["next=0"], [ADD_FIRST]),
            (["next=1"], [(0, Request.ADD_FREE, {"option": option("new")})]),
        ],
    ),
    (
        "several requests",
        [
            (
                ["next=0", f"0001={HASH}"],
                [(0, Request.REMOVE, {"entry": 1}), (1, Request.FIRST, {"entry": 0})],
            ),
            (["next=2", "0001=none"], [(2, Request.NEXT, {"entry": 0})]),
        ],
    ),
    ("a request that fails", [(["next=0"], [(0, Request.REMOVE, {"entry": 7})])]),
    ("a number that has moved on", [(["next=0"], [ADD_FIRST]), (["next=0"], [ADD_FIRST])]),
    ("an order that is another one", [(["next=0", "order=0000"], [ADD_FIRST])]),
    ("an entry that isn't there", [(["next=0", f"0005={HASH}"], [ADD_FIRST])]),
    ("an entry that is another one", [(["next=0", f"0000={HASH}"], [ADD_FIRST])]),
    ("an entry that is there", [(["next=0", "0000=none"], [ADD_FIRST])]),
]


def message(told: Dict[str, Any], words: List[str], frames: List[Frame]) -> bytes:
    """A message to a machine that has told this."""
    journal = [f"journal={told['journal']}"] if words else []
    line = " ".join(["bootfleet 2", *journal, *words]).encode()
    made = [bootkeep.frame_make(number, kind, **members) for number, kind, members in frames]
    return b"".join([line, b"\n", *made])


def alike(true: Any, simulated: Any) -> Any:
    """Of what a machine says what a simulated one says too: it may say less, but not of lists."""
    if isinstance(simulated, dict):
        return {key: alike(true[key], value) for key, value in simulated.items()}
    if isinstance(simulated, list) and simulated and isinstance(simulated[0], dict):
        assert len(true) == len(simulated)
        return [alike(a, b) for a, b in zip(true, simulated)]
    return true


def without_drawn(held: Dict[str, Any]) -> Dict[str, Any]:
    """What a machine says, but for what is drawn, and so differs from machine to machine."""
    replies = [{**it, "journal": None} for it in held["replies"]]
    return {**held, "to": None, "start": None, "journal": None, "replies": replies}


@pytest.mark.parametrize("messages", [it for _, it in CASES], ids=[name for name, _ in CASES])
def test_it_answers_alike(machine: Folder, messages: List[Words]) -> None:
    machine.put("Timeout", b"\5\0")
    variables = {"Boot0000": option("a"), "Boot0001": option("b"), "Timeout": b"\5\0"}
    simulated = Machine({**variables, "BootOrder": b"\1\0\0\0"}, random.Random(1))
    told: Dict[str, Any] = {}
    said: Dict[str, Any] = {}
    look: Words = ([], [])
    for words, frames in [look, *messages]:
        payload = message(told, words, frames)
        other = message(said, words, frames)
        told = json.loads(agent.answer(payload, str(machine.state), str(machine.place)))
        said = json.loads(simulated.answer(other))
        assert said["to"] == hashlib.sha256(other).hexdigest()[:16]
        shown = without_drawn(said)
        assert alike(without_drawn(told), shown) == shown
    simulated.keeper.close()


def test_what_is_no_message_is_not_handed_on(machine: Folder) -> None:
    simulated = Machine({"Timeout": b"\5\0"}, random.Random(1))
    for payload in (b"nonsense", b"bootfleet 2\nBQ"):
        told = json.loads(agent.answer(payload, str(machine.state), str(machine.place)))
        assert json.loads(simulated.answer(payload)) == told
    simulated.keeper.close()


@pytest.mark.parametrize("length", [0, 1, 127, 128, 16_383, 16_384, 100_000])
def test_packets_are_cut_wherever_they_are_joined(length: int) -> None:
    whole = packet(0x30, bytes(length)) + packet(0x20, b"\0\0")
    held = bytearray()
    found: List[Tuple[int, bytes]] = []
    for piece in (whole[:1], whole[1:2], whole[2:-1], whole[-1:]):
        held += piece
        found += cut_packets(held)
    assert found == [(0x30, bytes(length)), (0x20, b"\0\0")] and not held
