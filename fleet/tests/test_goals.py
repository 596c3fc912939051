"""The next step to a goal, by the cases of goals.json, and what is kept of a goal."""

from __future__ import annotations

import json
from pathlib import Path
from typing import Any, Dict, List, Optional

import pytest
from bootkeep import Request
from conftest import goal, option

from sender.entries import Entry, entry_name, parts_of_option
from sender.goals import Goal, step
from sender.steps import Ask, Asked, Failed, Past, Reached, Send, Shown

CASES: List[Dict[str, Any]] = json.loads(
    Path(__file__).with_name("goals.json").read_text(encoding="utf-8")
)


def number(text: Optional[str]) -> Optional[int]:
    return None if text is None else int(text, 16)


def kind(word: str) -> int:
    return Request[word.upper().replace("-", "_")]


def shown(case: Dict[str, Any]) -> Shown:
    entries = tuple(
        Entry(int(at, 16), None if label is None else parts_of_option(option(label)))
        for at, label in case["entries"].items()
    )
    order = tuple(int(at, 16) for at in case["order"])
    return Shown(entries, order, number(case.get("next")))


def said(taken: object) -> List[Optional[str]]:
    """A step in the words of the cases."""
    if isinstance(taken, Reached):
        return ["reached", entry_name(taken.entry)]
    if isinstance(taken, Failed):
        return ["failed", taken.why]
    assert isinstance(taken, Ask)
    word = Request(taken.asked.kind).name.lower().replace("_", "-")
    return ["ask", word, entry_name(taken.asked.entry)]


@pytest.mark.parametrize("case", CASES, ids=lambda case: str(case["name"]))
def test_step(case: Dict[str, Any]) -> None:
    past = Past(
        tuple(
            Asked(kind(word), number(entry), outcome, number(stored))
            for word, entry, outcome, stored in case.get("past", [])
        )
    )
    wanted = goal(*case["goal"])
    taken = step(wanted, shown(case), past)
    assert said(taken) == case["step"]
    if isinstance(taken, Ask) and taken.asked.entry is None:
        assert taken.option == option(case["goal"][1])
    assert Goal.from_json(wanted.to_json()) == wanted


def test_frames_are_sent_one_after_the_other() -> None:
    frames = (b"one", b"two", b"three")
    sent = Goal("send", frames=frames)
    nothing = Shown((), (), None)
    done = [Asked(Request.REMOVE, 1, "Done", part=part) for part in range(3)]
    assert step(sent, nothing, Past()) == Send((0, 1, 2))
    assert step(sent, nothing, Past((done[0],))) == Send((1, 2))
    assert step(sent, nothing, Past(tuple(done))) == Reached()
    missing = Asked(Request.REMOVE, 9, "Missing", part=1)
    assert step(sent, nothing, Past((done[0], missing, done[2]))) == Failed("remove 0009: Missing")
    assert Goal.from_json(sent.to_json()) == sent


def test_what_is_known_to_be_done_is_not_sent_again() -> None:
    sent = Goal("send", frames=(b"one", b"two", b"three"))
    past = Past(tuple(Asked(Request.REMOVE, 1, "Done", part=part) for part in (0, 2)))
    assert step(sent, Shown((), (), None), past) == Send((1,))
    assert [sent.is_for_good(it) for it in past.asked] == [True, True]
    assert not sent.is_for_good(Asked(Request.REMOVE, 9, "Missing", part=1))
    following = goal("next", "a")
    assert following.is_for_good(Asked(Request.NEXT, 1, "Done"))
    assert not following.is_for_good(Asked(Request.ADD_FREE, None, "Done", 1))
    assert not goal("first", "a").is_for_good(Asked(Request.FIRST, 1, "Done"))
