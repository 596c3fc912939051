"""What machines say: a reply of an agent, read and checked. A machine may say anything: what isn't a reply is told."""

from __future__ import annotations

import hashlib
import json
import re
from typing import Any, Dict, NamedTuple, Optional, Tuple

import bootkeep

from .entries import entry_name, entry_number, entry_of_shown
from .steps import Shown, Start


MOST_WORDS = 2000
"""How many characters of a text of a reply are kept."""

MOST_DIGITS = 20
"""How many digits a number of a reply may have."""

ANSWERED = re.compile(rb'\{"to": ?"([0-9a-f]{16})"')
"""How a reply begins: which message it is to is known before all of it is read."""


JOURNAL = re.compile("[0-9a-f]{32}")
"""The identity of a journal."""


class BadAnswer(Exception):
    """Why something isn't a reply."""


class Refusal(NamedTuple):
    """Why an update wasn't made, and what is to be done about it."""

    words: str
    remedy: str


class Reply(NamedTuple):
    """What became of one request."""

    request: Optional[int]
    reply: str
    outcome: Optional[str]
    same: Optional[bool]
    entry: Optional[int]
    reason: Optional[str]


class Unmet(NamedTuple):
    """What isn't so of what a message expects, all of its word as it came, and what is so instead, for a person."""

    expected: str
    found: str


class Answer(NamedTuple):
    """What came of one message to a machine: a refusal, or replies and what is there after them. If something that the
    message expects isn't so, nothing was done, and there is no reply."""

    to: str
    refusal: Optional[Refusal]
    next: int = 0
    journal: Optional[str] = None
    replies: Tuple[Reply, ...] = ()
    shown: Shown = Shown((), (), None)
    summary: Dict[str, Any] = {}
    unmet: Optional[Unmet] = None

    def told(self) -> Dict[str, Any]:
        """What the machine says of itself, for a person who has to decide."""
        return {"journal": self.journal, "next": self.next, **self.summary}


def digest(payload: bytes) -> str:
    """By what a reply says which message it is to."""
    return hashlib.sha256(payload).hexdigest()[:16]


UNASKED = digest(b"")
"""What a machine that has just come answers to."""


def answered(payload: bytes) -> Optional[str]:
    """Which message the bytes are a reply to, if they are one."""
    found = ANSWERED.match(payload)
    return None if found is None else found[1].decode()


def read_answer(payload: bytes) -> Answer:
    """The reply that the bytes are. Raises BadAnswer, whatever they are."""
    try:
        return _answer(json.loads(payload, parse_int=_whole))
    except bootkeep.Error as error:
        why = str(error)
    except Exception as error:  # What reads them finds all sorts of things wrong.
        why = f"{type(error).__name__}: {error}"
    raise BadAnswer(f"what it said is no reply: {plain(why[:MOST_WORDS])}")


def _answer(held: Dict[str, Any]) -> Answer:
    to = _text(held["to"])
    if "refused" in held:
        refused = held["refused"]
        return Answer(to, Refusal(_text(refused["words"]), _text(refused["do"])))
    if "error" in held:
        words, status = _text(held["error"].strip()), _number(held["status"], -(1 << 31))
        return Answer(to, Refusal(f"status {status}: {words}", "send again"))
    show = held["show"]
    shown = _shown(show)._replace(start=_start(held))
    return Answer(
        to,
        None,
        _number(held["next"]),
        None if held["journal"] is None else _journal(held["journal"]),
        tuple(_reply(reply) for reply in held["replies"]),
        shown,
        _summary(show, shown),
        _unmet(held.get("unmet")),
    )


def _unmet(held: Optional[Dict[str, Any]]) -> Optional[Unmet]:
    if held is None:
        return None
    expected = held["expected"]
    if not isinstance(expected, str):
        raise TypeError(f"{expected!r:.40} isn't a text")
    return Unmet(expected, _text(held["found"]))


def _reply(held: Dict[str, Any]) -> Reply:
    request, entry = held["request"], held["entry"]
    outcome, reason = held["outcome"], held["reason"]
    return Reply(
        None if request is None else _number(request),
        _text(held["reply"]),
        None if outcome is None else _text(outcome),
        None if held["same"] is None else bool(held["same"]),
        None if entry is None else entry_number(entry),
        None if reason is None else _text(reason),
    )


def _shown(held: Dict[str, Any]) -> Shown:
    following = held["next"]
    return Shown(
        tuple(entry_of_shown(entry) for entry in held["entries"]),
        tuple(entry_number(number) for number in held.get("order") or ()),
        None if following is None else entry_number(following),
    )


def _start(held: Dict[str, Any]) -> Optional[Start]:
    """What it says of its start. An older `bootvars` says nothing of it, and an older agent not whether its boot is
    complete."""
    if "start" not in held:
        return None
    identity, current, is_complete = held["start"], held["show"]["current"], held.get("complete")
    if is_complete is not None and not isinstance(is_complete, bool):
        raise TypeError(f"{is_complete!r:.40} isn't true or false")
    return Start(
        None if identity is None else _text(identity),
        None if current is None else entry_number(current),
        is_complete,
    )


def _summary(held: Dict[str, Any], shown: Shown) -> Dict[str, Any]:
    """What a person is shown of a machine's entries."""
    described = [
        [entry_name(entry.number), _text(it["description"]) if "description" in it else None]
        for entry, it in zip(shown.entries, held["entries"])
    ]
    order = [entry_name(number) for number in shown.order]
    return {"entries": described, "order": order, "bootnext": entry_name(shown.next)}


def plain(text: str) -> str:
    """A text without what a terminal takes for something to do."""
    return "".join(it if it.isprintable() else f"\\u{ord(it):04x}" for it in text)


def _text(value: object) -> str:
    if not isinstance(value, str):
        raise TypeError(f"{value!r:.40} isn't a text")
    return plain(value[:MOST_WORDS])


def _number(value: object, least: int = 0) -> int:
    if not isinstance(value, int) or isinstance(value, bool) or not least <= value < 1 << 32:
        raise TypeError("a number isn't one that may stand there")
    return value


def _journal(value: object) -> str:
    if not isinstance(value, str) or not JOURNAL.fullmatch(value):
        raise TypeError(f"{value!r:.40} isn't the identity of a journal")
    return value


def _whole(digits: str) -> int:
    """A number of JSON. To read one of a million digits, of which none is meant, would take a while."""
    if len(digits) > MOST_DIGITS:
        raise ValueError(f"a number has {len(digits)} digits")
    return int(digits)
