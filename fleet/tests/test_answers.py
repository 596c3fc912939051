"""What machines say, and what isn't a reply."""

from __future__ import annotations

import json
from typing import Any, Dict

import pytest
from conftest import PATH, option

from sender.answers import BadAnswer, answered, digest, plain, read_answer
from sender.entries import Entry, entry_of_shown, parts_of_option, units
from sender.machines import describe

JOURNAL = "0123456789abcdef0123456789abcdef"

ENTRY: Dict[str, Any] = {
    "entry": "0003",
    "kind": "option",
    "description": "a",
    "description_hex": None,
    "attributes": 1,
    "paths": [PATH],
    "optional": None,
}
SHOW: Dict[str, Any] = {"entries": [ENTRY], "order": ["0003"], "next": None}
REPLY: Dict[str, Any] = {
    "request": 4,
    "reply": "applied",
    "outcome": "Done",
    "same": None,
    "entry": "0003",
    "reason": None,
}
GOOD: Dict[str, Any] = {
    "to": digest(b"x"),
    "status": 0,
    "next": 5,
    "journal": JOURNAL,
    "replies": [REPLY],
    "show": SHOW,
}


def changed(**members: object) -> bytes:
    return json.dumps({**GOOD, **members}).encode()


def test_a_reply_is_read() -> None:
    answer = read_answer(changed())
    assert (answer.to, answer.refusal, answer.next, answer.journal) == (
        digest(b"x"),
        None,
        5,
        JOURNAL,
    )
    assert answer.shown.entries[0].parts == parts_of_option(option("a"))
    assert (answer.shown.order, answer.shown.next) == ((3,), None)
    assert answer.replies[0][:3] == (4, "applied", "Done")
    assert answer.told()["entries"] == [["0003", "a"]]


@pytest.mark.parametrize(
    "payload",
    [
        b"",
        b"\xff",
        b"[]",
        b"7",
        b"null",
        b"{}",
        b"[" * 100_000,
        changed(next=None),
        changed(next=-1),
        changed(next=1 << 32),
        changed(next=True),
        changed(next="5"),
        changed(journal=7),
        changed(journal="j"),
        changed(journal=JOURNAL + " "),
        changed(unmet=[]),
        changed(unmet={"expected": "next=7"}),
        changed(unmet={"expected": 7, "found": "next=7"}),
        changed(to=None),
        changed(start=None),
        changed(start=7, show={**SHOW, "current": None}),
        changed(start="s", show={**SHOW, "current": 3}),
        changed(start="s", show={**SHOW, "current": "x"}),
        changed(start="s", show={**SHOW, "current": None}, complete="yes"),
        changed(start="s", show={**SHOW, "current": None}, complete=1),
        changed(replies=None),
        changed(replies=[{}]),
        changed(replies=[{**REPLY, "request": "4"}]),
        changed(replies=[{**REPLY, "entry": "x"}]),
        changed(show=None),
        changed(show={**SHOW, "order": [3]}),
        changed(show={**SHOW, "next": 3}),
        changed(replies=[{**REPLY, "entry": "12345"}]),
        changed(replies=[{**REPLY, "entry": "F" * 20}]),
        changed(replies=[{**REPLY, "entry": "0x3"}]),
        changed(show={**SHOW, "next": "10000"}),
        changed(show={**SHOW, "next": "0" * 2000 + "3\x1b[2J"}),
        changed(show={**SHOW, "order": ["0003", "10000"]}),
        changed(show={**SHOW, "order": ["0" * 2000 + "3"]}),
        changed(show={**SHOW, "entries": [{**ENTRY, "entry": "12345"}]}),
        changed(show={**SHOW, "entries": [{**ENTRY, "entry": " 003"}]}),
        b'{"to":"x","next":' + b"9" * 700_000 + b"}",
        b'{"to":"x","status":' + b"9" * 4000 + b',"error":""}',
        changed(show={**SHOW, "entries": [{**ENTRY, "paths": ["Nonsense(1)"]}]}),
        changed(show={**SHOW, "entries": [{**ENTRY, "paths": None}]}),
        changed(show={**SHOW, "entries": [{**ENTRY, "optional": "0"}]}),
        changed(show={**SHOW, "entries": [{**ENTRY, "description": None}]}),
        b'{"to":"x","refused":{"words":1,"do":"wait"}}',
        b'{"to":"x","refused":[]}',
        b'{"to":"x","status":"y","error":""}',
    ],
    ids=lambda payload: str(payload[:60], "latin-1"),
)
def test_what_is_no_reply_is_told(payload: bytes) -> None:
    with pytest.raises(BadAnswer):
        read_answer(payload)


def test_refusals_are_read() -> None:
    refused = read_answer(b'{"to":"x","status":3,"refused":{"words":"W","do":"mend machine"}}')
    assert refused.refusal == ("W", "mend machine")
    failed = read_answer(b'{"to":"x","status":-9,"error":"E\\n"}')
    assert failed.refusal == ("status -9: E", "send again")


def test_what_is_not_so_is_read() -> None:
    unmet = {"expected": "next=4", "found": "next=5"}
    assert read_answer(changed(unmet=unmet, replies=[])).unmet == ("next=4", "next=5")
    assert read_answer(changed()).unmet is None


def test_what_is_told_of_a_start_is_read() -> None:
    assert read_answer(changed()).shown.start is None
    show = {**SHOW, "current": "00a1"}
    told = read_answer(changed(start="s\n", show=show, complete=True)).shown.start
    assert told == ("s\\u000a", 0xA1, True)
    older = read_answer(changed(start=None, show={**SHOW, "current": None})).shown.start
    assert older == (None, None, None)


def test_a_terminal_is_not_told_what_to_do() -> None:
    assert plain("a\x1b[2J\u202eb") == "a\\u001b[2J\\u202eb"
    entry = {**ENTRY, "description": "a\x1b"}
    told = read_answer(changed(show={**SHOW, "entries": [entry]})).told()
    assert told["entries"] == [["0003", "a\\u001b"]]


@pytest.mark.parametrize(
    "members",
    [
        {"order": ["0" * 2000 + "3\x1b]0;title\x07"]},
        {"next": "0" * 2000 + "3\x1b[2J"},
        {"entries": [{**ENTRY, "entry": "\x1b[2J"}]},
        {"entries": [{**ENTRY, "description": "a" * 3000 + "\x1b[2J"}]},
        {"entries": [{**ENTRY, "paths": ["\x1b[2J"]}]},
    ],
    ids=str,
)
def test_no_terminal_is_told_what_a_reply_says(members: Dict[str, Any]) -> None:
    """Neither by what is shown before `adopt`, nor by why something is no reply."""
    try:
        said = describe(read_answer(changed(show={**SHOW, **members})).told())
    except BadAnswer as bad:
        said = str(bad)
    assert "\x1b" not in said and "\x07" not in said
    assert len(said) < 3000


def test_what_an_earlier_version_kept_is_shown_plainly() -> None:
    told = {"journal": "j", "next": 5, "entries": [["0003", "a"]], "order": ["\x1b[2J"]}
    assert "\x1b" not in describe({**told, "bootnext": "\x1b[2J"})


def test_a_reply_says_first_what_it_is_to() -> None:
    assert answered(changed()) == digest(b"x")
    assert answered(changed().replace(b": ", b":")) == digest(b"x")
    for payload in (b"", b"[]", b'{"next":5}', b'{"to":"x"}', b'{"to":5}', b'{"to":"' + b"0" * 17):
        assert answered(payload) is None


def test_descriptions_have_their_units() -> None:
    assert units("Bö") == "Bö".encode("utf-16-le")
    assert units("a\\ud800b") == b"a\0\0\xd8b\0"
    assert units("\\u005cu0041") == b"\\\0" + "u0041".encode("utf-16-le")
    as_hex = {**ENTRY, "description": "?", "description_hex": "6100"}
    assert entry_of_shown(as_hex).parts == parts_of_option(option("a"))
    bad = entry_of_shown({"entry": "000A", "kind": "undecodable", "data": "0102"})
    assert (bad, bad.data()) == ((10, None, b"\1\2"), b"\1\2")


@pytest.mark.parametrize("label", ["a", "a inactive", "a optional", "Bö"])
def test_an_entry_has_all_its_bytes(label: str) -> None:
    data = option(label)
    assert Entry(3, parts_of_option(data)).data() == data
