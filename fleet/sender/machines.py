"""What is done about a machine: by what it says, and by what the ledger has of it.

`take` takes an answer to what the machine was asked last, and gives what it is asked next. It writes to the ledger which
requests were applied, whether the goal is reached, and the next request, if there is one; or that the machine is in
trouble.

A machine whose next number has moved on has applied a request whose reply was lost. Which one it was is asked before
anything else: the requests that were stored under these numbers are sent once more, where they change nothing.
"""

from __future__ import annotations

from typing import Any, Dict, List, NamedTuple, Optional, Tuple, Union

import bootkeep

from . import messages
from .answers import MOST_WORDS, Answer, Reply, Unmet, plain
from .goals import Goal, step
from .ledger import Ledger, OpenGoal
from .messages import Message, Stored, renumbered
from .requests import FORGOTTEN, MOST_FRAMES, Machine
from .steps import Ask, AskAll, Asked, Failed, Reached, Send, Wait, request_words

MOST_NUMBERS = (1 << 32) - 1
"""How many numbers requests can have."""

MOST_BYTES = 1 << 19
"""How many bytes of frames are sent at once, if they are more than one: a broker takes no message without end."""

MOST_UNMET = 16
"""How often in a row a machine may be another one than a message expects: something changes it each time."""

MARK_PAUSE = 5.0
"""For how many seconds a ledger isn't marked again for another machine that is heard of for the first time. A sender that is
killed while it marks the ledger leaves one that is taken for an older copy."""


class Trouble(Exception):
    """Why nothing more is sent to a machine."""


class Taken(NamedTuple):
    """What a machine is asked next, if there is anything; or why it is in trouble, or what is waited for."""

    message: Optional[Message] = None
    trouble: Optional[str] = None
    wait: Optional[Wait] = None


def take(ledger: Ledger, name: str, answer: Answer, asked: Message) -> Taken:
    """Takes what a machine answers to a message, without a refusal."""
    machine = ledger.machine(name)
    if machine.journal in (None, FORGOTTEN):
        ledger.mark(MARK_PAUSE)  # Of this no earlier copy knows.
    try:
        taken = _next_message(ledger, machine, answer, asked)
    except Trouble as trouble:
        ledger.stop(name, str(trouble), answer.told())
        return Taken(trouble=str(trouble))
    return Taken(wait=taken) if isinstance(taken, Wait) else Taken(taken)


def _next_message(
    ledger: Ledger, machine: Machine, answer: Answer, asked: Message
) -> Union[Message, Wait, None]:
    _compare_journal(machine, answer)
    if answer.unmet is None:
        _take_replies(ledger, machine, answer, asked)
    else:
        _check_unmet(answer, answer.unmet, asked)
        if ledger.count_unmet(machine) >= MOST_UNMET:
            told = f"{answer.unmet.found}, and not {answer.unmet.expected}"
            raise Trouble(f"it changes each time: {told[:MOST_WORDS]}")
    unknown = _unknown(ledger, machine, answer)
    if unknown:
        return messages.question(answer, unknown)
    _check_forgotten(ledger, machine, answer)
    machine = ledger.move_on(machine, answer.next)
    _compare_entries(machine, answer)
    ledger.looked_at(machine, answer.journal, len(answer.shown.entries))
    return _go_on(ledger, machine, answer)


def _compare_journal(machine: Machine, answer: Answer) -> None:
    if machine.journal not in (None, FORGOTTEN, answer.journal):
        raise Trouble(
            f"another journal: {answer.journal or 'none'}, next {answer.next},"
            f" and it was {machine.journal}, next {machine.next}"
        )


def _check_forgotten(ledger: Ledger, machine: Machine, answer: Answer) -> None:
    """Raises Trouble for a machine that perhaps was set up anew, after it had done what is done once."""
    if machine.journal == FORGOTTEN and ledger.doubts(machine.name):
        raise Trouble(
            f"its journal is {answer.journal or 'none'}, and it may have had another one:"
            " an older copy of the ledger came back, or a new one was made"
        )


def _compare_entries(machine: Machine, answer: Answer) -> None:
    if machine.entries and not answer.shown.entries:
        raise Trouble(f"it has no entry any more, and had {machine.entries}")


def _check_unmet(answer: Answer, unmet: Unmet, asked: Message) -> None:
    """Raises Trouble for a machine that contradicts itself: it would be asked the same for ever."""
    if unmet.expected not in asked.words:
        raise Trouble("it says of something else than it was asked that it isn't so")
    if messages.found(unmet.expected, answer) == unmet.expected:
        told = unmet.expected[:MOST_WORDS]
        raise Trouble(f"it says that {told} isn't so, and shows that it is")


def _take_replies(ledger: Ledger, machine: Machine, answer: Answer, asked: Message) -> None:
    if len(answer.replies) != len(asked.requests):
        told = f"it has {len(answer.replies)} replies to {len(asked.requests)} requests"
        raise Trouble(f"{told}: its agent may be an older one")
    for request, reply in zip(asked.requests, answer.replies):
        _take_reply(ledger, machine, request, reply)


def _take_reply(ledger: Ledger, machine: Machine, request: Stored, reply: Reply) -> None:
    """Notes what became of a request."""
    if reply.reply == "malformed" or reply.request is None:
        raise Trouble(f"a frame is malformed: {reply.reason}")
    if reply.request != request.number:
        raise Trouble(f"it tells of request {reply.request}, and was sent {request.number}")
    if reply.reply not in ("applied", "repeat") or reply.outcome is None:
        raise Trouble(f"its reply to request {request.number} is {reply.reply}")
    if reply.reply == "repeat" and not reply.same:
        ledger.pass_request(machine, request)
    else:
        ledger.answer_request(machine, request, reply.outcome, reply.entry)


def _unknown(ledger: Ledger, machine: Machine, answer: Answer) -> List[Stored]:
    """The requests of which the machine is asked what became of them, before it is gone on with: none if it is known which
    request was applied under each of the numbers that it has used since."""
    theirs, ours = answer.next, machine.next
    numbers = f"its next number is {theirs}, and the ledger's is {ours}"
    if theirs < ours:
        raise Trouble(f"{numbers}: an older copy of its journal's folder came back")
    for number in range(ours, theirs):
        if ledger.is_known(machine, number):
            continue
        requests = ledger.unanswered(machine, number)
        if requests:
            return [it for it in requests if number <= it.number < theirs]
        if ledger.has_request(machine, number):
            raise Trouble(f"request {number} was applied, and isn't known to be the one sent")
        raise Trouble(
            f"{numbers}: an older copy of the ledger came back, or another one sends to it"
        )
    return []


def _go_on(ledger: Ledger, machine: Machine, answer: Answer) -> Union[Message, Wait, None]:
    """Ends the goals that are reached, and stores the request for the first that isn't."""
    while True:
        held = ledger.open_goal(machine)
        if held is None:
            ledger.withdraw(machine)
            return None
        taken = step(held.goal, answer.shown, held.past)
        if isinstance(taken, Reached):
            ledger.end_goal(machine.name, held.job, "reached", taken.entry, None)
        elif isinstance(taken, Failed):
            ledger.withdraw(machine)
            ledger.end_goal(machine.name, held.job, "failed", None, taken.why)
            raise Trouble(f"goal {held.job}: {taken.why}")
        elif isinstance(taken, Wait):
            ledger.withdraw(machine)
            ledger.wait(machine, held.job, taken.until)
            return taken
        else:
            if isinstance(taken, AskAll) and taken.came_up_by is not None:
                ledger.came_up(machine, held.job, taken.came_up_by)
            return _ask(ledger, machine, answer, held, _requests(machine, held.goal, taken))


def _ask(
    ledger: Ledger,
    machine: Machine,
    answer: Answer,
    held: OpenGoal,
    requests: List[Tuple[Asked, bytes]],
) -> Message:
    """Stores requests, and gives the message that they are sent by."""
    stored = ledger.add_requests(machine, held.job, requests)
    ledger.wait(machine, held.job, None)
    message = messages.request(answer, stored, is_order_expected=held.goal.kind == "try")
    if message.is_too_long():
        raise Trouble(f"request {machine.next} names too many entries, or BootOrder does")
    return message


def _requests(
    machine: Machine, goal: Goal, taken: Union[Ask, AskAll, Send]
) -> List[Tuple[Asked, bytes]]:
    """What is to be sent, with the machine's next numbers."""
    if not isinstance(taken, Send):
        asks = taken.asks if isinstance(taken, AskAll) else (taken,)
        _check_number(machine.next + len(asks) - 1)
        return [(it.asked, _frame(machine.next + at, it)) for at, it in enumerate(asks)]
    _check_number(machine.next)
    requests: List[Tuple[Asked, bytes]] = []
    left = MOST_BYTES
    for at, part in enumerate(taken.parts[:MOST_FRAMES]):
        frame, number = goal.frames[part], machine.next + at
        left -= len(frame)
        if at and left < 0:
            break
        _check_number(number)
        requests.append((asked_by(frame, part), renumbered(frame, number)))
    return requests


def _check_number(number: int) -> None:
    if number >= MOST_NUMBERS:
        raise Trouble("its journal has no number left for a request: give it a new folder")


def _frame(number: int, ask: Ask) -> bytes:
    try:
        kind = bootkeep.Request(ask.asked.kind)
        return bootkeep.frame_make(number, kind, entry=ask.asked.entry, option=ask.option or None)
    except bootkeep.Refused as why:
        raise Trouble(f"request {number}, {request_words(ask.asked)}, has no frame: {why}") from why


def asked_by(frame: bytes, part: int) -> Asked:
    """What a frame asks for, by its kind, and the entry that it names."""
    parts = bootkeep.frame_parts(frame)
    return Asked(parts.kind, parts.entry, part=part)


def describe(told: Dict[str, Any]) -> str:
    """What a machine said of itself, for a person."""
    lines = [f"journal {told['journal'] or '-'}, next {told['next']}"]
    for number, description in told["entries"]:
        lines.append(f"Boot{number} {description or '(undecodable)'}")
    lines.append(
        f"order {' '.join(told['order'] or []) or '-'}, BootNext {told['bootnext'] or '-'}"
    )
    return "\n".join(f"  {plain(line)}" for line in lines)
