"""Makes the calls that the lines of standard input ask for by the module for Python, and says on a line each what they
answer, as calls.c does by the header."""

from __future__ import annotations

import contextlib
import sys
from typing import Callable, Dict, Iterable, List, Optional, Union

import bootkeep

NO_PLACE = 2**64 - 1
ABSENT, CLOSED = 3, 5
NO_ENTRY = 0x10000
NO_NUMBER = 2**32 - 1

#: What the answer to a move is, by its number in a line, but for the power that fails.
ANSWERS = [bootkeep.Became.DONE, bootkeep.Became.REFUSED, bootkeep.Became.PERHAPS]
CUT = 3


def digits(data: bytes) -> str:
    return data.hex() or "-"


def data_of(word: str) -> bytes:
    return b"" if word == "-" else bytes.fromhex(word)


def text_of(data: bytes) -> str:
    """The text of these bytes. If they aren't UTF-8 from a place on, a surrogate stands there, which isn't either."""
    try:
        return data.decode()
    except UnicodeDecodeError as error:
        return data[: error.start].decode() + "\ud800"


def refusal(error: bootkeep.Refused) -> str:
    place = NO_PLACE if error.place is None else error.place
    inner = NO_PLACE if error.inner_place is None else error.inner_place
    return f"refused {int(error.kind)} {int(error.inner_kind or 0)} {place} {inner}"


def answer(call: Callable[[], str]) -> str:
    try:
        return f"done {call()}".rstrip()
    except bootkeep.Refused as error:
        return refusal(error)
    except bootkeep.Closed:
        return f"status {CLOSED}"
    except KeyError:
        return f"status {ABSENT}"


def path_text(data: bytes) -> str:
    text, taken = bootkeep.path_text_and_len(data)
    return f"{digits(text.encode())} {taken}"


def path_names(data: bytes) -> str:
    text, taken = bootkeep.path_names_and_len(data)
    return f"{digits(text.encode())} {taken}"


def word(call: Callable[[int], Optional[str]]) -> Callable[[bytes], str]:
    """A call for the word of a number."""

    def made(number: bytes) -> str:
        found = call(int.from_bytes(number, "little"))
        if found is None:
            raise KeyError
        return digits(found.encode())

    return made


def option_parts(data: bytes) -> str:
    option = bootkeep.option_parts(data)
    description, paths = len(option.description_bytes), sum(map(len, option.paths))
    start = 8 + description
    return f"{option.attributes} 6 {description} {start} {paths} {start + paths} {len(option.optional)}"


def digits_of(numbers: Iterable[int]) -> str:
    return digits(b"".join(number.to_bytes(2, "little") for number in numbers))


def entry_or_none(number: Optional[bootkeep.EntryNumber]) -> int:
    """The number of an entry, which is an int whose text is its four digits, or what stands for none."""
    return NO_ENTRY if number is None else int(number)


def vars_plan(data: bytes) -> str:
    plan = bootkeep.vars_plan(data)
    return f"{digits_of(plan.normal)} {entry_or_none(plan.next)}"


def vars_at_risk(data: bytes) -> str:
    risk = bootkeep.vars_at_risk(data)
    return f"{digits_of(risk.unnamed + risk.undecodable)} {len(risk.unnamed)}"


def numbers_in(data: bytes, width: int) -> list[int]:
    return [int.from_bytes(data[at : at + width], "little") for at in range(0, len(data), width)]


def option_make(attributes: bytes, description: bytes, paths: bytes, optional: bytes) -> str:
    number = int.from_bytes(attributes, "little")
    return digits(
        bootkeep.option_make(number, text_of(description), [paths] if paths else [], optional)
    )


def option_make_units(attributes: bytes, units: bytes, paths: bytes, optional: bytes) -> str:
    number = int.from_bytes(attributes, "little")
    return digits(bootkeep.option_make_units(number, units, [paths] if paths else [], optional))


def option_description_utf8(data: bytes) -> str:
    """The description of an option. The module has none in the place of one that is no text, so that is told here."""
    description = bootkeep.option_parts(data).description
    if description is None:
        raise bootkeep.Refused(bootkeep.Fault.OPTION_NOT_UTF16)
    return digits(description.encode())


def frame_make(numbers: bytes, option: bytes, order: bytes) -> str:
    """The frame of a request. Which kinds there are, and which parts each has, the module's types say, so that a kind that
    there isn't is answered here."""
    number, kind = numbers_in(numbers[:8], 4)
    requests = bootkeep.RequestKind
    if kind not in list(requests):
        raise bootkeep.Refused(bootkeep.Fault.FRAME_BAD_KIND)
    request, entry = requests(kind), int.from_bytes(numbers[8:], "little")
    if request == requests.ORDER:
        return digits(bootkeep.frame_make(number, request, order=numbers_in(order, 2)))
    if request in (requests.ADD, requests.REPLACE):
        return digits(bootkeep.frame_make(number, request, entry=entry, option=option))
    if request in (requests.ADD_FREE, requests.ADD_FIRST):
        return digits(bootkeep.frame_make(number, request, option=option))
    return digits(bootkeep.frame_make(number, request, entry=entry))


def frame_parts(data: bytes) -> str:
    """The parts of a frame, and where its option is: at the end."""
    parts = bootkeep.frame_parts(data)
    option = b"" if parts.option is None else parts.option
    assert bytes(bootkeep.Frame.from_bytes(data)) == data
    at = len(data) - len(option) if option else 0
    told = f"{parts.number} {int(parts.kind)} {entry_or_none(parts.entry)} {at} {len(option)}"
    return f"{digits_of(parts.order or ())} {told}"


def vars_list(data: bytes) -> str:
    """The places of the variables, as C has them. The module gives their data in place."""
    places, at = b"", 4
    for name, value in bootkeep.vars_list(data).items():
        assert data[at + 1 : at + 1 + len(name)] == name.encode()
        start = at + len(name) + 5
        assert value == data[start : start + len(value)]
        places += b"".join(
            number.to_bytes(8, "little") for number in (at + 1, len(name), start, len(value))
        )
        at = start + len(value)
    return digits(places)


def vars_named(data: bytes) -> str:
    stands_for = {"BootOrder": 0x10001, "BootNext": 0x10002}
    named = b""
    for one in bootkeep.vars_named(data):
        for number in (stands_for[one.variable], one.number, int(one.state)):
            named += number.to_bytes(4, "little")
    return digits(named)


def vars_lowest_free(data: bytes) -> str:
    return str(entry_or_none(bootkeep.vars_lowest_free(data)))


def vars_entry(data: bytes, number: bytes) -> str:
    return str(int(bootkeep.vars_entry(data, int.from_bytes(number, "little"))))


def vars_changes(before: bytes, after: bytes) -> str:
    stands_for = {"BootOrder": 0x10001, "BootNext": 0x10002, "Timeout": 0x10003}
    changes = b""
    for change in bootkeep.vars_changes(before, after):
        number = stands_for.get(change.name) or int(change.name[4:], 16)
        changes += number.to_bytes(4, "little") + int(change.kind).to_bytes(4, "little")
    return digits(changes)


def edit_of(numbers: bytes, entries: bytes, option: bytes) -> bootkeep.Edit:
    """The edit of these numbers. Which kinds and positions there are the module's types say, so that others are answered
    here."""
    kind, number, position, again, stale, only = numbers_in(numbers, 4)
    if kind not in list(bootkeep.EditKind):
        raise bootkeep.Refused(bootkeep.Fault.UNEDITED_BAD_KIND)
    kinds = bootkeep.EditKind
    if number > NO_ENTRY and kind in (kinds.ADD, kinds.NEXT, kinds.TIMEOUT):
        raise bootkeep.Refused(bootkeep.Fault.UNEDITED_BAD_NUMBER)
    if position not in list(bootkeep.Position):
        if kind == kinds.ADD:
            raise bootkeep.Refused(bootkeep.Fault.UNEDITED_BAD_POSITION)
        position = 0
    return bootkeep.Edit(
        kinds(kind),
        numbers_in(entries, 2),
        option,
        None if number >= NO_ENTRY else number,
        bootkeep.Position(position),
        bool(again),
        bool(stale),
        bool(only),
    )


def vars_edit(numbers: bytes, entries: bytes, option: bytes, data: bytes) -> str:
    edited = bootkeep.vars_edit(data, edit_of(numbers, entries, option))
    return f"{digits(edited.data)} {int(edited.kind)} {entry_or_none(edited.entry)}"


def image_check(data: bytes) -> str:
    fault = bootkeep.image_check(data)
    if fault is not None:
        raise bootkeep.Refused(fault.kind, fault.place)
    return ""


def signature_lists(data: bytes) -> str:
    """The places of the lists, as C has them. The module gives their parts, of which one without signatures doesn't say
    how many bytes each has."""
    places = b""
    for one in bootkeep.signature_lists(data):
        size = int.from_bytes(data[one.place + 24 : one.place + 28], "little")
        assert all(len(signature) == size for signature in one.signatures)
        length = 28 + len(one.header) + len(b"".join(one.signatures))
        for number in (one.place, length, len(one.header), size):
            places += number.to_bytes(8, "little")
    return digits(places)


def notes_identity(data: bytes) -> str:
    identity = bootkeep.notes_identity(data)
    if identity is None:
        raise KeyError
    return digits(identity)


def record_make(machine: bytes, time: bytes, before: bytes, after: bytes, line: bytes) -> str:
    """The record of a change. The module takes words, so that a line whose last word isn't ended is answered here."""
    words = line.split(b"\0")
    if words.pop():
        place = len(line) - len(line.split(b"\0")[-1])
        raise bootkeep.Refused(bootkeep.Fault.RECORD_OPEN_WORD, place)
    seconds = int.from_bytes(time, "little")
    return digits(bootkeep.record_make(machine, seconds, before, after, list(map(text_of, words))))


def record_parts(data: bytes) -> str:
    """The places of the parts of a record, as C has them. The module gives the parts."""
    parts = bootkeep.record_parts(data)
    first = 8 + len(parts.machine) + 16
    second = first + len(parts.before) + 4
    assert data[8:].startswith(parts.machine)
    assert data[first:].startswith(parts.before) and data[second:].startswith(parts.after)
    numbers = [
        8,
        len(parts.machine),
        parts.time,
        first,
        len(parts.before),
        second,
        len(parts.after),
    ]
    return " ".join(map(str, [*numbers, len(parts.words)]))


def record_word(data: bytes, number: bytes) -> str:
    words = bootkeep.record_parts(data).words
    at = int.from_bytes(number, "little")
    if at >= len(words):
        raise KeyError
    return digits(words[at].encode())


def run(data: bytes, stream: bytes) -> str:
    after, lines = bootkeep.run(data, stream)
    text = "".join(f"{line}\n" for line in lines)
    return f"{digits(after)} {digits(text.encode())}"


CALLS: Dict[str, Callable[..., str]] = {
    "path_text": path_text,
    "path_names": path_names,
    "status_word": word(bootkeep.status_word),
    "refusal_word": word(bootkeep.refusal_word),
    "outcome_word": word(bootkeep.outcome_word),
    "path_check": lambda data: str(bootkeep.path_check(data)),
    "path_parse": lambda text: digits(bootkeep.path_parse(text_of(text))),
    "path_parse_exact": lambda text: digits(bootkeep.path_parse_exact(text_of(text))),
    "option_parts": option_parts,
    "option_description": lambda data: digits(
        bootkeep.option_parts(data).description_line.encode()
    ),
    "option_description_utf8": option_description_utf8,
    "option_make": option_make,
    "option_make_units": option_make_units,
    "frame_make": frame_make,
    "frame_parts": frame_parts,
    "store_vars": lambda file: digits(bootkeep.store_vars(file)),
    "store_with": lambda file, kept: digits(bootkeep.store_with(file, kept)),
    "vars_plan": vars_plan,
    "vars_list": vars_list,
    "vars_named": vars_named,
    "vars_lowest_free": vars_lowest_free,
    "vars_entry": vars_entry,
    "vars_changes": vars_changes,
    "vars_at_risk": vars_at_risk,
    "vars_edit": vars_edit,
    "vars_get": lambda data, name: digits(bootkeep.vars_get(data, text_of(name))),
    "vars_put": lambda data, name, value: digits(bootkeep.vars_put(data, text_of(name), value)),
    "vars_remove": lambda data, name: digits(bootkeep.vars_remove(data, text_of(name))),
    "image_check": image_check,
    "image_digest": lambda data: digits(bootkeep.image_digest(data)),
    "signature_lists": signature_lists,
    "journal_is_idle": lambda data: str(int(bootkeep.journal_is_idle(data))),
    "notes_len": lambda data: str(bootkeep.notes_len(data)),
    "notes_make": lambda identity: digits(bootkeep.notes_make(identity)),
    "notes_identity": notes_identity,
    "record_make": record_make,
    "record_parts": record_parts,
    "record_word": record_word,
    "record_standing": lambda data, now: str(int(bootkeep.record_standing(data, now))),
    "record_back": lambda data, now: digits(bootkeep.record_back(data, now)),
    "run": run,
}


def said(reply: Optional[Union[bootkeep.Reply, bootkeep.Plan]]) -> str:
    """The line of a reply."""
    return "nothing prepared" if reply is None else str(reply)


def told(reply: Optional[Union[bootkeep.Reply, bootkeep.Plan]]) -> str:
    """The fields of a reply, as calls.c says them."""
    if reply is None:
        reply = bootkeep.Reply(bootkeep.ReplyKind.NOTHING_PREPARED)
    if isinstance(reply, bootkeep.Plan):
        count = len(reply.normal) + (reply.next is not None)
        reply = bootkeep.Reply(bootkeep.ReplyKind.PLAN, count=count, plan=reply)
    plan, why = reply.plan, reply.option_fault
    option = "0 0" if why is None else f"{int(why.kind)} {int(why.inner_kind or 0)}"
    places = (None, None) if why is None else (why.place, why.inner_place)
    numbers = digits_of(plan.normal if plan else ())
    first = None if plan is None else plan.next
    next_number = NO_NUMBER if reply.next_number is None else reply.next_number
    return (
        f"{numbers} {int(reply.kind)} {int(reply.fault or 0)} {option} "
        f"{' '.join(str(NO_PLACE if place is None else place) for place in places)} "
        f"{int(reply.outcome or 0)} {entry_or_none(reply.entry)} {next_number} "
        f"{entry_or_none(first)} {reply.count or 0}"
    )


def keep(words: list[str]) -> None:
    closed = bootkeep.Keeper(data_of(words[0]))
    closed.close()
    print(answer(lambda: digits(closed.set)))
    print(answer(lambda: str(bootkeep.Keeper(b""))))
    with bootkeep.Keeper(data_of(words[0])) as keeper:
        print("done")
        for word in words[1:]:
            events = {
                "d": lambda: keeper.deliver(data_of(word[1:])),
                "p": keeper.prepare,
                "h": keeper.hand,
            }
            reply = events.get(word[0].lower(), keeper.restart)()
            print(f"done {digits(said(reply).encode()) if word[0].islower() else told(reply)}")
        print(f"done {digits(keeper.set)}")
        print(f"done {keeper.next_number}")


class Machine:
    """A machine in memory, over which commands are run as machine.c says."""

    def __init__(self, data: bytes) -> None:
        self.set, self.journal = data, b""

    def make(self, move: bootkeep.Move) -> None:
        """Makes a move."""
        if move.kind == bootkeep.MoveKind.JOURNAL:
            self.journal = move.data or b""
        elif move.kind == bootkeep.MoveKind.DELETE:
            with contextlib.suppress(KeyError):
                self.set = bootkeep.vars_remove(self.set, move.name or "")
        else:
            self.set = bootkeep.vars_put(self.set, move.name or "", move.data or b"")

    def run(
        self, wanted: Union[bytes, bootkeep.Edit, bootkeep.Restore, None], answers: Iterable[int]
    ) -> str:
        """How a command ended, or that it was cut."""
        state = bootkeep.MachineState(b"machine", b"start", self.set, self.journal)
        left, reason = iter(answers), 7
        with bootkeep.Moves(state, wanted) as moves:
            while True:
                move = moves.next()
                if move is None:
                    return f"done {end_numbers(moves.end)}"
                answer = next(left, 0)
                if answer == CUT:
                    return "cut"
                became = ANSWERS[answer]
                if became != bootkeep.Became.REFUSED:
                    self.make(move)
                moves.tell(became, 0 if became == bootkeep.Became.DONE else reason)
                if became != bootkeep.Became.DONE:
                    reason = 8

    def note(self, notes: bytes, stream: bytes) -> bytes:
        """Runs frames, says what is noted of them, and gives the notes after them: those before them, if they are refused."""
        state = bootkeep.MachineState(b"machine", b"start", self.set, self.journal)
        with bootkeep.Moves(state, stream) as moves:
            while (move := moves.next()) is not None:
                self.make(move)
                moves.tell(bootkeep.Became.DONE)
            places = range(len(moves.end.replies))
            try:
                after = moves.notes(notes)
            except bootkeep.Refused as error:
                print(refusal(error))
                told = {answer(lambda: str(moves.same(notes, place))) for place in places}
                assert told <= {refusal(error)}
                return notes
            same = "".join(f" {int(moves.same(notes, place))}" for place in places)
        print(f"done {digits(after)}{same}")
        return after


def end_numbers(end: bootkeep.End) -> str:
    """How a command ended, and the kinds of its replies."""
    numbers = [end.kind, end.reason, end.second_reason, end.fault or 0, end.edited]
    kinds = "".join(f" {int(reply.kind)}" for reply in end.replies)
    return f"{' '.join(str(int(number)) for number in numbers)} {entry_or_none(end.entry)}{kinds}"


def command_machine(words: List[str]) -> None:
    """Runs a command over a machine, settles what it has left, and says what is there in the end."""
    variables, answers, kind, *parts = words
    machine = Machine(data_of(variables))
    try:
        wanted: Union[bytes, bootkeep.Edit, bootkeep.Restore, None] = None
        if kind == "f":
            wanted = data_of(parts[0])
        elif kind == "b":
            wanted = bootkeep.Restore(data_of(parts[0]))
        elif kind == "e":
            wanted = edit_of(*map(data_of, parts))
        print(machine.run(wanted, data_of(answers)))
    except bootkeep.Refused as error:
        print(refusal(error))
    machine.run(None, ())
    print(f"done {digits(machine.set)} {digits(machine.journal)}")


def note_commands(words: List[str]) -> None:
    """Runs two commands of frames over a machine, and says what is noted of each."""
    variables, notes, *streams = map(data_of, words)
    machine = Machine(variables)
    for stream in streams:
        notes = machine.note(notes, stream)


def main() -> None:
    for line in sys.stdin:
        name, *words = line.split()
        if name == "keeper":
            keep(words)
        elif name == "moves":
            command_machine(words)
        elif name == "noted":
            note_commands(words)
        else:
            print(answer(lambda: CALLS[name](*map(data_of, words))))


if __name__ == "__main__":
    main()
