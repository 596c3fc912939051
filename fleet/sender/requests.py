"""The requests of a ledger: what was asked of machines, and what is known of what became of it."""

from __future__ import annotations

from typing import Dict, List, NamedTuple, Optional, Sequence, Tuple

from .goals import Goal
from .messages import Stored
from .steps import Asked, Past
from .store import Store

IS_OPEN = "state IN ('sent', 'late')"
"""Of which requests nobody knows what became of them."""

MOST_FRAMES = 64
"""How many requests a machine keeps the outcomes of, and so how many may be under way at once."""

FORGOTTEN = "unknown"
"""What stands for the journal of a machine that a ledger doesn't know, if another ledger was before: the machine may have
had one, and have lost it."""


class Machine(NamedTuple):
    """What the ledger has of a machine that matters for the next step."""

    name: str
    era: int
    next: int
    journal: Optional[str]
    entries: int


class Requests(Store):
    """A ledger as far as requests go."""

    def unanswered(self, machine: Machine, number: int) -> List[Stored]:
        """The requests of the attempt that was stored last of those that have this number, and of which nobody knows what
        became of them."""
        found = self.one(
            f"SELECT MAX(attempt) FROM request WHERE machine = ? AND era = ? AND number = ? AND {IS_OPEN}",
            machine.name,
            machine.era,
            number,
        )
        rows = self.db.execute(
            "SELECT number, attempt, frame FROM request"
            f" WHERE machine = ? AND era = ? AND number >= ? AND attempt = ? AND {IS_OPEN} ORDER BY number",
            (machine.name, machine.era, machine.next, found[0]),
        )
        return [Stored(*row) for row in rows]

    def count_unanswered(self, name: str) -> int:
        """Of how many requests of a machine nobody knows what became of them."""
        count = self.one(f"SELECT COUNT(*) FROM request WHERE machine = ? AND {IS_OPEN}", name)[0]
        return int(count)

    def is_asked(self, name: str) -> bool:
        """Whether a machine has been sent a request that isn't answered."""
        return (
            self.one("SELECT 1 FROM request WHERE machine = ? AND state = 'sent'", name) is not None
        )

    def past(self, machine: Machine, job: int, goal: Goal, since: int) -> Past:
        """The answered requests of this attempt at a goal, and those before it that count for good."""
        past = []
        for era, number, *row in self.db.execute(
            "SELECT era, number, kind, entry, outcome, stored, part, data, start FROM request"
            " WHERE machine = ? AND job = ? AND outcome IS NOT NULL ORDER BY era, number",
            (machine.name, job),
        ):
            asked = Asked(*row)
            if goal.is_for_good(asked) or (era == machine.era and number >= since):
                past.append(asked)
        return Past(tuple(past))

    def add_requests(
        self, machine: Machine, job: int, requests: Sequence[Tuple[Asked, bytes]]
    ) -> List[Stored]:
        """Stores requests from the machine's next number on, which their frames have: one attempt, and the one that is
        asked of the machine now. If they have been stored before, and nobody knows what became of them, it is that one.
        """
        attempts = self._attempts(machine)
        held = [(job, frame) for _, frame in requests]
        attempt = next((number for number in attempts if attempts[number] == held), None)
        self.withdraw(machine)
        if attempt is None:
            attempt = max(attempts, default=-1) + 1
            self._insert_requests(machine, job, attempt, requests)
        else:
            # None of it was applied before the look that it is made of now.
            self.db.executemany(
                "UPDATE request SET state = 'sent', data = ?, start = ?"
                " WHERE machine = ? AND era = ? AND number = ? AND attempt = ?",
                [
                    (it.data, it.start, machine.name, machine.era, machine.next + at, attempt)
                    for at, (it, _) in enumerate(requests)
                ],
            )
        numbers = range(machine.next, machine.next + len(requests))
        return [Stored(number, attempt, frame) for number, (_, frame) in zip(numbers, requests)]

    def _insert_requests(
        self, machine: Machine, job: int, attempt: int, requests: Sequence[Tuple[Asked, bytes]]
    ) -> None:
        self.db.executemany(
            "INSERT INTO request(machine, era, number, attempt, job, part, kind, entry, frame, data, start)"
            " VALUES(?, ?, ?, ?, ?, ?, ?, ?, ?, ?, ?)",
            [
                (
                    machine.name,
                    machine.era,
                    machine.next + at,
                    attempt,
                    job,
                    asked.part,
                    asked.kind,
                    asked.entry,
                    frame,
                    asked.data,
                    asked.start,
                )
                for at, (asked, frame) in enumerate(requests)
            ],
        )

    def _attempts(self, machine: Machine) -> Dict[int, List[Tuple[int, bytes]]]:
        """What was stored from the machine's next number on: the job and the frame of each, by its attempt."""
        attempts: Dict[int, List[Tuple[int, bytes]]] = {}
        for attempt, job, frame in self.db.execute(
            "SELECT attempt, job, frame FROM request WHERE machine = ? AND era = ? AND number >= ?"
            " ORDER BY attempt, number",
            (machine.name, machine.era, machine.next),
        ):
            attempts.setdefault(attempt, []).append((job, frame))
        return attempts

    def count_unmet(self, machine: Machine) -> int:
        """Counts that a machine wasn't as a message expects. How often that was so since its next number moved on."""
        self.db.execute("UPDATE machine SET unmet = unmet + 1 WHERE name = ?", (machine.name,))
        return int(self.one("SELECT unmet FROM machine WHERE name = ?", machine.name)[0])

    def withdraw(self, machine: Machine) -> None:
        """A machine isn't asked any more what it was asked last, though a message may still be under way."""
        self.db.execute(
            "UPDATE request SET state = 'late' WHERE machine = ? AND state = 'sent'",
            (machine.name,),
        )

    def is_known(self, machine: Machine, number: int) -> bool:
        """Whether it is known what became of the request that the machine applied under a number."""
        return (
            self.one(
                "SELECT 1 FROM request WHERE machine = ? AND era = ? AND number = ? AND outcome IS NOT NULL",
                machine.name,
                machine.era,
                number,
            )
            is not None
        )

    def has_request(self, machine: Machine, number: int) -> bool:
        """Whether some request was stored under a number."""
        return (
            self.one(
                "SELECT 1 FROM request WHERE machine = ? AND era = ? AND number = ?",
                machine.name,
                machine.era,
                number,
            )
            is not None
        )

    def answer_request(
        self, machine: Machine, request: Stored, outcome: str, stored: Optional[int]
    ) -> None:
        """A request was applied, with this outcome."""
        self.db.execute(
            "UPDATE request SET state = ?, outcome = ?, stored = ?"
            " WHERE machine = ? AND era = ? AND number = ? AND attempt = ?",
            (
                "done" if outcome == "Done" else "refused",
                outcome,
                stored,
                machine.name,
                machine.era,
                request.number,
                request.attempt,
            ),
        )

    def pass_request(self, machine: Machine, request: Stored) -> None:
        """A request isn't the one that was applied under its number."""
        self.db.execute(
            "UPDATE request SET state = 'passed' WHERE machine = ? AND era = ? AND number = ? AND attempt = ?",
            (machine.name, machine.era, request.number, request.attempt),
        )

    def move_on(self, machine: Machine, following: int) -> Machine:
        """A machine has another next number, and it is known what became of those before: each attempt that wasn't
        applied began with an earlier number, and never will be."""
        if following == machine.next:
            return machine
        self.db.execute(
            f"UPDATE request SET state = 'passed' WHERE machine = ? AND era = ? AND {IS_OPEN}",
            (machine.name, machine.era),
        )
        self.db.execute(
            "UPDATE machine SET next = ?, unmet = 0 WHERE name = ?", (following, machine.name)
        )
        return machine._replace(next=following)
