"""The ledger: what was asked of each machine, and what came of it, in a file of SQLite.

A **job** is what somebody asked for; a **goal** is a job for one machine. A machine's goals are gone after one by one,
in the order of their jobs. A **request** has a number of a machine: its frame is stored with it before it is sent. Each
time that a machine's numbers are taken up anew, by `adopt`, its `era` is one higher.

The requests of one message are an **attempt**. A message does nothing once the machine isn't as it was when the message
was made, and then another attempt is made of the same numbers. One of the attempts is applied at most, as each begins
with the machine's next number; which one it was the machine tells.

A goal, and in it the requests:

    open -----> reached        a look shows that the machine is as it is to be
      | \\----> failed         it can't be reached: the machine is in trouble; `resend` and `adopt` open the goal again
      \\------> cancelled      somebody gave it up

    a look  ->  the goal is reached, or has failed, or asks for one request: number and frame are stored, state `sent`
    sent    ->  late           another attempt is made, or nothing is asked any more; a message may still be under way
    sent, late ->  done        the machine says that it was applied, and Done
               ->  refused     it says that it was applied, with another outcome
               ->  passed      it isn't the one that was applied, and never will be
               ->  dropped     `adopt`: nobody knows, and it is never sent again
    done, refused -> a look, which the same reply has

What is done once, `next`, `send` and `try`, is remembered: which of its requests were done counts over attempts and
eras, but those of a trial that failed until then, and so is over.

An **older copy** of a ledger that comes back doesn't know what was done since. Machines tell it by their journals and their
next numbers, but for one that wasn't heard of before, and that was set up anew since: its next number is 0 again. So
the ledger is marked, by a file beside it, at the start of a sender, and when a machine is heard of for the first time. If
it isn't the one that was marked last, each machine whose journal isn't known may have had one (`FORGOTTEN`), and what it
has done of what is done once a person has to say.

A goal that is open and has a note **waits** for what the note says, as for a start of the machine, which is looked at now
and then.

A machine with **trouble** is sent nothing. Only `resend`, `adopt`, `forget`, and `cancel` of the goal that failed end
it.

Where there are **waves**, no machine is held before the wave that it is in has begun.

A machine has a **holder** up to a time, its lease: the sender which alone goes after its goals.

Each write is in a transaction of SQLite, which is on the disk (`synchronous=FULL`) when it ends.
"""

from __future__ import annotations

import json
import secrets
import time
from typing import Any, Dict, Iterable, List, NamedTuple, Optional

from .goals import Goal
from .requests import FORGOTTEN, IS_OPEN, Machine, Requests
from .steps import Asked, Past
from .waves import Waves, draw

HAS_WORK = """trouble IS NULL AND name IN
    (SELECT machine FROM goal WHERE state = 'open' UNION SELECT machine FROM request WHERE state = 'sent')"""
"""Which machines have something left to be done."""

IS_AT_WORK = """trouble IS NULL AND (EXISTS (SELECT 1 FROM goal WHERE machine = name AND state = 'open')
    OR EXISTS (SELECT 1 FROM request WHERE machine = name AND state = 'sent'))"""
"""The same, for queries over few of the machines."""

HAS_BEGUN = "(wave IS NULL OR wave <= ?)"
"""Which machines are in no wave that comes later than this one."""

LONGEST_LEFT = 300.0
"""For how many seconds at most a machine is left that is silent, or is to be started."""


class OpenGoal(NamedTuple):
    """The goal of a machine that is gone after now."""

    job: int
    goal: Goal
    past: Past


class Doubt(NamedTuple):
    """A goal of what is done once, of which it isn't known that all of it is done: how many requests are known to be, of
    how many, and how many were sent without an answer."""

    job: int
    goal: Goal
    done: int
    of: int
    unanswered: int


class Ledger(Requests):
    """An open ledger. Its calls that write are to be made in a `transaction`."""

    # Machines and jobs

    def add_machine(self, name: str) -> None:
        self.db.execute("INSERT OR IGNORE INTO machine(name) VALUES(?)", (name,))

    def has_machine(self, name: str) -> bool:
        return self.one("SELECT 1 FROM machine WHERE name = ?", name) is not None

    def machine_names(self) -> List[str]:
        return [name for (name,) in self.db.execute("SELECT name FROM machine ORDER BY name")]

    def machine(self, name: str) -> Machine:
        return Machine(
            *self.one("SELECT name, era, next, journal, entries FROM machine WHERE name = ?", name)
        )

    def add_job(self, goal: Goal, machines: Iterable[str]) -> int:
        """Makes a goal of these machines, and gives the number of the job."""
        made = self.db.execute(
            "INSERT INTO job(goal, made) VALUES(?, ?)", (goal.to_json(), time.time())
        )
        job = int(made.lastrowid or 0)
        for name in machines:
            self.db.execute(
                "INSERT INTO goal(machine, job, since) SELECT name, ?, next FROM machine WHERE name = ?",
                (job, name),
            )
        return job

    # Goals

    def open_goal(self, machine: Machine) -> Optional[OpenGoal]:
        """The goal that a machine's next request is for."""
        found = self.one(
            "SELECT job, job.goal, since, entry FROM goal JOIN job ON job = id"
            " WHERE machine = ? AND state = 'open' ORDER BY job LIMIT 1",
            machine.name,
        )
        if found is None:
            return None
        job, goal, since, entry = found[0], Goal.from_json(found[1]), found[2], found[3]
        past = self.past(machine, job, goal, since)
        return OpenGoal(job, goal, past._replace(came_up_by=entry))

    def end_goal(
        self, name: str, job: int, state: str, entry: Optional[int], note: Optional[str]
    ) -> None:
        self.db.execute(
            "UPDATE goal SET state = ?, entry = ?, note = ?, ended = ? WHERE machine = ? AND job = ?",
            (state, entry, note, time.time(), name, job),
        )

    def wait(self, machine: Machine, job: int, until: Optional[str]) -> None:
        """A goal waits for something to happen at the machine, or no longer does."""
        self.db.execute(
            "UPDATE goal SET note = ? WHERE machine = ? AND job = ?", (until, machine.name, job)
        )

    def came_up(self, machine: Machine, job: int, entry: int) -> None:
        """A machine came up by the entry that a goal tries."""
        self.db.execute(
            "UPDATE goal SET entry = ? WHERE machine = ? AND job = ?", (entry, machine.name, job)
        )

    # How machines are

    def begin(self) -> bool:
        """A sender starts. Machines that are left for a while may be taken up: what they said meanwhile nobody may have
        heard. Whether another ledger was here before, as an older copy came back: then a machine whose journal this one
        doesn't know may have had one."""
        self.db.execute("UPDATE machine SET due = 0 WHERE due > 0")
        is_other = self.is_other()
        if is_other:
            self.db.execute("UPDATE machine SET journal = ? WHERE journal IS NULL", (FORGOTTEN,))
        self.mark()
        return is_other

    def heard(self, name: str, now: float) -> None:
        """A machine was heard of, so it isn't silent."""
        self.db.execute("UPDATE machine SET seen = ?, due = 0 WHERE name = ?", (now, name))

    def looked_at(self, machine: Machine, journal: Optional[str], entries: int) -> None:
        """A machine is as the ledger has it."""
        self.db.execute(
            "UPDATE machine SET journal = ?, entries = ?, note = NULL WHERE name = ?",
            (journal, entries, machine.name),
        )

    def note(self, name: str, why: str) -> None:
        self.db.execute("UPDATE machine SET note = ? WHERE name = ?", (why, name))

    def stop(self, name: str, why: str, told: Optional[Dict[str, Any]]) -> None:
        """A machine is in trouble, and told this of itself."""
        self.db.execute(
            "UPDATE machine SET trouble = ?, told = ?, holder = NULL, until = 0 WHERE name = ?",
            (why, None if told is None else json.dumps(told), name),
        )

    # Leases

    def hold(self, holder: str, most: int, now: float, until: float) -> List[str]:
        """Prolongs the leases of a sender, takes more machines that have something to be done up to so many, and gives
        all that it has. Where the clock was set back since they were written, no lease ends later than one from now on,
        and no machine is left for longer than `LONGEST_LEFT`."""
        self.db.execute(
            "UPDATE machine SET until = ? WHERE holder IS NOT NULL AND until > ?", (until, until)
        )
        begun = self.begun_wave()
        self.db.execute(
            f"UPDATE machine SET until = ? WHERE holder = ? AND {IS_AT_WORK}", (until, holder)
        )
        held = [
            name
            for (name,) in self.db.execute(
                f"SELECT name FROM machine WHERE holder = ? AND {IS_AT_WORK} AND {HAS_BEGUN}",
                (holder, begun),
            )
        ]
        free = self.db.execute(
            "SELECT name FROM machine WHERE (holder IS NULL OR until < ?) AND (due <= ? OR due > ?)"
            f" AND {HAS_WORK} AND {HAS_BEGUN} LIMIT ?",
            (now, now, now + LONGEST_LEFT, begun, most - len(held)),
        ).fetchall()
        self.db.executemany(
            "UPDATE machine SET holder = ?, until = ? WHERE name = ?",
            [(holder, until, name) for (name,) in free],
        )
        return held + [name for (name,) in free]

    def leave(self, name: str, due: float = 0) -> None:
        """Gives a lease back. No sender takes the machine up before a time."""
        self.db.execute(
            "UPDATE machine SET holder = NULL, until = 0, due = ? WHERE name = ?", (due, name)
        )

    def leave_all(self, holder: str) -> None:
        self.db.execute("UPDATE machine SET holder = NULL, until = 0 WHERE holder = ?", (holder,))

    def is_done(self) -> bool:
        """Whether nothing is left to be done for machines without trouble."""
        return self.one(f"SELECT 1 FROM machine WHERE {HAS_WORK} LIMIT 1") is None

    def all_reached(self) -> bool:
        """Whether no goal has failed, or is left open by a machine's trouble."""
        return (
            self.one("SELECT 1 FROM goal WHERE state IN ('open', 'failed') LIMIT 1") is None
            and self.one("SELECT 1 FROM machine WHERE trouble IS NOT NULL LIMIT 1") is None
        )

    # Waves

    def set_waves(self, waves: Optional[Waves]) -> None:
        """Has machines gone after in these waves from now on, or all at once."""
        self.db.execute("DELETE FROM setting WHERE name = 'waves'")
        if waves is not None:
            self.set_setting("waves", waves.to_json())
            if self.setting("seed") is None:
                self.set_setting("seed", secrets.token_hex(8))
        self.draw_waves()

    def waves(self) -> Optional[Waves]:
        held = self.setting("waves")
        return None if held is None else Waves.from_json(held)

    def draw_waves(self) -> None:
        """Notes in which wave each machine is: of those of the jobs that aren't done."""
        waves = self.waves()
        if waves is None:
            self.db.execute("UPDATE machine SET wave = NULL WHERE wave IS NOT NULL")
            return
        rows = self.db.execute(
            "SELECT DISTINCT machine FROM goal WHERE job IN"
            " (SELECT job FROM goal WHERE state IN ('open', 'failed'))"
        )
        drawn = draw((name for (name,) in rows), waves, self.setting("seed") or "")
        rows = self.db.execute("SELECT name, wave FROM machine")
        changed = [(drawn.get(name), name) for name, wave in rows if wave != drawn.get(name)]
        self.db.executemany("UPDATE machine SET wave = ? WHERE name = ?", changed)

    def begun_wave(self) -> int:
        """The last wave that has begun; -1 if so many machines are in trouble that nothing goes on."""
        if self.is_stopped():
            return -1
        query = f"SELECT MIN(wave) FROM machine WHERE wave IS NOT NULL AND {IS_AT_WORK}"
        (wave,) = self.one(query)
        return 0 if wave is None else int(wave)

    def is_stopped(self) -> bool:
        """Whether so many machines of waves are in trouble that nothing goes on."""
        waves = self.waves()
        if waves is None or waves.stop_at is None:
            return False
        return self.count_wave_troubles() >= waves.stop_at

    def count_wave_troubles(self) -> int:
        """How many machines that are in a wave are in trouble."""
        count = self.one(
            "SELECT COUNT(*) FROM machine WHERE trouble IS NOT NULL AND wave IS NOT NULL"
        )[0]
        return int(count)

    # What somebody decides

    def told(self, name: str) -> Optional[Dict[str, Any]]:
        """What a machine said of itself when its trouble began."""
        (told,) = self.one("SELECT told FROM machine WHERE name = ?", name)
        return None if told is None else json.loads(told)

    def trouble(self, name: str) -> Optional[str]:
        (trouble,) = self.one("SELECT trouble FROM machine WHERE name = ?", name)
        return None if trouble is None else str(trouble)

    def _reopen(self, name: str) -> None:
        """Ends a machine's trouble, and opens the goals that have failed for new attempts."""
        self.db.execute(
            "UPDATE machine SET trouble = NULL, told = NULL, note = NULL, unmet = 0, due = 0 WHERE name = ?",
            (name,),
        )
        self._end_trials(name)
        self.db.execute(
            "UPDATE goal SET state = 'open', entry = NULL, note = NULL, ended = NULL,"
            " since = (SELECT next FROM machine WHERE name = machine)"
            " WHERE machine = ? AND state = 'failed'",
            (name,),
        )

    def _end_trials(self, name: str) -> None:
        """What a machine answered for a trial that failed counts for no later one."""
        self.db.execute(
            "UPDATE request SET start = NULL WHERE machine = ? AND start IS NOT NULL AND outcome IS NOT NULL"
            " AND job IN (SELECT job FROM goal WHERE machine = ? AND state = 'failed')",
            (name, name),
        )

    def resend(self, name: str) -> None:
        """Goes on with a machine as the ledger has it."""
        self._reopen(name)

    def adopt(self, name: str, told: Dict[str, Any]) -> None:
        """Goes on with a machine as it says itself: from its journal and its next number on, with none of the requests
        that nobody knows the end of."""
        self.db.execute(
            f"UPDATE request SET state = 'dropped' WHERE machine = ? AND {IS_OPEN}", (name,)
        )
        self.db.execute(
            "UPDATE machine SET era = era + 1, journal = ?, next = ?, entries = ? WHERE name = ?",
            (told["journal"], told["next"], len(told["entries"]), name),
        )
        self._reopen(name)
        self.db.execute(
            "UPDATE goal SET since = ? WHERE machine = ? AND state = 'open'", (told["next"], name)
        )

    def doubts(self, name: str) -> List[Doubt]:
        """The goals of a machine that are done once, and that perhaps have been."""
        rows = self.db.execute(
            "SELECT job, job.goal FROM goal JOIN job ON job = id"
            " WHERE machine = ? AND state IN ('open', 'failed') ORDER BY job",
            (name,),
        ).fetchall()
        goals = [(job, Goal.from_json(goal)) for job, goal in rows]
        doubts = [self._doubt(name, job, goal) for job, goal in goals if goal.is_once()]
        return [doubt for doubt in doubts if doubt.done < doubt.of]

    def _doubt(self, name: str, job: int, goal: Goal) -> Doubt:
        done, unanswered = set(), set()
        for kind, part, state, start in self.db.execute(
            "SELECT kind, part, state, start FROM request WHERE machine = ? AND job = ?",
            (name, job),
        ):
            asked = Asked(kind, outcome="Done", start=start)
            if state == "done" and goal.is_for_good(asked):
                done.add(part)
            elif state in ("sent", "late", "dropped"):
                unanswered.add(part)
        of = len(goal.frames) or 1
        return Doubt(job, goal, len(done), of, len(unanswered - done))

    def say_done(self, name: str, job: int) -> None:
        """Somebody says that a goal was reached."""
        self.end_goal(name, job, "reached", None, "somebody said so")

    def cancel(self, job: int, names: Optional[List[str]]) -> int:
        """Gives up the goals of a job that aren't reached, of these machines or of all. How many there were."""
        where = "job = ? AND state IN ('open', 'failed')"
        rows = self.db.execute(f"SELECT machine, state FROM goal WHERE {where}", (job,)).fetchall()
        chosen = [(name, state) for name, state in rows if names is None or name in names]
        for name, state in chosen:
            self.end_goal(name, job, "cancelled", None, None)
            self.db.execute(
                "UPDATE request SET state = 'late' WHERE machine = ? AND job = ? AND state = 'sent'",
                (name, job),
            )
            if state == "failed":
                self._end_trouble_of_goal(name, job)
        return len(chosen)

    def _end_trouble_of_goal(self, name: str, job: int) -> None:
        self.db.execute(
            "UPDATE machine SET trouble = NULL, told = NULL WHERE name = ? AND trouble LIKE ?",
            (name, f"goal {job}: %"),
        )

    def forget(self, name: str) -> None:
        """Takes a machine out, with all that was asked of it."""
        self.db.execute("DELETE FROM machine WHERE name = ?", (name,))
