"""What may befall a fleet while a sender goes after jobs: people who change machines by hand, machines that are set up
anew or copied, a ledger that goes back to an older copy, and clocks that are set; besides messages that are lost, doubled,
late, and come again, and parts that are killed.

Which faults there are, and in which sequence, is drawn from the seed before the first. What becomes of machines in trouble
is decided as docs/fleet.md says it (deciding.py). What counts is judged by the machines' variables and by the records of
those who changed them (records.py)."""

from __future__ import annotations

import os
import random
import re
import shutil
import signal
import sqlite3
import subprocess
import time
from collections import Counter
from contextlib import closing
from dataclasses import dataclass, field
from pathlib import Path
from typing import Any, Callable, Dict, List, Optional, Tuple

from clocks import STEPS, Clocks
from deciding import Decider
from fleet import ROOT, Fleet, description_of, make_option, say
from hands import QUIET_WITHIN, WRAPPER, Hands, Machine
from machines import FAIR, FOULEST, make_machine
from records import record_of

SHARES = {
    "administrators": 0.6,
    "reinstallations": 0.08,
    "clones": 0.06,
    "old ledgers": 0.03,
    "steps of clocks": 0.15,
    "starts": 0.5,
}
"""How many faults of each kind there are for a job, twice at least."""

JOBS = ("first", "first", "first", "remove", "remove", "next", "next", "send", "send", "send")
"""Of which kinds jobs are drawn."""

MACHINES = (1, 2, 4, 8, 24)
"""Of how many machines."""

RECENT = 3
"""How many of the last jobs an administrator comes upon."""

JUST = 6.0
"""For how many seconds a request counts as just lost: by then it has come again."""

PAUSE = 0.4
"""For how many seconds at most nothing is drawn after each fault and each job."""

DECIDED_EVERY, RESTARTED_AFTER = 3.0, 2.0
"""After how many seconds somebody looks at the troubles, and what has ended is started again."""

SETTLED_WITHIN = 420
"""For how many seconds goals may be open after the last fault."""

SENDERS_CLOCK = "sender"


@dataclass
class Job:
    """What somebody asked for: of which entry, and of which machines."""

    kind: str
    label: str
    names: List[str]
    number: int = 0
    """Its number in the ledger."""

    def is_once(self) -> bool:
        return self.kind in ("next", "send")


@dataclass
class Clone:
    """A copy of a machine that came up: over whose variables; and if it is a copy of the disk alone, the machine on whose
    hardware it runs."""

    name: str
    machine: Machine
    lent: Optional[str]
    ends: int


@dataclass
class Tally:
    """What was drawn."""

    drawn: "Counter[str]" = field(default_factory=Counter)
    parts: Dict[str, "Counter[str]"] = field(default_factory=dict)

    def add(self, kind: str, part: str) -> None:
        self.drawn[kind] += 1
        self.parts.setdefault(kind, Counter())[part] += 1

    def lines(self) -> List[str]:
        """A line for each kind."""
        return [
            f"{kind}: {self.drawn[kind]} drawn: "
            + ", ".join(f"{count} {part}" for part, count in sorted(self.parts[kind].items()))
            for kind in self.drawn
        ]


class Faults(Fleet):
    """The fleet, what befalls it, and what is seen of it afterwards."""

    def __init__(self, work: Path, count: int, jobs: int, seed: int) -> None:
        super().__init__(work, count, seed)
        self.count_of_jobs = jobs
        self.clocks = Clocks(work / "clocks")
        self.own: "set[bytes]" = set()
        self.hands = Hands(self.processes, self.own)
        self.machines: Dict[str, Machine] = {}
        self.clones: Dict[str, Clone] = {}
        self.jobs: List[Job] = []
        self.down: "set[str]" = set()
        self.wrong: List[Tuple[int, str]] = []
        self.ended: Dict[str, float] = {}
        self.copied: "set[str]" = set()
        self.copy: Optional[Tuple[int, str]] = None
        self.tally, self.twice = Tally(), Counter[str]()
        self.kills = {"agents": 0, "updates": 0, "sender": 0, "brokers": 0}
        self.due: Dict[str, float] = {}
        self.decided = 0.0
        self.at = 0
        self.decider = Decider(
            self.bootfleet,
            self.is_job_done,
            self.end_clones_of,
            self.enroll_anew,
            random.Random(f"{seed} decisions"),
        )

    # What there is

    def bootfleet(self, *words: object, ledger: Optional[Path] = None) -> str:
        """Calls bootfleet by the sender's clock. Raises CalledProcessError if it refuses."""
        program = [ROOT / "fleet/bootfleet", "--ledger", ledger or self.ledger, *words]
        run = subprocess.run(
            ["env", *self.clocks.words(SENDERS_CLOCK), *map(str, program)],
            stdin=subprocess.DEVNULL,
            capture_output=True,
            text=True,
            timeout=120,
            check=True,
        )
        return run.stdout

    def set_up(self) -> None:
        self.make_certificates()
        self.wrapper = self.work / "bootvars-of-machine"
        self.wrapper.write_text(WRAPPER)
        self.wrapper.chmod(0o755)
        self.options["option"] = make_option(self.work, "option")
        for name in self.names:
            option = self.options["option"]
            make_machine(self.place(name), self.draw, option, [option])
            machine = Machine(self.work / name, f"{self.draw.getrandbits(128):032x}")
            machine.make()
            machine.record = record_of(machine.model(), self.own)
            self.machines[name] = machine
        self.start_all()

    def start_agent(self, name: str) -> None:
        """Starts the agent of a machine, or of a clone of one."""
        clone = self.clones.get(name)
        machine = self.machines[name] if clone is None else clone.machine
        own = name if clone is None else clone.name
        known = {
            "BOOTVARS": self.wrapper,
            "BENCH_BOOTVARS": os.environ["BOOTVARS"],
            "MACHINE_HOME": machine.home,
            "MACHINE_UUID": machine.uuid,
        }
        words = ["env", *(f"{key}={value}" for key, value in known.items())]
        agent = [ROOT / "fleet/bootfleet-agent", own, f"localhost:{self.ports[1]}"]
        words += [*self.clocks.words(name), *map(str, agent)]
        words += map(str, [self.certs / own, machine.state, machine.place])
        self.processes.start(name, words)
        self.ended.pop(name, None)

    def start_sender(self, name: str = "sender") -> None:
        words = [ROOT / "fleet/bootfleet", "--ledger", self.ledger, "run", "--as", name]
        clock = self.clocks.words(SENDERS_CLOCK)
        self.processes.start(name, ["env", *clock, *map(str, words)])
        self.ended.pop(name, None)

    def killable(self) -> List[str]:
        return [name for name in self.names if name not in self.down]

    # How it goes on

    def go_through(self) -> None:
        """Lets all that was drawn happen, and then everything come to rest."""
        draw = random.Random(f"{self.seed} faults")
        drawn = ["job"] * self.count_of_jobs
        for kind, share in SHARES.items():
            drawn += [kind] * max(2, round(self.count_of_jobs * share))
        draw.shuffle(drawn)
        does: Dict[str, Callable[[random.Random], None]] = {
            "job": self.ask_job,
            "administrators": self.administer,
            "reinstallations": self.reinstall,
            "clones": self.clone,
            "old ledgers": self.age_ledger,
            "steps of clocks": self.step_clock,
            "starts": self.start_machine,
        }
        began = time.monotonic()
        self.relay.weather = FOULEST
        self.due = {"agent": began + 0.5, "sender": began + 4.0, "broker": began + 7.0}
        self.start_sender()
        for self.at, kind in enumerate(drawn):
            own = random.Random(f"{self.seed} {self.at}")
            does[kind](own)
            self.end_what_is_over()
            self.go_on(own.random() * PAUSE, True)
        say(f"all was drawn after {time.monotonic() - began:.0f} s")
        self.come_to_rest()
        say(f"all was at rest after {time.monotonic() - began:.0f} s")

    def go_on(self, seconds: float, is_wild: bool) -> None:
        """Lets the fleet go on for a while: parts are killed, what has ended is started, and troubles are decided."""
        until = time.monotonic() + seconds
        while True:
            now = time.monotonic()
            if is_wild:
                self.kill_some(now, self.due, self.kills)
            self.start_again(now)
            if now > self.decided + DECIDED_EVERY:
                self.decider.decide(self.status(self.ledger)["machines"])
                self.decided = time.monotonic()
            if now >= until:
                return
            time.sleep(0.02)

    def start_again(self, now: float) -> None:
        """Starts what has ended by itself, as a system does: where a clock is wrong TLS may fail."""
        for name in [*self.names, *self.clones, "sender"]:
            if name in self.down or self.processes.running[name].poll() is None:
                continue
            if now > self.ended.setdefault(name, now) + RESTARTED_AFTER:
                self.start_sender() if name == "sender" else self.start_agent(name)

    def end_what_is_over(self) -> None:
        """Ends what was to last so long: clones, wrong clocks, and the time for which a copy of the ledger is kept."""
        for name in [it for it, clone in self.clones.items() if clone.ends <= self.at]:
            self.end_clone(name)
        for it in [it for it in self.wrong if it[0] <= self.at]:
            self.wrong.remove(it)
            self.clocks.set(it[1], 0)
        if self.copy is not None and self.copy[0] <= self.at:
            self.restore_ledger()

    # Jobs

    def ask_job(self, draw: random.Random) -> None:
        """Somebody asks for something of some machines: of those that have an entry that it be first again, or taken out,
        and otherwise for an entry that nobody has."""
        kind, earlier = draw.choice(JOBS), [job for job in self.jobs if job.kind == "first"]
        count = min(len(self.names), draw.choice(MACHINES))
        if earlier and (kind == "remove" or (kind == "first" and draw.random() < 0.4)):
            one = draw.choice(earlier)
            label, names = one.label, draw.sample(one.names, min(len(one.names), count))
        else:
            kind = "first" if kind == "remove" else kind
            label, names = f"{kind}-{len(self.jobs)}", draw.sample(self.names, count)
        if label not in self.options:
            self.options[label] = make_option(self.work, label)
            self.own.add(self.options[label])
        if names:
            self.jobs.append(self.ask(Job(kind, label, names)))

    def ask(self, job: Job) -> Job:
        """Asks the sender for a job, and notes its number."""
        listed = self.work / "listed"
        listed.write_text("\n".join(job.names))
        option = self.work / f"option-{job.label}"
        words: List[object] = [job.kind, "--option", option]
        if job.kind == "send":
            script = self.work / f"script-{job.label}"
            frame = [os.environ["BOOTVARS"], "frame", "0", "add-free", str(option)]
            with script.open("wb") as out:
                subprocess.run(frame, stdout=out, check=True)
            words = ["send", script]
        said = self.bootfleet(*words, "--machines", listed)
        found = re.match(r"job (\d+): ", said)
        assert found is not None
        job.number = int(found[1])
        return job

    def job_of(self, number: int) -> Job:
        """The job that has this number: after an older ledger came back it is the one that got it last."""
        return next(job for job in reversed(self.jobs) if job.number == number)

    def is_job_done(self, name: str, number: int) -> bool:
        """Whether a job that is done once was done, as far as the machine and its copies show it."""
        return self.is_done(name, self.job_of(number))

    def is_done(self, name: str, job: Job) -> bool:
        there = [self.machines[name]]
        there += [it.machine for it in self.clones.values() if it.name == name and it.lent is None]
        option = self.options[job.label]
        for machine in there:
            if job.kind == "send":
                if machine.record.times_added(machine.model(), option):
                    return True
            elif machine.record.was_next(machine.model(), option) or machine.was_next(
                description_of(job.label)
            ):
                return True
        return False

    # Faults

    def free(self, draw: random.Random) -> Optional[str]:
        """A machine that is up, of which there is no copy."""
        busy = self.down | {clone.name for clone in self.clones.values()}
        free = [name for name in self.names if name not in busy]
        return draw.choice(free) if free else None

    def administer(self, draw: random.Random) -> None:
        """An administrator changes something of a machine: rather of one to which a request was just lost, and then the
        entry that this is about; or of one that was asked for something, and then the entry of that.
        """
        up, wanted = self.killable(), b""
        name = draw.choice(up)
        lost = [it for it in list(self.relay.lost) if it.when > time.monotonic() - JUST]
        on_its_way = [(it.name, it.entry) for it in lost if it.name in up]
        if on_its_way and draw.random() < 0.6:
            name, entry = on_its_way[-1]
            wanted = self.machines[name].model().entries.get(entry, b"")
        elif self.jobs and draw.random() < 0.7:
            job = draw.choice(self.jobs[-RECENT:])
            asked = [it for it in job.names if it in up]
            if asked:
                name, wanted = draw.choice(asked), self.options[job.label]
        act = self.hands.administer(name, self.machines[name], draw, wanted)
        self.tally.add("administrators", act)

    def start_machine(self, draw: random.Random) -> None:
        name = draw.choice(self.killable())
        self.hands.start(name, self.machines[name])
        self.start_agent(name)
        self.tally.add("starts", "of machines")

    def reinstall(self, draw: random.Random) -> None:
        """A machine is set up anew, perhaps by a firmware that was reset, and perhaps it loses its key too."""
        name = self.free(draw)
        if name is None:
            return
        is_cleared, has_key = draw.random() < 0.3, draw.random() < 0.6
        self.hands.reinstall(name, self.machines[name], is_cleared)
        if not has_key:
            self.clocks.set(SENDERS_CLOCK, 0)
            self.bootfleet("revoke", name)
            self.bootfleet("enroll", name)
            self.read_anew()
        self.start_agent(name)
        told = "with the variables" if is_cleared else "of the disk"
        self.tally.add("reinstallations", told if has_key else f"{told}, with another key")

    def enroll_anew(self, name: str) -> None:
        """A machine isn't the one that it was: it is forgotten, with its jobs, and gets another key, by a clock that is
        right."""
        self.clocks.set(SENDERS_CLOCK, 0)
        self.bootfleet("forget", "--yes", name)
        self.bootfleet("enroll", name)
        self.read_anew()
        for job in self.jobs:
            job.names = [it for it in job.names if it != name]
        if name not in self.down:
            self.processes.kill_group(name)
            self.start_agent(name)

    def read_anew(self) -> None:
        """The brokers read who is revoked."""
        for name in ("near", "far"):
            self.processes.running[name].send_signal(signal.SIGHUP)

    def clone(self, draw: random.Random) -> None:
        """A copy of a machine comes up: of its disk, on another one's hardware; or of all of it, as virtual machines are
        copied, while the first goes on."""
        name, other = self.free(draw), self.free(draw)
        if name is None or other is None:
            return
        key = f"clone-{self.at}"
        home, first = self.work / key, self.machines[name]
        ends = self.at + draw.randrange(5, 40)
        if name != other and draw.random() < 0.5 and (first.state / "journal").exists():
            lent = self.machines[other]
            with self.hands.held(name, first):
                shutil.copytree(first.state, home / "state")
            self.hands.start(other, lent)
            self.down.add(other)
            shutil.copy(lent.home / "start", home / "start")
            copy = Machine(home, lent.uuid, lent.place)
            self.clones[key] = Clone(name, copy, other, ends)
            self.tally.add("clones", "of a disk")
        else:
            with self.hands.held(name, first):
                copy = first.copy_to(home)
            self.clones[key] = Clone(name, copy, None, ends)
            self.tally.add("clones", "of a whole machine")
        self.start_agent(key)

    def end_clones_of(self, name: str) -> bool:
        """Somebody finds out that there are copies of a machine, and ends them."""
        found = [key for key, clone in self.clones.items() if clone.name == name]
        for key in found:
            self.end_clone(key)
        return bool(found)

    def end_clone(self, key: str) -> None:
        clone = self.clones[key]
        if clone.lent is not None:
            self.end_agent(key)
            del self.clones[key]
            self.down.discard(clone.lent)
            self.start_agent(clone.lent)
            return
        name, first = clone.name, self.machines[clone.name]
        for it, machine in ((key, clone.machine), (name, first)):
            self.end_agent(it)
            self.hands.judge(it, machine)
        is_copy_kept = random.Random(f"{self.seed} {key}").random() < 0.5
        del self.clones[key]
        gone, kept = (first, clone.machine) if is_copy_kept else (clone.machine, first)
        self.count_twice(f"{name}, of which there was a copy", gone)
        # The one that stays gets a new folder for its journal, so that no message of before counts any more.
        self.hands.lose_journal(kept)
        self.machines[name] = kept
        self.copied.add(name)
        self.start_agent(name)

    def end_agent(self, key: str) -> None:
        """Ends an agent, with all that it and those before it have started."""
        self.processes.kill_group(key)
        if not self.processes.await_quiet(key, QUIET_WITHIN):
            raise RuntimeError(f"what {key} has started is still at work")

    def step_clock(self, draw: random.Random) -> None:
        """A clock is set, and some time later it is set right."""
        is_sender = draw.random() < 0.3
        name = SENDERS_CLOCK if is_sender else draw.choice(self.names)
        seconds = draw.choice(STEPS) * draw.choice((1, -1))
        self.clocks.set(name, seconds)
        self.wrong = [it for it in self.wrong if it[1] != name]
        self.wrong.append((self.at + draw.randrange(3, 25), name))
        whose = "the sender's" if is_sender else "a machine's"
        self.tally.add("steps of clocks", f"{whose} {'forth' if seconds > 0 else 'back'}")

    # Old ledgers

    def age_ledger(self, draw: random.Random) -> None:
        """The ledger is copied, and some time later what is copied takes its place."""
        if self.copy is not None:
            self.restore_ledger()
        how, file = draw.choice(("by backup", "by a copy of the file")), self.work / "older"
        if how == "by backup":
            self.bootfleet("backup", file)
        else:
            # What it stored last is in the file once it has ended.
            self.end_sender(signal.SIGTERM)
            shutil.copy(self.ledger, file)
            self.start_sender()
        self.copy = (self.at + draw.randrange(5, 40), how)

    def restore_ledger(self) -> None:
        """An older ledger takes the place of the one that is there, as docs/fleet.md has it; and somebody asks again for
        what it doesn't know of: of what is done once, where it wasn't done."""
        assert self.copy is not None
        how, self.copy = self.copy[1], None
        self.end_sender(signal.SIGKILL if self.draw.random() < 0.5 else signal.SIGTERM)
        for end in ("", "-wal", "-shm"):
            Path(f"{self.ledger}{end}").unlink(missing_ok=True)
        shutil.copy(self.work / "older", self.ledger)
        known = self.query("SELECT COALESCE(MAX(id), 0) FROM job")[0][0]
        self.start_sender()
        self.tally.add("old ledgers", how)
        for job in self.jobs:
            if job.number > known:
                names = job.names
                if job.is_once():
                    names = [name for name in names if not self.is_done(name, job)]
                job.number = 0
                if names:
                    job.names = names
                    self.ask(job)

    def end_sender(self, by: int) -> None:
        made = self.processes.running["sender"]
        made.send_signal(by)
        made.wait(60)

    def query(self, words: str) -> List[Tuple[Any, ...]]:
        """What the ledger has, as its file says it."""
        with closing(sqlite3.connect(self.ledger, timeout=60)) as db:
            return db.execute(words).fetchall()

    # How it ends

    def come_to_rest(self) -> None:
        """Ends all faults, and waits until the sender has nothing left to do. Then what copies of machines did that are
        gone is asked for again, and of each machine one more goal, with nothing lost."""
        if self.copy is not None:
            self.restore_ledger()
        for key in list(self.clones):
            self.end_clone(key)
        for _, name in self.wrong:
            self.clocks.set(name, 0)
        self.await_rest()
        self.mend_copied()
        self.relay.weather = FAIR
        label = "last"
        self.options[label] = make_option(self.work, label)
        self.own.add(self.options[label])
        self.jobs.append(self.ask(Job("first", label, list(self.names))))
        self.await_rest()
        self.end_sender(signal.SIGTERM)

    def await_rest(self) -> None:
        """Waits until no goal is open and no machine in trouble."""
        until = time.monotonic() + SETTLED_WITHIN
        while not self.is_at_rest():
            self.go_on(0.5, False)
            if time.monotonic() > until:
                self.check(False, f"goals are open after {SETTLED_WITHIN} s: {self.open_goals()}")
                return

    def is_at_rest(self) -> bool:
        return not self.open_goals() and not self.query(
            "SELECT 1 FROM machine WHERE trouble IS NOT NULL"
        )

    def open_goals(self) -> List[Tuple[Any, ...]]:
        return self.query("SELECT machine, job FROM goal WHERE state IN ('open', 'failed') LIMIT 5")

    def mend_copied(self) -> None:
        """What only a copy did of a machine, which is gone, is asked of the machine that stayed."""
        reached = set(self.query("SELECT machine, job FROM goal WHERE state = 'reached'"))
        for job in [it for it in self.jobs if it.is_once()]:
            names = [it for it in job.names if it in self.copied and (it, job.number) in reached]
            names = [it for it in names if not self.is_done(it, job)]
            if names:
                self.jobs.append(self.ask(Job(job.kind, job.label, names)))
                self.tally.add("jobs asked of a copied machine again", job.kind)
        self.await_rest()

    # What is seen

    def judge(self) -> None:
        """What became of the machines, by their variables and the records, and whether that is what the ledger says."""
        states = {(name, job): state for name, job, state in
                  self.query("SELECT machine, job, state FROM goal")}  # fmt: skip
        last, missing = self.options["last"], []
        for name, machine in self.machines.items():
            self.end_agent(name)
            model = self.hands.judge(name, machine)
            self.count_twice(name, machine)
            is_first = bool(model.order) and model.entries.get(model.order[0]) == last
            state = states.get((name, self.jobs[-1].number))
            # A person may have given that up too.
            if not is_first and state != "cancelled":
                missing.append(f"{name}: the last entry isn't first, and the goal is {state}")
        for job in self.jobs:
            for name in job.names:
                is_told = job.number and states.get((name, job.number)) == "reached"
                if is_told and job.is_once() and not self.is_done(name, job):
                    missing.append(f"{name}: {job.kind} {job.label} wasn't done")
        touched = self.hands.touched
        self.check(not touched, f"{len(touched)} entries of others were touched: {touched[:5]}")
        twice = sorted(self.twice)
        self.check(not twice, f"{len(twice)} jobs were done twice: {twice[:5]}")
        self.check(not missing, f"{len(missing)} goals aren't reached: {missing[:5]}")
        unknown = self.decider.made.unknown
        self.check(not unknown, f"{len(unknown)} troubles that nothing explains: {unknown[:5]}")
        for kind in SHARES:
            self.check(self.tally.drawn[kind] > 0, f"{kind}: none was drawn")

    def count_twice(self, name: str, machine: Machine) -> None:
        """Notes which jobs a machine has done twice."""
        model = machine.model()
        there = Counter(model.entries.values())
        for job in self.jobs:
            option = self.options[job.label]
            if job.kind == "send":
                times = machine.record.times_added(model, option)
            elif job.kind == "next":
                times = max(machine.record.times_next(model, option), there[option])
            else:
                times = there[option]
            if times > 1:
                self.twice[f"{name}: {job.kind} {job.label}: {times} times"] += 1
                self.tell_requests(name, job)

    def tell_requests(self, name: str, job: Job) -> None:
        """Tells what the ledger has of a job that a machine has done twice, and whether there was a copy of the machine."""
        numbers = ", ".join(str(it.number) for it in self.jobs if it.label == job.label)
        asked = self.query(
            "SELECT job, era, number, attempt, part, state, outcome, stored FROM request"
            f" WHERE machine = '{name.partition(',')[0]}' AND job IN ({numbers}) ORDER BY era, number, attempt"
        )
        say(f"{name}: {job.kind} {job.label}, copied: {name in self.copied}: requests {asked}")

    def tell(self) -> None:
        """Tells what was drawn, and what was counted, also if it didn't come to its end."""
        for line in self.tally.lines():
            say(line)
        say(f"messages {vars(self.relay.counts)}, killed {self.kills}")
        made = self.decider.made
        say(f"troubles: {dict(made.troubles)}; decided: {dict(made.done)}")
        goals = Counter(state for (state,) in self.query("SELECT state FROM goal"))
        say(
            f"{len(self.jobs)} jobs, goals: {dict(goals)};"
            f" {len(self.hands.touched)} entries of others touched, {len(self.twice)} jobs done twice"
        )
