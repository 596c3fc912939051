"""How long it will take: by values alone, by a ledger, and as it is told on a terminal and elsewhere."""

from __future__ import annotations

import io
import re
from typing import List, Optional, Sequence, Tuple

import pytest
from conftest import Folder, Hand, add, goal, option, run

from sender.ledger import Ledger
from sender.progress import read_open_jobs, read_standing
from sender.remaining import (
    LEAST_ENDED,
    LEAST_QUIET,
    WINDOW,
    Estimate,
    Known,
    Moment,
    Standing,
    duration,
    estimate,
    words,
)
from sender.report import LINE_EVERY, LOOK_EVERY, Report
from sender.run import MOST_SENT, Sender
from sender.telling import CLEAR, Teller
from sender.waves import Waves

HALF = Standing(asked=200, reached=100, failed=0, left=100)


def moments(*pairs: Tuple[float, int]) -> List[Moment]:
    return [Moment(*pair) for pair in pairs]


STEADY = moments((0, 0), (10, 50), (20, 100))


@pytest.mark.parametrize(
    "standing, seen, found",
    [
        (HALF, STEADY, Estimate(Known.ABOUT, 20)),
        # What was reached long ago doesn't count, also if it went faster.
        (
            HALF,
            moments((0, 0), (1, 80), (1 + WINDOW, 90), (2 + WINDOW, 100)),
            Estimate(Known.ABOUT, 5 * (1 + WINDOW)),
        ),
        # What is failed is ended too.
        (HALF._replace(reached=80, failed=20), STEADY, Estimate(Known.ABOUT, 20)),
        # No sooner than the time for which none was reached.
        (HALF._replace(left=1), moments((0, 0), (10, 199), (40, 199)), Estimate(Known.ABOUT, 30)),
        (HALF, moments((0, 0)), Estimate(Known.TOO_FEW)),
        (HALF, moments((0, 0), (20, LEAST_ENDED - 1)), Estimate(Known.TOO_FEW)),
        (HALF, moments((0, 0), (20, LEAST_ENDED)), Estimate(Known.ABOUT, 200)),
        (HALF, moments((0, 0), (LEAST_QUIET - 1, 0)), Estimate(Known.TOO_FEW)),
        (HALF, moments((0, 0), (LEAST_QUIET, 0)), Estimate(Known.STALLED, LEAST_QUIET)),
        (
            HALF,
            moments((0, 0), (10, 50), (11 + WINDOW, 50)),
            Estimate(Known.STALLED, WINDOW + 1),
        ),
        # What is left are machines that are off, to be started, or in a wave that hasn't begun.
        (HALF._replace(left=0, silent=3), STEADY, Estimate(Known.WAITING)),
        (HALF._replace(left=0, waiting=3), STEADY, Estimate(Known.WAITING)),
        (HALF._replace(left=0, later=3), STEADY, Estimate(Known.WAITING)),
        (HALF._replace(left=0, trouble=3), STEADY, Estimate(Known.DONE)),
        (HALF._replace(silent=3), STEADY, Estimate(Known.ABOUT, 20)),
    ],
)
def test_what_is_known(standing: Standing, seen: Sequence[Moment], found: Estimate) -> None:
    told = estimate(standing, seen)
    assert told.known == found.known
    assert told.seconds == pytest.approx(found.seconds)


@pytest.mark.parametrize(
    "seconds, told",
    [
        (0, "10 seconds"),
        (10, "10 seconds"),
        (10.5, "20 seconds"),
        (59, "60 seconds"),
        (60, "1 minute"),
        (61, "2 minutes"),
        (89 * 60, "89 minutes"),
        (89 * 60 + 1, "2 hours"),
        (47 * 3600, "47 hours"),
        (47 * 3600 + 1, "2 days"),
        (1_000_000, "12 days"),
    ],
)
def test_times_are_told_no_more_exactly_than_they_are_known(seconds: float, told: str) -> None:
    assert duration(seconds) == told


@pytest.mark.parametrize(
    "standing, found, told",
    [
        (
            Standing(3000, 1204, 0, 1796),
            Estimate(Known.ABOUT, 200),
            "1,204 of 3,000 goals reached: about 4 minutes left",
        ),
        (
            Standing(3000, 1204, 2, 1700, silent=12, trouble=1),
            Estimate(Known.ABOUT, 25),
            "1,204 of 3,000 goals reached: about 30 seconds left, not counting 12 machines not answering;"
            " 1 machine in trouble",
        ),
        (HALF, Estimate(Known.TOO_FEW), "100 of 200 goals reached: too few for an estimate"),
        (
            HALF._replace(silent=1),
            Estimate(Known.TOO_FEW),
            "100 of 200 goals reached: too few for an estimate; 1 machine not answering",
        ),
        (
            HALF,
            Estimate(Known.STALLED, 130),
            "100 of 200 goals reached: no estimate, as none was reached for 3 minutes",
        ),
        (
            HALF._replace(left=0, silent=2, waiting=1, later=1000),
            Estimate(Known.WAITING),
            "100 of 200 goals reached: no estimate while all that is left waits: 2 machines not answering,"
            " 1 waiting for a start, 1,000 in later waves",
        ),
        (
            HALF._replace(left=0, trouble=2),
            Estimate(Known.DONE),
            "100 of 200 goals reached: nothing else is left to be done; 2 machines in trouble",
        ),
    ],
)
def test_words(standing: Standing, found: Estimate, told: str) -> None:
    assert words(standing, found) == told


# By a ledger


def standing_of(ledger: Ledger, silent: Sequence[str] = (), now: float = 100.0) -> Standing:
    return read_standing(ledger, read_open_jobs(ledger), silent, now)


def test_goals_are_counted_by_what_holds_for_their_machines(ledger: Ledger) -> None:
    with ledger.transaction():
        for number in range(3, 9):
            ledger.add_machine(f"m{number}")
    names = ledger.machine_names()
    add(ledger, goal("first", "new"), goal("remove", "a"), goal("next", "b"), to=names)
    with ledger.transaction():
        ledger.end_goal("m1", 1, "reached", None, None)
        ledger.end_goal("m2", 1, "failed", None, "why")
        ledger.stop("m2", "goal 1: why", None)
        ledger.end_goal("m3", 2, "cancelled", None, None)
        ledger.wait(ledger.machine("m4"), 1, "a start by 0003")
        ledger.leave("m5", 200.0)
    # m1 has two goals left, m3 two, and m7 and m8 three each.
    assert standing_of(ledger, ["m6"]) == Standing(
        asked=23, reached=1, failed=1, left=10, silent=2, waiting=1, later=0, trouble=1
    )
    assert standing_of(ledger, [], now=200.0).silent == 0


def test_machines_of_later_waves_are_not_what_is_left(ledger: Ledger) -> None:
    add(ledger, goal("first", "new"), to=["m1", "m2"])
    with ledger.transaction():
        ledger.set_waves(Waves(("1", "100%")))
    assert standing_of(ledger) == Standing(asked=2, reached=0, failed=0, left=1, later=1)


def test_only_jobs_that_are_not_done_count(ledger: Ledger) -> None:
    add(ledger, goal("first", "new"), goal("remove", "a"), to=["m1", "m2"])
    with ledger.transaction():
        for name in ("m1", "m2"):
            ledger.end_goal(name, 1, "reached", None, None)
    assert read_open_jobs(ledger) == {2}
    assert standing_of(ledger) == Standing(asked=2, reached=0, failed=0, left=2)


# As it is told


class Terminal(io.StringIO):
    """A terminal, or what isn't one."""

    def __init__(self, is_terminal: bool) -> None:
        super().__init__()
        self.is_terminal = is_terminal

    def isatty(self) -> bool:
        return self.is_terminal

    def take(self) -> str:
        """What was written since the last time."""
        text = self.getvalue()
        self.seek(0)
        self.truncate()
        return text


@pytest.fixture
def terminal(monkeypatch: pytest.MonkeyPatch) -> Terminal:
    monkeypatch.setenv("TERM", "xterm")
    monkeypatch.setenv("COLUMNS", "200")
    return Terminal(True)


def report_of(ledger: Ledger, stream: Terminal) -> Report:
    return Report(ledger, Teller(stream))


def tell(report: Report, now: float, silent: Optional[List[str]] = None) -> None:
    report.tell(lambda: silent or [], now, 1000.0 + now)


def test_a_terminal_has_one_line_that_is_written_over(ledger: Ledger, terminal: Terminal) -> None:
    add(ledger, goal("first", "new"), to=["m1", "m2"])
    report = report_of(ledger, terminal)
    tell(report, 0)
    told = "bootfleet: 0 of 2 goals reached: too few for an estimate"
    assert terminal.take() == f"{CLEAR}{told}"
    tell(report, LOOK_EVERY - 0.1)
    tell(report, LOOK_EVERY)
    assert terminal.take() == ""
    report.teller.say("m1: why")
    assert terminal.take() == f"{CLEAR}bootfleet: m1: why\n{told}"
    tell(report, 10, ["m1", "m2"])
    assert "no estimate while all that is left waits: 2 machines" in terminal.take()
    report.end()
    assert terminal.take() == CLEAR


def test_a_line_is_no_longer_than_a_terminal(
    ledger: Ledger, terminal: Terminal, monkeypatch: pytest.MonkeyPatch
) -> None:
    monkeypatch.setenv("COLUMNS", "20")
    add(ledger, goal("first", "new"), to=["m1", "m2"])
    tell(report_of(ledger, terminal), 0)
    assert terminal.take() == f"{CLEAR}bootfleet: 0 of 2 g"


def test_a_terminal_that_writes_nothing_over_is_told_lines(
    ledger: Ledger, terminal: Terminal, monkeypatch: pytest.MonkeyPatch
) -> None:
    monkeypatch.setenv("TERM", "dumb")
    add(ledger, goal("first", "new"))
    tell(report_of(ledger, terminal), 0)
    assert terminal.take() == "bootfleet: 0 of 1 goals reached: too few for an estimate\n"


def test_elsewhere_there_is_a_line_now_and_then(ledger: Ledger) -> None:
    add(ledger, goal("first", "new"), to=["m1", "m2"])
    stream = Terminal(False)
    report = report_of(ledger, stream)
    tell(report, 0)
    assert stream.take() == "bootfleet: 0 of 2 goals reached: too few for an estimate\n"
    with ledger.transaction():
        ledger.end_goal("m1", 1, "reached", None, None)
    tell(report, LINE_EVERY - 1)
    assert stream.take() == ""
    tell(report, LINE_EVERY + 1)
    assert stream.take() == "bootfleet: 1 of 2 goals reached: too few for an estimate\n"
    # The same isn't told again.
    tell(report, 2 * LINE_EVERY)
    assert stream.take() == ""


def test_nothing_is_told_while_nothing_is_left(ledger: Ledger, terminal: Terminal) -> None:
    """And what was reached before says nothing of how long the next job takes."""
    for stream in (terminal, Terminal(False)):
        report = report_of(ledger, stream)
        tell(report, 0)
        assert stream.take() == ""
        add(ledger, goal("first", "new"), to=["m1", "m2"])
        tell(report, 1000)
        assert list(report.moments) == [Moment(1000, 0)]
        (job,) = read_open_jobs(ledger)
        with ledger.transaction():
            for name in ("m1", "m2"):
                ledger.end_goal(name, job, "reached", None, None)
        tell(report, 2000)
        assert not report.moments and not report.jobs
        stream.take()


def test_a_wave_begins_with_no_estimate(ledger: Ledger) -> None:
    add(ledger, goal("first", "new"), goal("remove", "a"), to=["m1", "m2"])
    with ledger.transaction():
        ledger.set_waves(Waves(("1", "100%")))
    report = report_of(ledger, Terminal(False))
    tell(report, 0)
    tell(report, 10)
    assert len(report.moments) == 2
    (first,) = ledger.one("SELECT name FROM machine WHERE wave = 0")
    with ledger.transaction():
        for job in (1, 2):
            ledger.end_goal(first, job, "reached", None, None)
    tell(report, 20)
    assert list(report.moments) == [Moment(20, 2)]


def test_moments_that_count_no_more_are_forgotten(ledger: Ledger) -> None:
    add(ledger, goal("first", "new"))
    report = report_of(ledger, Terminal(False))
    for now in range(0, 2000, 10):
        tell(report, now)
    assert len(report.moments) <= WINDOW / 10 + 1


def test_a_sender_tells_how_far_it_is(ledger: Ledger, machine: Folder) -> None:
    stream = Terminal(False)
    sender = Sender(ledger, Hand({"m1": machine}), "sender", 0.01, 0.05, Teller(stream))
    add(ledger, goal("first", "new"))
    assert run(sender) and ledger.all_reached()
    assert re.match("bootfleet: 0 of 1 goals reached: too few for an estimate\n", stream.take())
    assert machine.entries()[2] == option("new")


def test_machines_that_do_not_answer_are_told(ledger: Ledger, machine: Folder) -> None:
    courier = Hand({"m1": machine})
    sender = Sender(ledger, courier, "sender", 0.001, 0.002)
    courier.requests = lambda _number, _payload: []
    add(ledger, goal("first", "new"))
    assert not sender.run(True, None, lambda: len(courier.sent) >= MOST_SENT - 1)
    assert sender._silent() == []
    assert not sender.run(True, None, lambda: len(courier.sent) >= 2 * MOST_SENT)
    assert sender._silent() == ["m1"]
