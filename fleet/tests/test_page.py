"""The page for a person, and how goals were reached as time went on. Chromium looks at it in `bench/fleet-page`."""

from __future__ import annotations

import html
import re
from pathlib import Path
from typing import List

import pytest
from conftest import add, goal

from sender import status
from sender.ledger import Ledger
from sender.page import as_page
from sender.progress import STEPS, Progress, Span, read_progress

BEGAN = 1_700_000_000.0


@pytest.fixture
def fleet(tmp_path: Path) -> Ledger:
    """A ledger of four machines."""
    made = Ledger.make(tmp_path / "ledger", {"broker": "localhost:8883", "certs": str(tmp_path)})
    with made.transaction():
        for name in ("m1", "m2", "m3", "m4"):
            made.add_machine(name)
    return made


def begin(ledger: Ledger, *names: str, made: float = BEGAN) -> int:
    """Asks for a goal of these machines at a time, and gives the job's number."""
    add(ledger, goal("remove", "=old"), to=names)
    (job,) = ledger.one("SELECT MAX(id) FROM job")
    ledger.db.execute("UPDATE job SET made = ? WHERE id = ?", (made, job))
    return int(job)


def end(ledger: Ledger, name: str, job: int, state: str, ended: float) -> None:
    with ledger.transaction():
        ledger.end_goal(name, job, state, None, None)
    query = "UPDATE goal SET ended = ? WHERE machine = ? AND job = ?"
    ledger.db.execute(query, (ended, name, job))


def progress(ledger: Ledger, now: float) -> Progress:
    found = read_progress(ledger, now)
    assert found is not None
    return found


def changes(counts: List[int]) -> List[int]:
    """In which steps there were more."""
    return [at for at, (a, b) in enumerate(zip([0, *counts], counts)) if a != b]


def test_no_job_no_progress(fleet: Ledger) -> None:
    assert read_progress(fleet, BEGAN) is None
    assert "Progress" not in as_page(status.read_status(fleet))


def test_goals_are_counted_as_time_went_on(fleet: Ledger) -> None:
    job = begin(fleet, "m1", "m2", "m3", "m4")
    end(fleet, "m1", job, "reached", BEGAN + 30)
    end(fleet, "m2", job, "reached", BEGAN + 60)
    end(fleet, "m3", job, "failed", BEGAN + 90)
    found = progress(fleet, BEGAN + 120)
    assert (found.began, found.ended, found.is_open) == (BEGAN, BEGAN + 120, True)
    assert changes(found.reached) == [30, 60] and found.reached[-1] == 2
    assert changes(found.failed) == [90] and found.failed[-1] == 1
    assert changes(found.asked) == [0] and found.asked[-1] == 4


def test_jobs_that_are_done_are_left_out(fleet: Ledger) -> None:
    end(fleet, "m1", begin(fleet, "m1", made=BEGAN - 1e6), "reached", BEGAN - 9e5)
    begin(fleet, "m1", "m2")
    found = progress(fleet, BEGAN + 60)
    assert (found.began, found.asked[-1], found.reached[-1]) == (BEGAN, 2, 0)


def test_if_all_are_done_the_last_one_is_there(fleet: Ledger) -> None:
    end(fleet, "m1", begin(fleet, "m1"), "reached", BEGAN + 5)
    end(fleet, "m2", begin(fleet, "m2", made=BEGAN + 10), "reached", BEGAN + 20)
    found = progress(fleet, BEGAN + 1e6)
    assert (found.began, found.ended, found.is_open) == (BEGAN + 10, BEGAN + 20, False)
    assert (found.asked[-1], found.reached[-1]) == (1, 1)
    assert "<h2>Progress</h2>" in as_page(status.read_status(fleet))


def test_one_that_has_failed_ends_the_picture(fleet: Ledger) -> None:
    end(fleet, "m1", begin(fleet, "m1"), "failed", BEGAN + 50)
    found = progress(fleet, BEGAN + 1e6)
    assert (found.ended, found.is_open, found.failed[-1]) == (BEGAN + 50, False, 1)


def test_what_is_cancelled_is_not_asked_for(fleet: Ledger) -> None:
    job = begin(fleet, "m1", "m2")
    end(fleet, "m1", job, "cancelled", BEGAN + 1)
    assert progress(fleet, BEGAN + 60).asked[-1] == 1
    end(fleet, "m2", job, "cancelled", BEGAN + 1)
    assert read_progress(fleet, BEGAN + 60) is None


@pytest.mark.parametrize(
    "when, step", [(99.0, 0), (100.0, 0), (101.0, 1), (219.9, 119), (220.0, 119), (1e9, 119)]
)
def test_steps(when: float, step: int) -> None:
    """A clock that was set back or forward leads to none that isn't there."""
    assert STEPS == 120
    assert Span(100.0, 220.0).step(when) == step


def test_a_clock_that_was_set_back(fleet: Ledger) -> None:
    job = begin(fleet, "m1", "m2")
    end(fleet, "m1", job, "reached", BEGAN - 1000)
    found = progress(fleet, BEGAN - 2000)
    assert found.ended > found.began and found.reached[-1] == 1


def test_a_picture(fleet: Ledger) -> None:
    job = begin(fleet, "m1", "m2", "m3", "m4")
    end(fleet, "m1", job, "reached", BEGAN)
    end(fleet, "m2", job, "failed", BEGAN)
    page = as_page(status.read_status(fleet))
    assert "<h2>Progress of the jobs that aren't done</h2>" in page
    drawn = dict(re.findall(r'<path class="(\w+)".*? d="(.*?)"/>', page))
    assert drawn["reached"].startswith("M0 100L1 75L2 75") and drawn["reached"].endswith(
        "L120 100Z"
    )
    assert drawn["failed"].startswith("M0 100L1 50") and drawn["asked"].startswith("M0 0L1 0")
    assert 'aria-label="1 of 4 goals reached"' in page


def test_troubles_come_first_with_their_reasons(fleet: Ledger) -> None:
    begin(fleet, "m1", "m2", "m3", "m4")
    with fleet.transaction():
        fleet.stop("m3", 'it says "<b>" & more', None)
        fleet.stop("m4", 'it says "<b>" & more', None)
        fleet.stop("m2", "another journal", None)
    page = as_page(status.read_status(fleet))
    assert re.findall(r"<tr><td>(m\d)</td>", page) == ["m2", "m3", "m4", "m1"]
    heads = re.findall(r"<h2>(\w+)", page)
    assert heads == ["Troubles", "Progress", "Jobs", "Machines"]
    (links,) = re.findall(r"<h2>Troubles.*?</section>", page, re.S)
    assert re.findall(r">(\d+)</a></td><td[^>]*>(.*?)</td>", links) == [
        ("2", html.escape('it says "<b>" & more')),
        ("1", "another journal"),
    ]
    assert '"#state=trouble&amp;search=it+says+%22%3Cb%3E%22+%26+more"' in links


def test_only_the_most_frequent_reasons_are_there(tmp_path: Path) -> None:
    made = Ledger.make(tmp_path / "ledger", {"broker": "localhost:8883", "certs": str(tmp_path)})
    with made.transaction():
        for number in range(11):
            made.add_machine(f"m{number}")
            made.stop(f"m{number}", f"reason {number}", None)
    assert "and 3 other reasons" in as_page(status.read_status(made))
