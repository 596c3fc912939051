"""What `bench/fleet-scale` counts, and how it is shown."""

from __future__ import annotations

import re
import sys
from typing import Any, Dict, List, Optional
from xml.etree import ElementTree

import pytest
from conftest import FLEET

from sender.ledger import Ledger

sys.path[:0] = [str(FLEET.parent / it) for it in ("bench/fleet-side", "tools")]

from machines import Model  # noqa: E402
from picture import FIGURES, MOST_TIMES, picture, table, times  # noqa: E402
from scale import sent_messages, without_rows  # noqa: E402

A, B = b"a", b"b"


def run_of(machines: int, each: float) -> Dict[str, Any]:
    """A run in which each machine takes so many thousandths of a second, and so many KiB."""
    kibibytes = machines * each * 1024
    above = {"sender_seconds": machines * each / 1000, "sender_memory": kibibytes}
    above.update({"ledger_bytes": kibibytes, "broker_seconds": 0.0, "broker_memory": kibibytes})
    return {"machines": machines, "above_fixed": above}


RUNS = [run_of(200, 2.0), run_of(10_000, 3.0)]


def test_figures_are_for_one_machine() -> None:
    assert times(FIGURES[0], RUNS[1], RUNS[0]) == pytest.approx(1.5)
    assert table(RUNS).splitlines() == [
        "| For each machine | 200 | 10,000 |",
        "|---|---|---|",
        "| Sender: processor, milliseconds | 2 | 3 |",
        "| Sender: memory, KiB | 2 | 3 |",
        "| Ledger: its file, bytes | 2,048 | 3,072 |",
        "| Broker: processor, milliseconds | 0 | 0 |",
        "| Broker: memory, KiB | 2 | 3 |",
    ]


def test_bars_are_as_high_as_their_values() -> None:
    made = ElementTree.fromstring(picture(RUNS))
    space = "{http://www.w3.org/2000/svg}"
    bars = [float(it.get("height", "")) for it in made.iter(f"{space}rect") if it.get("x")]
    assert bars[:2] == pytest.approx([bars[1] / 1.5, bars[1]], abs=0.1)
    assert bars[6:8] == [0, 0]
    limit = next(it.get("d", "") for it in made.iter(f"{space}path") if it.get("class") == "most")
    base = next(it.get("d", "") for it in made.iter(f"{space}path") if it.get("class") == "base")
    high, floor = (float(re.findall(r"M[\d.]+ ([\d.]+)", it)[0]) for it in (limit, base))
    assert floor - high == pytest.approx(MOST_TIMES * bars[0], abs=0.2)
    assert "prefers-color-scheme: dark" in picture(RUNS)


@pytest.mark.parametrize(
    "kind, entries, order, following, takes",
    [
        ("first", {}, [], None, 1),
        ("first", {1: A}, [1], None, 0),
        ("first", {1: A, 2: B}, [2, 1], None, 1),
        ("next", {}, [], None, 2),
        ("next", {1: A}, [1], None, 1),
        ("next", {1: A}, [1], 1, 0),
        ("next", {1: B}, [1], 1, 2),
        ("remove", {1: B}, [1], None, 0),
        ("remove", {1: A, 3: A}, [1], None, 2),
    ],
)
def test_how_many_requests_a_goal_takes(
    kind: str, entries: Dict[int, bytes], order: List[int], following: Optional[int], takes: int
) -> None:
    model = Model(dict(entries), list(order), following)
    assert model.reach(kind, A) == takes
    assert model.reach(kind, A) == 0


def test_what_a_sender_said_at_its_end() -> None:
    said = "bootfleet: x: connected\nbootfleet: sent 1008, of them 502 again; took 472 replies\n"
    assert sent_messages(said) == 1008
    assert sent_messages("bootfleet: x: connected\n") is None


def test_pages_of_an_empty_ledger_that_are_not_for_machines(ledger: Ledger) -> None:
    """Those of the tables themselves, of settings and of jobs."""
    (size,) = ledger.one("PRAGMA page_size")
    assert without_rows(ledger.path) == 3 * size
