"""The figures of `bench/fleet-scale`: what each is for one machine, as a table and as a picture."""

from __future__ import annotations

from typing import Any, Dict, List, NamedTuple

from picture_drawing import Drawing

MOST_TIMES = 1.2
"""How many times as much as of the fewest machines a machine may take of the most."""

WIDTH, HEIGHT, GAP, TOP, BOTTOM = 164, 230, 8, 46, 66
"""The size of a figure's part of the picture, and what is left free of bars above and below in it."""

TITLE = "What a machine takes of the sender, its ledger and the broker"


class Figure(NamedTuple):
    """What is measured: its key, its name, its unit for one machine, and by what a value is multiplied for that."""

    key: str
    name: str
    unit: str
    factor: float

    def of_machine(self, run: Dict[str, Any]) -> float:
        """What it is for one machine, without what is taken without machines."""
        return float(run["above_fixed"][self.key]) / int(run["machines"]) * self.factor

    def told(self, run: Dict[str, Any]) -> str:
        value = self.of_machine(run)
        return f"{value:,.0f}" if value >= 100 else f"{value:.3g}"


FIGURES = (
    Figure("sender_seconds", "Sender: processor", "milliseconds", 1000),
    Figure("sender_memory", "Sender: memory", "KiB", 1 / 1024),
    Figure("ledger_bytes", "Ledger: its file", "bytes", 1),
    Figure("broker_seconds", "Broker: processor", "milliseconds", 1000),
    Figure("broker_memory", "Broker: memory", "KiB", 1 / 1024),
)


def times(figure: Figure, run: Dict[str, Any], first: Dict[str, Any]) -> float:
    """How many times as much it is for one machine as in the run with the fewest machines."""
    return figure.of_machine(run) / max(figure.of_machine(first), 1e-9)


def table(runs: List[Dict[str, Any]]) -> str:
    """The figures as a table of Markdown: what is taken in all, and for one machine."""
    heads = "".join(f" | {run['machines']:,}" for run in runs)
    lines = [f"| For each machine{heads} |", f"|---{'|---' * len(runs)}|"]
    for figure in FIGURES:
        values = "".join(f" | {figure.told(run)}" for run in runs)
        lines.append(f"| {figure.name}, {figure.unit}{values} |")
    return "\n".join(lines)


def picture(runs: List[Dict[str, Any]]) -> str:
    """The figures as a picture in SVG: of each a bar for one machine of each run, and how high one may be."""
    drawing = Drawing(len(FIGURES) * WIDTH + GAP, TITLE, _described(runs))
    for at, figure in enumerate(FIGURES):
        _draw_figure(drawing, GAP + at * WIDTH, figure, runs)
    drawing.path("most", f"M{GAP} {HEIGHT - 14}h24")
    words = f"{MOST_TIMES} times what it is with {runs[0]['machines']:,} machines"
    drawing.text("text", GAP + 32, HEIGHT - 10, words)
    return drawing.written(HEIGHT)


def _described(runs: List[Dict[str, Any]]) -> str:
    """What the picture shows, in words."""
    told = [
        f"{it.name}, {it.unit} a machine: {', '.join(it.told(run) for run in runs)}"
        for it in FIGURES
    ]
    counts = ", ".join(f"{run['machines']:,}" for run in runs)
    return f"With {counts} machines. {'; '.join(told)}"


def _draw_figure(drawing: Drawing, left: int, figure: Figure, runs: List[Dict[str, Any]]) -> None:
    """Draws the part of one figure."""
    values = [figure.of_machine(run) for run in runs]
    most = MOST_TIMES * values[0]
    room, floor = HEIGHT - TOP - BOTTOM, HEIGHT - BOTTOM
    scale = room / max(*values, most, 1e-9)
    step = (WIDTH - 2 * GAP) / len(runs)
    drawing.text("name", left, 18, figure.name)
    drawing.text("text", left, 34, f"{figure.unit} a machine")
    for at, (run, value) in enumerate(zip(runs, values)):
        high = value * scale
        middle = left + (at + 0.5) * step
        drawing.rect("bar", left + at * step + 5, floor - high, step - 10, high)
        drawing.text("text", middle, floor + 16, f"{run['machines']:,}", "middle")
        drawing.text("value", middle, floor + 32, figure.told(run), "middle")
    limit = floor - most * scale
    drawing.path("base", f"M{left} {floor}h{WIDTH - 2 * GAP}")
    drawing.path("most", f"M{left} {limit:.1f}h{WIDTH - 2 * GAP}")
