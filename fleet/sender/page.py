"""How it stands, as one page of HTML for a person: what is wrong first, and a search over all machines.

The page is one file, which asks for nothing else and can be sent to somebody. A browser runs no other script in it than
the one below, whatever a machine calls itself or says."""

from __future__ import annotations

import base64
import hashlib
import html
import time
from collections import Counter
from typing import List, Optional, Sequence
from urllib.parse import urlencode

from .progress import STEPS, Progress
from .status import (
    RANK,
    STATES,
    JobStatus,
    MachineStatus,
    Status,
    WaveStatus,
    age,
    endings_line,
)

MOST_CAUSES = 8
"""How many reasons of troubles are shown above, the most frequent first."""

STATE_WORDS = {
    "trouble": "in trouble",
    "waiting": "waiting for a start",
    "asked": "asked",
    "open": "to be asked",
    "quiet": "with nothing left to do",
}
"""What is said of so many machines in a state."""

STYLE = """
:root { color-scheme: light dark; --text: #1c2430; --soft: #5b6675; --ground: #f6f7f9; --card: #fff; --line: #dfe3e8;
  --done: #2e7d32; --bad: #c62828; --wait: #b26a00; --asked: #1565c0; }
@media (prefers-color-scheme: dark) {
  :root { --text: #e4e8ee; --soft: #9aa5b4; --ground: #14181d; --card: #1d2329; --line: #323a43;
    --done: #66bb6a; --bad: #ff7b72; --wait: #ffb74d; --asked: #64b5f6; } }
* { box-sizing: border-box; }
body { font: 15px/1.45 system-ui, sans-serif; color: var(--text); background: var(--ground); margin: 0 auto;
  max-width: 76rem; padding: 1.5rem 1rem 4rem; }
h1 { font-size: 1.5rem; margin: 0; }
h2 { font-size: 1.05rem; margin: 0 0 .6rem; }
header p { color: var(--soft); margin: .2rem 0 1rem; }
section { background: var(--card); border: 1px solid var(--line); border-radius: 8px; margin: 1rem 0; padding: 1rem; }
.tiles { display: flex; flex-wrap: wrap; gap: .75rem; }
.tiles a { background: var(--card); border: 1px solid var(--line); border-radius: 8px; color: inherit; flex: 1 1 8rem;
  padding: .6rem .9rem; text-decoration: none; }
.tiles b { display: block; font-size: 1.5rem; font-variant-numeric: tabular-nums; }
.tiles .trouble b, td.trouble, .bad { color: var(--bad); }
.tiles .waiting b, td.waiting { color: var(--wait); }
.tiles .asked b, td.asked { color: var(--asked); }
.tiles .quiet b, td.quiet { color: var(--done); }
table { border-collapse: collapse; width: 100%; }
th, td { border-bottom: 1px solid var(--line); padding: .3rem .6rem; text-align: left; vertical-align: top; }
tr:last-child td { border-bottom: 0; }
th { color: var(--soft); font-weight: 600; white-space: nowrap; }
td.n, th.n { font-variant-numeric: tabular-nums; text-align: right; white-space: nowrap; width: 1%; }
td.why { min-width: 9rem; overflow-wrap: anywhere; }
td.track { width: 40%; }
.bar { background: var(--line); border-radius: 4px; display: flex; height: .7rem; margin-top: .35rem; min-width: 5rem;
  overflow: hidden; }
.bar i { background: var(--done); height: 100%; }
.bar i.failed { background: var(--bad); }
.picture svg { border-bottom: 1px solid var(--soft); border-left: 1px solid var(--soft); display: block; height: 11rem;
  width: 100%; }
path.reached { fill: var(--done); }
path.failed { fill: var(--bad); }
path.asked { fill: none; stroke: var(--soft); stroke-dasharray: 4 3; stroke-width: 1.5; }
.key.reached::before { background: var(--done); }
.key.failed::before { background: var(--bad); }
.key.asked::before { background: var(--soft); }
.key { margin-left: .8em; }
.key::before { border-radius: 2px; content: ""; display: inline-block; height: .7em; margin-right: .35em; width: .7em; }
.row { color: var(--soft); display: flex; flex-wrap: wrap; font-size: .9em; gap: .3rem 1.2rem;
  justify-content: space-between; margin: .3rem 0; }
.find { align-items: center; display: flex; flex-wrap: wrap; gap: .6rem; margin-bottom: .6rem; }
.find input { flex: 1 1 16rem; }
.find input, .find select { background: var(--ground); border: 1px solid var(--line); border-radius: 6px;
  color: inherit; font: inherit; padding: .4rem .6rem; }
#found { color: var(--soft); }
#machines { table-layout: fixed; }
#machines th { background: var(--card); position: sticky; top: 0; }
#machines td { overflow: hidden; text-overflow: ellipsis; }
.wide { overflow-x: auto; }
.wide #machines { min-width: 60rem; }
"""

SCRIPT = """
"use strict";
(() => {
  const search = document.getElementById("search"), state = document.getElementById("state");
  const rows = Array.from(document.querySelectorAll("#machines tbody tr"));
  const texts = rows.map((row) => Array.from(row.cells, (cell) => cell.textContent).join("\\n").toLowerCase());
  const states = rows.map((row) => row.cells[1].textContent);
  let typed = 0;
  const show = () => {
    const words = search.value.toLowerCase().split(/\\s+/).filter(Boolean);
    let count = 0;
    rows.forEach((row, at) => {
      const fits = (!state.value || states[at] === state.value) && words.every((word) => texts[at].includes(word));
      row.hidden = !fits;
      count += fits;
    });
    const told = [count, rows.length].map((it) => it.toLocaleString("en"));
    document.getElementById("found").textContent = told.join(" of ");
  };
  const read = () => {
    const asked = new URLSearchParams(location.hash.slice(1));
    search.value = asked.get("search") || "";
    state.value = asked.get("state") || "";
    show();
  };
  const typing = () => {
    typed = Date.now();
    const asked = new URLSearchParams();
    if (search.value) asked.set("search", search.value);
    if (state.value) asked.set("state", state.value);
    history.replaceState(null, "", `#${asked}`);
    show();
  };
  search.addEventListener("input", typing);
  state.addEventListener("input", typing);
  addEventListener("hashchange", read);
  read();
  const again = Number(document.body.dataset.again);
  if (again) setInterval(() => { if (Date.now() - typed > 3000) location.reload(); }, again * 1000);
})();
"""


def as_page(status: Status, refresh: Optional[int] = None) -> str:
    """All of it as one page of HTML, which is read anew every so many seconds."""
    when = time.strftime("%Y-%m-%d %H:%M:%S UTC", time.gmtime(status.now))
    again = "" if refresh is None else f' data-again="{refresh}"'
    parts = [
        _endings(status),
        _causes(status.machines),
        _waves(status.waves),
        _progress(status.progress),
        _jobs(status.jobs),
        _machines(status.machines),
    ]
    return f"""<!DOCTYPE html>
<html lang="en"><head><meta charset="utf-8"><title>bootfleet</title>
<meta http-equiv="Content-Security-Policy" content="{_policy()}">{_without_script(refresh)}
<meta name="viewport" content="width=device-width"><style>{STYLE}</style></head><body{again}>
<header><h1>Boot entries of the fleet</h1><p>{html.escape(_goals_line(status))}. As of {when}.</p>
{_tiles(status)}</header>
{"".join(part for part in parts if part)}<script>{SCRIPT}</script></body></html>
"""


def _policy() -> str:
    """What a browser is to load and to run for the page: its own style and script, by their sums, and widths of bars."""
    return (
        f"default-src 'none'; script-src {_sum(SCRIPT)}; style-src-elem {_sum(STYLE)};"
        " style-src-attr 'unsafe-inline'"
    )


def _sum(text: str) -> str:
    digest = hashlib.sha256(text.encode()).digest()
    return f"'sha256-{base64.b64encode(digest).decode()}'"


def _without_script(refresh: Optional[int]) -> str:
    if refresh is None:
        return ""
    return f'<noscript><meta http-equiv="refresh" content="{refresh}"></noscript>'


def _goals_line(status: Status) -> str:
    goals = ", ".join(f"{status.goals(it):,} {it}" for it in STATES if status.goals(it)) or "none"
    return f"{len(status.machines):,} machines; goals: {goals}"


def _tiles(status: Status) -> str:
    """How many machines are in each state, the most urgent first. Each leads to them below."""
    counts = Counter(machine.state for machine in status.machines)
    tiles = "".join(
        f'<a class="{state}" href="#state={state}"><b>{counts[state]:,}</b> {STATE_WORDS[state]}</a>'
        for state in RANK
        if counts[state] or state == "trouble"
    )
    return f'<div class="tiles">{tiles}</div>'


def _section(title: str, inner: str) -> str:
    return f"<section><h2>{title}</h2>{inner}</section>\n"


def _table(heads: Sequence[str], rows: str) -> str:
    """A table. A head that begins with a `#` is one of numbers."""
    cells = "".join(
        f'<th class="n">{it[1:]}</th>' if it.startswith("#") else f"<th>{it}</th>" for it in heads
    )
    return f'<div class="wide"><table><thead><tr>{cells}</tr></thead><tbody>{rows}</tbody></table></div>'


def _endings(status: Status) -> str:
    if not status.endings:
        return ""
    return _section("Certificates", f'<p class="bad">{html.escape(endings_line(status))}</p>')


def _causes(machines: List[MachineStatus]) -> str:
    """Why machines are in trouble, each reason with how many there are."""
    causes = Counter(it.why or "" for it in machines if it.state == "trouble")
    rows = ""
    for why, count in causes.most_common(MOST_CAUSES):
        link = html.escape(urlencode({"state": "trouble", "search": why}))
        rows += f'<tr><td class="n"><a href="#{link}">{count:,}</a></td><td class="why">{html.escape(why)}</td></tr>'
    if len(causes) > MOST_CAUSES:
        rows += f'<tr><td></td><td><a href="#state=trouble">and {len(causes) - MOST_CAUSES:,} other reasons</a></td></tr>'
    return _section("Troubles", _table(("#Machines", "Why"), rows)) if rows else ""


def _bar(done: int, failed: int, of: int) -> str:
    widths = [100 * count / of if of else 0 for count in (done, failed)]
    return (
        f'<div class="bar" role="img" aria-label="{done} of {of}"><i style="width:{widths[0]:.1f}%"></i>'
        f'<i class="failed" style="width:{widths[1]:.1f}%"></i></div>'
    )


def _waves(waves: List[WaveStatus]) -> str:
    rows = ""
    for wave in waves:
        of = wave.done + wave.open + wave.trouble
        cells = "".join(f'<td class="n">{it:,}</td>' for it in (wave.done, wave.open, wave.trouble))
        rows += (
            f'<tr><td class="n">{wave.wave}</td><td>{wave.state}</td>'
            f'<td class="track">{_bar(wave.done, wave.trouble, of)}</td>{cells}</tr>'
        )
    heads = ("#Wave", "State", "", "#Done", "#Open", "#In trouble")
    return _section("Waves", _table(heads, rows)) if rows else ""


def _progress(progress: Optional[Progress]) -> str:
    """How goals were reached as time went on, as a picture."""
    if progress is None:
        return ""
    of = max(progress.asked[-1], progress.reached[-1] + progress.failed[-1], 1)
    ended = [done + bad for done, bad in zip(progress.reached, progress.failed)]
    told = f"{progress.reached[-1]:,} of {progress.asked[-1]:,} goals reached"
    inner = (
        f'<div class="picture"><div class="row"><span>{of:,} goals</span><span>'
        '<span class="key reached">reached</span> <span class="key failed">failed</span>'
        ' <span class="key asked">asked for</span></span></div>'
        f'<svg viewBox="0 0 {STEPS} 100" preserveAspectRatio="none" role="img" aria-label="{told}">'
        f'<path class="failed" d="{_area(ended, of)}"/>'
        f'<path class="reached" d="{_area(progress.reached, of)}"/>'
        f'<path class="asked" vector-effect="non-scaling-stroke" d="{_line(progress.asked, of)}"/></svg>'
        f'<div class="row"><span>{_moment(progress.began)}</span><span>{told}</span>'
        f"<span>{_moment(progress.ended)}</span></div></div>"
    )
    title = "Progress of the jobs that aren't done" if progress.is_open else "Progress"
    return _section(title, inner)


def _area(counts: List[int], of: int) -> str:
    """What is below the counts, in a picture that is as many steps wide and 100 high."""
    return f"M0 100{_points(counts, of)}L{len(counts)} 100Z"


def _line(counts: List[int], of: int) -> str:
    return f"M0 {_height(counts[0], of)}{_points(counts, of)}"


def _points(counts: List[int], of: int) -> str:
    return "".join(f"L{at} {_height(count, of)}" for at, count in enumerate(counts, 1))


def _height(count: int, of: int) -> str:
    return f"{100 - 100 * count / of:.4g}"


def _moment(when: float) -> str:
    return time.strftime("%Y-%m-%d %H:%M", time.gmtime(when))


def _jobs(jobs: List[JobStatus]) -> str:
    rows = ""
    for job in jobs:
        reached, failed, of = job.counts["reached"], job.counts["failed"], sum(job.counts.values())
        rows += (
            f'<tr><td class="n">{job.job}</td><td class="why">{html.escape(job.goal)}</td>'
            f'<td class="track">{_bar(reached, failed, of)}</td><td class="n">{reached:,} of {of:,}</td>'
            f'<td class="n">{job.counts["open"]:,}</td><td class="n">{failed:,}</td></tr>'
        )
    heads = ("#Job", "Goal", "", "#Reached", "#Open", "#Failed")
    return _section("Jobs", _table(heads, rows)) if rows else ""


MACHINE_HEADS = """<col style="width:17rem"><col style="width:7rem"><col style="width:6rem"><col style="width:4rem">
<col style="width:5rem"><col style="width:5rem"><col><thead><tr><th>Machine</th><th>State</th><th class="n">Goals</th>
<th class="n">Goal</th><th class="n">Seen</th><th class="n">Next</th><th>Why</th></tr></thead>"""


def _machines(machines: List[MachineStatus]) -> str:
    """All machines, those in trouble first, and what finds some of them."""
    states = "".join(f'<option value="{it}">{STATE_WORDS[it]}</option>' for it in RANK)
    rows = "".join(map(_machine_row, machines))
    return _section(
        "Machines",
        '<div class="find"><input id="search" type="search" placeholder="Search by name, goal or reason"'
        ' aria-label="Search">'
        f'<select id="state" aria-label="State"><option value="">in any state</option>{states}</select>'
        '<span id="found" role="status"></span></div>'
        f'<div class="wide"><table id="machines">{MACHINE_HEADS}<tbody>{rows}</tbody></table></div>',
    )


def _machine_row(it: MachineStatus) -> str:
    reached = f"{it.goals['reached']} of {sum(it.goals.values())}"
    return (
        f'<tr><td>{html.escape(it.name)}</td><td class="{it.state}">{it.state}</td><td class="n">{reached}</td>'
        f'<td class="n">{"-" if it.job is None else it.job}</td><td class="n">{age(it.age)}</td>'
        f'<td class="n">{it.next}</td><td class="why">{html.escape(it.why or "")}</td></tr>\n'
    )
