"""What a shell is told that asks what its line may go on by."""

from __future__ import annotations

import os
import subprocess
from pathlib import Path
from typing import List

import pytest
from conftest import FLEET

from sender.ledger import Ledger

BASH = FLEET.parent / "packaging/completions/bootfleet.bash"


@pytest.fixture
def fleet(ledger: Ledger) -> Path:
    """A ledger of three machines."""
    with ledger.transaction():
        ledger.add_machine("other")
    return ledger.path


def offered(line: str, ledger: Path) -> List[str]:
    """What may follow, as bash asks for it by the file that is installed."""
    pytest.importorskip("argcomplete")
    script = f"""
        source "{BASH}"
        COMP_LINE="$1" COMP_POINT=${{#1}} COMP_TYPE=9 COMP_WORDBREAKS=' '
        _python_argcomplete "$2" 2>/dev/null
        printf '%s\\n' "${{COMPREPLY[@]}}"
    """
    run = subprocess.run(
        ["bash", "-c", script, "bash", line, FLEET / "bootfleet"],
        env={**os.environ, "BOOTFLEET_LEDGER": str(ledger)},
        capture_output=True,
        text=True,
        check=True,
    )
    return sorted(run.stdout.split())


def test_commands(fleet: Path) -> None:
    assert offered("bootfleet re", fleet) == ["remove", "resend", "revoke"]


def test_options(fleet: Path) -> None:
    assert offered("bootfleet run --", fleet) == [
        "--as",
        "--help",
        "--limit",
        "--stop-at",
        "--until-done",
        "--waves",
    ]


def test_machines(fleet: Path) -> None:
    assert offered("bootfleet resend m", fleet) == ["m1", "m2"]
    assert offered("bootfleet cancel 1 o", fleet) == ["other"]
    assert offered(f"bootfleet --ledger {fleet} adopt --yes ", Path("/nonexistent")) == [
        "--again",
        "--done",
        "--help",
        "--yes",
        "-h",
        "m1",
        "m2",
        "other",
    ]


def test_a_ledger_that_is_not_there(tmp_path: Path) -> None:
    assert offered("bootfleet resend m", tmp_path / "ledger") == []
    assert not (tmp_path / "ledger").exists()


def test_a_ledger_is_not_changed(fleet: Path) -> None:
    before = {it.name: it.read_bytes() for it in fleet.parent.iterdir() if it.is_file()}
    offered("bootfleet resend m", fleet)
    after = {it.name: it.read_bytes() for it in fleet.parent.iterdir() if it.is_file()}
    assert before["ledger"] == after["ledger"]


def test_without_argcomplete(fleet: Path, tmp_path: Path) -> None:
    """Nobody gets an answer, and nothing is done."""
    (tmp_path / "argcomplete.py").write_text("raise ImportError\n")
    run = subprocess.run(
        [FLEET / "bootfleet"],
        env={**os.environ, "_ARGCOMPLETE": "1", "PYTHONPATH": str(tmp_path)},
        capture_output=True,
        text=True,
        check=False,
    )
    assert (run.returncode, run.stdout) == (2, "")
