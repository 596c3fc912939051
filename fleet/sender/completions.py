"""What a shell completes of the words of `bootfleet`, if Debian's python3-argcomplete is there."""

from __future__ import annotations

import argparse
import os
import sqlite3
from pathlib import Path
from typing import List
from urllib.parse import quote

ASKS = "_ARGCOMPLETE"
"""What is in the environment if a shell asks."""


def answer_shell(known: argparse.ArgumentParser) -> None:
    """If a shell asks what its line may go on by, this says so, and ends the program."""
    if ASKS in os.environ:
        try:
            import argcomplete
        except ImportError:
            return
        argcomplete.autocomplete(known)


def machine_names(prefix: str, parsed_args: argparse.Namespace, **_: object) -> List[str]:
    """The names of machines in the ledger that begin so; none if it can't be read."""
    ledger = Path(parsed_args.ledger).resolve()
    try:
        # A shell that asks must not change a ledger, as of an earlier version.
        db = sqlite3.connect(f"file:{quote(str(ledger))}?mode=ro", uri=True, timeout=1)
        try:
            names = [str(name) for (name,) in db.execute("SELECT name FROM machine")]
        finally:
            db.close()
    except sqlite3.Error:
        return []
    return [name for name in names if name.startswith(prefix)]
