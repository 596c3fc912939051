"""The manuals of all calls for C, as files."""

from __future__ import annotations

import sys
from pathlib import Path
from typing import Dict, List

import call_manuals
import linux_manuals
from call_manuals import NoManual


def manuals() -> Dict[str, bytes]:
    """The manuals by the names of their files.

    Raises NoManual if one can't be made."""
    return {**call_manuals.manuals(), **linux_manuals.manuals()}


def main(words: List[str]) -> int:
    """Writes the manuals into a folder. The answer is a status."""
    if len(words) != 1 or words[0].startswith("-"):
        print("call-manuals: takes the name of a folder", file=sys.stderr)
        return 2
    folder = Path(words[0])
    try:
        made = manuals()
        folder.mkdir(parents=True, exist_ok=True)
        for name, text in made.items():
            (folder / name).write_bytes(text)
    except (NoManual, OSError) as why:
        print(f"call-manuals: {why}", file=sys.stderr)
        return 1
    print(f"{len(made)} manuals")
    return 0
