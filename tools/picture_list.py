"""The pictures of the pages, each of which is made anew of what it shows."""

from __future__ import annotations

import sys
from pathlib import Path
from typing import Callable, Dict, List

import picture_change
import picture_layers
import picture_layouts
import picture_plan
import picture_run
import picture_terminal
import picture_window
from picture_sources import NotThere
from repository import ROOT

FOLDER = ROOT / "docs/pictures"

PICTURES: Dict[str, Callable[[], str]] = {
    "layers": picture_layers.picture,
    "change": picture_change.picture,
    "window": picture_window.picture,
    "plan": picture_plan.picture,
    "frame": picture_layouts.frame_picture,
    "set": picture_layouts.set_picture,
    "option": picture_layouts.option_picture,
    "journal": picture_layouts.journal_picture,
    "run": picture_run.picture,
    "terminal": picture_terminal.picture,
}
"""What makes each picture."""


def write(name: str, folder: Path = FOLDER) -> bool:
    """Makes a picture anew. The answer is whether it is another one than before."""
    file = folder / f"{name}.svg"
    made = PICTURES[name]()
    if file.exists() and file.read_text(encoding="utf-8") == made:
        return False
    folder.mkdir(exist_ok=True)
    file.write_text(made, encoding="utf-8")
    return True


def main(names: List[str], folder: Path = FOLDER) -> int:
    """Makes all pictures anew, or those of these names, and tells which are others than before. The answer is a status."""
    unknown = [it for it in names if it not in PICTURES]
    if unknown:
        print(f"pictures: no picture is named {unknown[0]}", file=sys.stderr)
        return 2
    for name in names or PICTURES:
        try:
            if write(name, folder):
                print(f"{name}.svg")
        except NotThere as why:
            print(f"pictures: {name}.svg is left as it is: {why}", file=sys.stderr)
            return 1
    return 0
