"""What pictures are made of: parts of pages."""

from __future__ import annotations

import re
from pathlib import Path
from typing import List


class NotThere(Exception):
    """A page doesn't have what a picture is made of."""


def section_of(page: Path, head: str) -> str:
    """A section of a page, without its heading and those below it."""
    text = page.read_text(encoding="utf-8")
    found = re.search(rf"(?m)^#+ {re.escape(head)}\n((?:(?!#).*\n?)*)", text)
    if found is None:
        raise NotThere(f'{page.name} has no section "{head}"')
    return found[1]


def console_of(page: Path) -> List[str]:
    """The lines of a page's first block of `console`."""
    found = re.search(r"(?ms)^```console\n(.*?)^```$", page.read_text(encoding="utf-8"))
    if found is None:
        raise NotThere(f"{page.name} has no block of a console")
    return found[1].splitlines()
