"""Proves and builds what crates are made into, and prints where it is: `build.py [--rattle] CRATE ..`.

With --rattle the crates are static libraries, and the toolchain's own compiler makes them."""

from __future__ import annotations

import signal
import sys
from typing import List

from building import NotBuilt, build, build_by_rattle, say


def main(words: List[str]) -> int:
    """Builds what is named. The answer is a status: 70 if something isn't built."""
    signal.signal(signal.SIGTERM, lambda number, _: sys.exit(128 + number))
    by_rattle = words[:1] == ["--rattle"]
    for name in words[by_rattle:]:
        try:
            print(build_by_rattle(name) if by_rattle else build(name))
        except NotBuilt as why:
            say(name, str(why))
            return 70
    return 0


if __name__ == "__main__":
    sys.exit(main(sys.argv[1:]))
