"""Writes the paths that are timed: `paths.py SET FOLDER`. They are those of the load options of a set, and a path of one
instance each with the nodes of all of them, 1, 10 and 100 times."""

import re
import sys
from pathlib import Path

from compare import paths_of, variables_of

END = bytes.fromhex("7fff0400")


def main() -> None:
    folder = Path(sys.argv[2])
    paths = []
    for name, data in variables_of(Path(sys.argv[1]).read_bytes()):
        if re.fullmatch("Boot[0-9A-F]{4}", name) and data.endswith(END):
            paths.append(paths_of(data))
    nodes = b"".join(path.removesuffix(END) for path in paths)
    for times in (1, 10, 100):
        paths.append(nodes * times + END)
    for number, path in enumerate(paths):
        (folder / f"path-{number:02}").write_bytes(path)


if __name__ == "__main__":
    main()
