"""Writes a long stream to standard output: `stream.py STREAM COUNT`. It has the frames of STREAM, over and over, under the
numbers from 0 on."""

import sys
from itertools import cycle, islice
from pathlib import Path

from compare import frames_of


def main() -> None:
    frames = frames_of(Path(sys.argv[1]).read_bytes())
    for number, frame in enumerate(islice(cycle(frames), int(sys.argv[2]))):
        sys.stdout.buffer.write(frame[:4] + number.to_bytes(4, "little") + frame[8:])


if __name__ == "__main__":
    main()
