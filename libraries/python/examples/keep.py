"""Takes frames from standard input, one after the other, and keeps a set file by them: after each frame the file is
replaced, and only then is the reply printed. So whoever has read a reply knows that its request is stored, also if the
program is killed: the frames are then sent again. Programs over files of one folder wait for each other.

keep.py SET <FRAMES
"""

import sys

from bootkeep import SetFile, frames

try:
    with SetFile(sys.argv[1]) as kept:
        for frame in frames(sys.stdin.buffer):
            print(kept.deliver(frame), flush=True)
except (IndexError, OSError, ValueError) as error:
    sys.exit(f"keep.py: {error}")
