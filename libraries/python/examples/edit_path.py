"""Has an entry of a set file start another file of its partition, and writes the set.

edit_path.py SET 0001 '\\EFI\\BOOT\\BOOTX64.EFI' >OTHER
"""

import sys
from pathlib import Path

from bootkeep import BootVariables, EntryNumber, Node

try:
    _, file, entry, name = sys.argv
    variables = BootVariables.from_bytes(Path(file).read_bytes())
    number = EntryNumber.from_text(entry)
    option = variables.option(number)
    first, *others = option.paths
    changed = option.replace(paths=[first.replace(-1, Node.file(name)), *others])
    print(number.name, changed, file=sys.stderr)
    sys.stdout.buffer.write(bytes(variables.with_variable(number.name, changed)))
except (OSError, ValueError, LookupError) as error:
    sys.exit(f"edit_path.py: {error}")
