"""Adds an entry for a loader, puts it first, and shows what a boot would try then; or takes the last change back. Of the
machine that this runs on VARIABLES is /sys/firmware/efi/efivars, and STATE /var/lib/bootkeep.

machine.py VARIABLES STATE /boot/efi/EFI/rescue/grubx64.efi Rescue
machine.py VARIABLES STATE undo
"""

import sys

from bootkeep import Machine, MachineError

try:
    variables, state, *asked = sys.argv[1:]
    with Machine(variables, state=state, words=sys.argv) as machine:
        if asked == ["undo"]:
            machine.undo()
        else:
            file, description = asked
            machine.add(loader=file, description=description, first=True)
        print(machine.plan(), *machine.entries(), sep="\n")
except (MachineError, ValueError) as error:
    sys.exit(f"machine.py: {error}")
