"""Shows what a boot would try with the variables of a set file, and the description of each entry.

plan.py SET
"""

import sys
from pathlib import Path

from bootkeep import BootVariables

try:
    variables = BootVariables.from_bytes(Path(sys.argv[1]).read_bytes())
    plan = variables.plan
    if plan.next is not None:
        print(plan.next.name, "next", variables.option(plan.next).description_line)
    for number in plan.normal:
        print(number.name, "normal", variables.option(number).description_line)
except (IndexError, OSError, ValueError) as error:
    sys.exit(f"plan.py: {error}")
