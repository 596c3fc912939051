#!/usr/bin/python
"""Has a machine's UEFI boot entries be as they are said, by `bootvars apply`."""

DOCUMENTATION = r"""
---
module: entries
short_description: Has UEFI boot entries be as they are said
description:
  - Says by their descriptions which boot entries a machine is to have and which it isn't to have, which of them come
    first in BootOrder or are all of it, which one the next boot tries, and for how long firmware waits.
  - What isn't named isn't touched. All of it is changed or nothing, and C(bootvars undo) takes it back.
  - It calls C(bootvars apply), of which the program has to be on the machine.
version_added: 0.2.0
author:
  - The owner of Bootkeep (!UNKNOWN)
attributes:
  check_mode:
    support: full
    description: Tells what would be changed, and changes nothing.
  diff_mode:
    support: full
    description: Tells the variables before and after.
options:
  entries:
    description:
      - Entries that are to be there or not, no two of one description.
      - An entry that isn't there yet gets the lowest free number, and comes last in BootOrder. One that is there keeps
        its number and its place. If several have the description it isn't known which one is meant, and nothing is
        changed.
    type: list
    elements: dict
    suboptions:
      description:
        description: By which the entry is known.
        type: str
        required: true
      state:
        description: Whether it is to be there. With C(absent) all entries that have the description are taken out.
        type: str
        choices: [present, absent]
        default: present
      loader:
        description:
          - The file that it starts, where it is mounted on the machine.
          - An entry that is to be there has exactly one of C(loader), C(path) and
            C(option), one that isn't has none.
        type: str
      path:
        description: The path that it has, as text.
        type: str
      option:
        description: Its whole load option in hexadecimal digits, between quotes. The description in it is the entry's.
        type: raw
      optional:
        description: Its optional data in hexadecimal digits, between quotes.
        type: raw
      optional_text:
        description: Its optional data as text, which is stored in UTF-16 without a zero unit after it.
        type: str
      active:
        description:
          - Whether it is active. Without this an entry that is there stays as it is, and a new one is active, or as its
            option has it.
        type: bool
  order:
    description: What BootOrder is to be. It has one of the two.
    type: dict
    suboptions:
      first:
        description: Descriptions of entries that come first, in this sequence. Others stay behind them.
        type: list
        elements: str
      only:
        description: Descriptions of the entries that it has, in this sequence, and no others.
        type: list
        elements: str
  next:
    description: The description of the entry that the next boot tries once, or C(false) if BootNext isn't to be there.
    type: raw
  timeout:
    description: For how many seconds firmware waits, from 0 to 65535, or C(false) if Timeout isn't to be there.
    type: raw
  place:
    description: The folder in which Linux shows the firmware's variables, an emulator's variable file or a set file.
    type: path
    default: /sys/firmware/efi/efivars
  program:
    description: The program, by its name or its path on the machine.
    type: path
    default: bootvars
  state_folder:
    description: The folder that keeps what is needed to undo a change. Without it, it is C(/var/lib/bootkeep).
    type: path
  force:
    description: Takes a loader too that firmware doesn't start, and changes a variable file that is damaged.
    type: bool
    default: false
"""

EXAMPLES = r"""
- name: Debian first, Windows after it, and no entry for the network
  bootkeep.boot.entries:
    entries:
      - description: debian
        loader: /boot/efi/EFI/debian/shimx64.efi
      - description: Network
        state: absent
    order:
      first: [debian, Windows Boot Manager]
    timeout: 5
  become: true

- name: The next boot starts the rescue system
  bootkeep.boot.entries:
    entries:
      - description: rescue
        loader: /boot/efi/EFI/rescue/grubx64.efi
        optional_text: quiet
    next: rescue
  become: true

- name: An emulator's variable file
  bootkeep.boot.entries:
    place: /var/lib/libvirt/qemu/nvram/guest_VARS.fd
    entries:
      - description: disk
        path: PciRoot(0x0)/Pci(0x1f,0x2)/Sata(0x0,0xffff,0x0)
    order:
      only: [disk]
    next: false
"""

RETURN = r"""
changes:
  description: The variables that are changed, or by C(--check) would be, as C(bootvars diff --json) has them.
  returned: success
  type: list
  elements: dict
  contains:
    change:
      description: Whether it is C(added), C(removed) or C(changed).
      type: str
    name:
      description: The variable's name.
      type: str
    before:
      description: What it held, or nothing.
      type: dict
    after:
      description: What it holds, or nothing.
      type: dict
  sample:
    - change: changed
      name: BootNext
      entry: null
      before: {kind: next, entry: "0004"}
      after: {kind: next, entry: "0006"}
status:
  description: The program's exit status, 12 if something is changed.
  returned: always
  type: int
  sample: 12
stderr:
  description: What the program says on standard error. After a success each line is a warning too.
  returned: always
  type: str
file:
  description: The file that the program got, in which the lines and columns of its message are.
  returned: failure
  type: str
"""

import json
from typing import Any, Dict, List, Optional

from ansible.module_utils.basic import AnsibleModule

CHANGED = 12
"""The status of the program if something is changed, or would be."""

ENTRY = {
    "description": {"type": "str", "required": True},
    "state": {"type": "str", "choices": ["present", "absent"], "default": "present"},
    "loader": {"type": "str"},
    "path": {"type": "str"},
    "option": {"type": "raw"},
    "optional": {"type": "raw"},
    "optional_text": {"type": "str"},
    "active": {"type": "bool"},
}
ORDER = {
    "first": {"type": "list", "elements": "str"},
    "only": {"type": "list", "elements": "str"},
}
ARGUMENTS = {
    "entries": {"type": "list", "elements": "dict", "options": ENTRY},
    "order": {"type": "dict", "options": ORDER},
    "next": {"type": "raw"},
    "timeout": {"type": "raw"},
    "place": {"type": "path", "default": "/sys/firmware/efi/efivars"},
    "program": {"type": "path", "default": "bootvars"},
    "state_folder": {"type": "path"},
    "force": {"type": "bool", "default": False},
}
MEMBERS = ("entries", "order", "next", "timeout")
"""The arguments that are members of the file."""


def said(value: Any) -> Any:
    """A value without the members of which nothing was said."""
    if isinstance(value, dict):
        return {key: said(it) for key, it in value.items() if it is not None}
    if isinstance(value, list):
        return [said(it) for it in value]
    return value


def file_of(arguments: Dict[str, Any]) -> str:
    """The file of the program: what is wrong with it, the program tells."""
    members = said({name: arguments[name] for name in MEMBERS})
    seconds = members.get("timeout")
    if isinstance(seconds, str) and seconds.isdigit():
        # A template makes a text of a number.
        members["timeout"] = int(seconds)
    return json.dumps(members, indent=2) + "\n"


def words_of(arguments: Dict[str, Any], program: str, is_dry: bool) -> List[str]:
    """The words of the command line. The file is its standard input."""
    words = [program, "apply", "--json", "--exit-code"]
    if is_dry:
        words.append("--dry-run")
    if arguments["force"]:
        words.append("--force")
    if arguments["state_folder"]:
        words += ["--state", arguments["state_folder"]]
    return [*words, arguments["place"], "-"]


def lines_of(name: str, value: Optional[Dict[str, Any]]) -> List[str]:
    """What a variable holds, as lines."""
    if value is None:
        return []
    if value["kind"] == "order":
        return [" ".join([name, *value["entries"]])]
    if value["kind"] == "next":
        return [f"{name} {value['entry']}"]
    if value["kind"] == "timeout":
        return [f"{name} {value['seconds']} seconds"]
    if "description" not in value:
        return [f"{name} {value['kind']} {value.get('data', '')}".rstrip()]
    lines = [f"{name} {json.dumps(value['description'], ensure_ascii=False)}"]
    lines.append(f"  attributes {value['attributes']:#010x}")
    lines += [f"  path {path}" for path in value["named_paths"]]
    if value["optional"]:
        lines.append(f"  optional {value['optional']}")
    return lines


def diff_of(place: str, changes: List[Dict[str, Any]]) -> Dict[str, str]:
    """The changes as Ansible shows them: the variables that differ, before and after."""
    told = {"before_header": place, "after_header": place}
    for side in ("before", "after"):
        lines = [line for it in changes for line in lines_of(it["name"], it[side])]
        told[side] = "".join(f"{line}\n" for line in lines)
    return told


def main() -> None:
    """What Ansible calls."""
    module = AnsibleModule(argument_spec=ARGUMENTS, supports_check_mode=True)
    program = module.get_bin_path(module.params["program"], required=True)
    file = file_of(module.params)
    words = words_of(module.params, program, module.check_mode)
    status, out, notes = module.run_command(words, data=file, binary_data=True)
    told = {"status": status, "stderr": notes}
    if status not in (0, CHANGED):
        message = notes.strip() or out.strip() or f"{program} ended with the status {status}"
        module.fail_json(msg=message, file=file, **told)
    try:
        changes = json.loads(out.splitlines()[-1])["changes"]
    except (IndexError, KeyError, TypeError, ValueError):
        module.fail_json(
            msg=f"{program} printed something else than JSON: {out}", file=file, **told
        )
    for note in notes.splitlines():
        module.warn(note)
    result = {"changed": status == CHANGED, "changes": changes, **told}
    module.exit_json(diff=diff_of(module.params["place"], changes), **result)


if __name__ == "__main__":
    main()
