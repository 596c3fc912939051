"""Device paths, load options, sets of boot variables, numbered requests over them, files that firmware starts, and the boot
entries of a Linux machine.

Values are read of bytes, which ``bytes`` gives again, and are never changed: :class:`DevicePath`, :class:`LoadOption`,
:class:`BootVariables`, :class:`Frame`::

    >>> import bootkeep
    >>> data = bytes.fromhex("02010c00d041030a000000007fff0400")
    >>> path = bootkeep.DevicePath.from_bytes(data)
    >>> print(path)
    PciRoot(0x0)
    >>> bytes(path) == data
    True
    >>> option = bootkeep.LoadOption("Mine", [path])
    >>> variables = bootkeep.BootVariables({"Boot0005": option, "BootOrder": b"\\5\\0"})
    >>> print(variables.plan)
    plan next - normal 0005
    >>> for entry in variables.entries:
    ...     print(entry)
    Boot0005 normal Mine PciRoot(0x0)

Requests change a set by a keeper, and :class:`SetFile` keeps a file by them::

    >>> with bootkeep.Keeper(variables) as keeper:
    ...     print(keeper.request(bootkeep.AddFirst(option)))
    ...     print(keeper.variables.plan)
    applied Done 0000 1
    plan next - normal 0000 0005

A Linux machine's entries are changed where they are by a :class:`Machine`, whole or not at all, also over a loss of power,
and back again by ``undo``::

    with bootkeep.Machine() as machine:
        machine.add(loader="/boot/efi/EFI/rescue/grubx64.efi", description="Rescue", first=True)

What isn't what it has to be is refused by :class:`Refused`, with the fault and its place. Python's own ``MemoryError`` is
raised where memory is refused, and ``KeyError`` where a set has no variable of a name::

    >>> bootkeep.DevicePath.from_bytes(b"")
    Traceback (most recent call last):
        ...
    bootkeep.Refused: PATH_NO_END at 0

The calls are those of the library for C, ``bootkeep.h``: what each accepts and refuses is proved. Those that have no
keeper have their names here too, without ``bootkeep_``, take bytes, and return what they tell; but :func:`option_parts`
has the description too, as a text and as a line, and :func:`library_version` is ``bootkeep_version``.

The shared library is found by the environment's ``BOOTKEEP_LIBRARY``, beside this file, or where the system looks for
``libbootkeep.so.1``; ``tools/build-c FOLDER`` makes it, and a wheel of this package has it. The one over machines,
``libbootkeep-linux.so.1``, is found beside it, or by ``BOOTKEEP_LINUX_LIBRARY``; only a :class:`Machine` needs it.
"""

from __future__ import annotations

from ._edits import Edit, Edited, vars_edit
from ._faults import (
    BytesLeft,
    Closed,
    Error,
    Refused,
    outcome_word,
    refusal_word,
    status_word,
)
from ._files import SetFile
from ._images import (
    ImageFault,
    SignatureList,
    image_check,
    image_digest,
    signature_lists,
)
from ._keepers import Keeper, Reply, run
from ._library import library_version
from ._machine_faults import (
    ChangedSince,
    MachineBusy,
    MachineError,
    MachineFailure,
    MachineRefused,
    NothingToUndo,
    SystemRefused,
    TakenBack,
    Unmet,
    Unsettled,
)
from ._machine_numbers import Left, MachineFault, MachinePlace, MachineStage
from ._machines import (
    Expected,
    Machine,
    MachineChange,
    MachineEntry,
    MachineJournal,
    MachinePlan,
    MachineReply,
)
from ._moves import End, MachineState, Move, Moves, Restore
from ._numbers import (
    ATTRIBUTE_ACTIVE,
    ATTRIBUTE_CATEGORY,
    ATTRIBUTE_CATEGORY_APP,
    ATTRIBUTE_CATEGORY_BOOT,
    ATTRIBUTE_FORCE_RECONNECT,
    ATTRIBUTE_HIDDEN,
    Attributes,
    Became,
    ChangeKind,
    DATA_MAX,
    EditKind,
    EditedKind,
    Effect,
    EndKind,
    EntryState,
    FRAME_MAX,
    Fault,
    IDENTITY_LEN,
    LIST_MAX,
    MACHINE_MAX,
    MoveKind,
    NAME_MAX,
    NOTES_MAX,
    ORDER_MAX,
    Outcome,
    Position,
    ReplyKind,
    RequestKind,
    Same,
    Stage,
    Standing,
    VERSION,
    WORD_MAX,
)
from ._numbers import Fault as Kind
from ._numbers import RequestKind as Request
from ._notes import journal_is_idle, notes_identity, notes_len, notes_make
from ._options import (
    LoadOption,
    OptionParts,
    option_make,
    option_make_units,
    option_parts,
)
from ._paths import (
    DevicePath,
    Node,
    path_check,
    path_names,
    path_names_and_len,
    path_parse,
    path_parse_exact,
    path_text,
    path_text_and_len,
)
from ._records import (
    RecordParts,
    record_back,
    record_make,
    record_parts,
    record_standing,
)
from ._requests import (
    Add,
    AddFirst,
    AddFree,
    BootRequest,
    First,
    Frame,
    FrameParts,
    Next,
    Order,
    Remove,
    Replace,
    frame_make,
    frame_parts,
    frames,
)
from ._sets import (
    AtRisk,
    BootVariables,
    Change,
    Entry,
    NamedEntry,
    Plan,
    WithEntry,
    vars_at_risk,
    vars_changes,
    vars_entry,
    vars_get,
    vars_list,
    vars_lowest_free,
    vars_named,
    vars_plan,
    vars_put,
    vars_remove,
)
from ._stores import store_vars, store_with
from ._values import EntryNumber, is_entry_name

__all__ = [
    "ATTRIBUTE_ACTIVE",
    "ATTRIBUTE_CATEGORY",
    "ATTRIBUTE_CATEGORY_APP",
    "ATTRIBUTE_CATEGORY_BOOT",
    "ATTRIBUTE_FORCE_RECONNECT",
    "ATTRIBUTE_HIDDEN",
    "Add",
    "AddFirst",
    "AddFree",
    "AtRisk",
    "Attributes",
    "Became",
    "BootRequest",
    "BootVariables",
    "BytesLeft",
    "Change",
    "ChangeKind",
    "ChangedSince",
    "Closed",
    "DATA_MAX",
    "DevicePath",
    "Edit",
    "EditKind",
    "Edited",
    "EditedKind",
    "Effect",
    "End",
    "EndKind",
    "Entry",
    "EntryNumber",
    "EntryState",
    "Error",
    "Expected",
    "FRAME_MAX",
    "Fault",
    "First",
    "Frame",
    "FrameParts",
    "IDENTITY_LEN",
    "ImageFault",
    "Keeper",
    "Kind",
    "LIST_MAX",
    "Left",
    "LoadOption",
    "MACHINE_MAX",
    "Machine",
    "MachineBusy",
    "MachineChange",
    "MachineEntry",
    "MachineError",
    "MachineFailure",
    "MachineFault",
    "MachineJournal",
    "MachinePlace",
    "MachinePlan",
    "MachineRefused",
    "MachineReply",
    "MachineStage",
    "MachineState",
    "Move",
    "MoveKind",
    "Moves",
    "NAME_MAX",
    "NOTES_MAX",
    "NamedEntry",
    "Next",
    "Node",
    "NothingToUndo",
    "ORDER_MAX",
    "OptionParts",
    "Order",
    "Outcome",
    "Plan",
    "Position",
    "RecordParts",
    "Refused",
    "Remove",
    "Replace",
    "Reply",
    "ReplyKind",
    "Request",
    "RequestKind",
    "Restore",
    "Same",
    "SetFile",
    "SignatureList",
    "Stage",
    "Standing",
    "SystemRefused",
    "TakenBack",
    "Unmet",
    "Unsettled",
    "VERSION",
    "WORD_MAX",
    "WithEntry",
    "__version__",
    "check_path",
    "entries_at_risk",
    "frame_make",
    "frame_parts",
    "frames",
    "image_check",
    "image_digest",
    "is_entry_name",
    "journal_is_idle",
    "library_version",
    "notes_identity",
    "notes_len",
    "notes_make",
    "option",
    "option_make",
    "option_make_units",
    "option_parts",
    "outcome_word",
    "path_check",
    "path_names",
    "path_names_and_len",
    "path_parse",
    "path_parse_exact",
    "path_text",
    "path_text_and_len",
    "plan",
    "record_back",
    "record_make",
    "record_parts",
    "record_standing",
    "refusal_word",
    "run",
    "signature_lists",
    "status_word",
    "store_vars",
    "store_with",
    "vars_at_risk",
    "vars_changes",
    "vars_edit",
    "vars_entry",
    "vars_get",
    "vars_list",
    "vars_lowest_free",
    "vars_named",
    "vars_plan",
    "vars_put",
    "vars_remove",
]

#: The version of this package.
__version__ = "0.2.0"

# The names of before, for one version, as Kind and Request are.
plan, entries_at_risk, check_path = vars_plan, vars_at_risk, path_check
option = option_parts

# To those who use them, all of these are of the package.
for _name in __all__:
    if getattr(globals()[_name], "__module__", "").startswith(f"{__name__}."):
        globals()[_name].__module__ = __name__
