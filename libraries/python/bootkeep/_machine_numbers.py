"""The numbers of ``bootkeep-linux.h``, under its names without ``BOOTKEEP_MACHINE_``."""

from __future__ import annotations

from enum import IntFlag

from ._numbers import Numbers

#: The version of the interface that this module is for.
VERSION = 1

#: Statuses of calls over machines, beside those of ``bootkeep.h``.
SYSTEM = 0x0100
BUSY = 0x0101
TAKEN_BACK = 0x0102
UNSETTLED = 0x0103
UNMET = 0x0104
CHANGED = 0x0105


class MachineStage(Numbers):
    """At which step a call over a machine failed."""

    #: At none: it was what the call was handed, or memory.
    NONE = 0
    #: To make, look at or lock the state folder.
    STATE = 1
    #: To lock or read the variables.
    VARIABLES = 2
    #: To find what the machine is called, or the identity of its start.
    NAME = 3
    #: To read the journal, to make it this machine's own, or to give it an identity.
    JOURNAL = 4
    #: To finish, or take back, what an earlier change has left. Nothing else was done.
    SETTLING = 5
    #: To compute what the change leads to: the words or the variables don't allow it.
    RUN = 6
    #: To read or keep what was there before a change.
    RECORD = 7
    #: To make the change.
    CHANGE = 8
    #: To find where the file of a loader is.
    LOADER = 9


class Left(Numbers):
    """What a call that failed has left. All is as it was before it, but for what an earlier change had left."""

    #: Nothing of the change was made.
    NOTHING = 0
    #: Some of the change had been made, and is taken back.
    TAKEN_BACK = 1
    #: The journal has what is left to do, and the next change begins with it: it may still happen.
    OWED = 2
    #: The variable file has the change, and a loss of power may bring back what it was before.
    UNSURE = 3


class MachinePlace(Numbers):
    """What a machine's variables are in."""

    #: A folder as Linux shows them.
    FOLDER = 1
    #: An emulator's variable file.
    FILE = 2


class MachineFault(Numbers):
    """Why a machine's files, or what a call was handed, are refused, beside the numbers of :class:`Fault`."""

    #: The group of the state folder, or others, may write it: who can do that could have anything done to the machine.
    SHARED_STATE = 0x8001
    #: The state folder belongs neither to root nor to the user.
    FOREIGN_STATE = 0x8002
    #: No folder is where the state folder is to be.
    NO_FOLDER = 0x8003
    #: A link, a pipe, a device, a socket or a folder is where a file is to be, or none of a folder and a file where the
    #: variables are to be.
    IRREGULAR = 0x8004
    #: A file has more bytes than are read of it.
    TOO_MUCH = 0x8005
    #: No variable of the boot manager is in the folder, and no efivarfs is mounted there.
    NO_VARIABLES = 0x8006
    #: Two files show one variable.
    TWICE = 0x8007
    #: The journal is another machine's.
    OF_ANOTHER = 0x8008
    #: The journal may be another machine's: which one this is can't be read, as by another user than root.
    UNKNOWN_MACHINE = 0x8009
    #: The journal, or the record, of the change would be longer than what is read of one.
    TOO_LONG = 0x800C
    #: The change is of a variable that has no value, or one that is too long for a set.
    LEFT_OUT = 0x800D
    #: The BootOrder that is to be brought back has an odd number of bytes, which firmware refuses.
    ORDER_REFUSED = 0x800E
    #: The BootNext that is to be brought back doesn't have two bytes.
    NEXT_REFUSED = 0x800F
    #: The Timeout that is to be brought back doesn't have two bytes.
    TIMEOUT_REFUSED = 0x8010
    #: The set has no entry, so that all entries would be taken out.
    EMPTY = 0x8011
    #: The loader's file system isn't on a partition of a disk that firmware sees.
    NO_PARTITION = 0x8012
    #: The system doesn't tell what the loader's partition is known by.
    UNKNOWN_PARTITION = 0x8013
    #: The name of the loader can't be one that firmware reads: it has a backslash, or a character that UCS-2 hasn't got.
    BAD_LOADER_NAME = 0x8014
    #: Firmware doesn't start the loader: the fault within is one of images.
    NOT_STARTED = 0x8015
    #: The variable, or what is at the path of the variables, isn't what was read of it any more: something else has
    #: changed it meanwhile.
    CHANGED_MEANWHILE = 0x8016
    #: A flag isn't one of the call, or a number is none that it takes.
    BAD_WORDS = 0x8017
    #: After the last record of the variable file something isn't erased, at this place: there may have been more
    #: variables, and a change would be written over them.
    DAMAGED = 0x8018
    #: The identity of the start is needed, and the system doesn't tell that of a variable file's machine.
    NO_START = 0x8019
    #: At the path of a disk there is no block device that the system knows by this name.
    NO_DEVICE = 0x801A
    #: The disk hasn't got a partition of this number, or the partition that is named has another one.
    OTHER_PARTITION = 0x801B


class Option(IntFlag):
    """What is asked of a handle."""

    NOTHING = 0
    #: Another machine's journal in the state folder is taken over, if nothing is left to do in it.
    ADOPT = 0x01
    #: Nothing is kept of what was there before a change.
    NO_RECORD = 0x02


class Flag(IntFlag):
    """What is asked of a change."""

    NOTHING = 0
    #: Nothing is changed: what the change would lead to is told.
    DRY_RUN = 0x01
    #: An entry is added even if one like it is there.
    AGAIN = 0x02
    #: Numbers without an entry are taken.
    STALE = 0x04
    #: The numbers are the whole order.
    ONLY = 0x08
    #: The last change is undone although something else has changed since; or an entry is added although firmware
    #: wouldn't start its file.
    FORCE = 0x10
    #: A set without an entry is taken.
    EMPTY = 0x20


class Expects(IntFlag):
    """What is expected of a machine before requests are run."""

    NOTHING = 0
    JOURNAL = 0x01
    NO_JOURNAL = 0x02
    NUMBER = 0x04
    ORDER = 0x08
    NO_ORDER = 0x10
