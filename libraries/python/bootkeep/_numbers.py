"""The numbers of ``bootkeep.h``, under its names without ``BOOTKEEP_``."""

from __future__ import annotations

from enum import IntEnum, IntFlag
from typing import Any, Optional, Tuple

#: The version of the interface that this module is for.
VERSION = 1

DONE, REFUSED, NO_ROOM, ABSENT, NO_MEMORY, CLOSED, BAD_SIZE = range(7)

NO_KIND = 0
NO_PLACE = (1 << 64) - 1
NO_ENTRY = 0x00010000
NO_NUMBER = 0xFFFFFFFF
VARIABLE_ORDER = 0x00010001
VARIABLE_NEXT = 0x00010002
VARIABLE_TIMEOUT = 0x00010003

#: The most bytes of a frame, of the name and of the data of a variable, and of the list of paths of an option.
FRAME_MAX = 131084
NAME_MAX = 64
DATA_MAX = 1048576
LIST_MAX = 65535

#: The most numbers of a BootOrder.
ORDER_MAX = 65536

#: How many bytes a word has at most.
WORD_MAX = 32

#: The most bytes of the name of a machine.
MACHINE_MAX = 4096

#: How many bytes the identity in notes has, and how many notes have at most.
IDENTITY_LEN = 16
NOTES_MAX = 1557

#: Bits of the attributes of a load option (UEFI 2.10, 3.1.3), and the values of those of ATTRIBUTE_CATEGORY.
ATTRIBUTE_ACTIVE = 0x00000001
ATTRIBUTE_FORCE_RECONNECT = 0x00000002
ATTRIBUTE_HIDDEN = 0x00000008
ATTRIBUTE_CATEGORY = 0x00001F00
ATTRIBUTE_CATEGORY_BOOT = 0x00000000
ATTRIBUTE_CATEGORY_APP = 0x00000100


class Attributes(IntFlag):
    """The attributes of a load option, all 32 bits as they are stored: those that have no name here too."""

    #: The boot manager tries the option by itself.
    ACTIVE = 0x00000001
    #: All drivers are connected again after the option's driver is loaded.
    FORCE_RECONNECT = 0x00000002
    #: A menu leaves the option out.
    HIDDEN = 0x00000008
    #: The category of an application that a person starts. That of what the boot manager tries is 0.
    CATEGORY_APP = 0x00000100

    @property
    def category(self) -> int:
        """The bits of LOAD_OPTION_CATEGORY, where they are in the attributes."""
        return int(self) & ATTRIBUTE_CATEGORY

    def __invert__(self) -> Attributes:
        """All 32 bits the other way: some Pythons would drop those that have no name."""
        return Attributes(int(self) ^ 0xFFFFFFFF)


class Numbers(IntEnum):
    """Numbers that the library tells. One of a later library, which this module doesn't know, is a member too, by a name
    of its number."""

    @classmethod
    def _missing_(cls, value: object) -> Optional[Numbers]:
        if not isinstance(value, int):
            return None
        unknown = int.__new__(cls, value)
        unknown._name_, unknown._value_ = f"UNKNOWN_{value:#x}", value
        return unknown

    @property
    def is_known(self) -> bool:
        """Whether this module knows the number."""
        return self._name_ in type(self).__members__

    def __reduce_ex__(self, protocol: Any) -> Tuple[Any, ...]:
        return type(self), (int(self),)


class Fault(Numbers):
    """The number of a fault. None is ever given out again."""

    #: No byte remains where a node must be.
    PATH_NO_END = 0x0101
    #: One to three bytes remain, fewer than the header of a node has.
    PATH_SHORT_HEADER = 0x0102
    #: The node states a length below 4, that of its header alone.
    PATH_BAD_LENGTH = 0x0103
    #: The node states more bytes than remain.
    PATH_PAST_END = 0x0104
    #: The node has type 0x7F and isn't an end node.
    PATH_BAD_END = 0x0105
    #: What is at this place isn't a segment.
    TEXT_BAD_SEGMENT = 0x0201
    #: The argument at this place must be a number and isn't a number's text.
    TEXT_BAD_NUMBER = 0x0202
    #: The argument at this place is out of its range.
    TEXT_OUT_OF_RANGE = 0x0203
    #: The segment at this place is a `Path` of type 0x7F, that of the end nodes.
    TEXT_BAD_END = 0x0204
    #: The text isn't UTF-8 from this place on. This comes before any other fault of a text.
    TEXT_NOT_UTF8 = 0x0205
    #: No node has the name at this place. This and the three after it are of texts with names of
    #: nodes alone.
    TEXT_UNKNOWN_NAME = 0x0206
    #: The argument at this place isn't what the node has there.
    TEXT_BAD_ARGUMENT = 0x0207
    #: At this place the segment ends before it has all its arguments, or has one more.
    TEXT_BAD_COUNT = 0x0208
    #: What the arguments of the segment at this place say is no data of its node.
    TEXT_BAD_DATA = 0x0209
    #: There are fewer bytes than the six of the attributes and of the length of the list.
    OPTION_SHORT = 0x0301
    #: No zero unit closes the description.
    OPTION_NO_TERMINATOR = 0x0302
    #: The list of paths has fewer bytes than the option states.
    OPTION_LIST_PAST_END = 0x0303
    #: The list of paths has no byte.
    OPTION_EMPTY_LIST = 0x0304
    #: What begins at this place isn't a device path: the fault within is that path's.
    OPTION_PATH = 0x0305
    #: A character of the description is zero.
    OPTION_ZERO_UNIT = 0x0306
    #: The paths have more bytes than the list of an option can have, 65,535.
    OPTION_LIST_TOO_LONG = 0x0307
    #: The description isn't UTF-8 from this place of it on.
    OPTION_NOT_UTF8 = 0x0308
    #: Half of a pair of units stands alone in the description, which is no text.
    OPTION_NOT_UTF16 = 0x0309
    #: The file doesn't begin with the four bytes `BVS1`.
    SET_BAD_MAGIC = 0x0401
    #: The file ends within the record.
    SET_TRUNCATED = 0x0402
    #: The name isn't one to 64 characters from 0x21 to 0x7E.
    SET_BAD_NAME = 0x0403
    #: The data is to have no byte, or more than 1,048,576.
    SET_BAD_DATA = 0x0404
    #: The name isn't above that of the record before, by bytes.
    SET_NOT_RISING = 0x0405
    #: The bytes of BootOrder are odd in number, or more than two for each of 65,536 entries.
    VARS_BAD_ORDER = 0x0501
    #: BootNext has another number of bytes than two.
    VARS_BAD_NEXT = 0x0502
    #: The bytes of BootKeepState aren't ones that a keeper stores. Only keepers and runs look at it.
    VARS_BAD_STATE = 0x0503
    #: The name isn't one to 64 characters from 0x21 to 0x7E.
    PUT_BAD_NAME = 0x0601
    #: There is no data. A variable without data is deleted, and never stored.
    PUT_EMPTY_DATA = 0x0602
    #: The data has more than 1,048,576 bytes.
    PUT_DATA_TOO_LONG = 0x0603
    #: A header doesn't begin with 0x42 0x51.
    STREAM_BAD_MAGIC = 0x0701
    #: The version of a header is none of 1 to 3.
    STREAM_BAD_VERSION = 0x0702
    #: A payload is to have more bytes than a frame can have.
    STREAM_TOO_LONG = 0x0703
    #: The last frame isn't whole. The place is how many bytes of it are there.
    STREAM_REST = 0x0704
    #: There are fewer bytes than the twelve before the payload.
    FRAME_SHORT = 0x0801
    #: The bytes don't begin with 0x42 0x51.
    FRAME_BAD_MAGIC = 0x0802
    #: The version is none of 1 to 3.
    FRAME_BAD_VERSION = 0x0803
    #: The payload has more bytes than a frame can have.
    FRAME_TOO_LONG = 0x0804
    #: There are fewer or more bytes than the twelve and those of the payload.
    FRAME_BAD_SIZE = 0x0805
    #: No kind of request has this number.
    FRAME_BAD_KIND = 0x0806
    #: The number is 0xffffffff, which no request has.
    FRAME_BAD_NUMBER = 0x0807
    #: The payload doesn't have the bytes that a request of its kind has.
    FRAME_BAD_PAYLOAD = 0x0808
    #: The payload's load option isn't one. Only replies have this number.
    FRAME_OPTION = 0x0809
    #: The file has no bytes.
    IMAGE_EMPTY = 0x0901
    #: The file ends in its DOS header.
    IMAGE_SHORT_DOS_HEADER = 0x0902
    #: The file doesn't begin with MZ.
    IMAGE_DOS_SIGNATURE = 0x0903
    #: There are no 264 bytes from e_lfanew on, as many as headers with 16 data directories have.
    IMAGE_PE_PLACE = 0x0904
    #: There is no PE signature where e_lfanew says.
    IMAGE_PE_SIGNATURE = 0x0905
    #: Magic is neither that of PE32 nor that of PE32+.
    IMAGE_MAGIC = 0x0906
    #: The image is no EFI application.
    IMAGE_SUBSYSTEM = 0x0907
    #: There are more data directories than the format has.
    IMAGE_DIRECTORY_COUNT = 0x0908
    #: The optional header isn't as long as one with so many data directories.
    IMAGE_OPTIONAL_HEADER_SIZE = 0x0909
    #: The image has no room for its section table and one header more.
    IMAGE_IMAGE_SIZE = 0x090A
    #: The headers have no room for the section table.
    IMAGE_HEADERS_SIZE = 0x090B
    #: The headers don't end in the image.
    IMAGE_HEADERS_BEYOND_IMAGE = 0x090C
    #: The file ends in the headers.
    IMAGE_HEADERS_BEYOND_FILE = 0x090D
    #: The file ends before the certificate table does.
    IMAGE_CERTIFICATES_BEYOND_FILE = 0x090E
    #: The machine isn't one that firmware knows.
    IMAGE_MACHINE = 0x090F
    #: A section lies in the headers, in the file or in memory.
    IMAGE_SECTION_IN_HEADERS = 0x0910
    #: The file ends before a section does.
    IMAGE_SECTION_BEYOND_FILE = 0x0911
    #: The debug directory is at an offset of more than four bytes.
    IMAGE_DEBUG_PLACE = 0x0912
    #: The file ends in an entry of the debug directory.
    IMAGE_DEBUG_BEYOND_FILE = 0x0913
    #: CodeView data are in no section: firmware loads them after the sections.
    IMAGE_UNMAPPED_CODE_VIEW = 0x0914
    #: The image is one for ARM64.
    IMAGE_ARM64 = 0x0915
    #: The image takes more memory than is taken for granted, 512 MiB.
    IMAGE_MEMORY = 0x0916
    #: The relocations are stripped, and the image's address is in the first page of memory.
    IMAGE_FIXED_BASE = 0x0917
    #: The relocations are stripped: the memory at the image's address has to be free.
    IMAGE_RELOCATIONS_STRIPPED = 0x0918
    #: Sections are aligned to nothing.
    IMAGE_SECTION_ALIGNMENT = 0x0919
    #: A section isn't in the image.
    IMAGE_SECTION_BEYOND_IMAGE = 0x091A
    #: A section is written after the image's memory.
    IMAGE_SECTION_BEYOND_MEMORY = 0x091B
    #: A section without bytes in the file is written over the section table.
    IMAGE_SECTION_OVER_TABLE = 0x091C
    #: The directory of relocations is the first after those that there are, and isn't in the
    #: headers.
    IMAGE_RELOCATIONS_NOT_LOADED = 0x091D
    #: The relocations end after the last address of four bytes.
    IMAGE_RELOCATIONS_OVERFLOW = 0x091E
    #: The relocations aren't in the image.
    IMAGE_RELOCATIONS_BEYOND_IMAGE = 0x091F
    #: The image is one for IA32, which is loaded and not started.
    IMAGE_IA32 = 0x0920
    #: The image is EFI byte code, which needs an interpreter.
    IMAGE_BYTE_CODE = 0x0921
    #: The image's entry point isn't in it.
    IMAGE_ENTRY_POINT = 0x0922
    #: Headers and sections have more bytes than the file. This and the next one are of digests
    #: alone.
    IMAGE_OVERLAP = 0x0923
    #: The certificate table has more bytes than are left of the file after the headers and sections.
    IMAGE_CERTIFICATES_OVERLAP = 0x0924
    #: The bytes end in the 28 before the list's header.
    LISTS_CUT_HEADER = 0x0A01
    #: The list has fewer bytes than its headers, or more than there are.
    LISTS_BAD_LIST_SIZE = 0x0A02
    #: A signature has fewer than 16 bytes, or the signatures aren't whole.
    LISTS_BAD_SIGNATURE_SIZE = 0x0A03
    #: The debug entry of CodeView data isn't in the image.
    IMAGE_CODE_VIEW_ENTRY_BEYOND_IMAGE = 0x0B01
    #: The debug entry of CodeView data isn't in one section, or the headers, once they are in
    #: memory.
    IMAGE_CODE_VIEW_ENTRY_NOT_LOADED = 0x0B02
    #: CodeView data aren't in the image.
    IMAGE_CODE_VIEW_BEYOND_IMAGE = 0x0B03
    #: CodeView data aren't in one section, or the headers, once they are in memory.
    IMAGE_CODE_VIEW_NOT_LOADED = 0x0B04
    #: CodeView data have fewer bytes than data with their signature.
    IMAGE_CODE_VIEW_SIZE = 0x0B05
    #: What the loader reads of the resources isn't in one section, or the headers.
    IMAGE_RESOURCES_NOT_LOADED = 0x0B06
    #: A directory, a name or the data of a resource begin after the resources.
    IMAGE_RESOURCE_BEYOND_RESOURCES = 0x0B07
    #: The entries of a directory of resources end after the resources.
    IMAGE_RESOURCE_DIRECTORY_SIZE = 0x0B08
    #: A block of relocations isn't in one section, or the headers.
    IMAGE_RELOCATION_BLOCK_NOT_LOADED = 0x0B09
    #: A block of relocations has no bytes, or more than are left of the relocations.
    IMAGE_RELOCATION_BLOCK_SIZE = 0x0B0A
    #: A block of relocations is of a page that isn't in the image.
    IMAGE_RELOCATION_BLOCK_ADDRESS = 0x0B0B
    #: A relocation is of an address that isn't in the image.
    IMAGE_RELOCATION_BEYOND_IMAGE = 0x0B0C
    #: A relocation is of a type that firmware doesn't know.
    IMAGE_RELOCATION_UNKNOWN_TYPE = 0x0B0D
    #: The file of a journal begins neither with `BKJ1` nor with `BKJ2`.
    JOURNAL_BAD_MAGIC = 0x0C01
    #: The name of the machine is to have no byte, or more than 4,096.
    JOURNAL_BAD_MACHINE = 0x0C02
    #: The file ends in the field.
    JOURNAL_TRUNCATED = 0x0C03
    #: The value is to have more than 1,048,576 bytes.
    JOURNAL_VALUE_TOO_LONG = 0x0C04
    #: The byte is neither 1, for changes that are being made, nor 2, for changes that are taken back.
    JOURNAL_BAD_COURSE = 0x0C05
    #: The identity isn't one to 64 characters from 0x21 to 0x7E.
    JOURNAL_BAD_IDENTITY = 0x0C06
    #: The name isn't that of a variable of the boot manager.
    JOURNAL_BAD_NAME = 0x0C07
    #: The journal is another machine's.
    JOURNAL_OF_ANOTHER = 0x0C08
    #: With attributes, what a change of a journal that has none has is too long.
    JOURNAL_TOO_LONG = 0x0C09
    #: The name of the machine has no byte, or more than 4,096.
    MACHINE_BAD_NAME = 0x0D01
    #: The identity of the start isn't one to 64 characters from 0x21 to 0x7E.
    MACHINE_BAD_START = 0x0D02
    #: A variable of the boot manager has no byte after its attributes.
    MACHINE_NO_DATA = 0x0D03
    #: With its attributes, what a variable would have after the run is too long.
    MACHINE_TOO_LONG = 0x0D04
    #: An entry is stored under the number that the new one is to have. The place of this one and of those of
    #: entries below is the number of the entry.
    UNEDITED_TAKEN = 0x0E01
    #: An entry is stored under each number.
    UNEDITED_NO_FREE = 0x0E02
    #: The number is in the list twice.
    UNEDITED_TWICE = 0x0E03
    #: There is no entry of the number.
    UNEDITED_MISSING = 0x0E04
    #: There is no entry of the number, which was to be in the order.
    UNEDITED_STALE = 0x0E05
    #: The entry of the number is no load option.
    UNEDITED_NO_OPTION = 0x0E06
    #: BootOrder would have more than 65,536 numbers.
    UNEDITED_ORDER_TOO_LONG = 0x0E07
    #: The load option to be added has more than 1,048,576 bytes.
    UNEDITED_OPTION_TOO_LONG = 0x0E08
    #: The kind is that of no edit. This and the two after it come of numbers that this module doesn't hand over.
    UNEDITED_BAD_KIND = 0x0E09
    #: The number is above 65,536.
    UNEDITED_BAD_NUMBER = 0x0E0A
    #: The position is none.
    UNEDITED_BAD_POSITION = 0x0E0B
    #: The notes at the start of a journal's file end in the field at this place.
    NOTES_TRUNCATED = 0x0F01
    #: The notes are to have more than 128 digests: the place is that of their count.
    NOTES_TOO_MANY = 0x0F02
    #: The identity of notes hasn't 16 bytes.
    NOTES_BAD_IDENTITY = 0x0F03
    #: The record of a change doesn't begin with the four bytes `BKH1`.
    RECORD_BAD_MAGIC = 0x1001
    #: The record ends in the field that begins at this place.
    RECORD_TRUNCATED = 0x1002
    #: The record has fewer than the four fields before the words.
    RECORD_TOO_FEW_FIELDS = 0x1003
    #: The record's name of the machine has no byte, or more than 4,096.
    RECORD_BAD_MACHINE = 0x1004
    #: The record's time doesn't have eight bytes.
    RECORD_BAD_TIME = 0x1005
    #: What was before the change is no set: the fault within is the set's.
    RECORD_BAD_BEFORE = 0x1006
    #: What was after the change is no set: the fault within is the set's.
    RECORD_BAD_AFTER = 0x1007
    #: The word of this number, of which the first is 0, isn't UTF-8.
    RECORD_BAD_WORD = 0x1008
    #: No zero ends the last word, which begins at this place of the words.
    RECORD_OPEN_WORD = 0x1009
    #: A word, or a set of the boot manager's variables, has 2^32 bytes or more.
    RECORD_TOO_LONG = 0x100A
    #: The file doesn't begin with a firmware volume of variables.
    STORE_NO_VOLUME = 0x1101
    #: The header of the volume is damaged, or the file ends in the volume.
    STORE_BAD_HEADER = 0x1102
    #: No store of variables is in the volume.
    STORE_NO_STORE = 0x1103
    #: The store is of the older kind, whose records have no times.
    STORE_UNAUTHENTICATED = 0x1104
    #: The store isn't formatted or healthy, or ends after the volume.
    STORE_BAD_STORE = 0x1105
    #: The record at this place ends after the store.
    STORE_CUT_RECORD = 0x1106
    #: The store has no room for the records.
    STORE_FULL = 0x1107


class EditKind(IntEnum):
    """What an edit does."""

    #: An entry is added.
    ADD = 1
    #: Entries are deleted, their numbers taken out of BootOrder, and BootNext is deleted if it names one.
    REMOVE = 2
    #: Entries come first in BootOrder, and the rest of it behind them.
    FIRST = 3
    #: BootOrder becomes another one.
    ORDER = 4
    #: BootOrder has each of its numbers once.
    UNREPEAT = 5
    #: BootNext names an entry, or is deleted.
    NEXT = 6
    #: Timeout becomes so many seconds, or is deleted.
    TIMEOUT = 7
    #: Entries get LOAD_OPTION_ACTIVE.
    ACTIVATE = 8
    #: Entries lose LOAD_OPTION_ACTIVE.
    DEACTIVATE = 9


class Position(IntEnum):
    """Where a new entry comes in BootOrder."""

    #: Last, unless its number is there already, which stays where it is.
    LAST = 0
    #: First, and nowhere else.
    FIRST = 1
    #: BootOrder stays as it is.
    NONE = 2


class EditedKind(Numbers):
    """What came of an edit."""

    #: The set is as it was to be.
    DONE = 0
    #: The entry is added.
    ADDED = 1
    #: A load option with this description and these paths is there already, and nothing is changed.
    PRESENT = 2


class RequestKind(IntEnum):
    """What a request is to do: ``docs/requests.md`` has what comes of each."""

    #: To store an option under a number that is free, and to append that to BootOrder.
    ADD = 1
    #: To store an option in the place of an entry.
    REPLACE = 2
    #: To take out an entry, its number from BootOrder, and a BootNext that names it.
    REMOVE = 3
    #: To set BootOrder.
    ORDER = 4
    #: To set BootNext.
    NEXT = 5
    #: To store an option under the lowest free number, and to append that to BootOrder.
    ADD_FREE = 6
    #: To store an option under the lowest free number, and to put that in front of BootOrder.
    ADD_FIRST = 7
    #: To put an entry in front of BootOrder.
    FIRST = 8


class ReplyKind(Numbers):
    """What the reply to an event is."""

    #: What was delivered isn't a frame.
    MALFORMED = 1
    #: The request was applied before, with this outcome.
    REPEAT = 2
    #: The request was applied before, and its outcome isn't kept any more.
    OLD = 3
    #: The number is too far ahead of the next one.
    AHEAD = 4
    #: Another request of this number waits.
    CONFLICT = 5
    #: The request waits for those before it.
    WAITING = 6
    #: The request was applied, with this outcome.
    APPLIED = 7
    #: A plan is prepared.
    PREPARED = 8
    #: A plan was prepared before, and stays.
    ALREADY_PREPARED = 9
    #: The plan that was prepared.
    PLAN = 10
    #: No plan is prepared.
    NOTHING_PREPARED = 11
    #: What waited and what was prepared is forgotten.
    RESTARTED = 12


class Outcome(Numbers):
    """What came of a request."""

    #: It was carried out.
    DONE = 1
    #: The entry to add is there already.
    EXISTS = 2
    #: The entry isn't there.
    MISSING = 3
    #: The order has a number twice.
    ORDER_REPEATS = 4
    #: The order has a number without an entry.
    ORDER_UNKNOWN = 5
    #: Each number has an entry already.
    NO_FREE = 6


class EntryState(Numbers):
    """What a boot makes of an entry that BootOrder names."""

    #: It is tried.
    NORMAL = 0
    #: It isn't there.
    ABSENT = 1
    #: It is no load option.
    UNDECODABLE = 2
    #: It isn't active.
    INACTIVE = 3
    #: It is active, and of another category than the normal boot.
    OTHER_CATEGORY = 4


class ChangeKind(Numbers):
    """What becomes of a variable."""

    #: It is new.
    ADDED = 1
    #: It has other data.
    REPLACED = 2
    #: It is taken out.
    REMOVED = 3


class Stage(Numbers):
    """Which part of firmware finds a fault of an image."""

    #: The boot manager, for which there is no such file then.
    BOOT_MANAGER = 0
    #: LoadImage. With Secure Boot the faults up to ``IMAGE_DEBUG_BEYOND_FILE`` are found before it.
    LOADER = 1
    #: StartImage.
    START = 2


class Effect(Numbers):
    """What comes of a fault of an image."""

    #: Firmware doesn't start the file.
    REFUSED = 0
    #: Firmware doesn't look at it, and goes wrong: it writes after the image's memory, or runs what isn't in it.
    UNSAFE = 1
    #: The file's bytes don't tell whether it starts: the machine decides.
    UNDECIDED = 2


class MoveKind(Numbers):
    """Which move of a machine comes next."""

    #: None: the command has ended.
    NONE = 0
    #: A variable is to be set.
    SET = 1
    #: A variable is to be deleted.
    DELETE = 2
    #: The journal's file is to be replaced.
    JOURNAL = 3


class Became(IntEnum):
    """What became of a move."""

    #: It is made, and no cut undoes it.
    DONE = 0
    #: It was refused, and isn't made.
    REFUSED = 1
    #: It was refused, and is made nevertheless, or that can't be told.
    PERHAPS = 2


class EndKind(Numbers):
    """How a command over a machine ended."""

    #: It has happened.
    DONE = 1
    #: A move of what an earlier command had left was refused, and that is taken back. Nothing was run.
    NOT_RUN = 2
    #: The same, but it isn't taken back yet: the next command goes on with it. Nothing was run.
    NOT_SETTLED = 3
    #: The variables were refused. Nothing was changed.
    RUN_REFUSED = 4
    #: A move was refused, and the change is taken back: it hasn't happened.
    TAKEN_BACK = 5
    #: A move was refused, and then one that takes the change back: it may still happen.
    UNSETTLED = 6
    #: Memory was refused. Nothing was changed.
    NO_MEMORY = 7


class Same(Numbers):
    """Whether a frame that came again is the one that was applied under its number."""

    #: It is no repeat of one that was applied, or no digest of that one is kept.
    UNKNOWN = 0
    #: It is that one.
    YES = 1
    #: Another frame was applied under its number.
    NO = 2


class Standing(Numbers):
    """What the boot manager's variables of a machine are now, beside the record of a change of it."""

    #: Those after the change, but perhaps for a BootNext that a start has used.
    UNCHANGED = 0
    #: Those before the change, but perhaps for such a BootNext, and not those after it.
    NOT_MADE = 1
    #: Neither: something else has changed them since.
    CHANGED = 2
