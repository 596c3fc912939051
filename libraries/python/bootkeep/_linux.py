"""The shared library over a Linux machine: its structs, its calls, and where it is found. It is loaded by the first
:class:`Machine`, so that a program that has none does without it."""

from __future__ import annotations

import ctypes
import os
from ctypes import (
    POINTER,
    c_char_p,
    c_int32,
    c_size_t,
    c_uint8,
    c_uint16,
    c_uint32,
    c_uint64,
    c_void_p,
)
from functools import lru_cache
from pathlib import Path
from typing import Any, Dict, Iterator, Tuple

from ._library import RawRefusal, RawReply
from ._machine_numbers import VERSION

#: What the library is called where the system looks for it.
NAME = "libbootkeep-linux.so.1"


class RawFault(ctypes.Structure):
    _fields_ = [
        ("size", c_size_t),
        ("status", c_uint32),
        ("at", c_uint32),
        ("left", c_uint32),
        ("system_error", c_int32),
        ("refusal", RawRefusal),
        ("path", c_char_p),
        ("text", c_char_p),
        ("second_error", c_int32),
        ("reserved", c_uint32),
        ("second_path", c_char_p),
    ]


class RawOptions(ctypes.Structure):
    _fields_ = [
        ("size", c_size_t),
        ("variables", c_char_p),
        ("state", c_char_p),
        ("name", c_char_p),
        ("start", c_char_p),
        ("flags", c_uint32),
        ("reserved", c_uint32),
    ]


class RawPlan(ctypes.Structure):
    _fields_ = [
        ("size", c_size_t),
        ("next", c_uint32),
        ("current", c_uint32),
        ("timeout", c_uint32),
        ("reserved", c_uint32),
        ("numbers", POINTER(c_uint16)),
        ("numbers_len", c_size_t),
        ("order", POINTER(c_uint16)),
        ("order_len", c_size_t),
    ]


class RawEntry(ctypes.Structure):
    _fields_ = [
        ("number", c_uint32),
        ("state", c_uint32),
        ("position", c_uint32),
        ("attributes", c_uint32),
        ("is_next", c_uint32),
        ("is_current", c_uint32),
        ("description", c_char_p),
        ("path", c_char_p),
        ("option", c_void_p),
        ("option_len", c_size_t),
        ("optional", c_void_p),
        ("optional_len", c_size_t),
    ]


class RawMachineChange(ctypes.Structure):
    _fields_ = [
        ("size", c_size_t),
        ("changed", c_uint32),
        ("settled", c_uint32),
        ("edited", c_uint32),
        ("entry", c_uint32),
        ("record", c_uint64),
        ("replies", c_size_t),
        ("before", c_void_p),
        ("before_len", c_size_t),
        ("after", c_void_p),
        ("after_len", c_size_t),
    ]


class RawLoader(ctypes.Structure):
    _fields_ = [
        ("size", c_size_t),
        ("file", c_char_p),
        ("description", c_char_p),
        ("attributes", c_uint32),
        ("reserved", c_uint32),
        ("optional", c_char_p),
        ("optional_len", c_size_t),
        ("root", c_char_p),
        ("disk", c_char_p),
        ("part", c_uint32),
        ("reserved_part", c_uint32),
    ]


class RawExpected(ctypes.Structure):
    _fields_ = [
        ("size", c_size_t),
        ("what", c_uint32),
        ("number", c_uint32),
        ("journal", c_uint8 * 16),
        ("order", POINTER(c_uint16)),
        ("order_len", c_size_t),
    ]


class RawJournal(ctypes.Structure):
    _fields_ = [
        ("size", c_size_t),
        ("next_number", c_uint32),
        ("has_identity", c_uint32),
        ("identity", c_uint8 * 16),
        ("is_owed", c_uint32),
        ("reserved", c_uint32),
    ]


_BYTES = (POINTER(c_void_p), POINTER(c_size_t))
_IN = (c_char_p, c_size_t)
_NUMBERS = (POINTER(c_uint16), c_size_t)
_END = (c_uint32, POINTER(RawMachineChange))

_CALLS: Dict[str, Tuple[Any, ...]] = {
    "bootkeep_machine_version": (),
    "bootkeep_machine_fault": (c_void_p, POINTER(RawFault)),
    "bootkeep_machine_remark": (c_void_p, c_size_t, POINTER(c_char_p)),
    "bootkeep_machine_open": (POINTER(RawOptions), POINTER(c_void_p)),
    "bootkeep_machine_words": (c_void_p, POINTER(c_char_p), c_size_t),
    "bootkeep_machine_place": (c_void_p, POINTER(c_uint32)),
    "bootkeep_machine_variables": (c_void_p, *_BYTES),
    "bootkeep_machine_data": (c_void_p, *_BYTES),
    "bootkeep_machine_plan": (c_void_p, POINTER(RawPlan)),
    "bootkeep_machine_entries": (c_void_p, POINTER(c_void_p), POINTER(c_size_t), c_size_t),
    "bootkeep_machine_add": (c_void_p, *_IN, c_uint32, c_uint32, *_END),
    "bootkeep_machine_loader": (c_void_p, POINTER(RawLoader), *_BYTES),
    "bootkeep_machine_add_loader": (c_void_p, POINTER(RawLoader), c_uint32, c_uint32, *_END),
    "bootkeep_machine_remove": (c_void_p, *_NUMBERS, *_END),
    "bootkeep_machine_activate": (c_void_p, *_NUMBERS, *_END),
    "bootkeep_machine_deactivate": (c_void_p, *_NUMBERS, *_END),
    "bootkeep_machine_first": (c_void_p, *_NUMBERS, *_END),
    "bootkeep_machine_order": (c_void_p, *_NUMBERS, *_END),
    "bootkeep_machine_next": (c_void_p, c_uint32, *_END),
    "bootkeep_machine_timeout": (c_void_p, c_uint32, *_END),
    "bootkeep_machine_write": (c_void_p, *_IN, *_END),
    "bootkeep_machine_update": (c_void_p, *_IN, POINTER(RawExpected), *_END),
    "bootkeep_machine_reply": (c_void_p, c_size_t, POINTER(RawReply), POINTER(c_uint32)),
    "bootkeep_machine_journal": (c_void_p, POINTER(RawJournal)),
    "bootkeep_machine_undo": (c_void_p, *_END),
    "bootkeep_machine_owed": (c_void_p, POINTER(c_uint32)),
    "bootkeep_machine_settle": (c_void_p, *_END),
}


def _places() -> Iterator[str]:
    """Where the library may be: beside this file, or beside the library for C that the environment names."""
    named = os.environ.get("BOOTKEEP_LIBRARY")
    for beside in (Path(__file__), *([Path(named)] if named else [])):
        place = beside.with_name(NAME)
        if place.exists():
            yield str(place)


@lru_cache(maxsize=None)
def linux() -> ctypes.CDLL:
    """The library: the one that the environment's ``BOOTKEEP_LINUX_LIBRARY`` names, otherwise one that is beside this file
    or beside what ``BOOTKEEP_LIBRARY`` names, otherwise the system's. ``ImportError`` is of one that isn't there, or is
    too old."""
    named = os.environ.get("BOOTKEEP_LINUX_LIBRARY") or next(_places(), NAME)
    try:
        library = ctypes.CDLL(named)
        for name, types in _CALLS.items():
            call = getattr(library, name)
            call.argtypes, call.restype = types, c_uint32
        library.bootkeep_machine_close.argtypes = (c_void_p,)
        library.bootkeep_machine_close.restype = None
    except (OSError, AttributeError) as error:
        raise ImportError(
            f"{named} can't be loaded: {error}: BOOTKEEP_LINUX_LIBRARY can name the library"
        ) from error
    version = library.bootkeep_machine_version()
    if version < VERSION:
        raise ImportError(
            f"{named} has version {version}, and this module needs {VERSION}: BOOTKEEP_LINUX_LIBRARY can name another"
        )
    return library
