"""The shared library: its structs, its calls, and where it is found."""

from __future__ import annotations

import ctypes
import os
from ctypes import POINTER, c_char_p, c_size_t, c_uint16, c_uint32, c_uint64, c_void_p
from pathlib import Path
from typing import Any, Dict, Tuple

from ._numbers import VERSION


class RawRefusal(ctypes.Structure):
    _fields_ = [
        ("kind", c_uint32),
        ("inner_kind", c_uint32),
        ("place", c_size_t),
        ("inner_place", c_size_t),
    ]


class RawParts(ctypes.Structure):
    _fields_ = [
        ("attributes", c_uint32),
        ("reserved", c_uint32),
        ("description", c_size_t),
        ("description_len", c_size_t),
        ("list", c_size_t),
        ("list_len", c_size_t),
        ("optional", c_size_t),
        ("optional_len", c_size_t),
    ]


class RawFrame(ctypes.Structure):
    _fields_ = [
        ("size", c_size_t),
        ("number", c_uint32),
        ("kind", c_uint32),
        ("entry", c_uint32),
        ("reserved", c_uint32),
        ("option", c_size_t),
        ("option_len", c_size_t),
    ]


class RawVariable(ctypes.Structure):
    _fields_ = [
        ("name", c_size_t),
        ("name_len", c_size_t),
        ("data", c_size_t),
        ("data_len", c_size_t),
    ]


class RawList(ctypes.Structure):
    _fields_ = [
        ("place", c_size_t),
        ("len", c_size_t),
        ("header_len", c_size_t),
        ("signature_len", c_size_t),
    ]


class RawNamed(ctypes.Structure):
    _fields_ = [("variable", c_uint32), ("number", c_uint32), ("state", c_uint32)]


class RawChange(ctypes.Structure):
    _fields_ = [("variable", c_uint32), ("kind", c_uint32)]


class RawEdit(ctypes.Structure):
    _fields_ = [
        ("size", c_size_t),
        ("kind", c_uint32),
        ("number", c_uint32),
        ("position", c_uint32),
        ("again", c_uint32),
        ("stale", c_uint32),
        ("only", c_uint32),
    ]


class RawEdited(ctypes.Structure):
    _fields_ = [("size", c_size_t), ("kind", c_uint32), ("entry", c_uint32)]


class RawReply(ctypes.Structure):
    _fields_ = [
        ("size", c_size_t),
        ("kind", c_uint32),
        ("fault", c_uint32),
        ("option_fault", RawRefusal),
        ("outcome", c_uint32),
        ("entry", c_uint32),
        ("next_number", c_uint32),
        ("plan_next", c_uint32),
        ("count", c_size_t),
    ]


class RawKeeper(ctypes.Structure):
    _fields_ = [("is_open", c_uint32), ("at", c_void_p)]


class RawMoves(ctypes.Structure):
    _fields_ = [("is_open", c_uint32), ("at", c_void_p)]


class RawEnd(ctypes.Structure):
    _fields_ = [
        ("size", c_size_t),
        ("kind", c_uint32),
        ("reason", c_uint32),
        ("second_reason", c_uint32),
        ("fault", c_uint32),
        ("replies", c_size_t),
        ("edited", c_uint32),
        ("entry", c_uint32),
    ]


class RawRecordParts(ctypes.Structure):
    _fields_ = [
        ("size", c_size_t),
        ("machine", c_size_t),
        ("machine_len", c_size_t),
        ("time", c_uint64),
        ("before", c_size_t),
        ("before_len", c_size_t),
        ("after", c_size_t),
        ("after_len", c_size_t),
        ("words", c_size_t),
    ]


_IN = (c_char_p, c_size_t)
_OUT = (c_char_p, c_size_t, POINTER(c_size_t))
_NUMBERS = (POINTER(c_uint16), c_size_t, POINTER(c_size_t))
_ROOM = (c_size_t, c_size_t, POINTER(c_size_t))
_KEEPER = POINTER(RawKeeper)
_MOVES = POINTER(RawMoves)
_REPLY = POINTER(RawReply)
_WHY = POINTER(RawRefusal)
_EDIT = (POINTER(RawEdit), POINTER(c_uint16), c_size_t, *_IN)

_CALLS: Dict[str, Tuple[Any, ...]] = {
    "bootkeep_version": (),
    "bootkeep_status_word": (c_uint32, *_OUT),
    "bootkeep_refusal_word": (c_uint32, *_OUT),
    "bootkeep_outcome_word": (c_uint32, *_OUT),
    "bootkeep_path_text": (*_IN, *_OUT, POINTER(c_size_t), _WHY),
    "bootkeep_path_names": (*_IN, *_OUT, POINTER(c_size_t), _WHY),
    "bootkeep_path_check": (*_IN, POINTER(c_size_t), _WHY),
    "bootkeep_path_parse": (*_IN, *_OUT, _WHY),
    "bootkeep_path_parse_exact": (*_IN, *_OUT, _WHY),
    "bootkeep_option_parts": (*_IN, POINTER(RawParts), _WHY),
    "bootkeep_option_description": (*_IN, *_OUT, _WHY),
    "bootkeep_option_description_utf8": (*_IN, *_OUT, _WHY),
    "bootkeep_option_make": (c_uint32, *_IN, *_IN, *_IN, *_OUT, _WHY),
    "bootkeep_option_make_units": (
        c_uint32,
        POINTER(c_uint16),
        c_size_t,
        *_IN,
        *_IN,
        *_OUT,
        _WHY,
    ),
    "bootkeep_frame_make": (
        c_uint32,
        c_uint32,
        c_uint16,
        *_IN,
        POINTER(c_uint16),
        c_size_t,
        *_OUT,
        _WHY,
    ),
    "bootkeep_frame_parts": (*_IN, POINTER(RawFrame), *_NUMBERS, _WHY),
    "bootkeep_vars_plan": (*_IN, *_NUMBERS, POINTER(c_uint32), _WHY),
    "bootkeep_vars_at_risk": (*_IN, *_NUMBERS, POINTER(c_size_t), _WHY),
    "bootkeep_vars_get": (*_IN, *_IN, *_OUT, _WHY),
    "bootkeep_vars_put": (*_IN, *_IN, *_IN, *_OUT, _WHY),
    "bootkeep_vars_remove": (*_IN, *_IN, *_OUT, _WHY),
    "bootkeep_vars_list": (*_IN, POINTER(RawVariable), *_ROOM, _WHY),
    "bootkeep_vars_named": (*_IN, POINTER(RawNamed), *_ROOM, _WHY),
    "bootkeep_vars_lowest_free": (*_IN, POINTER(c_uint32), _WHY),
    "bootkeep_vars_entry": (*_IN, c_uint16, POINTER(c_uint32), _WHY),
    "bootkeep_vars_changes": (*_IN, *_IN, POINTER(RawChange), *_ROOM, _WHY),
    "bootkeep_vars_edit": (*_EDIT, *_IN, *_OUT, POINTER(RawEdited), _WHY),
    "bootkeep_run": (*_IN, *_IN, *_OUT, *_OUT, _WHY),
    "bootkeep_keeper_open": (_KEEPER, *_IN, _WHY),
    "bootkeep_keeper_deliver": (_KEEPER, *_IN, *_OUT),
    "bootkeep_keeper_prepare": (_KEEPER, *_OUT),
    "bootkeep_keeper_hand": (_KEEPER, *_OUT),
    "bootkeep_keeper_restart": (_KEEPER, *_OUT),
    "bootkeep_keeper_deliver_reply": (_KEEPER, *_IN, _REPLY, *_NUMBERS),
    "bootkeep_keeper_prepare_reply": (_KEEPER, _REPLY, *_NUMBERS),
    "bootkeep_keeper_hand_reply": (_KEEPER, _REPLY, *_NUMBERS),
    "bootkeep_keeper_restart_reply": (_KEEPER, _REPLY, *_NUMBERS),
    "bootkeep_keeper_set": (_KEEPER, *_OUT),
    "bootkeep_keeper_next_number": (_KEEPER, POINTER(c_uint32)),
    "bootkeep_keeper_close": (_KEEPER,),
    "bootkeep_moves_requests": (_MOVES, *_IN, *_IN, *_IN, *_IN, *_IN, _WHY),
    "bootkeep_moves_edit": (_MOVES, *_IN, *_IN, *_IN, *_IN, *_EDIT, _WHY),
    "bootkeep_moves_restore": (_MOVES, *_IN, *_IN, *_IN, *_IN, *_IN, _WHY),
    "bootkeep_moves_settle": (_MOVES, *_IN, *_IN, *_IN, *_IN, _WHY),
    "bootkeep_moves_next": (_MOVES, POINTER(c_uint32)),
    "bootkeep_moves_name": (_MOVES, *_OUT),
    "bootkeep_moves_bytes": (_MOVES, *_OUT),
    "bootkeep_moves_tell": (_MOVES, c_uint32, c_uint32),
    "bootkeep_moves_end": (_MOVES, POINTER(RawEnd)),
    "bootkeep_moves_reply": (_MOVES, c_size_t, _REPLY),
    "bootkeep_moves_close": (_MOVES,),
    "bootkeep_journal_is_idle": (*_IN, POINTER(c_uint32), _WHY),
    "bootkeep_notes_len": (*_IN, POINTER(c_size_t), _WHY),
    "bootkeep_notes_make": (*_IN, *_OUT, _WHY),
    "bootkeep_notes_identity": (*_IN, *_OUT, _WHY),
    "bootkeep_moves_notes": (_MOVES, *_IN, *_OUT, _WHY),
    "bootkeep_moves_same": (_MOVES, *_IN, c_size_t, POINTER(c_uint32), _WHY),
    "bootkeep_record_make": (*_IN, c_uint64, *_IN, *_IN, *_IN, *_OUT, _WHY),
    "bootkeep_record_parts": (*_IN, POINTER(RawRecordParts), _WHY),
    "bootkeep_record_word": (*_IN, c_size_t, *_OUT, _WHY),
    "bootkeep_record_standing": (*_IN, *_IN, POINTER(c_uint32), _WHY),
    "bootkeep_record_back": (*_IN, *_IN, *_OUT, _WHY),
    "bootkeep_store_vars": (*_IN, *_OUT, _WHY),
    "bootkeep_store_with": (*_IN, *_IN, *_OUT, _WHY),
    "bootkeep_image_check": (*_IN, POINTER(c_uint32), POINTER(c_uint32), _WHY),
    "bootkeep_image_digest": (*_IN, *_OUT, _WHY),
    "bootkeep_signature_lists": (*_IN, POINTER(RawList), *_ROOM, _WHY),
}


def _load() -> ctypes.CDLL:
    beside = Path(__file__).with_name("libbootkeep.so.1")
    named = os.environ.get("BOOTKEEP_LIBRARY") or (str(beside) if beside.exists() else beside.name)
    try:
        library = ctypes.CDLL(named)
        for name, types in _CALLS.items():
            call = getattr(library, name)
            call.argtypes = types
            call.restype = c_uint32
    except (OSError, AttributeError) as error:
        raise ImportError(
            f"{named} can't be loaded: {error}: BOOTKEEP_LIBRARY can name the library"
        ) from error
    version = library.bootkeep_version()
    if version < VERSION:
        raise ImportError(
            f"{named} has version {version}, and this module needs {VERSION}: BOOTKEEP_LIBRARY can name another library"
        )
    return library


library = _load()


def library_version() -> int:
    """The version of the interface that the library has."""
    return int(library.bootkeep_version())
